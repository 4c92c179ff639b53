//! The extension area of a packet (RFC 8972, section 4): its items and where each starts, the values of types 5 and 7, and what a reply's
//! area tells an observation.
use crate::calls;
use crate::refusal::{served, Refusal};
use crate::{Counters, Item};

/// The items of an area. `start` of an item is where its value begins; the item starts four bytes before.
pub fn area_items(bytes: &[u8]) -> Result<Vec<Item>, Refusal> {
    let mut words = vec![0; bytes.len() / 4];
    let mut count = [0];
    served(calls::area_read(bytes, &mut words, &mut count))?;
    words.truncate(count[0] as usize);
    Ok(words.into_iter().map(Item::of).collect())
}

/// The area of items whose values lie in `values`; reserved bytes are 0.
pub fn area_of(items: &[Item], values: &[u8]) -> Result<Vec<u8>, Refusal> {
    let words: Vec<u64> = items.iter().map(|item| item.word()).collect();
    let mut bytes = vec![0; items.iter().map(|item| 4 + usize::from(item.length)).sum()];
    let mut length = [0];
    served(calls::area_write(&words, values, &mut bytes, &mut length))?;
    bytes.truncate(length[0] as usize);
    Ok(bytes)
}

/// The value of a Follow-Up Telemetry item.
#[derive(Clone, Copy, Debug, PartialEq, Eq)]
pub struct FollowUpValue {
    pub sequence: u32,
    pub timestamp: u64,
    pub mode: u8,
}

/// The value of an item of type 5.
pub fn counters_of(value: &[u8]) -> Result<Counters, Refusal> {
    let mut told = [0; 3];
    served(calls::counters_read(value, &mut told))?;
    Ok(Counters { sender: told[0], received: told[1], transmitted: told[2] })
}

/// The value of an item of type 7.
pub fn follow_up_of(value: &[u8]) -> Result<FollowUpValue, Refusal> {
    let mut told = [0; 3];
    served(calls::follow_up_read(value, &mut told))?;
    Ok(FollowUpValue { sequence: told[0] as u32, timestamp: told[1], mode: told[2] as u8 })
}

/// The value of an item of type 5, at the start of the bytes.
pub fn write_counters(bytes: &mut [u8], counters: Counters) -> Result<(), Refusal> {
    served(calls::counters_write(bytes, counters.sender, counters.received, counters.transmitted))
}

/// The value of an item of type 7, at the start of the bytes.
pub fn write_follow_up(bytes: &mut [u8], value: FollowUpValue) -> Result<(), Refusal> {
    served(calls::follow_up_write(bytes, value.sequence, value.timestamp, value.mode))
}

/// What a reply's area tells an observation, over its counters and its follow-up; all else stays.
pub fn tell_area(bytes: &[u8], observation: &mut calls::Observation) -> Result<(), Refusal> {
    served(calls::area_observation(bytes, observation))
}
