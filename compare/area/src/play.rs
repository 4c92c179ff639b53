//! The original reads an area item by item with `RawTlv::parse`; an item of type 5 or 7 goes to its `decode_value` at once, so that the first
//! bad item decides there too.
use crate::tlv::core::{RawTlv, TlvError, TlvSpan, TlvType};
use crate::tlv::traits::TypedTlv;
use crate::tlv::typed::{direct_measurement::DirectMeasurementTlv, follow_up_telemetry::FollowUpTelemetryTlv, timestamp_info::TimestampMethod};
use ambrulicciu::{area_items, area_of, calls, counters_of, follow_up_of, write_counters, write_follow_up, Counters, FollowUpValue, Item, Refusal};

pub struct Random(pub u64);

impl Random {
    pub fn next(&mut self) -> u64 {
        self.0 = self.0.wrapping_add(0x9e3779b97f4a7c15);
        let z = (self.0 ^ self.0 >> 30).wrapping_mul(0xbf58476d1ce4e5b9);
        let z = (z ^ z >> 27).wrapping_mul(0x94d049bb133111eb);
        z ^ z >> 31
    }
    pub fn below(&mut self, n: u64) -> u64 {
        self.next() % n
    }
}

/// What the original reads: each item with where it starts, or the refusal that its first error is.
pub fn original(bytes: &[u8]) -> Result<Vec<(usize, RawTlv)>, Refusal> {
    let (mut at, mut read) = (0, Vec::new());
    while at < bytes.len() {
        let (item, taken) = RawTlv::parse(&bytes[at..]).map_err(|error| match error {
            TlvError::BufferTooSmall(_) | TlvError::LengthExceedsBuffer { .. } => Refusal::PassesEnd,
            other => panic!("{other:?}"),
        })?;
        let wrong = |error| match error {
            TlvError::InvalidLength { .. } => Refusal::WrongLength,
            other => panic!("{other:?}"),
        };
        match item.tlv_type {
            TlvType::DirectMeasurement => drop(DirectMeasurementTlv::decode_value(&item.value).map_err(wrong)?),
            TlvType::FollowUpTelemetry => drop(FollowUpTelemetryTlv::decode_value(&item.value).map_err(wrong)?),
            _ => {}
        }
        read.push((at, item));
        at += taken;
    }
    Ok(read)
}

/// Its telemetry's rule: U skips, M stops the remainder, I blocks all; the first usable item of a type.
pub fn telemetry(read: &[(usize, RawTlv)]) -> (Option<DirectMeasurementTlv>, Option<FollowUpTelemetryTlv>) {
    let (mut direct, mut follow) = (None, None);
    if read.iter().any(|(_, item)| item.is_integrity_failed()) {
        return (None, None);
    }
    for (_, item) in read {
        if item.is_malformed() {
            break;
        }
        if item.is_unrecognized() {
            continue;
        }
        match item.tlv_type {
            TlvType::DirectMeasurement if direct.is_none() => direct = DirectMeasurementTlv::decode_value(&item.value).ok(),
            TlvType::FollowUpTelemetry if follow.is_none() => follow = FollowUpTelemetryTlv::decode_value(&item.value).ok(),
            _ => {}
        }
    }
    (direct, follow)
}

fn told(bytes: &[u8], before: calls::Observation) -> Result<calls::Observation, Refusal> {
    let mut after = before;
    match ambrulicciu::tell_area(bytes, &mut after) {
        Ok(()) => Ok(after),
        Err(refusal) => {
            assert_eq!(before, after, "a refusal changed the observation of {bytes:02x?}");
            Err(refusal)
        }
    }
}

/// One string of bytes, by both.
pub fn compare(bytes: &[u8], random: &mut Random) {
    let theirs = original(bytes);
    let ours = area_items(bytes);
    assert_eq!(theirs.as_ref().map(|_| ()).map_err(|e| *e), ours.as_ref().map(|_| ()).map_err(|e| *e), "{bytes:02x?}");
    let mut before = calls::Observation { t3: random.next(), t4: random.next() as i64, reference: 5, offset: -3, sender_estimate: 77, ..Default::default() };
    before.flags = random.next() as u32;
    before.s_txc = 1;
    before.follow_up_timestamp = 9;
    let after = told(bytes, before);
    let (Ok(theirs), Ok(ours)) = (theirs, ours) else {
        assert_eq!(after.is_err(), true);
        // a room for the items is left alone too
        let (mut room, mut count) = ([7; 4], [7]);
        assert_ne!(calls::area_read(bytes, &mut room, &mut count), 0);
        assert_eq!((room, count), ([7; 4], [7]));
        return;
    };
    assert_eq!(theirs.len(), ours.len());
    for ((start, item), word) in theirs.iter().zip(&ours) {
        assert_eq!(*start + 4, word.start as usize);
        assert_eq!(item.tlv_type.to_byte(), word.kind);
        assert_eq!(item.flags.to_byte(), word.flags & 0xf0, "the original drops the low four bits");
        assert_eq!(bytes[*start], word.flags, "the flag byte whole");
        assert_eq!(item.value.len(), word.length as usize);
        let span = TlvSpan::at(bytes, *start).unwrap();
        assert_eq!(span.value(), word.start as usize..word.start as usize + word.length as usize);
        let value = &bytes[span.value()];
        if word.kind == 5 {
            let d = DirectMeasurementTlv::decode_value(value).unwrap();
            let c = counters_of(value).unwrap();
            assert_eq!((d.sender_tx_count, d.reflector_rx_count, d.reflector_tx_count), (c.sender, c.received, c.transmitted));
            let mut out = Vec::new();
            d.encode_value(&mut out);
            let mut written = [9; 13];
            write_counters(&mut written, c).unwrap();
            assert_eq!((&written[..12], written[12]), (&out[..], 9));
        }
        if word.kind == 7 {
            let d = FollowUpTelemetryTlv::decode_value(value).unwrap();
            let f = follow_up_of(value).unwrap();
            assert_eq!((d.sequence_number, d.follow_up_timestamp, d.timestamp_mode.to_byte()), (f.sequence, f.timestamp, f.mode));
            let mut out = Vec::new();
            d.encode_value(&mut out);
            let mut written = [9; 17];
            write_follow_up(&mut written, f).unwrap();
            assert_eq!((&written[..16], written[16]), (&out[..], 9));
        }
    }
    // what the observation is told
    let (direct, follow) = telemetry(&theirs);
    let mut expected = before;
    expected.flags &= !(calls::COUNTERS | calls::FOLLOW_UP | calls::UNKNOWN_MODE);
    (expected.s_txc, expected.r_rxc, expected.r_txc, expected.follow_up_sequence, expected.follow_up_timestamp) = (0, 0, 0, 0, 0);
    if let Some(d) = direct {
        expected.flags |= calls::COUNTERS;
        (expected.s_txc, expected.r_rxc, expected.r_txc) = (d.sender_tx_count, d.reflector_rx_count, d.reflector_tx_count);
    }
    if let Some(f) = follow {
        expected.flags |= calls::FOLLOW_UP | if matches!(f.timestamp_mode, TimestampMethod::Unknown(_)) { calls::UNKNOWN_MODE } else { 0 };
        (expected.follow_up_sequence, expected.follow_up_timestamp) = (f.sequence_number, f.follow_up_timestamp);
    }
    assert_eq!(after, Ok(expected), "{bytes:02x?}");
    // written again: all bytes but the reserved ones
    let again = area_of(&ours, bytes).unwrap();
    let mut wanted = bytes.to_vec();
    for item in ours.iter().filter(|item| item.kind == 7) {
        wanted[item.start as usize + 13..item.start as usize + 16].fill(0);
    }
    assert_eq!(again, wanted);
    // and by the original, whose flags lose their low four bits
    let mut row = Vec::new();
    for (_, item) in &theirs {
        item.write_to(&mut row);
    }
    let mut plain = bytes.to_vec();
    for item in &ours {
        plain[item.start as usize - 4] &= 0xf0;
    }
    assert_eq!(row, plain);
    // a room that is a byte short, or a value past its end
    if !again.is_empty() {
        let words: Vec<u64> = ours.iter().map(|item| item.word()).collect();
        let (mut short, mut length) = (vec![3; again.len() - 1], [3]);
        assert_eq!(calls::area_write(&words, bytes, &mut short, &mut length), 12);
        assert!(short.iter().all(|b| *b == 3) && length == [3]);
        let last = ours.last().unwrap();
        let end = last.start as usize + last.length as usize;
        assert_eq!(calls::area_write(&words, &bytes[..end - 1], &mut short, &mut length), 10);
    }
}

/// An area of whole items of any type, some with another length.
pub fn an_area(random: &mut Random) -> Vec<u8> {
    let mut bytes = Vec::new();
    while random.below(6) != 0 {
        let kind = if random.below(3) == 0 { random.next() as u8 } else { [5, 7, 1, 8, 240][random.below(5) as usize] };
        let length = match kind {
            5 => 12,
            7 => 16,
            _ => random.below(30) as u16,
        };
        let length = if random.below(20) == 0 { random.below(40) as u16 } else { length };
        let flags = [0, 0, 0, 0x80, 0x40, 0x20, 0x10, random.next() as u8][random.below(8) as usize];
        bytes.extend([flags, kind]);
        bytes.extend(length.to_be_bytes());
        bytes.extend((0..length).map(|_| random.next() as u8));
    }
    bytes
}

pub fn run(rounds: u64, seed: u64) {
    let mut random = Random(seed);
    let mut strings = 0u64;
    // every type and every length up to 20, at every cut
    for kind in 0..=255u8 {
        for length in 0..=20u16 {
            let mut bytes = vec![random.next() as u8 & 0x9f, kind];
            bytes.extend(length.to_be_bytes());
            bytes.extend((0..length).map(|_| random.next() as u8));
            for cut in 0..=bytes.len() {
                compare(&bytes[..cut], &mut random);
                strings += 1;
            }
        }
    }
    // every length of a header before and behind what is there
    for length in 0..=65535u16 {
        for kind in [5, 7, 1] {
            let mut bytes = vec![0, kind];
            bytes.extend(length.to_be_bytes());
            bytes.extend([1; 20]);
            compare(&bytes, &mut random);
            strings += 1;
        }
    }
    for _ in 0..rounds {
        for _ in 0..50 {
            let bytes = an_area(&mut random);
            for cut in 0..=bytes.len() {
                compare(&bytes[..cut], &mut random);
            }
            strings += bytes.len() as u64 + 1;
            let mut torn = bytes;
            for _ in 0..8 {
                if torn.is_empty() {
                    break;
                }
                let at = random.below(torn.len() as u64) as usize;
                torn[at] = random.next() as u8;
                compare(&torn, &mut random);
                strings += 1;
            }
        }
    }
    // writers of words that are no reading: each number
    for _ in 0..rounds * 200 {
        let values: Vec<u8> = (0..random.below(40)).map(|_| random.next() as u8).collect();
        let items: Vec<Item> = (0..random.below(5))
            .map(|_| {
                let kind = [5, 7, 1][random.below(3) as usize];
                let length = if random.below(6) == 0 { random.below(20) as u16 } else { [12, 16, 3][[5u8, 7, 1].iter().position(|k| *k == kind).unwrap()] };
                Item { flags: random.next() as u8, kind, length, start: random.below(values.len() as u64 + 2) as u32 }
            })
            .collect();
        let bad = items.iter().find_map(|i| match i {
            i if i.start as usize + i.length as usize > values.len() => Some(Refusal::PassesEnd),
            i if i.kind == 5 && i.length != 12 || i.kind == 7 && i.length != 16 => Some(Refusal::WrongLength),
            _ => None,
        });
        match (bad, area_of(&items, &values)) {
            (Some(refusal), answer) => assert_eq!(answer, Err(refusal)),
            (None, answer) => {
                let read = area_items(&answer.as_ref().unwrap()).unwrap();
                assert_eq!(read.len(), items.len());
                for (a, b) in read.iter().zip(&items) {
                    assert_eq!((a.flags, a.kind, a.length), (b.flags, b.kind, b.length));
                }
            }
        }
        strings += 1;
    }
    let _ = (Counters { sender: 0, received: 0, transmitted: 0 }, FollowUpValue { sequence: 0, timestamp: 0, mode: 0 });
    println!("area: {strings} strings of bytes and lists of items: items, refusals, values, observations and what is written are equal");
}
