//! The log of a link: a record for each call, which the program linkreport reads.
use crate::{
    calls,
    link::{Key, Packet},
    observation::Observation,
    refusal::{served, Refusal},
};

const RECORD: usize = 96;
const TRAILER: usize = 24;

/// How the link of a log is made. A threshold of 0 means that it has no monitor.
#[derive(Clone, Copy, Debug, PartialEq, Eq)]
pub struct Settings {
    pub copies: u16,
    pub threshold: u16,
    pub timeout: u64,
}

/// What was kept of a log that was cut short: how many records, the byte behind the last of them, and how many bytes were dropped.
#[derive(Clone, Copy, Debug, PartialEq, Eq)]
pub struct Cut {
    pub kept: u64,
    pub stop: u64,
    pub dropped: u64,
}

/// A log that is being written.
#[derive(Clone, Debug)]
pub struct Log {
    bytes: Vec<u8>,
    settings: Settings,
}

impl Log {
    /// The most records that a log has.
    pub const MOST: u32 = 682;

    pub fn new(settings: Settings) -> Log {
        Log { bytes: Vec::new(), settings }
    }

    pub fn records(&self) -> u32 {
        (self.bytes.len() / RECORD) as u32
    }

    fn add(&mut self, write: impl FnOnce(&mut [u8]) -> u8) {
        let mut record = [0; RECORD];
        served(write(&mut record)).expect("a record has 96 bytes");
        self.bytes.extend_from_slice(&record);
    }

    pub fn sent(&mut self, sequence: u32, ordinal: u32, train: u32, packet: Packet) {
        self.add(|record| calls::log_write_sent(record, sequence, ordinal, train, packet.time, packet.tag));
    }

    pub fn accept(&mut self, key: Key, pending: Option<Packet>) {
        let Packet { time, tag } = pending.unwrap_or_default();
        self.add(|record| calls::log_write_accept(record, key.sender, key.reflector, key.t3, pending.is_some().into(), time, tag));
    }

    pub fn observe(&mut self, observation: &Observation) {
        self.add(|record| calls::log_write_observe(record, &observation.told()));
    }

    pub fn advance(&mut self, now: u64) {
        self.add(|record| calls::log_write_advance(record, now));
    }

    pub fn idle(&mut self) {
        self.add(calls::log_write_idle);
    }

    /// The whole log, with its trailer. Refused with `TooLong` for more than [`Log::MOST`] records.
    pub fn bytes(&self) -> Result<Vec<u8>, Refusal> {
        let Settings { copies, threshold, timeout } = self.settings;
        let mut trailer = [0; TRAILER];
        served(calls::log_write_trailer(&mut trailer, self.records(), copies, threshold, timeout))?;
        Ok([&self.bytes[..], &trailer].concat())
    }

    /// Record `at` of a log, from 0.
    pub fn read(bytes: &[u8], at: u32) -> Result<calls::Call, Refusal> {
        let mut call = calls::Call::default();
        served(calls::log_read(bytes, at, &mut call))?;
        Ok(call)
    }

    /// Whether bytes are a log: its settings and how many records it has.
    pub fn check(bytes: &[u8]) -> Result<(Settings, u64), Refusal> {
        let mut answer = [0; 4];
        served(calls::log_check(bytes, &mut answer))?;
        let [count, copies, threshold, timeout] = answer;
        Ok((Settings { copies: copies as u16, threshold: threshold as u16, timeout }, count))
    }

    /// A log of what is left of one that was cut short, with these settings. A whole log is given back as it is. Refused with `TooLong` only.
    pub fn trim(bytes: &[u8], settings: Settings) -> Result<(Vec<u8>, Cut), Refusal> {
        let Settings { copies, threshold, timeout } = settings;
        let (mut log, mut answer) = (vec![0; bytes.len() + TRAILER], [0; 3]);
        served(calls::log_trim(bytes, copies, threshold, timeout, &mut log, &mut answer))?;
        let [kept, stop, dropped] = answer;
        log.truncate(stop as usize + TRAILER);
        Ok((log, Cut { kept, stop, dropped }))
    }
}
