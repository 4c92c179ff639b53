//! What the original has not (document 02, Q-3), worked out beside it: the train of each sequence, from the script, and how many probes were
//! evicted unanswered, from the original's own held probes before and after each call.
use crate::sender::measurements::{HeldProbe, Ledger};
use std::collections::HashMap;

#[derive(Default)]
pub struct Trains {
    told: HashMap<u32, u32>,
    pub unanswered: u64,
}

/// The probe that would go next.
pub fn oldest(ledger: &Ledger) -> Option<HeldProbe> {
    ledger.probes().next()
}

impl Trains {
    /// A probe was remembered: by `sent`, or by an accept, which knows no train.
    pub fn remembered(&mut self, sequence: u32, train: u32) {
        self.told.insert(sequence, train);
    }
    pub fn of(&self, sequence: u32) -> u32 {
        self.told.get(&sequence).copied().unwrap_or(0)
    }
    /// After a call: whether the probe that was the oldest before it has gone, and whether it had a reply.
    pub fn gone(&mut self, oldest: Option<HeldProbe>, ledger: &Ledger) -> Option<bool> {
        let (sequence, _, _, _, answered, _) = oldest?;
        let gone = !ledger.holds(sequence);
        self.unanswered += u64::from(gone && !answered);
        gone.then_some(answered)
    }
}
