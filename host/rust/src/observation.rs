//! What a unique reply brought.
use crate::{calls, link::Key};

/// The format of a clock's timestamps.
#[derive(Clone, Copy, Debug, PartialEq, Eq)]
pub enum Format {
    Ntp,
    Ptp,
}

/// The counters of the Direct Measurement TLV: S_TxC, R_RxC, R_TxC.
#[derive(Clone, Copy, Debug, PartialEq, Eq)]
pub struct Counters {
    pub sender: u32,
    pub received: u32,
    pub transmitted: u32,
}

/// The Follow-Up Telemetry TLV, its timestamp as it came: `observe` converts it.
#[derive(Clone, Copy, Debug, PartialEq, Eq)]
pub struct FollowUp {
    pub sequence: u32,
    pub timestamp: u64,
    pub unknown_mode: bool,
}

/// What one observe is told.
#[derive(Clone, Copy, Debug, PartialEq, Eq)]
pub struct Observation {
    pub key: Key,
    pub round_trip: u64,
    pub t4: Option<i64>,
    pub format: Format,
    pub reference: i64,
    pub offset: i32,
    pub ordinal: Option<u32>,
    pub counters: Option<Counters>,
    pub follow_up: Option<FollowUp>,
    /// The sender's and the reflector's, as on the wire.
    pub estimates: Option<(u16, u16)>,
}

impl Observation {
    /// A reply that brought nothing but its round trip.
    pub fn of(key: Key, round_trip: u64) -> Observation {
        Observation {
            key,
            round_trip,
            t4: None,
            format: Format::Ntp,
            reference: 0,
            offset: 0,
            ordinal: None,
            counters: None,
            follow_up: None,
            estimates: None,
        }
    }

    /// The same as the library takes it.
    pub fn told(&self) -> calls::Observation {
        let mut told = calls::Observation {
            t3: self.key.t3,
            round_trip: self.round_trip,
            reference: self.reference,
            sender: self.key.sender,
            reflector: self.key.reflector,
            offset: self.offset,
            flags: if self.format == Format::Ptp { calls::PTP } else { 0 },
            ..calls::Observation::default()
        };
        if let Some(t4) = self.t4 {
            told.t4 = t4;
            told.flags |= calls::T4;
        }
        if let Some(ordinal) = self.ordinal {
            told.ordinal = ordinal;
            told.flags |= calls::ORDINAL;
        }
        if let Some(counters) = self.counters {
            told.s_txc = counters.sender;
            told.r_rxc = counters.received;
            told.r_txc = counters.transmitted;
            told.flags |= calls::COUNTERS;
        }
        if let Some(estimates) = self.estimates {
            (told.sender_estimate, told.reflector_estimate) = estimates;
            told.flags |= calls::ESTIMATES;
        }
        if let Some(follow_up) = self.follow_up {
            follow_up.tell(&mut told);
        }
        told
    }
}

impl FollowUp {
    fn tell(&self, told: &mut calls::Observation) {
        told.follow_up_sequence = self.sequence;
        told.follow_up_timestamp = self.timestamp;
        told.flags |= calls::FOLLOW_UP;
        if self.unknown_mode {
            told.flags |= calls::UNKNOWN_MODE;
        }
    }
}
