//! What the calls show, word for word as in `ambrulicciu.h`.

/// A value that may be absent: then its word is 0.
#[repr(C)]
#[derive(Clone, Copy, Debug, Default, PartialEq)]
pub struct Maybe<T> {
    known: u64,
    value: T,
}

impl<T: Copy> Maybe<T> {
    /// A value that is there.
    pub const fn of(value: T) -> Maybe<T> {
        Maybe { known: 1, value }
    }

    pub fn get(&self) -> Option<T> {
        (self.known != 0).then_some(self.value)
    }
}

/// A series of delays, in ms.
#[repr(C)]
#[derive(Clone, Copy, Debug, Default, PartialEq)]
pub struct Delays {
    pub samples: u64,
    pub minimum: Maybe<f64>,
    pub average: Maybe<f64>,
    pub maximum: Maybe<f64>,
}

/// The three counters of one packet: S_TxC, R_RxC, R_TxC.
pub type Point = [u64; 3];

/// Direct loss, since the anchor.
#[repr(C)]
#[derive(Clone, Copy, Debug, Default, PartialEq)]
pub struct Direct {
    pub observations: u64,
    pub unavailable: u64,
    pub discontinuities: u64,
    pub reordered: u64,
    pub exceeded: u64,
    pub anchor: Maybe<Point>,
    pub latest: Maybe<Point>,
    pub sent: Maybe<u64>,
    pub received: Maybe<u64>,
    pub forward_missing: Maybe<u64>,
    pub transmitted: Maybe<u64>,
    pub replies: Maybe<u64>,
    pub reverse_missing: Maybe<u64>,
}

/// The last error estimate of one end.
#[repr(C)]
#[derive(Clone, Copy, Debug, Default, PartialEq)]
pub struct LastEstimate {
    pub synchronized: u64,
    pub ptp: u64,
    pub scale: u64,
    pub multiplier: u64,
    /// In ms. None at multiplier 0.
    pub error: Maybe<f64>,
    /// Of an invalid estimate the 16 bits as received.
    pub received: u64,
}

/// Declared clock quality.
#[repr(C)]
#[derive(Clone, Copy, Debug, Default, PartialEq)]
pub struct Quality {
    pub samples: u64,
    pub both: u64,
    pub unsynchronized: u64,
    pub invalid: u64,
    pub unknown: u64,
    /// Of the invalid ones those at the sender alone, at the reflector alone, at both.
    pub invalid_sender: u64,
    pub invalid_reflector: u64,
    pub invalid_both: u64,
    pub sender: Maybe<LastEstimate>,
    pub reflector: Maybe<LastEstimate>,
    /// The largest sum of both ends' errors, in ms.
    pub largest: Maybe<f64>,
}

/// Follow-ups.
#[repr(C)]
#[derive(Clone, Copy, Debug, Default, PartialEq)]
pub struct FollowUps {
    pub observations: u64,
    pub matched: u64,
    pub repeated: u64,
    pub unmatched: u64,
    pub ambiguous: u64,
    pub unavailable: u64,
    pub delay: Delays,
    pub quality: Quality,
}

/// Every figure of a link.
#[repr(C)]
#[derive(Clone, Copy, Debug, Default, PartialEq)]
pub struct Figures {
    pub requested: u64,
    pub unique: u64,
    pub duplicate: u64,
    pub unknown: u64,
    pub answered: u64,
    pub additional: u64,
    pub late: u64,
    pub satisfied: u64,
    pub last: Maybe<u64>,
    pub highest: Maybe<u64>,
    pub reordered: u64,
    pub independent: u64,
    pub probes_evicted: u64,
    pub replies_evicted: u64,
    pub unobserved: u64,
    /// None when nothing was requested: a silent link has no figure, which is not a loss of 0.
    pub thousandths: Maybe<u64>,
    pub round_trip: Delays,
    pub direct: Direct,
    pub follow_up: FollowUps,
    /// Of the evicted probes, those that had no reply.
    pub evicted_unanswered: u64,
}

const _: () = assert!(std::mem::size_of::<Figures>() == 91 * 8);
const _: () = assert!(std::mem::size_of::<Quality>() == 26 * 8);
