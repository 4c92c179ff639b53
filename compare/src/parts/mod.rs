//! The parts of the port that have calls of their own.
mod delays;
pub mod ledger;
pub mod logs;
mod monitor;
mod numbers;
mod quantiles;
mod trains;

use crate::part::Part;

pub const ALL: &[Part] = &[
    numbers::PART,
    delays::PART,
    quantiles::PART,
    #[cfg(feature = "host")]
    numbers::hosted::HOSTED,
    #[cfg(feature = "host")]
    ledger::hosted::HOSTED,
    #[cfg(feature = "host")]
    monitor::hosted::HOSTED,
    #[cfg(feature = "host")]
    quantiles::hosted::HOSTED,
];

/// Document 01: a count at this or beyond is refused.
pub const COUNT_BOUND: u64 = 1 << 63;
/// Document 01: a sum of this magnitude or beyond is refused.
pub const SUM_BOUND: u128 = 1 << 126;

/// Document 01's refusal numbers.
pub const WRONG_ROOM: u64 = 5;
pub const OUT_OF_RANGE: u64 = 1;
pub const DEADLINE_PASSES: u64 = 6;
pub const COUNTS_FULL: u64 = 4;
pub const NOT_AWAITING: u64 = 2;
pub const QUEUE_FULL: u64 = 3;

/// How many probes, keys, offsets, queued probes and samples are held.
pub const CAPACITY: usize = 4096;
