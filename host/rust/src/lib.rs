//! The measurement core of a STAMP sender (RFC 8762, RFC 8972) for hosts in Rust: safe types over the calls of `ambrulicciu.h`.
//!
//! A [`Link`] owns its state and its rooms and has a method for each event; [`Quantiles`], [`ClockQuality`], [`Estimate`] and [`Log`] stand
//! on their own. What a call refuses comes back as a [`Refusal`], and then nothing was changed. Foreign code is called in one module,
//! [`calls`], whose functions are safe: the library is proved to touch no memory but what it is lent, whatever that holds.
#![deny(unsafe_code)]

mod area;
mod bits;
#[allow(unsafe_code)]
pub mod calls;
mod estimate;
mod link;
mod log;
mod observation;
mod quality;
mod quantiles;
mod refusal;
mod shown;
mod spread;

pub use area::{area_items, area_of, counters_of, follow_up_of, tell_area, write_counters, write_follow_up, FollowUpValue};
pub use bits::{bit_errors, bit_observation, pattern_of, BitErrors, BitObservation, BitSummary, Item};
pub use estimate::{Estimate, Invalid, Parts};
pub use link::{recount_of_log, report_of_log, Accepted, Key, Link, Packet, Rooms, Session, State, Watch};
pub use log::{Cut, Log, Settings};
pub use observation::{Counters, FollowUp, Format, Observation};
pub use quality::ClockQuality;
pub use quantiles::{Quantiles, Value};
pub use refusal::{served, Refusal};
pub use shown::{Delays, Direct, Figures, FollowUps, LastEstimate, Maybe, Point, Quality};
pub use spread::{Directions, Spread};

/// Rows of each room of a link, and of the monitor's queue.
pub const ROWS: usize = 4096;

/// Most replies of a burst.
pub const ENTRIES: usize = 256;

/// Most records of a log, and numbers of each room of the second count.
pub const RECORDS: usize = 682;

/// The library's version: 1,000,000 times the first part, 1,000 times the second, and the third.
pub fn version() -> u32 {
    let mut version = [0];
    calls::version(&mut version);
    version[0]
}
