//! The place of src/time.rs: its text, unchanged, and the one difference that is entered (docs/DIFFERENCES.md).
#[path = "../../target/texts/time.rs"]
mod original;

use crate::configuration::ClockFormat;

/// Document 01's range of T3.
const LIMIT: u128 = 4_000_000_000_000_000_000;

/// How measurements.rs calls it: within T3's range, and as it is.
pub fn converted(timestamp: u64, ptp: bool, reference: i64, offset: i32) -> [Option<i128>; 2] {
    let format = if ptp {
        ClockFormat::PTP
    } else {
        ClockFormat::NTP
    };
    let reference = reference + i64::from(offset);
    [timestamp_to_unix_nanos, original::timestamp_to_unix_nanos]
        .map(|f| f(timestamp, format, reference))
}

/// Document 02, Q-9: "A result outside document 01's T3 range is unavailable." The original has no such range.
pub fn timestamp_to_unix_nanos(value: u64, format: ClockFormat, reference: i64) -> Option<i128> {
    original::timestamp_to_unix_nanos(value, format, reference)
        .filter(|time| time.unsigned_abs() <= LIMIT)
}
