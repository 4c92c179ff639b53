//! The place of src/stats.rs: two of its modules, unchanged.
#[path = "../../target/texts/clock_quality.rs"]
pub mod clock_quality;
#[path = "../../target/texts/quantiles.rs"]
pub mod quantiles;

pub use clock_quality::ClockQuality;
