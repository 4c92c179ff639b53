//! The place of src/sender.rs: two of its modules, unchanged, and what they lean on.
#[path = "../../target/texts/measurements.rs"]
pub mod measurements;
#[path = "../../target/texts/session_state.rs"]
pub mod session_state;

use std::time::Instant;

include!("../../target/texts/pending_packet.rs");

impl PendingPacket {
    pub fn new(send_time: Instant, send_timestamp: u64) -> Self {
        Self {
            send_time,
            send_timestamp,
        }
    }
    pub fn parts(&self) -> (Instant, u64) {
        (self.send_time, self.send_timestamp)
    }
}

/// Stands in for src/sender/telemetry.rs: TLV validation counts are no part of the port.
pub mod telemetry {
    use crate::tlv::TlvList;

    pub struct TlvTelemetry;

    #[derive(Clone, Debug, Default)]
    pub struct TlvValidationSummary;

    impl TlvValidationSummary {
        pub fn record(&mut self, _: &TlvList, _: &TlvTelemetry, _: bool) {}
    }
}
pub use telemetry::TlvTelemetry;
