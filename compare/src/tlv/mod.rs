//! The place of src/tlv: the two typed values that the measurements take, unchanged, and what they lean on.
pub mod typed {
    pub use super::timestamp_info;
}
#[path = "../../target/texts/direct_measurement.rs"]
mod direct_measurement;
#[path = "../../target/texts/follow_up_telemetry.rs"]
mod follow_up_telemetry;

pub use direct_measurement::DirectMeasurementTlv;
pub use follow_up_telemetry::FollowUpTelemetryTlv;
pub use timestamp_info::TimestampMethod;

pub struct TlvList;

/// Stands in for src/tlv/core.rs: the names that the two typed values use.
pub mod core {
    pub const DIRECT_MEASUREMENT_TLV_VALUE_SIZE: usize = 12;
    pub const FOLLOW_UP_TELEMETRY_TLV_VALUE_SIZE: usize = 16;

    pub enum TlvType {
        DirectMeasurement,
        FollowUpTelemetry,
    }
    pub enum TlvError {
        InvalidLength { kind: TlvType, length: usize },
    }
}

/// Stands in for src/tlv/traits.rs.
pub mod traits {
    use super::core::{TlvError, TlvType};

    pub trait TypedTlv: Sized {
        const TYPE: TlvType;
        fn decode_value(value: &[u8]) -> Result<Self, TlvError>;
        fn encode_value(&self, out: &mut Vec<u8>);
    }
}

/// Stands in for src/tlv/typed/timestamp_info.rs: the measurements ask only whether a mode is unknown.
pub mod timestamp_info {
    #[derive(Debug, Clone, Copy, PartialEq, Eq)]
    pub enum TimestampMethod {
        HardwareAssist,
        Unknown(u8),
    }
    impl TimestampMethod {
        pub fn from_byte(byte: u8) -> Self {
            if byte == 1 {
                Self::HardwareAssist
            } else {
                Self::Unknown(byte)
            }
        }
        pub fn to_byte(self) -> u8 {
            match self {
                Self::HardwareAssist => 1,
                Self::Unknown(byte) => byte,
            }
        }
    }
}
