//! The place of src/tlv: core.rs and the two typed values, unchanged, and stand-ins for what has no body in the text given.
#[path = "../target/texts/core.rs"]
pub mod core;
#[path = "../target/texts/direct_measurement.rs"]
pub mod direct_measurement;
#[path = "../target/texts/follow_up_telemetry.rs"]
pub mod follow_up_telemetry;

pub mod typed {
    pub use super::{direct_measurement, follow_up_telemetry};

    /// Stands in for src/tlv/typed/timestamp_info.rs: the methods of RFC 8972.
    pub mod timestamp_info {
        #[derive(Debug, Clone, Copy, PartialEq, Eq)]
        pub enum TimestampMethod {
            HwAssist,
            SwLocal,
            ControlPlane,
            Unknown(u8),
        }
        impl TimestampMethod {
            pub fn from_byte(byte: u8) -> Self {
                match byte {
                    1 => Self::HwAssist,
                    2 => Self::SwLocal,
                    3 => Self::ControlPlane,
                    n => Self::Unknown(n),
                }
            }
            pub fn to_byte(self) -> u8 {
                match self {
                    Self::HwAssist => 1,
                    Self::SwLocal => 2,
                    Self::ControlPlane => 3,
                    Self::Unknown(n) => n,
                }
            }
        }
    }
}

#[path = "../../common/experimental.rs"]
pub mod experimental;

/// Stands in for src/tlv/traits.rs.
pub mod traits {
    use super::core::{TlvError, TlvType};

    pub trait TypedTlv: Sized {
        const TYPE: TlvType;
        fn decode_value(value: &[u8]) -> Result<Self, TlvError>;
        fn encode_value(&self, out: &mut Vec<u8>);
    }
}
