//! The place of src/tlv: core.rs and the two typed values, unchanged, and stand-ins for what has no body in the text given.
#[path = "../target/texts/ber_burst.rs"]
mod ber_burst;
#[path = "../target/texts/ber_count.rs"]
mod ber_count;
#[path = "../target/texts/core.rs"]
pub mod core;

pub use ber_burst::BerBurstTlv;
pub use ber_count::BerCountTlv;
pub use core::{RawTlv, TlvFlags, TlvType};
pub use traits::TypedTlv;

#[path = "../../common/experimental.rs"]
pub mod experimental;

/// Stands in for src/tlv/traits.rs.
pub mod traits {
    use super::core::{RawTlv, TlvError, TlvType};

    pub trait TypedTlv: Sized {
        const TYPE: TlvType;
        fn decode_value(value: &[u8]) -> Result<Self, TlvError>;
        fn encode_value(&self, out: &mut Vec<u8>);
        fn from_raw(raw: &RawTlv) -> Result<Self, TlvError> {
            if raw.tlv_type != Self::TYPE {
                return Err(TlvError::TypeMismatch { expected: Self::TYPE, actual: raw.tlv_type });
            }
            Self::decode_value(&raw.value)
        }
    }
}

/// Stands in for src/tlv/list.rs: the items in the packet's order.
pub struct TlvList(pub Vec<RawTlv>);

impl TlvList {
    pub fn iter(&self) -> impl Iterator<Item = &RawTlv> {
        self.0.iter()
    }
    pub fn non_hmac_tlvs(&self) -> impl Iterator<Item = &RawTlv> {
        self.0.iter().filter(|t| !t.tlv_type.is_hmac())
    }
}
