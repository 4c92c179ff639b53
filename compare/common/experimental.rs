//! Stands in for src/tlv/experimental.rs.
pub const BER_PATTERN_TLV_TYPE: u8 = 240;
pub const BER_COUNT_TLV_TYPE: u8 = 241;
pub const BER_MAX_BURST_TLV_TYPE: u8 = 242;
pub const REFLECTED_IPV6_EXT_HDR_TLV_TYPE: u8 = 246;
pub const REFLECTED_FIXED_HDR_TLV_TYPE: u8 = 247;
pub const REFLECTED_CONTROL_SUBTLV_IPV6_EXT_HDR_CONTROL: u8 = 1;
