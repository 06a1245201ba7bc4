//! The sum of many bytes modulo 256. In the proved source vectors are named, which stable Rust hasn't: of this loop
//! rustc makes vectors by itself.

/// As many bytes as a vector has.
pub(super) const LANES: usize = 16;

/// The sum of the bytes of at least one vector modulo 256.
#[inline(always)]
pub(super) fn lane_sum(bytes: &[u8]) -> u8 {
    bytes.iter().fold(0, |total: u8, byte| total.wrapping_add(*byte))
}
