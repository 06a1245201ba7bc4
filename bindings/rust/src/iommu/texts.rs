// Made by scripts/erase of crates/acpi_iommu/src/texts.rt, where it is proved.
//! Texts in fields of a fixed place.

/// How many bytes are before the first zero, or how many there are.
fn before_zero(bytes: &[u8]) -> usize {
    bytes.iter().take_while(|byte| **byte != 0).count()
}

/// The bytes before the first zero, or all.
pub(crate) fn up_to_zero(bytes: &[u8]) -> &[u8] {
    &bytes[..before_zero(bytes)]
}
