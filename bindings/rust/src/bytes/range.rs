// Made by scripts/erase of crates/acpi_bytes/src/range.rt, where it is proved.
//! Ranges of physical memory.

/// A range of physical addresses: where it begins, and how many bytes it has.
#[derive(Clone, Copy, Debug, PartialEq, Eq)]
pub struct AddressRange {
    /// The physical address of the range's first byte.
    pub address: u64,
    /// How many bytes the range has.
    pub length: u64,
}

impl AddressRange {
    /// The range of this many bytes from an address on.
    pub fn new(address: u64, length: u64) -> Self {
        AddressRange { address, length }
    }

    /// Whether the range ends below 2^64: its address and its length add up to at most 2^64 - 1.
    pub fn fits(&self) -> bool {
        self.length <= u64::MAX - self.address
    }

    /// Whether an address is in the range: at its first or above, and below address + length as a whole number.
    pub fn holds(&self, address: u64) -> bool {
        self.address <= address && address - self.address < self.length
    }
}
