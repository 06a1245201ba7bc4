// Made by scripts/erase of crates/acpi_base/src/memory/mapping.rt, where it is proved.
//! Records in mapped memory.

use crate::base::error::AcpiResult;
use crate::base::memory::claim::Claim;
use crate::base::memory::handler::{Lender, PhysicalRecord};
use core::ops::Deref;

/// A record in mapped memory: its bytes, and the value that they mean. The bytes stay mapped until the mapping is
/// dropped, which calls the handler's notice, `unmap_physical_region`.
pub struct PhysicalMapping<'h, H: Lender, T: PhysicalRecord> {
    claim: Claim<'h, H>,
    value: T,
}

impl<'h, H: Lender, T: PhysicalRecord> PhysicalMapping<'h, H, T> {
    /// The mapping of the first `region_length` of these bytes, at least `T::MIN_LENGTH` and at most all, which are
    /// from the physical address `physical_start` on. It reads the record from them. The bytes may come from
    /// anywhere; when the mapping is dropped, the handler gets the notice.
    ///
    /// # Panics
    ///
    /// Panics if `region_length` is above the number of bytes, and may, as `T::read`, if it is below
    /// `T::MIN_LENGTH`.
    pub fn new(physical_start: u64, bytes: &'h [u8], region_length: usize, handler: &'h H) -> Self {
        PhysicalMapping::of_claim(Claim::new(physical_start, bytes, region_length, handler))
    }

    /// The mapping of the bytes that a claim shows.
    pub(crate) fn of_claim(claim: Claim<'h, H>) -> Self {
        let value = T::read(claim.shown());
        PhysicalMapping { claim, value }
    }

    /// The mapping of the `size` bytes, at least one and at least `T::MIN_LENGTH`, at a physical address, as the
    /// handler maps them.
    ///
    /// Fails with `MapFailed` if they aren't all inside one region.
    ///
    /// # Panics
    ///
    /// May panic, as `T::read`, if `size` is below `T::MIN_LENGTH`.
    pub fn map(handler: &'h H, address: u64, size: usize) -> AcpiResult<Self> {
        let claim = Claim::request(handler, address, size)?;
        return Ok(PhysicalMapping::of_claim(claim));
    }

    /// The physical address of the record's first byte.
    pub fn physical_start(&self) -> u64 {
        self.claim.start()
    }

    /// How many bytes the record has: as many as `bytes`.
    pub fn region_length(&self) -> usize {
        self.claim.shown().len()
    }

    /// How many bytes are mapped: at least `region_length`, and more as the handler chose.
    pub fn mapped_length(&self) -> usize {
        self.claim.lent().len()
    }

    /// The record's bytes: the first `region_length` of the mapped ones.
    pub fn bytes(&self) -> &[u8] {
        self.claim.shown()
    }

    /// All bytes that are mapped from `physical_start` on: the record's, and as many
    /// after them as the handler chose. A search that looks at more than one record there uses them.
    pub fn lent_bytes(&self) -> &[u8] {
        self.claim.lent()
    }

    /// The handler that gets the notice when the mapping is dropped.
    pub fn handler(&self) -> &'h H {
        self.claim.handler()
    }

    /// The record that its bytes mean.
    pub fn get(&self) -> &T {
        &self.value
    }
}

/// The record that its bytes mean.
impl<'h, H: Lender, T: PhysicalRecord> Deref for PhysicalMapping<'h, H, T> {
    type Target = T;

    fn deref(&self) -> &T {
        &self.value
    }
}

impl<'h, H: Lender, T: PhysicalRecord> Drop for PhysicalMapping<'h, H, T> {
    fn drop(&mut self) {
        let PhysicalMapping { claim, value: _ } = self;
        // Not `end`, which takes the claim: in Rust a drop moves nothing out of its value.
        claim.notice();
        let Claim { start: _, lent: _, region_length: _, handler: _ } = claim;
    }
}
