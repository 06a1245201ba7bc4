// Made by scripts/erase of crates/acpi_fixed/src/fadt/registers/gpe.rt, where it is proved.
//! The blocks of registers of general purpose events, by their length in bytes (section 4.8.4.1).

use super::BlockFields;
use crate::base::AcpiResult;
use crate::base::address::{AddressSpace, RawAddress};
use crate::base::bytes::field_in;
use crate::fixed::fadt::Fadt;

/// A block of registers of general purpose events (section 4.8.4.1): its first half has the status
/// bits, its second half the enable bits.
#[derive(Clone, Copy, Debug)]
pub struct GpeBlock {
    /// Address Space ID: the space in which `address` counts.
    pub space: AddressSpace,
    /// X_GPE0_BLK, GPE0_BLK, X_GPE1_BLK or GPE1_BLK: the address of the first register in that space.
    pub address: u64,
    /// GPE0_BLK_LEN or GPE1_BLK_LEN: how many bytes both halves have together, one for four events.
    pub byte_length: u8,
}

/// The block at an extended address, of a number of bytes.
fn block_from(raw: &RawAddress, byte_length: u8) -> AcpiResult<GpeBlock> {
    let space = AddressSpace::try_from(field_in(raw, 0, 1) as u8)?; // Address Space ID
    Ok(GpeBlock {
        space,
        address: field_in(raw, 4, 8), // Address
        byte_length,
    })
}

/// The number of the first event of a block, if there is one.
pub(crate) fn base_beside(base: u8, block: AcpiResult<Option<GpeBlock>>) -> Option<u8> {
    match block {
        Ok(Some(_)) => Some(base),
        Ok(None) | Err(_) => None,
    }
}

impl BlockFields<'_> {
    /// The block by its length in bytes, or `None` if that is 0 or neither field has an address.
    ///
    /// Fails with `InvalidGenericAddress` for a reserved space of the extended field.
    pub(crate) fn gpe(self) -> AcpiResult<Option<GpeBlock>> {
        if self.size == 0 {
            return Ok(None);
        }
        if let Some(raw) = self.extended {
            return Ok(Some(block_from(raw, self.size)?));
        }
        if self.port == 0 {
            return Ok(None);
        }
        Ok(Some(GpeBlock { space: AddressSpace::SystemIo, address: self.port as u64, byte_length: self.size }))
    }
}

impl Fadt {
    /// X_GPE0_BLK or GPE0_BLK with GPE0_BLK_LEN: the registers of the first general purpose events
    /// (sections 4.8.4.1 and 5.2.9), of any length up to 255 bytes: the extended address if the table has
    /// it and it isn't 0, else the 32-bit one, which is a port.
    ///
    /// It is `None` if the length is 0, whatever the addresses are, and if both addresses are 0. The
    /// width and the access size of the extended field don't count. On a machine of reduced hardware
    /// (`flags.system_is_hw_reduced_acpi()`) it means nothing.
    ///
    /// Fails for a reserved address space with `InvalidGenericAddress`.
    pub fn gpe0(&self) -> AcpiResult<Option<GpeBlock>> {
        self.registers.gpe0.fields().gpe()
    }

    /// X_GPE1_BLK or GPE1_BLK with GPE1_BLK_LEN: the registers of further general purpose events (sections
    /// 4.8.4.1 and 5.2.9), found as `gpe0`'s. `gpe1_base()` is their first event.
    ///
    /// Fails for a reserved address space with `InvalidGenericAddress`.
    pub fn gpe1(&self) -> AcpiResult<Option<GpeBlock>> {
        self.registers.gpe1.fields().gpe()
    }

    /// GPE1_BASE: the number of the first event of `gpe1`, or `None` if there is no such block or it is
    /// an error (section 5.2.9).
    pub fn gpe1_base(&self) -> Option<u8> {
        base_beside(self.gpe1_base, self.gpe1())
    }
}
