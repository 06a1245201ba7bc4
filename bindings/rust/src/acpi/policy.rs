// Made by scripts/erase of crates/acpi/src/policy.rt, where it is proved.
//! Which tables, and which RSDP, a caller accepts.

use crate::base::table::accepted_at;
use crate::base::{AcpiResult, AcpiTable, Lender, PhysicalMapping};

/// Which checks of tables and of the RSDP a caller gives up. Each table that is valid is accepted, and each that fails
/// no other check: a policy only ever accepts more. What only one type of table has to pass (`AcpiTable::check_own`) is
/// never given up.
pub trait Policy: Copy {
    /// The checks that are given up, as the bits of `Accept`.
    fn bits(&self) -> u32;
}

/// Accepts valid tables alone.
#[derive(Clone, Copy, Debug)]
pub struct Valid;

impl Policy for Valid {
    #[inline(always)]
    fn bits(&self) -> u32 {
        0
    }
}

/// Accepts tables that fail some checks, as a kernel does that wants to boot on bad firmware.
#[derive(Clone, Copy, Debug)]
pub struct Accept {
    /// Its constants, or-ed: `SUMS` and `IDS` of tables (section 5.2.6), the others of an RSDP (section 5.2.5.3). No
    /// other bit counts.
    pub bits: u32,
}

impl Accept {
    /// A table's sum may be any.
    pub const SUMS: u32 = 1;
    /// A table's ids may be any.
    pub const IDS: u32 = 2;
    /// An RSDP's OEM id may be any.
    pub const RSDP_IDS: u32 = 4;
    /// An RSDP of revision 1 is read as one of revision 0.
    pub const RSDP_REVISION: u32 = 8;
    /// So is one of which only the first 20 bytes pass their checks.
    pub const RSDP_FIRST: u32 = 16;
}

impl Policy for Accept {
    #[inline(always)]
    fn bits(&self) -> u32 {
        self.bits
    }
}

/// The table at a physical address, if the bits of `accept` accept it for `T`.
///
/// Fails as `accepted_at` does.
#[inline(always)]
pub(crate) fn map_accepted<'h, H: Lender, T: AcpiTable>(
    handler: &'h H,
    address: u64,
    accept: u32,
) -> AcpiResult<PhysicalMapping<'h, H, T>> {
    let table = accepted_at::<H, T>(handler, address, accept)?;
    Ok(table.mapping())
}
