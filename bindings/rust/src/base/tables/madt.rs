// Made by scripts/erase of crates/acpi_base/src/tables/madt.rt, where it is proved.
//! The Multiple APIC Description Table (MADT): interrupt controllers and processors (section 5.2.12).

mod apic;
mod entry;
mod gic;
mod readings;
mod sapic;
mod wakeup;
mod walk;

use crate::alloc::Allocator;
use crate::alloc::TryClone;
use crate::base::bytes::has_bit;
pub use crate::base::error::MadtError;
use crate::base::error::{AcpiError, AcpiResult};
use crate::base::memory::handler::Lender;
use crate::base::memory::mapping::PhysicalMapping;
use crate::base::model::{ModelAndProcessors, model_in};
use crate::base::table::header::SdtHeader;
pub use apic::{
    InterruptSourceOverrideEntry, IoApicEntry, LocalApicAddressOverrideEntry, LocalApicEntry, LocalApicNmiEntry,
    LocalX2ApicEntry, NmiSourceEntry, X2ApicNmiEntry,
};
pub use entry::{EntryHeader, MADT_GRAMMAR, MadtEntry};
pub use gic::{GicInterruptTranslationServiceEntry, GicMsiFrameEntry, GicRedistributorEntry, GiccEntry, GicdEntry};
pub use sapic::{IoSapicEntry, LocalSapicEntry, PlatformInterruptSourceEntry};
pub use wakeup::{MpProtectedModeWakeupCommand, MultiprocessorWakeupEntry, MultiprocessorWakeupMailbox};
pub use walk::MadtEntryIter;

/// The Multiple APIC Description Table (MADT, section 5.2.12, table 5.19). Its entries are after these
/// fields; a mapping of it returns them.
#[derive(Debug)]
#[non_exhaustive]
pub struct Madt {
    /// The header that every table begins with.
    pub header: SdtHeader,
    /// Local Interrupt Controller Address: the physical address of each processor's local APIC, unless a
    /// Local APIC Address Override has another.
    pub local_apic_address: u32,
    /// Flags: bit 0 PCAT_COMPAT, the machine has a pair of 8259 controllers too (`supports_8259()`).
    pub flags: u32,
}

impl Madt {
    /// PCAT_COMPAT (bit 0 of the flags, section 5.2.12): whether the machine has a pair of 8259 controllers
    /// too, which are to be masked if the APICs are used.
    pub fn supports_8259(&self) -> bool {
        has_bit(self.flags as u64, 0) // PCAT_COMPAT
    }
}

/// What `get_mpwk_mailbox_addr` returns, by the table's bytes.
fn mailbox_address(table: &[u8]) -> AcpiResult<u64> {
    let mut entries = MadtEntryIter::over(table);
    while let Some(entry) = entries.next() {
        if let MadtEntry::MultiprocessorWakeup(wakeup) = entry {
            return Ok(wakeup.mailbox_address);
        }
    }
    let fault = if entries.ended_malformed() { MadtError::InvalidEntryLength } else { MadtError::UnexpectedEntry };
    Err(AcpiError::InvalidMadt(fault))
}

impl<'h, H: Lender> PhysicalMapping<'h, H, Madt> {
    /// The entries of this MADT, of types 0 to 0x10, in order (section 5.2.12): at most half as many as the
    /// table has bytes after its 44 fixed ones.
    pub fn entries(&self) -> MadtEntryIter<'_> {
        MadtEntryIter::over(self.bytes())
    }

    /// MailBoxAddress: the physical address of the mailbox by which processors are woken, that of the first
    /// Multiprocessor Wakeup entry (section 5.2.12.19).
    ///
    /// Fails, if no such entry is found, with `InvalidMadt(InvalidEntryLength)` if the entries end
    /// malformed, and else with `InvalidMadt(UnexpectedEntry)`. Entries after a malformed one aren't found.
    pub fn get_mpwk_mailbox_addr(&self) -> AcpiResult<u64> {
        mailbox_address(self.bytes())
    }

    /// The interrupt model that the entries describe (section 5.2.12), and the processors, if there
    /// are any, in memory of an allocator. It is `Unknown`, without processors, if no entry is of APICs; no
    /// memory is then requested.
    ///
    /// Fails with `InvalidMadt` for the first entry that is at fault, with the first of these that holds:
    ///
    /// - `InvalidEntryLength` if it is malformed;
    /// - `UnexpectedEntry` for the types of SAPICs and of the GIC (6 to 8, and 0xb to 0xf);
    /// - `InterruptOverrideEntryHasInvalidBus` for an Interrupt Source Override whose bus isn't 0;
    /// - `MpsIntiInvalidPolarity` for an Interrupt Source Override or an NMI Source if bits 0 and 1 of its
    ///   flags are 2;
    /// - `MpsIntiInvalidTriggerMode` for one of these two if bits 2 and 3 of its flags are 2;
    /// - `InvalidLocalNmiLine` for a Local APIC NMI or a Local x2APIC NMI whose LINT# is neither 0 nor 1.
    ///
    /// Then it fails with `AllocError` if memory runs out, also for a clone of the allocator.
    pub fn parse_interrupt_model_in<A: Allocator + TryClone>(&self, allocator: A) -> AcpiResult<ModelAndProcessors<A>> {
        model_in(self.get(), self.bytes(), allocator)
    }
}
