// Made by scripts/erase of crates/acpi_arm/src/gic.rt, where it is proved.
//! The Generic Interrupt Controller (GIC), as the entries of a MADT describe it together (sections
//! 5.2.12.14 to 5.2.12.18).

mod collect;
mod part;

use crate::acpi::AcpiTables;
use crate::alloc::{AllocError, Allocator, Global};
use crate::base::madt::Madt;
use crate::base::managed_slice::ManagedSlice;
use crate::base::{AcpiResult, Lender};
use collect::collected;
pub use collect::distributor_of;
pub use part::{
    GicCpuInterface, GicDistributor, GicMsiFrame, GicPart, GicRedistributors, GicTranslationService, SpiRange,
    distributor_in,
};

/// The Generic Interrupt Controller (GIC) of a machine, with the processors that have an interface to it
/// (sections 5.2.12.14 to 5.2.12.18).
#[derive(Debug)]
#[non_exhaustive]
pub struct GicModel<A: Allocator> {
    /// GIC Distributor (GICD, section 5.2.12.15): that of the first such entry.
    pub distributor: GicDistributor,
    /// GIC CPU Interface (GICC, section 5.2.12.14): the processors with their interfaces, one for each such
    /// entry, in order.
    pub cpu_interfaces: ManagedSlice<GicCpuInterface, A>,
    /// GIC Redistributor (GICR, section 5.2.12.17): the ranges of redistributors, one for each such entry,
    /// in order.
    pub redistributors: ManagedSlice<GicRedistributors, A>,
    /// GIC Interrupt Translation Service (ITS, section 5.2.12.18): the services that translate messages to
    /// interrupts, one for each such entry, in order.
    pub translation_services: ManagedSlice<GicTranslationService, A>,
    /// GIC MSI Frame (section 5.2.12.16): the frames that turn messages into interrupts, one for each such
    /// entry, in order.
    pub msi_frames: ManagedSlice<GicMsiFrame, A>,
}

impl GicModel<Global> {
    /// The GIC that the first valid MADT describes (sections 5.2.12.14 to 5.2.12.18), in memory of the
    /// global allocator, or `None` if it describes no distributor.
    ///
    /// Fails, in this order, with `TableMissing` if no valid MADT is listed, with
    /// `InvalidMadt(InvalidEntryLength)` if the entries end malformed, and with `AllocError` if memory runs
    /// out, which it can only if there is a distributor and some list has an item.
    #[cfg(feature = "alloc")]
    pub fn new<H: Lender>(tables: &AcpiTables<'_, H>) -> AcpiResult<Option<Self>> {
        GicModel::new_in(tables, Global)
    }
}

impl<A: Allocator + Copy> GicModel<A> {
    /// The GIC that a MADT's bytes describe (sections 5.2.12.14 to 5.2.12.18), in memory of an allocator,
    /// or `None` if no entry describes a distributor, as on a machine with APICs. It needs no handler.
    /// Entries of all other types are skipped, and of several distributors the first one counts.
    ///
    /// Fails, in this order, with `InvalidMadt(InvalidEntryLength)` if the entries end malformed, that is, if
    /// bytes are left in which no entry begins, and with `AllocError` if memory runs out, which it can only
    /// if there is a distributor and some list has an item.
    pub fn of(table: &[u8], allocator: A) -> AcpiResult<Option<Self>> {
        match distributor_of(table)? {
            Some(distributor) => Ok(Some(GicModel::beside(table, distributor, allocator)?)),
            None => Ok(None),
        }
    }

    /// The GIC of a distributor, with the lists that a MADT's bytes contain.
    fn beside(table: &[u8], distributor: GicDistributor, allocator: A) -> Result<Self, AllocError> {
        Ok(GicModel {
            distributor,
            cpu_interfaces: collected(table, allocator)?,
            redistributors: collected(table, allocator)?,
            translation_services: collected(table, allocator)?,
            msi_frames: collected(table, allocator)?,
        })
    }

    /// The GIC that the first valid MADT describes (sections 5.2.12.14 to 5.2.12.18), in memory of an
    /// allocator, or `None` if it describes no distributor.
    ///
    /// Fails, in this order, with `TableMissing` if no valid MADT is listed, with
    /// `InvalidMadt(InvalidEntryLength)` if the entries end malformed, and with `AllocError` if memory runs
    /// out, which it can only if there is a distributor and some list has an item.
    pub fn new_in<H: Lender>(tables: &AcpiTables<'_, H>, allocator: A) -> AcpiResult<Option<Self>> {
        let madt = tables.find_table::<Madt>()?;
        GicModel::of(madt.bytes(), allocator)
    }
}
