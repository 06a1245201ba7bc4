// Made by scripts/erase of crates/acpi_table_writer/src/madt/gic.rt, where it is proved.
//! The MADT of an Arm machine, from its Generic Interrupt Controller (GIC, sections 5.2.12.14 to 5.2.12.18).

pub(crate) mod entries;

use super::entries::Fixed;
use super::has_some;
use crate::alloc::AllocError;
use crate::arm::gic::{GicCpuInterface, GicDistributor, GicMsiFrame, GicRedistributors, GicTranslationService};
use crate::base::Signature;
use crate::table_writer::checked::{Checked, require};
use crate::table_writer::error::WriterError;
use crate::table_writer::ids::TableIds;
use crate::table_writer::spelled::{EachItem, StandsFor, Then};
use crate::table_writer::table::{Table, write};
use core::marker::PhantomData;

/// What the MADT of an Arm machine is to contain, in the fields of `GicModel`, as which it is read; or of what is
/// written as them.
#[derive(Copy, Debug)]
pub struct GicContents<'a, C = GicCpuInterface, R = GicRedistributors, T = GicTranslationService, F = GicMsiFrame> {
    /// GIC Distributor (GICD).
    pub distributor: GicDistributor,
    /// GIC CPU Interfaces (GICC): the processors, of which the first is the boot processor.
    pub cpu_interfaces: &'a [C],
    /// GIC Redistributors (GICR).
    pub redistributors: &'a [R],
    /// GIC Interrupt Translation Services (ITS).
    pub translation_services: &'a [T],
    /// GIC MSI Frames.
    pub msi_frames: &'a [F],
}

impl<C: Copy, R: Copy, T: Copy, F: Copy> Clone for GicContents<'_, C, R, T, F> {
    fn clone(&self) -> Self {
        *self
    }
}

/// Returns the first error of an interface.
fn check_interfaces<C: StandsFor<GicCpuInterface>>(interfaces: &[C]) -> Result<(), WriterError> {
    for interface in interfaces {
        interface.item().check()?;
    }
    Ok(())
}

impl<'a, C, R, T, F> Table for GicContents<'a, C, R, T, F>
where
    C: StandsFor<GicCpuInterface>,
    R: StandsFor<GicRedistributors>,
    T: StandsFor<GicTranslationService>,
    F: StandsFor<GicMsiFrame>,
{
    type Body = Then<
        Fixed,
        Then<
            GicDistributor,
            Then<
                EachItem<'a, GicCpuInterface, C>,
                Then<
                    EachItem<'a, GicRedistributors, R>,
                    Then<EachItem<'a, GicTranslationService, T>, EachItem<'a, GicMsiFrame, F>>,
                >,
            >,
        >,
    >;

    fn head(&self) -> (Signature, u8) {
        (Signature::MADT, 6)
    }

    fn check(&self) -> Result<(), WriterError> {
        require(has_some(self.cpu_interfaces), WriterError::NoProcessor)?;
        check_interfaces(self.cpu_interfaces)
    }

    fn body(&self) -> Self::Body {
        let fixed = Fixed { local_apic_address: 0, also_has_legacy_pics: false };
        let services = EachItem(self.translation_services, PhantomData);
        let messages = Then(services, EachItem(self.msi_frames, PhantomData));
        let redistributors = Then(EachItem(self.redistributors, PhantomData), messages);
        let interfaces = Then(EachItem(self.cpu_interfaces, PhantomData), redistributors);
        Then(fixed, Then(self.distributor, interfaces))
    }
}

/// Writes the MADT of an Arm machine, of revision 6, to the front of a slice, and returns how many bytes it has. Its
/// entries are in the order of the fields. A GICC has 80 bytes if its `trace_buffer_interrupt` is `None`, and
/// otherwise 82, as since ACPI 6.5. Local Interrupt Controller Address and Flags, which are for APICs, are 0. Two
/// processors of one uid are written as they are.
///
/// Returns, in this order, `NoProcessor` if there is no processor, `SameAsBus` if a trigger mode is a bus's,
/// `BadName` if a name of the ids is not valid UTF-8, `NoRoom` if the slice is shorter than the table, and `TooLong` if
/// the table has 2^32 bytes or more.
pub fn write_gic_madt<C, R, T, F>(
    out: &mut [u8],
    ids: &TableIds,
    contents: &GicContents<'_, C, R, T, F>,
) -> Result<usize, WriterError>
where
    C: StandsFor<GicCpuInterface>,
    R: StandsFor<GicRedistributors>,
    T: StandsFor<GicTranslationService>,
    F: StandsFor<GicMsiFrame>,
{
    write(out, ids, contents)
}
