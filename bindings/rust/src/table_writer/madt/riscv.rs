// Made by scripts/erase of crates/acpi_table_writer/src/madt/riscv.rt, where it is proved.
//! The MADT of a RISC-V machine, from its harts and interrupt controllers (ACPI 6.6, section 5.2.12).

use super::entries::Fixed;
use super::has_some;
use crate::base::Signature;
use crate::riscv::{Aplic, Imsic, Plic, Rintc};
use crate::table_writer::checked::require;
use crate::table_writer::error::WriterError;
use crate::table_writer::ids::TableIds;
use crate::table_writer::spelled::{Each, Then};
use crate::table_writer::table::{Table, write};

/// What the MADT of a RISC-V machine is to contain, in the order of its entries.
#[repr(C)]
#[derive(Clone, Copy, Debug, Default, PartialEq, Eq)]
pub struct RiscvContents<'a> {
    /// The harts.
    pub rintcs: &'a [Rintc],
    /// What the incoming MSI controllers of all harts have in common: at most one, by the specification.
    pub imsics: &'a [Imsic],
    /// Advanced platform level interrupt controllers.
    pub aplics: &'a [Aplic],
    /// Platform level interrupt controllers.
    pub plics: &'a [Plic],
}

impl<'a> Table for RiscvContents<'a> {
    type Body = Then<Fixed, Then<Each<'a, Rintc>, Then<Each<'a, Imsic>, Then<Each<'a, Aplic>, Each<'a, Plic>>>>>;

    fn head(&self) -> (Signature, u8) {
        (Signature::MADT, 7)
    }

    fn check(&self) -> Result<(), WriterError> {
        require(has_some(self.rintcs), WriterError::NoProcessor)
    }

    fn body(&self) -> Self::Body {
        let fixed = Fixed { local_apic_address: 0, also_has_legacy_pics: false };
        let controllers = Then(Each(self.aplics), Each(self.plics));
        Then(fixed, Then(Each(self.rintcs), Then(Each(self.imsics), controllers)))
    }
}

/// Writes the MADT of a RISC-V machine, of revision 7, to the front of a slice, and returns how many bytes it has. Its
/// entries are in the order of the fields, a RINTC with 36 bytes; whether ids and versions are the
/// specification's isn't checked. Local Interrupt Controller Address and Flags, which are for APICs, are 0.
///
/// Returns, in this order, `NoProcessor` if there is no hart, `BadName` if a name of the ids is not valid UTF-8,
/// `NoRoom` if the slice is shorter than the table, and `TooLong` if the table has 2^32 bytes or more.
pub fn write_riscv_madt(out: &mut [u8], ids: &TableIds, contents: &RiscvContents<'_>) -> Result<usize, WriterError> {
    write(out, ids, contents)
}
