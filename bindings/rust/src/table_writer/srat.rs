// Made by scripts/erase of crates/acpi_table_writer/src/srat.rt, where it is proved.
//! The System Resource Affinity Table (SRAT, section 5.2.16), from the domains of processors and of ranges of memory.

use crate::base::Signature;
use crate::numa::MemoryRange;
use crate::table_writer::checked::require;
use crate::table_writer::error::WriterError;
use crate::table_writer::fields::{Field, Record};
use crate::table_writer::ids::TableIds;
use crate::table_writer::made::srat::local_x2apic_fields;
use crate::table_writer::numbers::bit_of;
use crate::table_writer::spelled::{Bytes, Each, EachItem, StandsFor, Then};
use crate::table_writer::table::{Table, write};
use core::marker::PhantomData;

/// A processor with a local APIC, and the proximity domain that it is in (sections 5.2.16.1 and 5.2.16.3).
#[repr(C)]
#[derive(Clone, Copy, Debug, Default, PartialEq, Eq)]
pub struct ApicDomain {
    /// APIC ID or X2APIC ID.
    pub local_apic_id: u32,
    /// Proximity Domain.
    pub domain: u32,
}

/// A processor with an interface to the GIC, and the proximity domain that it is in (section 5.2.16.4).
#[repr(C)]
#[derive(Clone, Copy, Debug, Default, PartialEq, Eq)]
pub struct GiccDomain {
    /// ACPI Processor UID.
    pub processor_uid: u32,
    /// Proximity Domain.
    pub domain: u32,
}

/// The contents of an SRAT, by the names of `Domains` and `MemoryAffinities`, as which it is read.
#[derive(Clone, Copy, Debug)]
pub struct SratContents<'a, R = MemoryRange> {
    /// The domains of processors with a local APIC.
    pub apics: &'a [ApicDomain],
    /// The domains of processors with an interface to the GIC.
    pub giccs: &'a [GiccDomain],
    /// The ranges of memory, with their domains, or what is written in their place.
    pub ranges: &'a [R],
}

/// Whether the id has a place in a Processor Local APIC/SAPIC Affinity.
fn is_small(apic: &ApicDomain) -> bool {
    apic.local_apic_id < 255
}

impl Record for ApicDomain {
    type Fields = [Field; 9];

    fn fields(&self) -> [Field; 9] {
        let domain = self.domain;
        if is_small(self) {
            [
                Field::U8(0),
                Field::U8(16),
                Field::U8((domain % 256) as u8),
                Field::U8(self.local_apic_id as u8),
                Field::U32(1),
                Field::U8(0),
                Field::U8((domain / 256 % 256) as u8),
                Field::U16((domain / 65536) as u16),
                Field::Zeros(4),
            ]
        } else {
            local_x2apic_fields(self)
        }
    }
}

/// The flags of a range.
pub(crate) fn range_flags(range: &MemoryRange) -> u8 {
    1 + (2 * bit_of(range.is_hot_pluggable) + 4 * bit_of(range.is_non_volatile))
}

/// Whether no processor has the id that means all.
fn apics_fit(apics: &[ApicDomain]) -> bool {
    apics.iter().all(|apic| apic.local_apic_id != 0xffffffff)
}

/// Whether no processor has the uid that means all.
fn giccs_fit(giccs: &[GiccDomain]) -> bool {
    giccs.iter().all(|gicc| gicc.processor_uid != 0xffffffff)
}

/// Whether a range has a byte, and ends below 2^64.
fn is_range(range: &MemoryRange) -> bool {
    range.length > 0 && range.length <= u64::MAX - range.base
}

/// Whether each range does.
fn ranges_fit<R: StandsFor<MemoryRange>>(ranges: &[R]) -> bool {
    for range in ranges {
        if !is_range(&range.item()) {
            return false;
        }
    }
    true
}

impl<'a, R: StandsFor<MemoryRange>> Table for SratContents<'a, R> {
    type Body = Then<Bytes<'a>, Then<Each<'a, ApicDomain>, Then<Each<'a, GiccDomain>, EachItem<'a, MemoryRange, R>>>>;

    fn head(&self) -> (Signature, u8) {
        (Signature::SRAT, 3)
    }

    fn check(&self) -> Result<(), WriterError> {
        require(apics_fit(self.apics), WriterError::IdOfAll)?;
        require(giccs_fit(self.giccs), WriterError::IdOfAll)?;
        require(ranges_fit(self.ranges), WriterError::BadRange)
    }

    fn body(&self) -> Self::Body {
        let others = Then(Each(self.giccs), EachItem(self.ranges, PhantomData));
        let entries = Then(Each(self.apics), others);
        // Reserved, of which the first is 1.
        Then(Bytes(&[1, 0, 0, 0, 0, 0, 0, 0, 0, 0, 0, 0]), entries)
    }
}

/// Writes a SRAT of revision 3 to the front of a slice, and returns how many bytes it has: 48, and the bytes of its
/// entries, which come sort by sort, in the order of the fields, and are all enabled. A processor with a local APIC
/// has 16 if its id is below 255, as a Processor Local APIC/SAPIC Affinity, otherwise 24, as a Processor Local x2APIC
/// Affinity; one with an interface to the GIC has 18, and a range of memory 40. Each Clock Domain is 0. Of two entries
/// of one processor the later one is the one that is read; ranges may overlap.
///
/// Returns, in this order, `IdOfAll` if a processor's id or uid is 0xffffffff, `BadRange` if a range has no byte or
/// ends above 2^64 - 1, `BadName` if a name of the ids is not valid UTF-8, `NoRoom` if the slice is shorter than the
/// table, and `TooLong` if the table has 2^32 bytes or more.
pub fn write_srat<R: StandsFor<MemoryRange>>(
    out: &mut [u8],
    ids: &TableIds,
    contents: &SratContents<'_, R>,
) -> Result<usize, WriterError> {
    write(out, ids, contents)
}
