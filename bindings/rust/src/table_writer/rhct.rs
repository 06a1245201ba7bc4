// Made by scripts/erase of crates/acpi_table_writer/src/rhct.rt, where it is proved.
//! The RISC-V Hart Capabilities Table (RHCT, ACPI 6.6), of harts that all have one ISA string.

use crate::base::Signature;
use crate::table_writer::error::WriterError;
use crate::table_writer::fields::{Field, Record};
use crate::table_writer::ids::TableIds;
use crate::table_writer::made::rhct::{front_fields, hart_fields};
use crate::table_writer::spelled::{Bytes, EachItem, StandsFor, Then};
use crate::table_writer::table::write_table;
use core::marker::PhantomData;

/// What an RHCT is to contain.
#[repr(C)]
#[derive(Clone, Copy, Debug, Default, PartialEq, Eq)]
pub struct RhctContents<'a> {
    /// ISA string: the instructions that the harts have, as `rv64imafdc`, without a zero at its end.
    pub isa: &'a [u8],
    /// ACPI Processor UID of each hart.
    pub harts: &'a [u32],
    /// Time Base Frequency: how often in a second the timer counts.
    pub time_base_frequency: u64,
    /// Flags: bit 0, the timer can't wake the processor.
    pub flags: u32,
}

/// All before the ISA string: the fixed fields, and the front of the ISA String Node.
#[derive(Clone, Copy, Debug)]
struct Front {
    flags: u32,
    time_base_frequency: u64,
    node_count: u32,
    isa_node_length: u16,
    isa_length: u16,
}

impl Record for Front {
    type Fields = [Field; 8];

    fn fields(&self) -> [Field; 8] {
        front_fields(self.flags, self.time_base_frequency, self.node_count, self.isa_node_length, self.isa_length)
    }
}

/// A Hart Info Node, by the hart's uid.
#[derive(Clone, Copy, Debug)]
struct HartNode(u32);

impl Record for HartNode {
    type Fields = [Field; 6];

    fn fields(&self) -> [Field; 6] {
        hart_fields(self.0)
    }
}

impl StandsFor<HartNode> for u32 {
    fn item(&self) -> HartNode {
        HartNode(*self)
    }
}

impl<'a> RhctContents<'a> {
    /// Returns an error if an RHCT has no place for it.
    fn check(&self) -> Result<(), WriterError> {
        if self.harts.len() == 0 {
            return Err(WriterError::NoProcessor);
        }
        if self.isa.len() >= 65526 {
            return Err(WriterError::TooLong);
        }
        if self.harts.len() >= 0x10000000 {
            return Err(WriterError::TooLong);
        }
        Ok(())
    }
}

/// Writes an RHCT of revision 1 to the front of a slice, and returns how many bytes it has: an ISA String Node, whose
/// string is filled up with one or two zeros to an even length, and a Hart Info Node of that string for each hart.
///
/// Returns, in this order, `NoProcessor` if there is no hart, `TooLong` if the ISA string has more than 65525 letters
/// or there are 2^28 harts or more, `BadName` if a name of the ids is not valid UTF-8, `NoRoom` if the slice is shorter
/// than the table, and `TooLong` if the table has 2^32 bytes or more.
pub fn write_rhct(out: &mut [u8], ids: &TableIds, contents: &RhctContents<'_>) -> Result<usize, WriterError> {
    contents.check()?;
    let letters = contents.isa.len();
    let zeros = 2 - letters % 2;
    let front = Front {
        flags: contents.flags,
        time_base_frequency: contents.time_base_frequency,
        node_count: (contents.harts.len() + 1) as u32,
        isa_node_length: (8 + letters + zeros) as u16,
        isa_length: (letters + 1) as u16,
    };
    let string = Then(Bytes(contents.isa), Field::Zeros(zeros as u8));
    let nodes: EachItem<'_, HartNode, u32> = EachItem(contents.harts, PhantomData);
    let body = Then(front, Then(string, nodes));
    write_table(out, Signature::from_bytes(*b"RHCT"), 1, ids, &body)
}
