// Made by scripts/erase of crates/acpi_base/src/model/items.rt, where it is proved.
//! What the entries of a MADT say, one after the other, with no memory for a list.

use super::counts::Counts;
use super::item::MadtItem;
use crate::base::bytes::skip;
use crate::base::entries::split_front;
use crate::base::error::AcpiResult;
use crate::base::memory::handler::{Lender, PhysicalRecord};
use crate::base::memory::mapping::PhysicalMapping;
use crate::base::tables::madt::{MADT_GRAMMAR, Madt};

/// What the entries of a MADT say, in order. An entry that is refused, or whose type isn't defined,
/// says nothing. It ends at the table's end, or if no entry begins there.
#[derive(Debug)]
pub struct MadtItems<'a> {
    rest: &'a [u8],
}

impl<'a> MadtItems<'a> {
    /// What the entries of a MADT's bytes say.
    fn over(table: &'a [u8]) -> Self {
        MadtItems { rest: skip(table, Madt::MIN_LENGTH) }
    }
}

impl<'h, H: Lender> PhysicalMapping<'h, H, Madt> {
    /// What the entries say, in order, for a caller with no heap: `parse_interrupt_model_in` sorts
    /// the same items into lists. `model_counts` fails first, if an entry is malformed.
    pub fn items(&self) -> MadtItems<'_> {
        MadtItems::over(self.bytes())
    }

    /// How many items of each sort the entries say, and whether any is of a model of APICs.
    ///
    /// Fails as `parse_interrupt_model_in`, with `InvalidMadt` for the first entry that is at fault.
    pub fn model_counts(&self) -> AcpiResult<Counts> {
        Counts::of(self.bytes())
    }
}

impl Iterator for MadtItems<'_> {
    type Item = MadtItem;

    #[inline(always)]
    fn next(&mut self) -> Option<MadtItem> {
        while let Some((entry, others)) = split_front(&MADT_GRAMMAR, self.rest) {
            self.rest = others;
            if let Some(Ok(item)) = MadtItem::of_entry(entry) {
                return Some(item);
            }
        }
        None
    }
}
