// Made by scripts/erase of crates/acpi_image_reader/src/record_list.rt, where it is proved.
//! The records of a file, in its order and by their starts.

use crate::image_reader::error::ImageError;
use crate::image_reader::record::Record;
use crate::image_reader::start_index::{add_start, last_up_to};
use crate::rattle::alloc::Allocator;
use crate::rattle::collections::BTreeMap;
use crate::rattle::{TryClone, Vec};

/// Keeps the start of one more record, which shares no byte with the records of the list, if it has bytes.
///
/// Fails with `OutOfMemory` if memory for it runs out.
fn keep_start<'a, A: Allocator + TryClone>(
    starts: &mut BTreeMap<u64, &'a [u8], A>,
    list: &[Record<'a>],
    added: Record<'a>,
) -> Result<(), ImageError> {
    if added.bytes.is_empty() {
        return Ok(());
    }
    let Ok(()) = add_start(starts, added.start, added.bytes) else {
        return Err(ImageError::OutOfMemory);
    };
    Ok(())
}

/// The records of a file, of which no two share a byte.
pub struct Records<'a, A: Allocator> {
    /// The records, in the order of the file.
    pub(crate) list: Vec<Record<'a>, A>,
    /// The bytes of those that have some, by their starts: one more record, and an address, are
    /// compared with one of these, and not with each.
    starts: BTreeMap<u64, &'a [u8], A>,
}

impl<'a, A: Allocator> Records<'a, A> {
    /// No record.
    pub(crate) fn none(alloc: A) -> Records<'a, A>
    where
        A: Copy,
    {
        Records { list: Vec::new(alloc), starts: BTreeMap::new(alloc) }
    }

    /// These records, with one more after them.
    ///
    /// Fails with `OutOfMemory` if memory for it runs out.
    pub(crate) fn with(self, added: Record<'a>) -> Result<Records<'a, A>, ImageError>
    where
        A: TryClone,
    {
        let Records { mut list, mut starts } = self;
        keep_start(&mut starts, &list, added)?;
        let Ok(()) = list.push(added) else {
            return Err(ImageError::OutOfMemory);
        };
        Ok(Records { list, starts })
    }

    /// The one of those with bytes that starts last up to an address.
    fn last_up_to(&self, address: u64) -> Option<Record<'a>> {
        match last_up_to(&self.starts, address) {
            Some((start, bytes)) => Some(Record { start, bytes }),
            None => None,
        }
    }

    /// Whether a record shares a byte with one of these.
    pub(crate) fn shares_with_any(&self, added: &Record<'_>) -> bool {
        if added.bytes.is_empty() {
            return false;
        }
        let last = added.start + (added.bytes.len() as u64 - 1);
        match self.last_up_to(last) {
            Some(record) => record.shares_byte(added),
            None => false,
        }
    }

    /// The bytes from a physical address to the end of the record that it is in, or none if it is in no
    /// record.
    pub fn rest_at(&self, address: u64) -> &'a [u8] {
        match self.last_up_to(address) {
            Some(record) => match record.rest(address) {
                Some(rest) => rest,
                None => &[],
            },
            None => &[],
        }
    }
}
