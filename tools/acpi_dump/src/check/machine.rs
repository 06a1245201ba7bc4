//! The tables that are judged together.

use crate::prelude::*;

/// The tables of an input, and what leads to them.
#[derive(Clone, Copy)]
pub struct Machine<'a> {
    pub entries: &'a [Entry<'a>],
    /// The RSDP that leads to the root table, or no bytes if none is known.
    pub rsdp: &'a [u8],
    /// The RSDT that this RSDP has beside an XSDT, or no bytes.
    pub rsdt: &'a [u8],
}

/// The bytes of a table up to its length, if that is at least 36 and all of them are there. They needn't sum to 0.
pub(crate) fn table_of<'a>(entry: &Entry<'a>) -> Option<&'a [u8]> {
    let length = size(field(entry.bytes, 4, 4));
    entry.bytes.get(..length).filter(|table| table.len() >= SdtHeader::MIN_LENGTH)
}

impl<'a> Machine<'a> {
    /// Whether it has all tables, as far as that can be told: an RSDT or an XSDT lists no more tables than there are,
    /// and of none the bytes are missing.
    pub(crate) fn is_whole(&self) -> bool {
        let (mut listed, mut count) = (None, 0);
        for bytes in self.entries.iter().map(|entry| entry.bytes) {
            let pointers = bytes.len().saturating_sub(SdtHeader::MIN_LENGTH);
            match own_signature(bytes).as_str().unwrap_or("") {
                "XSDT" => listed = Some(pointers / 8),
                "RSDT" => listed = listed.or(Some(pointers / 4)),
                "RSD " | "DSDT" | "FACS" => {}
                _ => count += 1,
            }
        }
        listed.is_some_and(|listed| listed <= count) && !self.entries.iter().any(|entry| entry.bytes.is_empty())
    }

    /// The first table of a signature, as `table_of` returns it, after its number among the entries.
    pub(crate) fn first(&self, signature: Signature) -> Option<(usize, &'a [u8])> {
        let tables = self.entries.iter().map(table_of).enumerate();
        tables.filter_map(|(index, table)| Some((index, table?))).find(|(_, table)| own_signature(table) == signature)
    }
}
