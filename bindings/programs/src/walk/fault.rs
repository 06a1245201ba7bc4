// Made by scripts/erase of crates/acpi_dump_walk/src/fault.rt, where it is proved.
//! Why a rest of a table isn't shown by its layout.

use crate::walk::out::Out;

/// Why a rest of a table isn't shown by its layout.
#[derive(Clone, Copy)]
pub enum Fault {
    /// The entry that begins there has this length, which is less than its type and its length take.
    Length(u64),
    /// The entry that begins there has this length, which is more than the bytes that are left.
    Past(u64),
    /// Too few bytes are left for an entry.
    Cut,
    /// The entry that begins there has this type, which isn't known and has no length.
    Unknown(u64),
    /// That many of the entries that are counted aren't there.
    Missing(u64),
    /// What is to begin at this offset of the structure there begins before the end of what comes
    /// before it.
    Before(u64),
    /// What is to begin at this offset of the structure there begins past its end.
    Outside(u64),
    /// What is to end at this offset of the structure there ends past its end.
    Beyond(u64),
    /// Structures lie too deep in structures.
    Deep,
    /// This word of the layout of the structure there isn't understood, or no block has that name.
    Unread(&'static str),
}

impl Fault {
    /// Prints it for an offset of the table.
    pub fn print(self, offset: u64, out: &mut Out) {
        let (words, numbers) = match self {
            Fault::Length(length) => ("entry at # has length %", [offset, length]),
            Fault::Past(length) => ("entry at # has length %, more than is left", [offset, length]),
            Fault::Cut => ("too few bytes for an entry at #", [offset, 0]),
            Fault::Unknown(kind) => ("entry at # has type #, whose length is unknown", [offset, kind]),
            Fault::Missing(count) => ("entries missing at #: %", [offset, count]),
            Fault::Before(start) => {
                ("offset # in the structure at # is before the end of other fields", [start, offset])
            }
            Fault::Outside(start) => ("offset # in the structure at # is past its end", [start, offset]),
            Fault::Beyond(end) => ("offset #, the end of a part of the structure at #, is past its end", [end, offset]),
            Fault::Deep => ("the structure at # lies too deep in others", [offset, 0]),
            Fault::Unread(_) => ("the layout of the structure at # isn't understood: ", [offset, 0]),
        };
        out.words(words, &numbers);
        if let Fault::Unread(word) = self {
            out.text(word);
        }
    }
}
