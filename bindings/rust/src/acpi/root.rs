// Made by scripts/erase of crates/acpi/src/root.rt, where it is proved.
//! The kinds of root table (sections 5.2.7 and 5.2.8), and what leads to one.

use crate::base::Signature;

/// The kind of a root table. Both list the tables that the firmware has, by their addresses.
#[derive(Clone, Copy, Debug)]
pub enum RootKind {
    /// Root System Description Table (RSDT), whose pointers have four bytes (section 5.2.7).
    Rsdt,
    /// Extended System Description Table (XSDT), whose pointers have eight bytes (section 5.2.8).
    Xsdt,
}

impl RootKind {
    /// The kind of root table that a revision means if `AcpiTables::from_rsdt` is passed it: the RSDT
    /// (section 5.2.7) for 0, else the XSDT (section 5.2.8).
    pub fn of_revision(revision: u8) -> RootKind {
        if revision == 0 { RootKind::Rsdt } else { RootKind::Xsdt }
    }

    /// The signature of a root table of this kind: `RSDT` (section 5.2.7) or `XSDT` (section 5.2.8).
    pub fn signature(self) -> Signature {
        match self {
            RootKind::Rsdt => Signature::RSDT,
            RootKind::Xsdt => Signature::XSDT,
        }
    }

    /// How many bytes each pointer of a root table of this kind has: 4 in an RSDT (section 5.2.7), 8 in an
    /// XSDT (section 5.2.8).
    pub fn width(self) -> usize {
        match self {
            RootKind::Rsdt => 4,
            RootKind::Xsdt => 8,
        }
    }
}

/// The address at which a root table is looked for, and its kind.
#[derive(Clone, Copy, Debug)]
pub struct RootPointer {
    /// The revision of what names the table.
    pub revision: u8,
    /// The table's kind.
    pub kind: RootKind,
    /// Its physical address.
    pub address: u64,
}
