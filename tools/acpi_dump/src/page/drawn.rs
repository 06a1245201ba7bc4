//! Which structures the drawing has, and the texts of their boxes.

use super::escape::Html;
use super::escape::Piece::{Bytes, Decimal, Padded, Text, Words};
use super::sheet::Sheet;
use crate::compare::outline::Part;
use crate::prelude::*;

/// What a tile is of, in the order in which they are drawn.
#[derive(Clone, Copy, PartialEq, Eq, PartialOrd, Ord)]
pub(super) enum Kind {
    Domain,
    Processors,
    IoApic,
    Segments,
    Unit,
    Gic,
}

/// A piece of the text of a box.
pub(super) enum Word {
    Is(&'static str),
    /// What a field means, or else its number.
    Of(&'static str),
    /// A field as a number of bytes.
    Size(&'static str),
    /// A field in two hexadecimal digits.
    Two(&'static str),
    /// The name of the structure.
    Name,
}

use Kind::{Domain, Gic, IoApic, Processors, Segments, Unit};
use Word::{Is, Name, Of, Size, Two};

/// A structure that is drawn: the letters of the table, the front of the structure's name, the kind of its tile, the
/// class of its box, the offset of the flags of a processor, and the text.
pub(super) struct Drawn {
    table: &'static [u8; 4],
    name: &'static str,
    pub(super) kind: Kind,
    pub(super) class: &'static str,
    pub(super) flags: Option<usize>,
    pub(super) text: &'static [Word],
}

macro_rules! flags {
    () => {
        None
    };
    ($offset:literal) => {
        Some($offset)
    };
}

macro_rules! drawn {
    ($($table:literal $name:literal $kind:ident $class:literal $($flags:literal)?: $($word:expr),+;)+) => {
        /// The structures that are drawn, of which the first counts that has the letters and the front of the name.
        static DRAWN: &[Drawn] = &[$(Drawn {
            table: $table,
            name: $name,
            kind: $kind,
            class: $class,
            flags: flags![$($flags)?],
            text: &[$($word),+],
        }),+];
    };
}

drawn! {
    b"SRAT" "Memory" Domain "mem": Size("Length"), Is(" from "), Of("Base Address");
    b"SRAT" "Processor Local APIC" Domain "cpu" 4: Of("APIC ID");
    b"SRAT" "Processor Local x2APIC" Domain "cpu" 12: Of("X2APIC ID");
    b"SRAT" "GICC" Domain "cpu" 10: Of("ACPI Processor UID");
    b"SRAT" "RINTC" Domain "cpu" 12: Of("ACPI Processor UID");
    b"APIC" "Processor Local APIC" Processors "cpu" 4: Of("APIC ID");
    b"APIC" "Processor Local x2APIC" Processors "cpu" 8: Of("X2APIC ID");
    b"APIC" "Local SAPIC" Processors "cpu" 8: Of("Local SAPIC ID");
    b"APIC" "Core" Processors "cpu" 11: Of("ACPI Processor ID");
    b"APIC" "RISC-V Interrupt" Processors "cpu" 4: Of("Hart ID");
    b"APIC" "I/O APIC" IoApic "box": Is("at "), Of("I/O APIC Address"), Is(", interrupts from "),
        Of("Global System Interrupt Base"), Is(" on");
    b"MCFG" "" Segments "bus": Is("segment "), Of("PCI Segment Group Number"), Is(" at "), Of("Base Address"),
        Is(", buses "), Two("Start Bus Number"), Is(" to "), Two("End Bus Number");
    b"DMAR" "DMA" Unit "box": Is("segment "), Of("Segment Number"), Is(" at "), Of("Register Base Address"),
        Is(" "), Of("Flags");
    b"DMAR" "Reserved" Unit "mem": Of("Reserved Memory Region Base Address"), Is(" to "),
        Of("Reserved Memory Region Limit Address");
    b"DMAR" "Remapping" Unit "box": Of("Register Base Address"), Is(", domain "), Of("Proximity Domain");
    b"DMAR" "ACPI" Unit "box": Of("ACPI Object Name"), Is(", device "), Of("ACPI Device Number");
    b"DMAR" "Root" Unit "box": Is("segment "), Of("Segment Number"), Is(" "), Of("Flags");
    b"DMAR" "SoC" Unit "box": Is("segment "), Of("Segment Number"), Is(" "), Of("Flags");
    b"DMAR" "unknown" Unit "box": Name;
    b"DMAR" "" Unit "dev": Two("Start Bus Number"), Is(":"), Of("Path"), Is(" "), Name;
    b"IVRS" "I/O Virtualization Hardware" Unit "box": Of("DeviceID"), Is(" at "), Of("IOMMU Base Address");
    b"IVRS" "I/O Virtualization Memory" Unit "mem": Size("IVMD memory block length"), Is(" from "),
        Of("IVMD start address");
    b"IVRS" "Special" Unit "dev": Of("Source DeviceID"), Is(" "), Of("Variety"), Is(" "), Of("Handle");
    b"IVRS" "" Unit "dev": Of("DeviceID"), Is(" "), Name;
    b"IORT" "ID" Unit "dev": Is("from "), Of("Input base"), Is(", "), Of("Number of IDs"), Is(" IDs to "),
        Of("Output base");
    b"IORT" "Named" Unit "box": Of("Device object name");
    b"IORT" "Root" Unit "box": Is("segment "), Of("PCI Segment number");
    b"IORT" "SMMUv3" Unit "box": Of("Model"), Is(" at "), Of("Base Address");
    b"IORT" "SMMU" Unit "box": Of("Model"), Is(" at "), Of("Base address");
    b"IORT" "" Unit "box": Name;
    b"APIC" "GIC CPU" Gic "cpu" 12: Of("ACPI Processor UID");
    b"APIC" "GIC D" Gic "box": Is("distributor at "), Of("Physical Base Address"), Is(", "), Of("GIC version");
    b"APIC" "GIC M" Gic "box": Is("MSI frame "), Of("GIC MSI Frame ID"), Is(" at "), Of("Physical Base Address");
    b"APIC" "GIC R" Gic "box": Is("redistributors from "), Of("Discovery Range Base Address");
    b"APIC" "GIC I" Gic "box": Is("ITS "), Of("GIC ITS ID"), Is(" at "), Of("Physical Base Address");
}

/// How a structure of a table is drawn, if it is.
pub(super) fn drawn_of(sheet: &Sheet<'_>, structure: &Part) -> Option<&'static Drawn> {
    DRAWN.iter().find(|drawn| sheet.is(drawn.table) && structure.name.starts_with(drawn.name))
}

/// Prints the text of a structure's box.
pub(super) fn print_line(sheet: &Sheet<'_>, structure: usize, line: &[Word], out: &mut Html) {
    for word in line {
        match word {
            Is(text) => out.markup(text),
            Name => out.fill("$", &[Bytes(sheet.side.parts[structure].name.as_bytes())]),
            Of(field) | Size(field) | Two(field) => print_fields(sheet, structure, field, word, out),
        }
    }
}

/// Prints the fields of a structure that have a name, after its type and its length, with `/` between them.
fn print_fields(sheet: &Sheet<'_>, structure: usize, field: &str, word: &Word, out: &mut Html) {
    let mut slash = "";
    for item in sheet.side.items_in(structure) {
        if item.part != structure || item.name != field || item.within < 5 && field == "Length" {
            continue;
        }
        out.markup(std::mem::replace(&mut slash, "/"));
        let number = number_of(sheet.side.bytes(item.offset, item.length));
        match (word, sheet.side.meaning(item)) {
            (Size(_), _) => {
                let (size, unit) = size_of(number);
                out.fill("$ $", &[Decimal(size), Text(unit)]);
            }
            (Two(_), _) => out.fill("$", &[Padded(number, 2)]),
            (_, "") if field == "Flags" => {}
            (_, "") => out.words("#", &[number]),
            (_, meaning) => out.fill("$", &[Words(meaning, 26)]),
        }
    }
}
