//! Units and devices that tables tell of, a line each, by the fields of their structures.

use super::facts::{Fact, Facts};
use crate::document::wide;
use crate::prelude::*;

/// The structures of a type, or the table itself, that have a line.
struct Unit {
    table: &'static [u8; 4],
    kind: Option<u64>,
    subject: &'static str,
    /// What the line begins with, and after a tab the member `kind`.
    name: &'static str,
    of_kind: &'static str,
    /// The parts of the line, in the order of the bytes; of several fields the last part has one after another.
    parts: &'static [Part],
}

/// A part of a line: a text, and the value of a field, which is a member.
struct Part {
    before: &'static str,
    member: &'static str,
    field: &'static str,
    form: Form,
}

#[derive(Clone, Copy, PartialEq)]
enum Form {
    /// A number of up to four bytes, or what it means; of more bytes in hexadecimal digits.
    Value,
    /// A number of bytes, which is a number in a document.
    Length,
    /// A number of bytes.
    Size,
    /// One of a list.
    Item,
}

const fn value(before: &'static str, member: &'static str, field: &'static str) -> Part {
    Part { before, member, field, form: Form::Value }
}

const fn bytes(before: &'static str, member: &'static str, field: &'static str) -> Part {
    Part { before, member, field, form: Form::Size }
}

const CLASS: Part = value(", ", "class", "Platform Class");

const LOG_LENGTH: Part =
    Part { before: ", log of ", member: "log_length", field: "Log Area Minimum Length (LAML)", form: Form::Length };

const LOG: Part = value(" at ", "log", "Log Area Start Address (LASA)");

macro_rules! units {
    ($($table:literal $([$kind:literal])? $subject:literal $name:literal $of:literal: $($part:expr),+;)+) => {
        static UNITS: &[Unit] = &[$(Unit {
            table: $table,
            kind: kind![$($kind)?],
            subject: $subject,
            name: $name,
            of_kind: $of,
            parts: &[$($part),+],
        }),+];
    };
}

macro_rules! kind {
    () => {
        None
    };
    ($kind:literal) => {
        Some($kind)
    };
}

units! {
    b"DMAR" [0] "iommus" "IOMMU" "VT-d": value(", ", "flags", "Flags"),
        value(", segment ", "segment", "Segment Number"),
        value(", registers at ", "registers", "Register Base Address");
    b"IVRS" [0x10] "iommus" "IOMMU" "AMD, IVHD 0x10": value(", function ", "function", "DeviceID"),
        value(", registers at ", "registers", "IOMMU Base Address"),
        value(", segment ", "segment", "PCI Segment Group");
    b"IVRS" [0x11] "iommus" "IOMMU" "AMD, IVHD 0x11": value(", function ", "function", "DeviceID"),
        value(", registers at ", "registers", "IOMMU Base Address"),
        value(", segment ", "segment", "PCI Segment Group");
    b"IVRS" [0x40] "iommus" "IOMMU" "AMD, IVHD 0x40": value(", function ", "function", "DeviceID"),
        value(", registers at ", "registers", "IOMMU Base Address"),
        value(", segment ", "segment", "PCI Segment Group");
    b"IORT" [3] "iommus" "IOMMU" "Arm": value(", registers at ", "registers", "Base address"),
        bytes(", ", "length", "Span"), value(", ", "model", "Model");
    b"IORT" [4] "iommus" "IOMMU" "Arm": value(", registers at ", "registers", "Base Address"),
        value(", ", "model", "Model");
    b"VIOT" [3] "iommus" "IOMMU" "virtio": value(", segment ", "segment", "PCI Segment"),
        value(", function ", "function", "PCI BDF number");
    b"VIOT" [4] "iommus" "IOMMU" "virtio": value(", registers at ", "registers", "Base address");
    b"TPM2" "tpms" "TPM" "2.0": CLASS, value(", ", "start_method", "Start Method"), LOG_LENGTH, LOG;
    b"TCPA" "tpms" "TPM" "1.2": CLASS, LOG_LENGTH, LOG;
    b"NFIT" [0] "nvdimm_ranges" "NVDIMM range " "": value("", "range", "SPA Range Structure Index"),
        value("\t", "kind", "Address Range Type GUID"),
        value(" from ", "base", "System Physical Address Range Base"),
        bytes(" on, ", "length", "System Physical Address Range Length");
    b"NFIT" [1] "nvdimms" "NVDIMM " "": value("", "handle", "NFIT Device Handle"),
        value("\trange ", "range", "SPA Range Structure Index"), bytes(", ", "length", "NVDIMM Region Size"),
        value(", ", "flags", "NVDIMM State Flags");
    b"GTDT" "arm_timers" "Arm timer" "generic":
        value(", interrupts: secure EL1 ", "secure_el1", "Secure EL1 Timer GSIV"),
        value(", non-secure EL1 ", "non_secure_el1", "Non-Secure EL1 Timer GSIV"),
        value(", virtual EL1 ", "virtual_el1", "Virtual EL1 Timer GSIV"), value(", EL2 ", "el2", "EL2 Timer GSIV"),
        value(", virtual EL2 ", "virtual_el2", "Virtual EL2 Timer GSIV");
    b"GTDT" [0] "arm_timers" "Arm timer" "block": value(", registers at ", "registers", "GT Block Physical address"),
        value(", timers ", "timers", "GT Block Timer Count");
    b"GTDT" [1] "arm_timers" "Arm timer" "watchdog":
        value(", refreshed at ", "refresh", "RefreshFrame Physical Address"),
        value(", registers at ", "registers", "WatchdogControlFrame Physical Address"),
        value(", interrupt ", "interrupt", "Watchdog Timer GSIV");
    b"CEDT" [0] "cxl_host_bridges" "CXL host bridge " "": value("", "uid", "UID"),
        value("\tregisters at ", "registers", "Base"), bytes(", ", "length", "Length");
    b"CEDT" [1] "cxl_windows" "CXL window" "": value("\tfrom ", "base", "Base HPA"),
        bytes(" on, ", "length", "Window Size"), value(", ", "ways", "Encoded Number of Interleave Ways (ENIW)"),
        value(", ", "restrictions", "Window Restrictions"),
        Part { before: ", host bridge ", member: "host_bridges", field: "Interleave Target List", form: Form::Item, };
}

/// The lines of a table's units, as a walk over it comes to their fields.
struct Units<'a> {
    table: &'a [u8],
    facts: &'a mut Facts,
    /// How deep the structure is that the walk is in.
    depth: u32,
    /// The parts that are left of the line that has begun.
    left: &'static [Part],
}

impl Units<'_> {
    fn start(&mut self, kind: Option<u64>) {
        self.left = &[];
        if let Some(unit) = UNITS.iter().find(|unit| self.table.starts_with(unit.table) && unit.kind == kind) {
            self.left = unit.parts;
            self.facts.next(unit.subject).text(unit.name);
            if !unit.of_kind.is_empty() {
                self.facts.text("\t").shown("kind", unit.of_kind);
            }
        }
    }
}

/// The value of a field as a line has it: a number of bytes, what it means, or the number. Of a GUID with a name it is
/// the name.
fn words_of(shown: &Field<'_>, form: Form) -> String {
    let number = number_of(shown.bytes);
    match (form, shown.label.meaning) {
        (Form::Size | Form::Length, _) => {
            let (size, unit) = size_of(number);
            format!("{size} {unit}")
        }
        (_, Meaning::Codes | Meaning::Flags | Meaning::Guid | Meaning::Function) => {
            let meaning = printed(|out| print_meaning(shown, out));
            let meaning = meaning.trim();
            meaning.rsplit_once("  ").map_or(meaning, |(_, name)| name).to_string()
        }
        (_, Meaning::Decimal) => number.to_string(),
        _ => wide(number),
    }
}

impl Show for Units<'_> {
    fn field(&mut self, shown: &Field<'_>) {
        let [part, left @ ..] = self.left else {
            return;
        };
        if self.depth > 1 || part.field != shown.label.name {
            return;
        }
        let (number, words) = (number_of(shown.bytes), words_of(shown, part.form));
        if !words.is_empty() {
            self.facts.text(part.before);
        }
        match shown.label.meaning {
            Meaning::Codes | Meaning::Flags | Meaning::Function => self.facts.code(part.member, number, words),
            _ if part.form == Form::Item => self.facts.text(words).item(part.member, Fact::Number(number)),
            Meaning::Guid => self.facts.text(&words).member(part.member, Fact::Text(words)),
            _ if shown.bytes.len() > 4 && part.form != Form::Length => {
                self.facts.text(words).member(part.member, Fact::Text(wide(number)))
            }
            _ => self.facts.text(words).member(part.member, Fact::Number(number)),
        };
        if !left.is_empty() {
            self.left = left;
        }
    }

    fn begin(&mut self, group: &Group) {
        if self.depth == 0 {
            self.start(group.kind);
        }
        self.depth += 1;
    }

    fn end(&mut self) {
        self.depth -= 1;
        if self.depth == 0 {
            self.left = &[];
        }
    }
}

pub(crate) fn add_units(entries: &[Entry<'_>], facts: &mut Facts) {
    let has_units = |entry: &&Entry<'_>| UNITS.iter().any(|unit| entry.bytes.starts_with(unit.table));
    for entry in entries.iter().filter(|entry| entry.status.is_read()).filter(has_units) {
        let mut units = Units { table: entry.bytes, facts, depth: 0, left: &[] };
        units.start(None);
        walk_table(own_signature(entry.bytes), entry.bytes, &mut units);
    }
}
