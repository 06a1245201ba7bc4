//! The headers of all tables (ACPI 6.5, section 5.2.6), and what all of them reserve.

use crate::check::devices::register_at;
use crate::check::findings::Findings;
use crate::check::rules::rules;
use crate::prelude::*;
use acpi_programs::input::status::Status;
use acpi_programs::walk::fields::unnamed_in;
use std::fmt::{self, Display, Formatter};
use std::ops::RangeInclusive;

rules! {
    HEADER_SUM = Error "header-sum", "ACPI 6.5, section 5.2.6",
        "The bytes of a table don't sum to 0", "",
        "Compute the checksum after the last change to the table, so that its bytes, as many as Length, sum to 0 \
         modulo 256. Some loaders refuse a table with another sum.";
    HEADER_REFUSED = Error "header-refused", "ACPI 6.5, section 5.2.6",
        "A table has no valid header, or its bytes aren't all there", "",
        "Correct the signature, the Length (36 at least) and the address by which the table is listed. If the dump \
         ends before the table does, take all of the table's memory.";
    HEADER_BYTES_AFTER = Warning "header-bytes-after", "ACPI 6.5, section 5.2.6",
        "Bytes come after those that the Length counts", "is %, and % more come",
        "If the bytes belong to the table, count them in Length and correct the checksum. If not, cut the file after \
         Length bytes.";
    TABLE_MALFORMED = Error "table-malformed", "ACPI 6.5, section 5.2",
        "A structure or a list of a table isn't as its type and its length want it", "",
        "Correct the length or the count at this offset, so that the structure ends where its contents do, and within \
         the table. An OS stops here, and misses what follows.";
    HEADER_SHORT = Error "header-short", "ACPI 6.5, section 5.2.6",
        "The Length ends in the fields of the table's revision", "is %, and the fields of revision % take %",
        "Write all fields that this revision has, and count them in Length, or lower Revision to one whose fields are \
         there. An OS takes those past the end as 0, or refuses the table.";
    HEADER_LENGTH = Warning "header-length", "ACPI 6.5, section 5.2.6",
        "The Length isn't one that the table's revision has", "",
        "Set Length to the size that the specification has for this Revision, or correct Revision. Some OSs tell by \
         the one which fields are there, others by the other.";
    HEADER_REVISION = Note "header-revision", "ACPI 6.5, section 5.2.6",
        "No specification has the table's Revision", "no revision % is known",
        "Set Revision to that of the specification by which the fields are written. If that is newer than these \
         rules, nothing is wrong.";
    HEADER_LETTERS = Note "header-letters", "ACPI 6.5, section 5.2.6",
        "OEMID, OEM Table ID or Creator ID has letters that aren't printable", "letters that aren't printable",
        "Write printable ASCII. An OS compares these ids letter by letter, where it corrects the firmware of certain \
         machines.";
    HEADER_RESERVED = Note "header-reserved", "ACPI 6.5, section 5.2.1",
        "A reserved field isn't 0", "isn't 0",
        "Write 0. A later specification may give these bits a meaning, and an OS would act on it.";
    FIELD_CODE = Note "field-code", "ACPI 6.5, section 5.2.1",
        "A code or a flag is one that no specification names", "# is reserved",
        "Write a code that the specification has for this field, and 0 to reserved flags. If the code is of a \
         specification newer than these rules, nothing is wrong.";
}

/// The lengths that a form of a table has.
enum Lengths {
    OneOf(&'static [u64]),
    /// A least one and, in steps, those from that on.
    Steps(u64, u64),
}

use Lengths::{OneOf, Steps};

/// The forms of tables: the signature, the revisions that have it, and the lengths. FADTs of later revisions may have
/// the fields of earlier ones alone. Each table's own specification has them.
static FORMS: [(&str, RangeInclusive<u64>, Lengths); 41] = [
    ("RSDT", 1..=1, Steps(36, 4)),
    ("XSDT", 1..=1, Steps(36, 8)),
    ("FACP", 1..=1, OneOf(&[116])),
    ("FACP", 2..=2, OneOf(&[132])),
    ("FACP", 3..=6, OneOf(&[244, 268, 276])),
    ("DSDT", 1..=2, Steps(36, 1)),
    ("SSDT", 1..=2, Steps(36, 1)),
    ("APIC", 1..=7, Steps(44, 1)),
    ("SBST", 1..=1, OneOf(&[48])),
    ("ECDT", 1..=1, Steps(66, 1)),
    ("SRAT", 1..=3, Steps(48, 1)),
    ("SLIT", 1..=1, Steps(44, 1)),
    ("MSCT", 1..=1, Steps(56, 1)),
    ("BGRT", 1..=1, OneOf(&[56])),
    ("FPDT", 1..=1, Steps(36, 1)),
    ("GTDT", 1..=1, OneOf(&[80])),
    ("GTDT", 2..=3, Steps(96, 1)),
    ("PCCT", 1..=2, Steps(48, 1)),
    ("PPTT", 1..=3, Steps(36, 1)),
    ("HMAT", 1..=2, Steps(40, 1)),
    ("HEST", 1..=2, Steps(40, 1)),
    ("BERT", 1..=1, OneOf(&[48])),
    ("ERST", 1..=1, Steps(48, 32)),
    ("EINJ", 1..=2, Steps(48, 32)),
    ("NFIT", 1..=1, Steps(40, 1)),
    ("HPET", 1..=1, OneOf(&[56])),
    ("MCFG", 1..=1, Steps(44, 16)),
    ("SPCR", 1..=3, OneOf(&[80])),
    ("SPCR", 4..=4, Steps(88, 1)),
    ("DBGP", 1..=1, OneOf(&[52])),
    ("DBG2", 0..=0, Steps(44, 1)),
    ("WAET", 1..=1, OneOf(&[40])),
    ("TPM2", 3..=5, Steps(52, 1)),
    ("BOOT", 1..=1, OneOf(&[40])),
    ("WSMT", 1..=1, OneOf(&[40])),
    ("UEFI", 1..=1, Steps(54, 1)),
    ("TCPA", 0..=255, Steps(50, 1)),
    ("DMAR", 0..=255, Steps(48, 1)),
    ("IVRS", 0..=255, Steps(48, 1)),
    ("IORT", 0..=255, Steps(48, 1)),
    ("VIOT", 0..=255, Steps(48, 1)),
];

impl Lengths {
    fn least(&self) -> u64 {
        match self {
            OneOf(lengths) => lengths[0],
            Steps(least, _) => *least,
        }
    }

    fn have(&self, length: u64) -> bool {
        match self {
            OneOf(lengths) => lengths.contains(&length),
            Steps(least, step) => length >= *least && (length - least).is_multiple_of(*step),
        }
    }
}

impl Display for Lengths {
    fn fmt(&self, f: &mut Formatter<'_>) -> fmt::Result {
        match self {
            OneOf(lengths) => f.write_str(&lengths.iter().map(u64::to_string).collect::<Vec<_>>().join("/")),
            Steps(least, step) => write!(f, "{least}+{step}"),
        }
    }
}

/// Judges a table's header, if it has one, and each field by itself.
pub(crate) fn check_header(entry: &Entry<'_>, findings: &mut Findings) {
    check_status(entry, findings);
    let (signature, mut table) = (own_signature(entry.bytes), entry.bytes);
    let name = signature.as_str().unwrap_or("");
    let mut is_known = true;
    if !entry.bytes.starts_with(b"FACS") && !entry.bytes.starts_with(b"RSD PTR ") {
        if entry.bytes.len() < 36 {
            return;
        }
        table = entry.table();
        is_known = check_form(table, name, findings);
    }
    let mut fields = Fields {
        findings,
        name,
        is_known,
        is_whole: !matches!(entry.status, Status::Cut { .. } | Status::Refused(_)),
        has_codes: is_known && has_codes(table, name),
    };
    walk_table(signature, table, &mut fields);
}

/// Whether the codes and flags of a table count: a FADT's and a MADT's have rules of their own, a HEST's 0 has no name
/// in the layout, and an SPCR whose base address is all zeros is of no console.
fn has_codes(table: &[u8], name: &str) -> bool {
    match name {
        "FACP" | "APIC" | "HEST" => false,
        "SPCR" => register_at(table, 40).is_some(),
        _ => true,
    }
}

/// Judges what the checks of a table say. What they say of a FACS of under 64 bytes is a rule of its own.
fn check_status(entry: &Entry<'_>, findings: &mut Findings) {
    let is_short_facs = entry.bytes.starts_with(b"FACS") && field(entry.bytes, 4, 4) < 64;
    if is_short_facs || entry.bytes.is_empty() {
        return;
    }
    let offset = match entry.status {
        Status::WrongSum { is, should, .. } => {
            return findings.tell(&HEADER_SUM, 9, format!("is 0x{is:02x}, should be 0x{should:02x}"));
        }
        Status::Longer(over) => {
            let numbers = [field(entry.bytes, 4, 4), over as u64];
            return findings.add(&HEADER_BYTES_AFTER, 4, &numbers);
        }
        Status::Cut { .. } | Status::Refused(AcpiError::SdtInvalidLength(_)) => 4,
        Status::Refused(_) => 0,
        _ => return,
    };
    findings.tell(&HEADER_REFUSED, offset, printed(|out| out.value(&entry.status)));
}

/// Judges the letters, the length and the revision in the header of a table of a name. Returns whether the revision
/// is known, or none of that name is.
fn check_form(table: &[u8], name: &str, findings: &mut Findings) -> bool {
    for (offset, end) in [(10, 16), (16, 24), (28, 32)] {
        if !is_printable(&table[offset..end]) {
            findings.add(&HEADER_LETTERS, offset, &[]);
        }
    }
    let revision = field(table, 8, 1);
    let mut forms = FORMS.iter().filter(|(of, ..)| *of == name).peekable();
    let is_known = forms.peek().is_none();
    match forms.find(|(_, revisions, _)| revisions.contains(&revision)) {
        Some((.., lengths)) => check_length(table, lengths, findings),
        None if is_known => {}
        None => {
            findings.add(&HEADER_REVISION, 8, &[revision]);
            return false;
        }
    }
    true
}

/// Judges the length of a table, which is to be one of a form's.
fn check_length(table: &[u8], lengths: &Lengths, findings: &mut Findings) {
    let (length, revision, least) = (field(table, 4, 4), field(table, 8, 1), lengths.least());
    if (36..least).contains(&length) {
        findings.add(&HEADER_SHORT, 4, &[length, revision, least]);
    } else if length >= 36 && !lengths.have(length) {
        findings.tell(&HEADER_LENGTH, 4, format!("is {length}, and for revision {revision} {lengths}"));
    }
}

/// Whether letters are printable ASCII, but for zeros at the end.
fn is_printable(letters: &[u8]) -> bool {
    let end = letters.iter().rposition(|letter| *letter != 0).map_or(0, |last| last + 1);
    letters[..end].iter().all(|letter| (0x20..0x7f).contains(letter))
}

/// What judges the fields of a table of a name by themselves.
struct Fields<'f> {
    findings: &'f mut Findings,
    name: &'f str,
    /// Whether what it reserves is known.
    is_known: bool,
    /// Whether all its bytes are there.
    is_whole: bool,
    /// Whether codes and flags count that its layout doesn't name.
    has_codes: bool,
}

impl Show for Fields<'_> {
    fn malformed(&mut self, offset: u64, fault: Fault) {
        if self.is_whole {
            let message = printed(|out| fault.print(offset, out));
            self.findings.tell(&TABLE_MALFORMED, size(offset), message);
        }
    }

    fn field(&mut self, shown: &Field<'_>) {
        let offset = size(shown.offset);
        if self.has_codes
            && let Some(number) = unnamed_in(shown)
        {
            self.findings.add(&FIELD_CODE, offset, &[number]);
        }
        if !self.is_known || shown.label.name != "Reserved" {
            return;
        }
        // A field of a SRAT is reserved to be 1, and INT_MODEL of ACPI 1.0 may be.
        let may_be_one = matches!((self.name, offset), ("SRAT", 36) | ("FACP", 44));
        let is_one = matches!(shown.bytes, [1] | [1, 0, 0, 0]);
        let is_zero = shown.bytes.iter().all(|byte| *byte == 0);
        if !(is_zero || is_one && may_be_one) {
            self.findings.add(&HEADER_RESERVED, offset, &[]);
        }
    }
}
