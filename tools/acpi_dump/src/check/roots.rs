//! What leads to the tables: the RSDP, the RSDT and the XSDT (ACPI 6.5, sections 5.2.5, 5.2.7 and 5.2.8).

use crate::check::findings::Findings;
use crate::check::machine::Machine;
use crate::check::numbers::Numbers;
use crate::check::rules::rules;
use crate::check::spans::{Span, overlaps};
use crate::prelude::*;
use acpi_programs::input::status::Status;

rules! {
    ROOT_NULL_POINTER = Warning "root-null-pointer", "ACPI 6.5, section 5.2.8",
        "The root table lists the address 0", "no table is at 0",
        "Remove the entry, and shorten the table's Length by it. An OS may map address 0 and judge what is there as a \
         table.";
    ROOT_LISTED_TWICE = Warning "root-listed-twice", "ACPI 6.5, section 5.2.8",
        "The root table lists an address twice", "the address # is also at #",
        "List each table once. An OS may load an SSDT that is listed twice a second time, and fails at its first name.";
    ROOT_LISTS_DIFFER = Warning "root-lists-differ", "ACPI 6.5, section 5.2.5.3",
        "The RSDT and the XSDT list different tables", "",
        "Install and remove tables in both lists, or publish the XSDT alone. An OS reads the XSDT, older ones and \
         some loaders the RSDT, and they would see two machines.";
    ROOT_RSDT_IN_USE = Note "root-rsdt-in-use", "ACPI 6.5, section 5.2.8",
        "An RSDT leads to the tables of a machine since ACPI 2.0, which has an XSDT", "",
        "Publish an XSDT too, and name it in an RSDP of revision 2. No table that an RSDT lists can be above 4 GiB.";
    ROOT_SECOND_TABLE = Warning "root-second-table", "ACPI 6.5, section 5.2.6",
        "A table of which a machine has one is there twice", "a machine has one of them",
        "Remove one of the two, such as one that an earlier stage of the firmware left. An OS reads the first only.";
    ROOT_NOTHING_THERE = Note "root-nothing-there", "ACPI 6.5, section 5.2.8",
        "The input has no byte of a table that is listed", "",
        "If the input is all of the memory, correct the entry's address. If it is a part, take the table's memory \
         into the dump.";
    ROOT_NO_FADT = Error "root-no-fadt", "ACPI 6.5, section 5.2.9",
        "No FADT is listed", "lists no FADT",
        "Install a FADT, and list it in the XSDT. Without it an OS finds neither the DSDT nor the registers of power \
         management, and doesn't use ACPI.";
    ROOT_NO_MADT = Warning "root-no-madt", "ACPI 6.5, section 5.2.12",
        "No MADT is listed", "lists no MADT",
        "Install a MADT with the processors and the interrupt controllers. Without it an OS starts one processor at \
         best, and a machine of GICs doesn't boot.";
    ROOT_OVERLAP = Error "root-overlap", "ACPI 6.5, section 5.2",
        "Two tables share bytes", "shares bytes with the table at #",
        "Give each table memory of its own for its whole Length. What is written to one of the two, if only its \
         checksum, changes the other.";
}

/// The signatures of tables of which a machine has one.
const SINGLE: &str = "APIC BERT BGRT CPEP DBG2 DMAR DSDT ECDT EINJ ERST FACP FACS FPDT GTDT HEST HMAT IORT IVRS \
                      MCFG MSCT NFIT PCCT PPTT RHCT SBST SLIT SPCR SRAT TPM2 WAET WDAT WSMT";

/// The pointers of the root table, and of the RSDT beside it, as lists of numbers.
const LISTED: u64 = 0;

const BESIDE: u64 = 1;

/// Judges what leads to the tables, and where these are.
pub(crate) fn check_roots(machine: &Machine<'_>, findings: &mut Findings) {
    let mut pointers = Numbers::new();
    if let Some((index, xsdt)) = machine.first(Signature::XSDT) {
        findings.table = index;
        add_pointers(LISTED, xsdt, 8, &mut pointers);
        add_pointers(BESIDE, machine.rsdt, 4, &mut pointers);
        check_pointers(!machine.rsdt.is_empty(), &mut pointers, findings);
        check_listed(machine, findings);
    } else if let Some((index, rsdt)) = machine.first(Signature::RSDT) {
        findings.table = index;
        add_pointers(LISTED, rsdt, 4, &mut pointers);
        check_pointers(false, &mut pointers, findings);
        check_revision(machine, findings);
        check_listed(machine, findings);
    }
    check_second(machine, findings);
    check_overlap(machine, findings);
}

/// Adds the pointers of a root table, each of `width` bytes, to a list.
fn add_pointers(list: u64, table: &[u8], width: usize, pointers: &mut Numbers) {
    for (pointer, offset) in table.get(36..).unwrap_or(&[]).chunks_exact(width).zip((36..).step_by(width)) {
        pointers.push(list, number_of(pointer), offset);
    }
}

/// Judges the pointers of the root table, and compares an XSDT with the RSDT that is beside it.
fn check_pointers(has_beside: bool, pointers: &mut Numbers, findings: &mut Findings) {
    findings.add_repeated(&[&ROOT_LISTED_TWICE], pointers);
    for (list, address, offset) in &pointers.all {
        let (list, address) = (*list, *address);
        if address == 0 {
            if list == LISTED {
                findings.add(&ROOT_NULL_POINTER, *offset, &[]);
            }
        } else if list == BESIDE {
            if !pointers.has(LISTED, address) {
                findings.tell(&ROOT_LISTS_DIFFER, 4, format!("the RSDT lists {address:#x} as well"));
            }
        } else if has_beside && address < 1 << 32 && !pointers.has(BESIDE, address) {
            findings.tell(&ROOT_LISTS_DIFFER, *offset, format!("the RSDT doesn't list {address:#x}"));
        }
    }
}

/// Judges that an RSDT leads to the tables, by the revisions of the RSDP and the FADT.
fn check_revision(machine: &Machine<'_>, findings: &mut Findings) {
    let fadt = machine.first(Signature::FADT).map_or(0, |(_, fadt)| field(fadt, 8, 1));
    let rsdp = field(machine.rsdp, 15, 1);
    if rsdp >= 2 {
        findings.tell(&ROOT_RSDT_IN_USE, 0, format!("the RSDP has revision {rsdp}, and so an XSDT"));
    } else if fadt >= 3 {
        let message = format!("the FADT has revision {fadt}, as machines with an XSDT have it");
        findings.tell(&ROOT_RSDT_IN_USE, 0, message);
    }
}

/// Finds that the root table lists no FADT, or no MADT, if an RSDP leads to it or there are three other tables or more,
/// and the input has all tables that it lists, as far as that can be told.
fn check_listed(machine: &Machine<'_>, findings: &mut Findings) {
    if machine.rsdp.is_empty() && machine.entries.len() < 4 {
        return;
    }
    if machine.entries.iter().any(|entry| entry.bytes.is_empty()) {
        return;
    }
    for (signature, rule) in [(Signature::FADT, &ROOT_NO_FADT), (Signature::MADT, &ROOT_NO_MADT)] {
        if !machine.entries.iter().any(|entry| own_signature(entry.bytes) == signature) {
            findings.add(rule, 4, &[]);
        }
    }
}

/// Finds second tables of which a machine has one, unless the one before it is at the same place.
fn check_second(machine: &Machine<'_>, findings: &mut Findings) {
    let mut tables = Numbers::new();
    for (index, entry) in machine.entries.iter().enumerate() {
        if SINGLE.contains(own_signature(entry.bytes).as_str().unwrap_or("-")) {
            tables.push(0, field(entry.bytes, 0, 4), index);
        }
    }
    tables.sort();
    let mut before = (0, None);
    for (_, letters, index) in &tables.all {
        let place = machine.entries.get(*index).and_then(|entry| entry.place.address());
        let is_same_place = place == before.1 && !matches!(place, None | Some(0));
        if before.0 == *letters && !is_same_place {
            findings.table = *index;
            findings.add(&ROOT_SECOND_TABLE, 0, &[]);
        }
        before = (*letters, place);
    }
}

/// Finds tables that have no bytes, and those that share some, of which it takes the one of a higher address.
fn check_overlap(machine: &Machine<'_>, findings: &mut Findings) {
    let mut spans = Vec::new();
    for (index, entry) in machine.entries.iter().enumerate() {
        let address = entry.place.address().unwrap_or(0);
        if address == 0 {
            continue;
        }
        if let Some(more) = entry.bytes.len().checked_sub(1) {
            spans.push(Span::of(address, more as u64, index, 0));
        } else if !matches!(entry.status, Status::NotHere) {
            findings.table = index;
            findings.tell(&ROOT_NOTHING_THERE, 0, printed(|out| out.value(&entry.status)));
        }
    }
    for (before, span) in overlaps(&mut spans) {
        if span.first != before.first {
            findings.table = span.offset;
            findings.add(&ROOT_OVERLAP, 0, &[before.first]);
        }
    }
}
