//! The MADT (ACPI 6.5, section 5.2.12).

use crate::check::findings::Findings;
use crate::check::numbers::{Kept, Numbers};
use crate::check::pieces::Pieces;
use crate::check::rules::{Rule, rules};
use crate::prelude::*;
use zacpi::base::bytes::skip;
use zacpi::base::entries::split_front;
use zacpi::madt::MADT_GRAMMAR;

rules! {
    MADT_RESERVED_TYPE = Note "madt-reserved-type", "ACPI 6.5, section 5.2.12",
        "An entry has a reserved type", "# is reserved",
        "Write a type that the specification has, or one from 0x80 on, which are the OEM's. An OS skips the entry.";
    MADT_DUPLICATE_APIC_ID = Error "madt-duplicate-apic-id", "ACPI 6.5, section 5.2.12",
        "Two enabled processors have one APIC ID", "APIC ID # is also at #",
        "Give each processor the APIC ID that it has, and clear Enabled (bit 0 of Flags) in entries of no processor. \
         An OS starts processors by this id.";
    MADT_DUPLICATE_UID = Error "madt-duplicate-uid", "ACPI 6.5, section 5.2.12",
        "Two enabled processors have one UID", "UID # is also at #",
        "Give each processor a UID of its own, and its device in AML the same _UID. By it an OS finds the processor's \
         idle states and frequencies.";
    MADT_DUPLICATE_MPIDR = Error "madt-duplicate-mpidr", "ACPI 6.5, section 5.2.12.14",
        "Two enabled processors have one MPIDR", "MPIDR # is also at #",
        "Set MPIDR to the affinity fields of the processor's MPIDR_EL1. An OS starts processors by it: Linux ignores \
         the second one.";
    MADT_X2APIC_BELOW_255 = Note "madt-x2apic-below-255", "ACPI 6.5, section 5.2.12.12",
        "A Local x2APIC is for an id under 255", "% is one that a Processor Local APIC can have (% such ids)",
        "Write ids under 255 as Processor Local APIC (type 0), and only those from 255 on as Processor Local x2APIC \
         (type 9).";
    MADT_NO_PROCESSOR = Error "madt-no-processor", "ACPI 6.5, section 5.2.12",
        "No processor is enabled", "none of % processors is enabled",
        "Set Enabled (bit 0 of Flags) in the entry of each processor that is there. An OS starts no other.";
    MADT_PROCESSOR_FLAGS = Note "madt-processor-flags", "ACPI 6.5, section 5.2.12.2",
        "A reserved flag of a local APIC is set", "has the reserved flags #",
        "Write 0 to all bits of Flags but Enabled (bit 0) and Online Capable (bit 1).";
    MADT_NO_IO_APIC = Warning "madt-no-io-apic", "ACPI 6.5, section 5.2.12.3",
        "There are local APICs, but no I/O APIC", "no I/O APIC serves it",
        "Add an entry for each I/O APIC, with its address and its interrupt base. Without one an OS has the \
         interrupts of the 8259s at best.";
    MADT_DUPLICATE_IO_APIC = Warning "madt-duplicate-io-apic", "ACPI 6.5, section 5.2.12.3",
        "Two I/O APICs have one id", "id # is also at #",
        "Give each I/O APIC an id of its own. Device scopes of DMAR and special devices of IVRS name I/O APICs by it.";
    MADT_DUPLICATE_GSI_BASE = Error "madt-duplicate-gsi-base", "ACPI 6.5, section 5.2.12.3",
        "Two I/O APICs have one interrupt base", "base # is also at #",
        "Set Global System Interrupt Base to the base of the I/O APIC before it, plus how many interrupts that one \
         has.";
    MADT_GSI_0_NOWHERE = Warning "madt-gsi-0-nowhere", "ACPI 6.5, section 5.2.12.3",
        "No I/O APIC has the global system interrupt 0", "% is the lowest one",
        "Set Global System Interrupt Base to 0 in the I/O APIC that the ISA interrupts are wired to: they are 0 to 15 \
         where no override says otherwise.";
    MADT_OVERRIDE_BUS = Error "madt-override-bus", "ACPI 6.5, section 5.2.12.5",
        "An override is of another bus than ISA", "is %, and for ISA 0",
        "Write 0, which is ISA. The specification has no other bus.";
    MADT_OVERRIDE_SOURCE = Warning "madt-override-source", "ACPI 6.5, section 5.2.12.5",
        "An override is of a source above 15", "% is no interrupt of ISA",
        "Set Source to the ISA interrupt, from 0 to 15. Other interrupts need no override: resources in AML have \
         their polarity and mode.";
    MADT_OVERRIDE_TWICE = Error "madt-override-twice", "ACPI 6.5, section 5.2.12.5",
        "A source has two overrides", "source # is also at #",
        "Keep the override that says how the interrupt is wired. OSs differ in which of the two they take.";
    MADT_OVERRIDE_NOWHERE = Error "madt-override-nowhere", "ACPI 6.5, section 5.2.12.5",
        "An override is to an interrupt that no I/O APIC has", "no I/O APIC has interrupt %",
        "Correct Global System Interrupt, or add the I/O APIC that has it. An OS can't route the interrupt otherwise, \
         which may be the timer's or the SCI.";
    MADT_INTI_FLAGS = Error "madt-inti-flags", "ACPI 6.5, section 5.2.12.5",
        "A polarity or a trigger mode is the reserved one", "",
        "Write 0 (as the bus has it), 1 (active high, edge) or 3 (active low, level) to the polarity (bits 0 and 1) \
         and to the trigger mode (bits 2 and 3).";
    MADT_LINT = Error "madt-lint", "ACPI 6.5, section 5.2.12.7",
        "A LINT pin is neither 0 nor 1", "LINT% isn't there",
        "Write 0 or 1: the pin of the local APIC that NMI is wired to, on most PCs 1.";
    MADT_NMI_UID = Warning "madt-nmi-uid", "ACPI 6.5, section 5.2.12.7",
        "An NMI line is of a UID that no processor has", "no processor has UID %",
        "Write the UID of a processor that the MADT lists, or all ones if the line is every processor's.";
    MADT_NO_GICD = Error "madt-no-gicd", "ACPI 6.5, section 5.2.12.15",
        "There are GIC CPU interfaces, but no distributor", "no distributor serves it",
        "Add a GIC Distributor (type 0x0C), with its address and the version of the GIC. Without it an OS has no \
         interrupts.";
    MADT_SECOND_GICD = Error "madt-second-gicd", "ACPI 6.5, section 5.2.12.15",
        "There are two distributors", "distributor # is also at #",
        "Remove one: a machine has one distributor.";
}

/// The lists of numbers that entries are judged by together. No number is to come twice in a list that has a rule.
const APIC_IDS: u64 = 0;

const UIDS: u64 = 1; // of enabled processors

const MPIDRS: u64 = 2;

const IO_APICS: u64 = 3;

const BASES: u64 = 4;

const SOURCES: u64 = 5;

const DISTRIBUTORS: u64 = 6;

const OVERRIDES: u64 = 7;

const LOW: u64 = 8; // of enabled local x2APICs, under 255

/// The rules that no number comes twice in a list, for the first lists.
static REPEATED: [&Rule; 7] = [
    &MADT_DUPLICATE_APIC_ID,
    &MADT_DUPLICATE_UID,
    &MADT_DUPLICATE_MPIDR,
    &MADT_DUPLICATE_IO_APIC,
    &MADT_DUPLICATE_GSI_BASE,
    &MADT_OVERRIDE_TWICE,
    &MADT_SECOND_GICD,
];

/// The numbers of entries that go to the lists.
const KEPT: [Kept; 11] = [
    (0, UIDS, (2, 1), 4),
    (0, APIC_IDS, (3, 1), 4),
    (1, IO_APICS, (2, 1), 0),  // I/O APIC ID
    (1, BASES, (8, 4), 0),     // Global System Interrupt Base
    (2, SOURCES, (3, 1), 0),   // Source
    (2, OVERRIDES, (4, 4), 0), // Global System Interrupt
    (9, UIDS, (12, 4), 8),
    (9, APIC_IDS, (4, 4), 8),
    (0xb, UIDS, (8, 4), 12),
    (0xb, MPIDRS, (68, 8), 12),
    (0xc, DISTRIBUTORS, (0, 0), 0),
];

/// Processors: the type of the entry, and the offset of its flags.
const PROCESSORS: [(u64, usize); 6] = [(0, 4), (7, 8), (9, 8), (0xb, 12), (0x11, 11), (0x18, 4)];

pub(crate) fn check_madt(madt: &[u8], findings: &mut Findings) {
    let mut numbers = Numbers::new();
    let mut rest = skip(madt, 44);
    while let Some((entry, others)) = split_front(&MADT_GRAMMAR, rest) {
        let offset = madt.len() - rest.len();
        numbers.add(&KEPT, offset, entry);
        let (id, flags) = (field(entry, 4, 4), field(entry, 8, 4)); // of a Processor Local x2APIC
        if field(entry, 0, 1) == 9 && id < 255 && flags & 1 != 0 {
            numbers.push(LOW, id, offset + 4);
        }
        check_entry(offset, entry, findings);
        rest = others;
    }
    findings.add_repeated(&REPEATED, &mut numbers);
    check_controllers(&numbers, findings);
    check_references(&numbers, findings);
    check_low(&numbers, findings);
    check_enabled(madt, findings);
}

fn check_entry(offset: usize, entry: &[u8], findings: &mut Findings) {
    let kind = field(entry, 0, 1);
    if (0x1c..0x80).contains(&kind) {
        findings.add(&MADT_RESERVED_TYPE, offset, &[kind]);
    }
    check_signal(offset, entry, findings);
}

/// Judges the MPS INTI Flags of the entry at an offset, if it has some.
fn check_signal(offset: usize, entry: &[u8], findings: &mut Findings) {
    let place = match field(entry, 0, 1) {
        2 => 8,
        3 | 8 | 0xa => 2,
        4 => 3usize,
        _ => return,
    };
    let flags = field(entry, place, 2);
    let words = match (flags & 3, flags >> 2 & 3) {
        (2, _) => "polarity 2 is reserved",
        (_, 2) => "trigger mode 2 is reserved",
        _ => return,
    };
    findings.tell(&MADT_INTI_FLAGS, offset + place, words.to_string());
}

fn check_controllers(numbers: &Numbers, findings: &mut Findings) {
    match (numbers.from(APIC_IDS, 0), numbers.from(BASES, 0)) {
        (Some((_, offset)), None) => findings.add(&MADT_NO_IO_APIC, offset, &[]),
        (_, Some((base, offset))) if base != 0 => {
            findings.add(&MADT_GSI_0_NOWHERE, offset, &[base]);
        }
        _ => {}
    }
    if let (Some((_, offset)), None) = (numbers.from(MPIDRS, 0), numbers.from(DISTRIBUTORS, 0)) {
        findings.add(&MADT_NO_GICD, offset, &[]);
    }
}

/// Judges whether an I/O APIC has the interrupt of each override, if there are I/O APICs.
fn check_references(numbers: &Numbers, findings: &mut Findings) {
    if numbers.from(BASES, 0).is_none() {
        return;
    }
    for (list, number, offset) in &numbers.all {
        // Each I/O APIC has at most 256 pins.
        let base = numbers.from(BASES, number.saturating_sub(255));
        if *list == OVERRIDES && !matches!(base, Some((base, _)) if base <= *number) {
            findings.add(&MADT_OVERRIDE_NOWHERE, *offset, &[*number]);
        }
    }
}

fn check_low(numbers: &Numbers, findings: &mut Findings) {
    let count = numbers.place(LOW + 1, 0).saturating_sub(numbers.place(LOW, 0));
    if let Some((id, offset)) = numbers.from(LOW, 0) {
        findings.add(&MADT_X2APIC_BELOW_255, offset, &[id, count as u64]);
    }
}

/// Finds that no processor of a MADT is enabled, if it has some.
fn check_enabled(madt: &[u8], findings: &mut Findings) {
    let (mut first, mut count) = (None, 0u64);
    for (offset, entry) in Pieces::of(madt, 44, (1, 1)) {
        for (kind, place) in &PROCESSORS {
            if field(entry, 0, 1) == *kind {
                if field(entry, *place, 4) & 1 != 0 {
                    return;
                }
                first = first.or(Some(offset.saturating_add(*place)));
                count += 1;
            }
        }
    }
    if let Some(offset) = first {
        findings.add(&MADT_NO_PROCESSOR, offset, &[count]);
    }
}
