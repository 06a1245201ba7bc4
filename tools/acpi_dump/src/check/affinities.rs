//! The SRAT and the SLIT (ACPI 6.5, sections 5.2.16 and 5.2.17).

use crate::check::findings::Findings;
use crate::check::machine::Machine;
use crate::check::numbers::{Kept, Numbers};
use crate::check::pieces::Pieces;
use crate::check::rules::rules;
use crate::check::spans::{Span, overlaps};
use crate::prelude::*;
use acpi_programs::walk::share::share_of;
use zacpi::base::bytes::skip;
use zacpi::base::entries::split_front;
use zacpi::madt::MADT_GRAMMAR;
use zacpi::numa::Distances;
use zacpi::numa::srat::{SRAT_GRAMMAR, SratEntry};

rules! {
    SRAT_NO_DOMAIN = Warning "srat-no-domain", "ACPI 6.5, section 5.2.16",
        "An enabled processor of the MADT has no domain", "",
        "Add an enabled entry for the processor, by its APIC ID or its UID. An OS takes it as of domain 0, and gives \
         it memory that may be far.";
    SRAT_UNKNOWN_PROCESSOR = Warning "srat-unknown-processor", "ACPI 6.5, section 5.2.16",
        "An enabled entry is of a processor that the MADT lacks", "",
        "Correct the APIC ID or the UID, or clear Enabled (bit 0 of Flags) in the entry. Its domain may have no \
         processor otherwise.";
    SRAT_OVERLAP = Error "srat-overlap", "ACPI 6.5, section 5.2.16.2",
        "Ranges of memory of two domains overlap", "# is in domain %, and in domain % by the range at #",
        "Correct Base Address and Length, so that each byte is of one domain. Linux uses none of the domains if two \
         overlap.";
    SRAT_EMPTY = Warning "srat-empty", "ACPI 6.5, section 5.2.16.2",
        "A range of memory has no bytes", "is %",
        "Write the length of the range, or remove the entry.";
    SRAT_PAST_END = Error "srat-past-end", "ACPI 6.5, section 5.2.16.2",
        "A range of memory ends above 2^64", "# bytes from # on end above 2^64",
        "Correct Base Address or Length: their sum is 2^64 at most.";
    SRAT_REPEATED = Warning "srat-repeated", "ACPI 6.5, section 5.2.16.2",
        "Ranges of memory of one domain overlap", "# is in the range at # too",
        "Join the ranges, or shorten one, so that each byte is listed once. Flags of the two may contradict each \
         other.";
    SRAT_RESERVED_TYPE = Note "srat-reserved-type", "ACPI 6.5, section 5.2.16",
        "An entry has a reserved type", "# is reserved",
        "Write a type that the specification has. An OS skips the entry, and its processor or memory has no domain \
         then.";
    SLIT_NO_SRAT = Warning "slit-no-srat", "ACPI 6.5, section 5.2.17",
        "There are localities, but no SRAT says what is in them", "the machine has no SRAT",
        "Add an SRAT that says which memory and processors the localities have, or remove the SLIT. Distances alone \
         tell an OS nothing.";
    SLIT_DIAGONAL = Error "slit-diagonal", "ACPI 6.5, section 5.2.17",
        "The distance of a locality from itself isn't 10", "locality % is at % from itself",
        "Write 10, to which all other distances are relative. Linux ignores a SLIT with another one.";
    SLIT_RESERVED_DISTANCE = Error "slit-reserved-distance", "ACPI 6.5, section 5.2.17",
        "A distance is one of 0 to 9, which are reserved", "locality % is at % from locality %",
        "Write 255 if the one can't be reached from the other, else a distance over 10. Linux ignores a SLIT with a \
         lower one.";
    SLIT_ASYMMETRIC = Note "slit-asymmetric", "ACPI 6.5, section 5.2.17",
        "Two localities are at different distances from each other", "% from % to %, % from % to %",
        "Write one distance for both ways. If the ways do differ, nothing is wrong.";
    SLIT_TOO_FEW = Warning "slit-too-few", "ACPI 6.5, section 5.2.17",
        "A domain of the SRAT isn't one of the localities", "domain %, and the SLIT has % localities",
        "Set Number of System Localities to one more than the highest domain of the SRAT, and write the distances of \
         all of them.";
}

// The lists of numbers that are judged together: of processors those by the ids of their local APICs, and the list
// after each those by their UIDs.
const PLACED: u64 = 0; // by the SRAT

const LISTED: u64 = 2; // by the MADT

const ENABLED: u64 = 4; // those of them that are enabled

const DOMAINS: u64 = 6; // of the SRAT

/// The enabled processors of a SRAT.
const PLACES: [Kept; 3] = [(0, PLACED, (3, 1), 4), (2, PLACED, (8, 4), 12), (3, PLACED + 1, (6, 4), 10)];

/// The processors of a MADT.
const PROCESSORS: [Kept; 6] = [
    (0, LISTED, (3, 1), 0),
    (0, ENABLED, (3, 1), 4),
    (9, LISTED, (4, 4), 0),
    (9, ENABLED, (4, 4), 8),
    (0xb, LISTED + 1, (8, 4), 0),
    (0xb, ENABLED + 1, (8, 4), 12),
];

/// Judges the first SRAT beside the first MADT and the first SLIT.
pub(crate) fn check_affinities(machine: &Machine<'_>, findings: &mut Findings) {
    let Some((index, srat)) = machine.first(Signature::SRAT) else {
        if let Some((index, _)) = machine.first(Signature::SLIT)
            && machine.is_whole()
        {
            findings.table = index;
            findings.add(&SLIT_NO_SRAT, 0, &[]);
        }
        return;
    };
    findings.table = index;
    let mut numbers = Numbers::new();
    add_entries(srat, &mut numbers);
    let madt = machine.first(Signature::MADT);
    let has_processors = madt.is_some_and(|(_, madt)| add_processors(madt, &mut numbers));
    numbers.sort();
    if let Some((_, slit)) = machine.first(Signature::SLIT) {
        check_localities(Distances::over(slit).localities(), &numbers, findings);
    }
    if let Some((madt, _)) = madt
        && has_processors
    {
        check_processors(index, madt, &numbers, findings);
    }
}

/// Adds the processors of a MADT. Returns whether these can be compared: local SAPICs the SRAT names by two numbers.
fn add_processors(madt: &[u8], numbers: &mut Numbers) -> bool {
    let mut has_sapic = false;
    for (offset, entry) in Pieces::of(madt, 44, (1, 1)) {
        let kind = field(entry, 0, 1);
        has_sapic |= kind == 7;
        let least = MADT_GRAMMAR.layout.least_lengths.get(size(kind));
        if entry.len() >= least.copied().unwrap_or(0) {
            numbers.add(&PROCESSORS, offset, entry);
        }
    }
    !has_sapic
}

pub(crate) fn check_ranges(srat: &[u8], findings: &mut Findings) {
    let mut ranges = Vec::new();
    for (offset, entry) in Pieces::of(srat, 48, (1, 1)) {
        let kind = field(entry, 0, 1);
        // Type 7 is a RISC-V hart's.
        if kind > 7 {
            findings.add(&SRAT_RESERVED_TYPE, offset, &[kind]);
        }
        if kind == 1
            && let Some(share) = share_of(srat, entry)
            && let Some(range) = range_of(offset, entry, share.domain as u64, findings)
        {
            ranges.push(range);
        }
    }
    for (before, range) in overlaps(&mut ranges) {
        let (first, place) = (range.first, before.offset as u64);
        if range.owner == before.owner {
            findings.add(&SRAT_REPEATED, range.offset, &[first, place]);
        } else {
            let numbers = &[first, range.owner, before.owner, place];
            findings.add(&SRAT_OVERLAP, range.offset, numbers);
        }
    }
}

/// The range of memory of a domain that the entry at an offset has, if it has bytes. It finds one that has none, or
/// ends above 2^64.
fn range_of(offset: usize, entry: &[u8], domain: u64, findings: &mut Findings) -> Option<Span> {
    let (base, length) = (field(entry, 8, 8), field(entry, 16, 8)); // Base Address, Length
    let at = offset + 16;
    let Some(more) = length.checked_sub(1) else {
        findings.add(&SRAT_EMPTY, at, &[length]);
        return None;
    };
    if base.checked_add(more).is_none() {
        findings.add(&SRAT_PAST_END, at, &[length, base]);
    }
    Some(Span::of(base, more, offset + 8, domain))
}

/// Adds the domains and the processors that the enabled entries of a SRAT name.
fn add_entries(srat: &[u8], numbers: &mut Numbers) {
    let revision = field(srat, 8, 1) as u8; // Revision
    let mut rest = skip(srat, 48);
    while let Some((entry, others)) = split_front(&SRAT_GRAMMAR, rest) {
        let offset = srat.len() - rest.len();
        numbers.add(&PLACES, offset, entry);
        if let Some(entry) = SratEntry::read(revision, entry)
            && entry.is_enabled() != Some(false)
        {
            let (domain, place) = domain_of(&entry);
            numbers.push(DOMAINS, domain as u64, offset + place);
        }
        rest = others;
    }
}

/// The domain of an entry of a SRAT, and its offset in the entry.
fn domain_of(entry: &SratEntry) -> (u32, usize) {
    match entry {
        SratEntry::LocalApic(it) => (it.domain, 2),
        SratEntry::Memory(it) => (it.domain, 2),
        SratEntry::LocalX2Apic(it) => (it.domain, 4),
        SratEntry::Gicc(it) => (it.domain, 2),
        SratEntry::GenericInitiator(it) | SratEntry::GenericPort(it) => (it.domain, 4),
        SratEntry::GicIts(it) => (it.domain, 2),
        _ => (0, 2),
    }
}

/// Judges the processors of a MADT beside the processors of a SRAT.
fn check_processors(srat: usize, madt: usize, numbers: &Numbers, findings: &mut Findings) {
    for (list, number, offset) in &numbers.all {
        let (by_uid, number) = (*list % 2, *number);
        let (table, other, id, why) = match *list - by_uid {
            PLACED => (srat, LISTED, &SRAT_UNKNOWN_PROCESSOR, "isn't in the MADT"),
            ENABLED => (madt, PLACED, &SRAT_NO_DOMAIN, "has no domain in the SRAT"),
            _ => continue,
        };
        if !numbers.has(other + by_uid, number) {
            let what = if by_uid == 0 { "APIC ID" } else { "UID" };
            findings.table = table;
            findings.tell(id, *offset, format!("the processor with the {what} {number} {why}"));
        }
    }
}

/// Judges whether each domain of a SRAT is one of the localities of a SLIT.
fn check_localities(count: u64, numbers: &Numbers, findings: &mut Findings) {
    let mut before = None;
    for (list, domain, offset) in &numbers.all {
        if *list == DOMAINS && *domain >= count && before != Some(*domain) {
            findings.add(&SLIT_TOO_FEW, *offset, &[*domain, count]);
            before = Some(*domain);
        }
    }
}

/// Judges the distances of a SLIT: of each rule, the first from a locality to others.
pub(crate) fn check_distances(slit: &[u8], findings: &mut Findings) {
    let distances = Distances::over(slit);
    let count = distances.localities();
    for from in 0..count {
        let Some(own) = distances.distance(from, from) else {
            return;
        };
        let row = count.saturating_mul(from).saturating_add(44);
        if own != 10 {
            let at = size(row.saturating_add(from));
            findings.add(&SLIT_DIAGONAL, at, &[from, own as u64]);
        }
        let (mut is_low, mut is_other) = (false, false);
        for to in 0..count {
            let Some(distance) = distances.distance(from, to) else {
                break;
            };
            let (at, distance) = (size(row.saturating_add(to)), distance as u64);
            if distance < 10 && from != to && !is_low {
                findings.add(&SLIT_RESERVED_DISTANCE, at, &[to, distance, from]);
                is_low = true;
            }
            if to < from
                && !is_other
                && let Some(back) = distances.distance(to, from)
                && back as u64 != distance
            {
                let numbers = &[distance, from, to, back as u64, to, from];
                findings.add(&SLIT_ASYMMETRIC, at, numbers);
                is_other = true;
            }
        }
    }
}
