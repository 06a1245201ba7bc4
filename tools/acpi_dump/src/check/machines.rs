//! The PPTT (ACPI 6.5, section 5.2.30), the GTDT (section 5.2.25), the PCCT (chapter 14) and the TPM2 (TCG ACPI
//! Specification 1.2).

use crate::check::findings::Findings;
use crate::check::machine::Machine;
use crate::check::numbers::{Kept, Numbers};
use crate::check::pieces::Pieces;
use crate::check::rules::rules;
use crate::prelude::*;

rules! {
    PPTT_OFFSET = Error "pptt-offset", "ACPI 6.5, section 5.2.30",
        "An offset isn't that of a structure of its type", "no structure of its type begins at #",
        "Write the offset of the structure from the first byte of the table. In Parent and Next Level of Cache 0 \
         stands for none.";
    PPTT_CYCLE = Error "pptt-cycle", "ACPI 6.5, section 5.2.30",
        "Parents or levels of caches lead back to where they began", "it leads back to the structure at #",
        "Let Parent lead towards the package, and Next Level of Cache towards memory, and end both with 0. An OS that \
         follows them may hang.";
    PPTT_PROCESSOR_NOWHERE = Warning "pptt-processor-nowhere", "ACPI 6.5, section 5.2.30.1",
        "A processor has a UID that the MADT lacks", "no processor of the MADT has UID %",
        "Write the UID of the processor's entry in the MADT, or clear ACPI Processor ID valid (bit 1 of Flags). An OS \
         finds no caches for it otherwise.";
    PCCT_LENGTH = Error "pcct-length", "ACPI 6.5, chapter 14",
        "A channel's shared memory has no bytes", "is 0",
        "Write the size of the shared memory in bytes, which has the channel's header and room for its data. An OS \
         uses no channel without it.";
    TPM2_LOG = Error "tpm2-log", "TCG ACPI Specification 1.2",
        "The log has a length, and is at address 0", "is #, and the log has bytes",
        "Write the address of the log, in memory that the OS leaves alone, or 0 to LAML if there is no log.";
}

/// The nodes of a PPTT by their types, as lists of offsets: those from this type on lead nowhere.
const OTHERS: u64 = 2;

pub(crate) fn check_cycles(pptt: &[u8], findings: &mut Findings) {
    let mut nodes = Numbers::new();
    for (offset, node) in Pieces::of(pptt, 36, (1, 1)) {
        nodes.push(field(node, 0, 1).min(OTHERS), offset as u64, offset); // Type
    }
    nodes.sort();
    let count = nodes.all.len();
    // The walk in which a node came first, counted from 1.
    let mut walks = vec![0usize; count];
    for start in 0..count {
        let mut at = start;
        for _ in 0..=count {
            let Some(walk) = walks.get_mut(at) else { break };
            if *walk == start + 1
                && let Some((_, place, offset)) = nodes.all.get(at)
            {
                findings.add(&PPTT_CYCLE, offset + 8, &[*place]);
            }
            if *walk != 0 {
                break;
            }
            *walk = start + 1;
            match next_of(pptt, &nodes, at) {
                Some(next) => at = next,
                None => break,
            }
        }
    }
}

/// The place among the nodes of the one that another leads to, if it leads to one.
fn next_of(pptt: &[u8], nodes: &Numbers, at: usize) -> Option<usize> {
    let (kind, _, offset) = nodes.all.get(at)?;
    let (_, node) = Pieces::of(pptt, *offset, (1, 1)).next()?;
    let next = field(node, 8, 4); // Parent, Next Level of Cache
    if *kind == OTHERS || next == 0 || !nodes.has(*kind, next) {
        return None;
    }
    Some(nodes.place(*kind, next))
}

/// The list of the UIDs of a MADT's processors.
const UIDS: u64 = 0;

/// The processors of a MADT.
const PROCESSORS: [Kept; 6] = [
    (0, UIDS, (2, 1), 0),
    (7, UIDS, (12, 4), 0),
    (9, UIDS, (12, 4), 0),
    (0xb, UIDS, (8, 4), 0),
    (0x11, UIDS, (3, 4), 0),
    (0x18, UIDS, (16, 4), 0),
];

/// Finds processors of the first PPTT whose UIDs the first MADT lacks. A node that isn't a leaf has the UID of a
/// container, which is a device of the AML.
pub(crate) fn check_processors(machine: &Machine<'_>, findings: &mut Findings) {
    let (Some((index, pptt)), Some((_, madt))) =
        (machine.first(Signature::from_bytes(*b"PPTT")), machine.first(Signature::MADT))
    else {
        return;
    };
    let mut numbers = Numbers::new();
    for (offset, entry) in Pieces::of(madt, 44, (1, 1)) {
        numbers.add(&PROCESSORS, offset, entry);
    }
    numbers.sort();
    findings.table = index;
    for (offset, node) in Pieces::of(pptt, 36, (1, 1)) {
        // ACPI Processor ID valid and, since revision 2, Node is a Leaf.
        let is_processor = field(node, 4, 4) & 0b1010 == 0b1010;
        let unique = field(node, 12, 4);
        if field(node, 0, 1) == 0 && is_processor && !numbers.has(UIDS, unique) {
            let at = offset + 12;
            findings.add(&PPTT_PROCESSOR_NOWHERE, at, &[unique]);
        }
    }
}
