//! The FACS (ACPI 6.5, section 5.2.10).

use crate::check::findings::Findings;
use crate::check::machine::Machine;
use crate::check::rules::rules;
use crate::prelude::*;

rules! {
    FACS_ALIGNMENT = Warning "facs-alignment", "ACPI 6.5, section 5.2.10",
        "The FACS isn't at a multiple of 64", "is at #",
        "Allocate the FACS at a multiple of 64 bytes, in memory that the OS leaves alone (ACPI NVS).";
    FACS_LENGTH = Error "facs-length", "ACPI 6.5, section 5.2.10",
        "The Length of the FACS is under 64", "is %",
        "Set Length to 64 or more, and have as many bytes. An OS may refuse a shorter FACS, and has neither Global \
         Lock nor waking vector then.";
    FACS_VERSION = Note "facs-version", "ACPI 6.5, section 5.2.10",
        "The Version of the FACS isn't that of the FADT's revision", "is %, should be % beside a FADT of revision %",
        "Set Version to the one that the message names. An OS tells by it whether X_Firmware_Waking_Vector and the \
         flags of later versions are there.";
}

pub(crate) fn check_facs(machine: &Machine<'_>, entry: &Entry<'_>, findings: &mut Findings) {
    if !entry.bytes.starts_with(b"FACS") {
        return;
    }
    if let Place::Address(address) = entry.place
        && address % 64 != 0
    {
        findings.add(&FACS_ALIGNMENT, 0, &[address]);
    }
    let (length, version) = (field(entry.bytes, 4, 4), field(entry.bytes, 32, 1));
    if length < 64 {
        findings.add(&FACS_LENGTH, 4, &[length]);
    } else if let Some((_, fadt)) = machine.first(Signature::FADT) {
        let revision = field(fadt, 8, 1);
        let wanted = revision.clamp(2, 4) - 2;
        if version != wanted {
            findings.add(&FACS_VERSION, 32, &[version, wanted, revision]);
        }
    }
}
