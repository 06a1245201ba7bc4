//! The FADT (ACPI 6.5, section 5.2.9).

use crate::check::findings::Findings;
use crate::check::machine::Machine;
use crate::check::pieces::Pieces;
use crate::check::rules::rules;
use crate::prelude::*;

rules! {
    FADT_DSDT_DIFFERS = Warning "fadt-dsdt-differs", "ACPI 6.5, section 5.2.9",
        "DSDT and X_DSDT are two addresses", "is #, and the field of 32 bits #",
        "Set both to one address, or DSDT to 0. An OS that can use X_DSDT ignores DSDT, an older one reads DSDT: they \
         would load two DSDTs.";
    FADT_FACS_DIFFERS = Warning "fadt-facs-differs", "ACPI 6.5, section 5.2.9",
        "FIRMWARE_CTRL and X_FIRMWARE_CTRL are two addresses", "is #, and the field of 32 bits #",
        "Set both to one address, or FIRMWARE_CTRL to 0. The waking vector is written to the FACS that the OS takes, \
         and the firmware has to read it from that one.";
    FADT_NO_DSDT = Error "fadt-no-dsdt", "ACPI 6.5, section 5.2.9",
        "Neither DSDT nor X_DSDT is an address", "is 0, as X_DSDT is",
        "Set X_DSDT to the address of the DSDT, and DSDT too if it is below 4 GiB. Without a DSDT an OS doesn't use \
         ACPI.";
    FADT_NO_FACS = Error "fadt-no-facs", "ACPI 6.5, section 5.2.9",
        "Neither FIRMWARE_CTRL nor X_FIRMWARE_CTRL is an address on fixed hardware", "is 0, as X_FIRMWARE_CTRL is",
        "Set X_FIRMWARE_CTRL or FIRMWARE_CTRL to the address of a FACS, which has the Global Lock and the waking \
         vector. Only a machine of reduced hardware may go without one.";
    FADT_BLOCK_DIFFERS = Warning "fadt-block-differs", "ACPI 6.5, section 5.2.9",
        "The two fields of a block of registers give it two places", "",
        "Set both fields to the same port, or the field of 32 bits to 0. An OS takes the generic address if it isn't \
         0, an older one the other field, and one of them reaches no register.";
    FADT_NO_BLOCK = Error "fadt-no-block", "ACPI 6.5, section 4.8.3",
        "Fixed hardware has a block of registers at no place", "is 0, and so is its generic address",
        "Set the address of the block: PM1a_EVT_BLK, PM1a_CNT_BLK, and PM_TMR_BLK if there is a timer. A machine \
         without these registers sets HW_REDUCED_ACPI (bit 20 of Flags).";
    FADT_SPACE = Error "fadt-space", "ACPI 6.5, section 5.2.9",
        "A block of registers is neither in memory nor at ports", "has address space %",
        "Set Address Space ID to 0 (system memory) or 1 (system I/O). An OS can reach no other space before its \
         drivers run.";
    FADT_ACCESS_SIZE = Error "fadt-access-size", "ACPI 6.5, section 5.2.3.2",
        "The Access Size of a register is a reserved one", "% is reserved",
        "Set Access Size to 0 (undefined), or to 1, 2, 3 or 4 for a byte, a word, a double word or a quad word.";
    FADT_ARM_FIXED = Error "fadt-arm-fixed", "ACPI 6.5, section 5.2.9",
        "A machine of GICs has fixed hardware", "HW_REDUCED_ACPI isn't set",
        "Set HW_REDUCED_ACPI (bit 20 of Flags), and leave the blocks of fixed hardware at 0. Linux boots no Arm \
         machine by ACPI without this flag.";
    FADT_NO_PSCI = Warning "fadt-no-psci", "ACPI 6.5, section 5.2.9.4",
        "A machine of GICs starts processors neither by PSCI nor by mailboxes",
        "PSCI_COMPLIANT isn't set, and the processor at # of the MADT has no Parked Address",
        "Set PSCI_COMPLIANT (bit 0 of ARM_BOOT_ARCH), and PSCI_USE_HVC (bit 1) if calls go by HVC. Without PSCI each \
         GICC needs its Parked Address.";
    FADT_BLOCK_WIDTH = Warning "fadt-block-width", "ACPI 6.5, section 5.2.9",
        "The Register Bit Width of a block isn't that of its length", "",
        "Set Register Bit Width to eight times the length of the block in bytes. An OS that goes by the smaller one \
         misses the registers after it.";
    FADT_EVENT_LENGTH = Error "fadt-event-length", "ACPI 6.5, section 5.2.9",
        "PM1_EVT_LEN is under 4", "is %",
        "Set PM1_EVT_LEN to 4 or more: at least two bytes of status registers, and as many that enable events.";
    FADT_CONTROL_LENGTH = Error "fadt-control-length", "ACPI 6.5, section 5.2.9",
        "PM1_CNT_LEN is under 2", "is %",
        "Set PM1_CNT_LEN to 2 or more: the register with SCI_EN and the sleep type has 16 bits.";
    FADT_GPE_LENGTH = Error "fadt-gpe-length", "ACPI 6.5, section 5.2.9",
        "The length of a block of general purpose events is odd", "is %: half are status registers, half enable them",
        "Set the length to twice the number of bytes of status registers. The registers that enable events begin at \
         half of it.";
    FADT_TIMER_LENGTH = Error "fadt-timer-length", "ACPI 6.5, section 5.2.9",
        "PM_TMR_LEN is neither 0 nor 4", "is %",
        "Set PM_TMR_LEN to 4 if there is a PM timer, else to 0, and PM_TMR_BLK with it.";
    FADT_SCI_INTERRUPT = Error "fadt-sci-interrupt", "ACPI 6.5, section 5.2.9",
        "SCI_INT is 0 on fixed hardware", "is %, the timer's",
        "Set SCI_INT to the interrupt of the SCI, on most PCs 9. Without it no event of fixed hardware and no general \
         purpose event reaches the OS.";
    FADT_SMI_COMMAND = Warning "fadt-smi-command", "ACPI 6.5, section 5.2.9",
        "SMI_CMD is 0, but ACPI_ENABLE isn't", "is 0, but ACPI_ENABLE isn't",
        "Set SMI_CMD to the port of SMI commands, or ACPI_ENABLE and ACPI_DISABLE to 0 if the machine is always in \
         ACPI mode. An OS writes ACPI_ENABLE to that port.";
    FADT_FIXED_BLOCKS = Warning "fadt-fixed-blocks", "ACPI 6.5, section 5.2.9",
        "A machine of reduced hardware has blocks of fixed hardware", "HW_REDUCED_ACPI is set",
        "Set the addresses and lengths of these blocks to 0, or clear HW_REDUCED_ACPI (bit 20 of Flags) if the \
         hardware is there. An OS ignores them as long as it is set.";
    FADT_RESET_REGISTER = Warning "fadt-reset-register", "ACPI 6.5, section 4.8.3.6",
        "RESET_REG isn't 8 bits of memory, ports or PCI", "has % bits of the address space %",
        "Give RESET_REG a Register Bit Width of 8 and the address space 0 (memory), 1 (I/O) or 2 (PCI configuration \
         of bus 0), or clear RESET_REG_SUP (bit 10 of Flags).";
    FADT_PROFILE = Note "fadt-profile", "ACPI 6.5, section 5.2.9.1",
        "Preferred_PM_Profile is a reserved one", "% is reserved",
        "Write 0 (unspecified) to 8 (tablet) to Preferred_PM_Profile. An OS chooses its defaults of power management \
         by it.";
    FADT_RESERVED_FLAGS = Note "fadt-reserved-flags", "ACPI 6.5, sections 5.2.9.2 to 5.2.9.4",
        "A reserved flag is set", "has the reserved flags #",
        "Clear the bits of Flags, IAPC_BOOT_ARCH and ARM_BOOT_ARCH that are reserved. If one is of a specification \
         newer than these rules, nothing is wrong.";
}

/// A block of registers: the name of its 32-bit field, and the offsets of that, of its length and of its generic
/// address.
type Block = (&'static str, usize, usize, usize);

const BLOCKS: [Block; 8] = [
    ("PM1a_EVT_BLK", 56, 88, 148),
    ("PM1b_EVT_BLK", 60, 88, 160),
    ("PM1a_CNT_BLK", 64, 89, 172),
    ("PM1b_CNT_BLK", 68, 89, 184),
    ("PM2_CNT_BLK", 72, 90, 196),
    ("PM_TMR_BLK", 76, 91, 208),
    ("GPE0_BLK", 80, 92, 220),
    ("GPE1_BLK", 84, 93, 232),
];

pub(crate) fn check_fadt(fadt: &[u8], findings: &mut Findings) {
    check_addresses(fadt, findings);
    let flags = field(fadt, 112, 4);
    let (space, width) = (field(fadt, 116, 1), field(fadt, 117, 1)); // RESET_REG
    // RESET_REG_SUP.
    if flags & 1 << 10 != 0 && (space > 2 || width != 8) {
        findings.add(&FADT_RESET_REGISTER, 116, &[width, space]);
    }
    let is_reduced = flags & 1 << 20 != 0; // HW_REDUCED_ACPI
    // FIRMWARE_CTRL, X_FIRMWARE_CTRL: only reduced hardware may do without a FACS.
    if !is_reduced && field(fadt, 36, 4) == 0 && field(fadt, 132, 8) == 0 {
        findings.add(&FADT_NO_FACS, 36, &[]);
    }
    // SMI_CMD, ACPI_ENABLE.
    if !is_reduced && field(fadt, 48, 4) == 0 && field(fadt, 52, 1) != 0 {
        findings.add(&FADT_SMI_COMMAND, 48, &[]);
    }
    for block in &BLOCKS {
        check_block(fadt, *block, is_reduced, findings);
        check_register(fadt, block.3, findings);
    }
    check_register(fadt, 116, findings);
}

fn check_addresses(fadt: &[u8], findings: &mut Findings) {
    for (id, narrow, wide) in [
        (&FADT_DSDT_DIFFERS, 40usize, 140usize), // DSDT, X_DSDT
        (&FADT_FACS_DIFFERS, 36, 132),           // FIRMWARE_CTRL, X_FIRMWARE_CTRL
    ] {
        let (short, long) = (field(fadt, narrow, 4), field(fadt, wide, 8));
        if short != 0 && long != 0 && short != long {
            findings.add(id, wide, &[long, short]);
        }
        if narrow == 40 && short == 0 && long == 0 {
            findings.add(&FADT_NO_DSDT, 40, &[]);
        }
    }
}

/// Judges the two fields of a block: reduced hardware has none, and else they agree if its generic address is given.
fn check_block(fadt: &[u8], block: Block, is_reduced: bool, findings: &mut Findings) {
    let (name, narrow, length, wide) = block;
    let (port, length) = (field(fadt, narrow, 4), field(fadt, length, 1));
    let register = fadt.get(wide..).unwrap_or(&[]);
    let (space, width) = (field(register, 0, 1), field(register, 1, 1));
    let address = field(register, 4, 8);
    if is_reduced {
        if port != 0 || address != 0 {
            let offset = if port != 0 { narrow } else { wide };
            findings.add(&FADT_FIXED_BLOCKS, offset, &[]);
        }
        return;
    }
    // PM1a_EVT_BLK, PM1a_CNT_BLK and PM_TMR_BLK: the others may be left out.
    if matches!(narrow, 56 | 64 | 76) && length != 0 && port == 0 && address == 0 {
        findings.add(&FADT_NO_BLOCK, narrow, &[]);
    }
    if address != 0 && space > 1 {
        findings.add(&FADT_SPACE, wide, &[space]);
    }
    if address != 0 && port != 0 && (address != port || space != 1) {
        let message = format!("0x{address:x} in space {space}, and {name} is port 0x{port:x}");
        findings.tell(&FADT_BLOCK_DIFFERS, wide, message);
    }
    // A width has eight bits, so that 32 bytes don't fit it.
    if address != 0 && length < 32 && width != 8 * length {
        findings.tell(&FADT_BLOCK_WIDTH, wide, format!("{width} bits wide, and {name} has {length} bytes"));
    }
}

/// Judges the Access Size of the generic address at an offset, if it is one.
fn check_register(fadt: &[u8], offset: usize, findings: &mut Findings) {
    let register = fadt.get(offset..).unwrap_or(&[]);
    let (size, address) = (field(register, 3, 1), field(register, 4, 8));
    if address != 0 && size > 4 {
        findings.add(&FADT_ACCESS_SIZE, offset + 3, &[size]);
    }
}

/// Judges the first FADT beside the first MADT, if that has a processor with a GIC. Such a machine has reduced
/// hardware, and starts its processors by PSCI or by the mailboxes at their Parked Addresses.
pub(crate) fn check_arm(machine: &Machine<'_>, findings: &mut Findings) {
    let (Some((index, fadt)), Some((_, madt))) = (machine.first(Signature::FADT), machine.first(Signature::MADT))
    else {
        return;
    };
    let mut has_gic = false;
    let mut parked = None;
    for (offset, entry) in Pieces::of(madt, 44, (1, 1)) {
        // A GIC CPU interface that is enabled, and its Parked Address.
        if field(entry, 0, 1) == 0xb && field(entry, 12, 4) & 1 != 0 {
            has_gic = true;
            if field(entry, 24, 8) == 0 {
                parked = Some(offset as u64);
            }
        }
    }
    findings.table = index;
    // HW_REDUCED_ACPI.
    if has_gic && field(fadt, 112, 4) & 1 << 20 == 0 {
        findings.add(&FADT_ARM_FIXED, 112, &[]);
    }
    // PSCI_COMPLIANT of ARM_BOOT_ARCH.
    if let Some(offset) = parked
        && field(fadt, 129, 2) & 1 == 0
    {
        findings.add(&FADT_NO_PSCI, 129, &[offset]);
    }
}
