//! What a FADT's getters return, which take several fields together.

use crate::prelude::*;
use zacpi::AcpiResult;
use zacpi::address::GenericAddress;
use zacpi::fadt::Fadt;

/// Prints what the getters return, if the table is as long as a FADT.
pub(crate) fn print_getters(table: &[u8], out: &mut Out) {
    if table.len() < Fadt::MIN_LENGTH {
        return;
    }
    let fadt = Fadt::read(table);
    writeln!(out, "  power profile: {:?}", fadt.power_profile());
    print_address("FACS", fadt.facs_address(), out);
    print_address("DSDT", fadt.dsdt_address(), out);
    if !fadt.flags.system_is_hw_reduced_acpi() {
        print_fixed(&fadt, out);
    }
    print_block("reset register", fadt.reset_register().map(Some), out);
    print_block("sleep control register", fadt.sleep_control_register(), out);
    print_block("sleep status register", fadt.sleep_status_register(), out);
}

/// Prints the blocks of fixed hardware, which a machine of reduced hardware lacks (section 4.1).
fn print_fixed(fadt: &Fadt, out: &mut Out) {
    print_block("PM1a event block", fadt.pm1a_event_block().map(Some), out);
    print_block("PM1b event block", fadt.pm1b_event_block(), out);
    print_block("PM1a control block", fadt.pm1a_control_block().map(Some), out);
    print_block("PM1b control block", fadt.pm1b_control_block(), out);
    print_block("PM2 control block", fadt.pm2_control_block(), out);
    print_block("PM timer block", fadt.pm_timer_block(), out);
    print_block("GPE0 block", fadt.gpe0_block(), out);
    print_block("GPE1 block", fadt.gpe1_block(), out);
}

fn print_address(name: &str, address: AcpiResult<u64>, out: &mut Out) {
    match address {
        Ok(address) => writeln!(out, "  {name}: 0x{address:x}"),
        Err(refusal) => writeln!(out, "  {name}: {refusal}"),
    }
}

/// Prints a block of registers, or its refusal. One at address 0 isn't there (section 5.2.9).
fn print_block(name: &str, block: AcpiResult<Option<GenericAddress>>, out: &mut Out) {
    write!(out, "  {name}: ");
    match block {
        Ok(Some(block)) if block.address != 0 => writeln!(
            out,
            "{:?} 0x{:x}, {} bits from bit {}, access {:?}",
            block.address_space, block.address, block.bit_width, block.bit_offset, block.access_size
        ),
        Ok(_) => out.text("none\n"),
        Err(refusal) => writeln!(out, "{refusal}"),
    }
}
