// Made by scripts/erase of crates/acpi_c_interrupts/src/apics/madt/shown.rt, where it is proved.
//! Made by scripts/shown: records for C, and what is written of C's, as definitions in specs/ have them.

use crate::c_interrupts::apics::records::IoApic;

pub(crate) fn io_apic_record(x: &crate::base::model::IoApic) -> IoApic {
    IoApic {
        address: x.address,
        global_system_interrupt_base: x.global_system_interrupt_base,
        id: x.id,
        reserved: [0; 3],
    }
}
