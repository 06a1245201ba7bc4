// Made by scripts/erase of crates/acpi_c_interrupts/src/routes/wirings/shown.rt, where it is proved.
//! Made by scripts/shown: records for C, and what is written of C's, as definitions in specs/ have them.

use crate::base::model::IsaInterrupt;
use crate::c_interrupts::apics::records::Interrupt;

pub(crate) fn interrupt_record(i: &IsaInterrupt) -> Interrupt {
    Interrupt {
        global_system_interrupt: i.global_system_interrupt,
        polarity: i.polarity.code(),
        trigger: i.trigger_mode.code(),
        reserved: [0; 2],
    }
}
