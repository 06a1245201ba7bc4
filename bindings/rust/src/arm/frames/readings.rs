// Made by scripts/erase of crates/acpi_arm/src/frames/readings.rt, where it is proved.
//! Made by scripts/readings: records, as their definitions in specs/ read them from bytes.

use super::{GtFrame, interrupt_at};
use crate::arm::interrupt::unless_ones;
use crate::base::bytes::{field, has_bit};

pub(crate) fn frame_at(bytes: &[u8]) -> GtFrame {
    GtFrame {
        number: field(bytes, 0, 1) as u8,              // GT Frame Number
        base: field(bytes, 4, 8),                      // GTx Physical address (CntBaseX)
        el0_base: unless_ones(field(bytes, 12, 8)),    // GTx Physical address (CntEL0BaseX)
        physical_timer: interrupt_at(bytes, 20),       // GTx Physical Timer GSIV, GTx Physical Timer Flags
        virtual_timer: interrupt_at(bytes, 28),        // GTx Virtual Timer GSIV, GTx Virtual Timer Flags
        is_secure: has_bit(field(bytes, 36, 4), 0),    // GTx Common Flags, bit 0: Secure Timer
        is_always_on: has_bit(field(bytes, 36, 4), 1), // GTx Common Flags, bit 1: Always-on Capability
    }
}
