// Made by scripts/erase of crates/acpi_table_writer/src/made/gtdt.rt, where it is proved.
//! Made by scripts/written of specs/Gtdt.antt.

use crate::arm::gtdt::{GtFrame, SbsaWatchdog};
use crate::table_writer::arm::flags_of;
use crate::table_writer::fields::{Field, Record};
use crate::table_writer::gtdt::GtdtContents;
use crate::table_writer::gtdt::structures::{base_of, interrupt_flags, timer_count, timer_flags, watchdog_flags};

/// GT Block Timer Structure (section 5.2.24.1.1).
impl Record for GtFrame {
    type Fields = [Field; 9];

    fn fields(&self) -> [Field; 9] {
        [
            // 0: GT Frame Number, 1: Reserved
            Field::U8(self.number),
            Field::Zeros(3),
            // 4: CntBaseX, 12: CntEL0BaseX
            Field::U64(self.base),
            Field::U64(base_of(self.el0_base)),
            // 20: GTx Physical Timer GSIV
            Field::U32(self.physical_timer.interrupt),
            // 24: GTx Physical Timer Flags
            Field::U32(interrupt_flags(self.physical_timer) as u32),
            // 28: GTx Virtual Timer GSIV
            Field::U32(self.virtual_timer.interrupt),
            // 32: GTx Virtual Timer Flags
            Field::U32(interrupt_flags(self.virtual_timer) as u32),
            // 36: GTx Common Flags: Secure Timer, Always-on Capability
            Field::U32(flags_of(self.is_secure, self.is_always_on, false, false) as u32),
        ]
    }
}

/// Arm Generic Watchdog (section 5.2.24.1.2).
impl Record for SbsaWatchdog {
    type Fields = [Field; 7];

    fn fields(&self) -> [Field; 7] {
        [
            // 0: Type, 1: Length, 3: Reserved
            Field::U8(1),
            Field::U16(28),
            Field::Zeros(1),
            // 4: RefreshFrame Physical Address
            Field::U64(self.refresh_frame),
            // 12: WatchdogControlFrame Physical Address
            Field::U64(self.control_frame),
            // 20: Watchdog Timer GSIV, 24: Watchdog Timer Flags
            Field::U32(self.interrupt),
            Field::U32(watchdog_flags(self) as u32),
        ]
    }
}

/// The fields after the header.
impl<T> Record for GtdtContents<'_, T> {
    type Fields = [Field; 15];

    fn fields(&self) -> [Field; 15] {
        [
            // 36: CntControlBase Physical Address, 44: Reserved
            Field::U64(base_of(self.counter_control_base)),
            Field::Zeros(4),
            // 48: Secure EL1 Timer GSIV
            Field::U32(self.secure_el1_timer.interrupt),
            // 52: Secure EL1 Timer Flags
            Field::U32(timer_flags(&self.secure_el1_timer) as u32),
            // 56: Non-Secure EL1 Timer GSIV
            Field::U32(self.non_secure_el1_timer.interrupt),
            // 60: Non-Secure EL1 Timer Flags
            Field::U32(timer_flags(&self.non_secure_el1_timer) as u32),
            // 64: Virtual EL1 Timer GSIV
            Field::U32(self.virtual_el1_timer.interrupt),
            // 68: Virtual EL1 Timer Flags
            Field::U32(timer_flags(&self.virtual_el1_timer) as u32),
            // 72: EL2 Timer GSIV, 76: EL2 Timer Flags
            Field::U32(self.el2_timer.interrupt),
            Field::U32(timer_flags(&self.el2_timer) as u32),
            // 80: CntReadBase Physical Address
            Field::U64(base_of(self.counter_read_base)),
            // 88: Platform Timer Count, 92: Platform Timer Offset
            Field::U32(timer_count(self)),
            Field::U32(104),
            // 96: Virtual EL2 Timer GSIV
            Field::U32(self.virtual_el2_timer.interrupt),
            // 100: Virtual EL2 Timer Flags
            Field::U32(timer_flags(&self.virtual_el2_timer) as u32),
        ]
    }
}
