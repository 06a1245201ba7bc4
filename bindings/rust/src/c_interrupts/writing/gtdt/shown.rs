// Made by scripts/erase of crates/acpi_c_interrupts/src/writing/gtdt/shown.rt, where it is proved.
//! Made by scripts/shown: records for C, and what is written of C's, as definitions in specs/ have them.

use crate::arm::gtdt::{SbsaWatchdog, TimerInterrupt};
use crate::c_interrupts::arm::records::{ArmTimer, GtFrame, Watchdog};
use crate::c_interrupts::writing::gtdt::base;
use crate::c_interrupts::writing::madt::{polarity, trigger};

pub(crate) fn timer_of(t: &ArmTimer) -> crate::arm::gtdt::ArmTimer {
    crate::arm::gtdt::ArmTimer {
        interrupt: t.interrupt,
        trigger_mode: trigger(t.trigger),
        polarity: polarity(t.polarity),
        always_on: t.always_on != 0,
    }
}

pub(crate) fn frame_of(f: &GtFrame) -> crate::arm::gtdt::GtFrame {
    crate::arm::gtdt::GtFrame {
        number: f.number,
        base: f.address,
        el0_base: base(f.el0_address),
        physical_timer: TimerInterrupt {
            interrupt: f.physical_interrupt,
            trigger_mode: trigger(f.physical_trigger),
            polarity: polarity(f.physical_polarity),
        },
        virtual_timer: TimerInterrupt {
            interrupt: f.virtual_interrupt,
            trigger_mode: trigger(f.virtual_trigger),
            polarity: polarity(f.virtual_polarity),
        },
        is_secure: f.is_secure != 0,
        is_always_on: f.is_always_on != 0,
    }
}

pub(crate) fn watchdog_of(w: &Watchdog) -> SbsaWatchdog {
    SbsaWatchdog {
        refresh_frame: w.refresh_frame,
        control_frame: w.control_frame,
        interrupt: w.interrupt,
        trigger_mode: trigger(w.trigger),
        polarity: polarity(w.polarity),
        is_secure: w.is_secure != 0,
    }
}
