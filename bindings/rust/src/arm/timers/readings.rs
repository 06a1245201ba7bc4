// Made by scripts/erase of crates/acpi_arm/src/timers/readings.rt, where it is proved.
//! Made by scripts/readings: records, as their definitions in specs/ read them from bytes.

use super::SbsaWatchdog;
use crate::arm::interrupt::{polarity_in, trigger_in};
use crate::base::bytes::{field, has_bit};

pub(crate) fn watchdog_at(bytes: &[u8]) -> SbsaWatchdog {
    SbsaWatchdog {
        refresh_frame: field(bytes, 4, 8),     // RefreshFrame Physical Address
        control_frame: field(bytes, 12, 8),    // WatchdogControlFrame Physical Address
        interrupt: field(bytes, 20, 4) as u32, // Watchdog Timer GSIV
        trigger_mode: trigger_in(field(bytes, 24, 4) as u32, 0), // Watchdog Timer Flags, bit 0: Timer interrupt Mode
        polarity: polarity_in(field(bytes, 24, 4) as u32, 1), // Watchdog Timer Flags, bit 1: Timer Interrupt polarity
        is_secure: has_bit(field(bytes, 24, 4), 2), // Watchdog Timer Flags, bit 2: Secure Timer
    }
}
