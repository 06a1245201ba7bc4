// Made by scripts/erase of crates/acpi_arm/src/gtdt.rt, where it is proved.
//! The Generic Timer Description Table (GTDT): the timers of the processors, and the platform's
//! (section 5.2.24).

mod readings;

pub use crate::arm::frames::{GtFrame, GtFrameIter, TimerInterrupt};
use crate::arm::interrupt::{polarity_in, trigger_in, unless_ones};
pub use crate::arm::structures::TimerStructureIter;
pub use crate::arm::timers::{
    GtBlock, PlatformTimer, PlatformTimerIter, SbsaWatchdog, frames_end, is_sound, timer_bytes, timer_count,
    timers_grammar, timers_offset,
};
use crate::base::PhysicalRecord;
use crate::base::bytes::{has_bit, u32_in};
use crate::base::extended::ExtendedField;
use crate::base::model::{Polarity, TriggerMode};
use crate::base::sdt::SdtHeader;

/// A timer that every processor has, by its GSIV and its flags in a GTDT (section 5.2.24).
#[derive(Clone, Copy, Debug)]
pub struct ArmTimer {
    /// GSIV: the number of the timer's interrupt at the GIC. 0: the table names none.
    pub interrupt: u32,
    /// Timer Interrupt Mode (bit 0 of the flags, set if it is edge-triggered): what raises the interrupt.
    pub trigger_mode: TriggerMode,
    /// Timer Interrupt Polarity (bit 1 of the flags, set if it is active low): the level at which the
    /// interrupt counts as raised.
    pub polarity: Polarity,
    /// Always-on Capability (bit 2 of the flags): the timer keeps its state and raises its interrupt in
    /// every low power state of the processor.
    pub always_on: bool,
}

impl PhysicalRecord for ArmTimer {
    const MIN_LENGTH: usize = 8;

    #[inline(always)]
    fn read(bytes: &[u8]) -> Self {
        arm_timer_at(bytes, 0)
    }
}

/// The timer whose interrupt and flags are at an offset.
fn arm_timer_at(bytes: &[u8], offset: usize) -> ArmTimer {
    let flags = u32_in(bytes, offset + 4); // Flags
    ArmTimer {
        interrupt: u32_in(bytes, offset),    // GSIV
        trigger_mode: trigger_in(flags, 0),  // Timer interrupt Mode
        polarity: polarity_in(flags, 1),     // Timer Interrupt polarity
        always_on: has_bit(flags as u64, 2), // Always-on Capability
    }
}

/// The Generic Timer Description Table (GTDT, section 5.2.24). `PlatformTimerIter` returns the timers of the
/// platform out of its bytes.
#[derive(Clone, Copy, Debug)]
pub struct Gtdt {
    /// The header that every table begins with.
    pub header: SdtHeader,
    control_base: u64,
    /// Secure EL1 Timer GSIV and Flags.
    pub secure_el1_timer: ArmTimer,
    /// Non-Secure EL1 Timer GSIV and Flags.
    pub non_secure_el1_timer: ArmTimer,
    /// Virtual EL1 Timer GSIV and Flags.
    pub virtual_el1_timer: ArmTimer,
    /// EL2 Timer GSIV and Flags.
    pub el2_timer: ArmTimer,
    read_base: u64,
    /// Platform Timer Count: how many structures of platform timers there are. Tables below revision 2
    /// have none, whatever number is here.
    pub platform_timer_count: u32,
    /// Platform Timer Offset: where these structures begin, in bytes from the table's first one.
    pub platform_timer_offset: u32,
    el2_virtual: ExtendedField<ArmTimer, 3>,
}

impl Gtdt {
    /// CntControlBase Physical Address: that of the registers that control the counter, or `None` if all
    /// its bits are ones: the table has none (section 5.2.24).
    pub fn counter_control_base(&self) -> Option<u64> {
        unless_ones(self.control_base)
    }

    /// CntReadBase Physical Address: that of the registers from which the counter is read, or `None` if
    /// all its bits are ones, or for a table below revision 2, which has another layout (section 5.2.24).
    pub fn counter_read_base(&self) -> Option<u64> {
        if self.header.revision < 2 { None } else { unless_ones(self.read_base) }
    }

    /// Virtual EL2 Timer GSIV and Flags (section 5.2.24). It is `None` for a table below revision 3, for
    /// one that ends before byte 104, and if there are platform timers that begin before byte 104: these
    /// bytes are then theirs.
    pub fn virtual_el2_timer(&self) -> Option<ArmTimer> {
        if self.platform_timer_count == 0 || self.platform_timer_offset >= 104 {
            self.el2_virtual.access(self.header.revision)
        } else {
            None
        }
    }
}
