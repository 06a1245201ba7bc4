// Made by scripts/erase of crates/acpi_table_writer/src/gtdt/structures.rt, where it is proved.
//! The parts of a GTDT, each with its bytes (section 5.2.24).

use super::{GtBlockContents, GtdtContents, PlatformTimerContents};
use crate::arm::gtdt::{ArmTimer, GtFrame, SbsaWatchdog, TimerInterrupt};
use crate::table_writer::arm::{check_base, check_modes, flags_of, is_edge, is_low};
use crate::table_writer::checked::{Checked, check_all, require};
use crate::table_writer::error::WriterError;
use crate::table_writer::fields::{Field, Record};
use crate::table_writer::spelled::{Each, Spelled, Then};

/// An address, or all ones for none.
pub(crate) fn base_of(base: Option<u64>) -> u64 {
    match base {
        Some(address) => address,
        None => u64::MAX,
    }
}

/// The flags of a timer that every processor has.
pub(crate) fn timer_flags(timer: &ArmTimer) -> u8 {
    flags_of(is_edge(timer.trigger_mode), is_low(timer.polarity), timer.always_on, false)
}

/// Platform Timer Count. What is written as a timer may have no bytes, so that there may be any number of them.
pub(crate) fn timer_count<T>(contents: &GtdtContents<'_, T>) -> u32 {
    let count = contents.platform_timers.len() as u64;
    (count % 0x100000000) as u32
}

impl Checked for ArmTimer {
    fn check(&self) -> Result<(), WriterError> {
        check_modes(self.trigger_mode, self.polarity)
    }
}

/// The flags of an interrupt of a frame.
pub(crate) fn interrupt_flags(interrupt: TimerInterrupt) -> u8 {
    flags_of(is_edge(interrupt.trigger_mode), is_low(interrupt.polarity), false, false)
}

impl Checked for GtFrame {
    fn check(&self) -> Result<(), WriterError> {
        check_base(self.el0_base)?;
        check_modes(self.physical_timer.trigger_mode, self.physical_timer.polarity)?;
        check_modes(self.virtual_timer.trigger_mode, self.virtual_timer.polarity)
    }
}

/// A GT Block before its frames.
impl<F> Record for GtBlockContents<'_, F> {
    type Fields = [Field; 6];

    fn fields(&self) -> [Field; 6] {
        let count = self.frames.len() as u64;
        // What is written as a frame may have no bytes, so that there may be any number of them.
        let length = 20 + 40 * (count % 0x10000);
        [
            Field::U8(0),
            Field::U16((length % 0x10000) as u16),
            Field::Zeros(1),
            Field::U64(self.address),
            Field::U32((count % 0x100000000) as u32),
            Field::U32(20),
        ]
    }
}

/// The flags of a watchdog.
pub(crate) fn watchdog_flags(watchdog: &SbsaWatchdog) -> u8 {
    flags_of(is_edge(watchdog.trigger_mode), is_low(watchdog.polarity), watchdog.is_secure, false)
}

impl<F: Checked> Checked for PlatformTimerContents<'_, F> {
    fn check(&self) -> Result<(), WriterError> {
        match self {
            PlatformTimerContents::GtBlock(block) => {
                require(block.frames.len() <= 1637, WriterError::TooManyFrames)?;
                check_all(block.frames)
            }
            PlatformTimerContents::SbsaWatchdog(watchdog) => check_modes(watchdog.trigger_mode, watchdog.polarity),
        }
    }
}

impl<F: Copy + Spelled> Spelled for PlatformTimerContents<'_, F> {
    fn measure(&self, room: usize) -> Option<usize> {
        match self {
            PlatformTimerContents::GtBlock(block) => Then(*block, Each(block.frames)).measure(room),
            PlatformTimerContents::SbsaWatchdog(watchdog) => watchdog.measure(room),
        }
    }

    fn put(&self, out: &mut [u8]) {
        match self {
            PlatformTimerContents::GtBlock(block) => Then(*block, Each(block.frames)).put(out),
            PlatformTimerContents::SbsaWatchdog(watchdog) => watchdog.put(out),
        }
    }
}
