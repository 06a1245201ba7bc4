// Made by scripts/erase of crates/acpi_c_interrupts/src/writing/gtdt.rt, where it is proved.
//! The GTDT that is written for C (section 5.2.24), from the records as which C reads it.

mod shown;

use super::madt::is_wiring;
use crate::arm::gtdt;
use crate::base::model::{Polarity, TriggerMode};
use crate::c_interrupts::arm::records::{ArmTimer, GtFrame};
use crate::c_interrupts::written_records::{GtdtContents, PlatformTimer};
use crate::table_writer::spelled::Spelled;
use crate::table_writer::{Checked, GtBlockContents, PlatformTimerContents, WriterError};
use shown::{frame_of, timer_of, watchdog_of};

/// An address, of which all ones mean none.
fn base(address: u64) -> Option<u64> {
    (address != u64::MAX).then_some(address)
}

/// The Virtual EL2 Timer, if it is present.
fn virtual_el2(given: &ArmTimer) -> gtdt::ArmTimer {
    if given.present == 0 {
        gtdt::ArmTimer {
            interrupt: 0,
            trigger_mode: TriggerMode::Level,
            polarity: Polarity::ActiveHigh,
            always_on: false,
        }
    } else {
        timer_of(given)
    }
}

impl Checked for GtFrame {
    fn check(&self) -> Result<(), WriterError> {
        frame_of(self).check()
    }
}

impl Spelled for GtFrame {
    fn measure(&self, room: usize) -> Option<usize> {
        frame_of(self).measure(room)
    }

    fn put(&self, out: &mut [u8]) {
        frame_of(self).put(out);
    }
}

impl<'a> PlatformTimer<'a> {
    /// The timer of the platform, as the writer has it.
    fn contents(&self) -> PlatformTimerContents<'a, GtFrame> {
        if self.kind == 0 {
            PlatformTimerContents::GtBlock(GtBlockContents { address: self.block_address, frames: self.frames })
        } else {
            PlatformTimerContents::SbsaWatchdog(watchdog_of(&self.watchdog))
        }
    }
}

impl Checked for PlatformTimer<'_> {
    fn check(&self) -> Result<(), WriterError> {
        self.contents().check()
    }
}

impl Spelled for PlatformTimer<'_> {
    fn measure(&self, room: usize) -> Option<usize> {
        self.contents().measure(room)
    }

    fn put(&self, out: &mut [u8]) {
        self.contents().put(out);
    }
}

/// What the GTDT is to contain, as the writer has it.
pub fn contents<'a>(given: &GtdtContents<'a>) -> crate::table_writer::GtdtContents<'a, PlatformTimer<'a>> {
    let timers = &given.timers;
    crate::table_writer::GtdtContents {
        counter_control_base: base(timers.control_base),
        secure_el1_timer: timer_of(&timers.secure_el1),
        non_secure_el1_timer: timer_of(&timers.non_secure_el1),
        virtual_el1_timer: timer_of(&timers.virtual_el1),
        el2_timer: timer_of(&timers.el2),
        counter_read_base: base(timers.read_base),
        virtual_el2_timer: virtual_el2(&timers.virtual_el2),
        platform_timers: given.platform_timers,
    }
}

fn is_wired(timer: &ArmTimer) -> bool {
    is_wiring(timer.polarity) && is_wiring(timer.trigger)
}

fn is_frame_wired(frame: &GtFrame) -> bool {
    is_wiring(frame.physical_polarity)
        && is_wiring(frame.physical_trigger)
        && is_wiring(frame.virtual_polarity)
        && is_wiring(frame.virtual_trigger)
}

fn are_frames_wired(frames: &[GtFrame]) -> bool {
    frames.iter().all(|frame| is_frame_wired(frame))
}

/// Whether the kind of a timer of the platform is one that there is, and so is each polarity and trigger mode.
fn is_platform_wired(timer: &PlatformTimer<'_>) -> bool {
    if timer.kind == 0 {
        are_frames_wired(timer.frames)
    } else {
        timer.kind == 1 && is_wiring(timer.watchdog.polarity) && is_wiring(timer.watchdog.trigger)
    }
}

fn are_platform_wired(timers: &[PlatformTimer<'_>]) -> bool {
    timers.iter().all(|timer| is_platform_wired(timer))
}

/// Whether each kind, polarity and trigger mode is one that there is, but in a timer that isn't written.
pub fn has_codes(given: &GtdtContents<'_>) -> bool {
    is_wired(&given.timers.secure_el1)
        && is_wired(&given.timers.non_secure_el1)
        && is_wired(&given.timers.virtual_el1)
        && is_wired(&given.timers.el2)
        && (given.timers.virtual_el2.present == 0 || is_wired(&given.timers.virtual_el2))
        && are_platform_wired(given.platform_timers)
}
