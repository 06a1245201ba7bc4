// Made by scripts/erase of crates/acpi_c_interrupts/src/arm/timers.rt, where it is proved.
//! The generic timers of an Arm machine, by the GTDT.

mod shown;

use crate::arm::gtdt::{ArmTimer, GtFrame, GtFrameIter, Gtdt, PlatformTimer, PlatformTimerIter, TimerStructureIter};
use crate::c_interrupts::arm::records;
use crate::c_interrupts::arm::records::{ArmTimers, Watchdog};
use crate::c_lib::lists::{Listing, fill, fill_from};
use crate::c_lib::opening::first;
use crate::c_lib::records::Source;
use crate::c_lib::refusal::Refusal;
use crate::c_lib::regions::Mapped;
use shown::{arm_timer_record, frame_record, timers_record, watchdog_record};

/// The timers of every processor, as the first valid GTDT has them.
pub fn arm_timers(source: &Source<'_>) -> Result<ArmTimers, Refusal> {
    let memory = Mapped::new(source.regions);
    let gtdt = first::<Gtdt>(&memory, source)?;
    let is_malformed = end_malformed(PlatformTimerIter::over(gtdt.bytes()));
    Ok(timers_record(&gtdt, is_malformed))
}

/// Whether platform timers end malformed.
fn end_malformed(timers: PlatformTimerIter<'_>) -> bool {
    let mut timers = timers;
    'all: while let Some(_) = timers.next() {}
    timers.ended_malformed()
}

/// An address, or all ones for none.
fn or_ones(address: Option<u64>) -> u64 {
    address.unwrap_or(u64::MAX)
}

/// A timer, or zeros for none.
fn timer_or(timer: Option<ArmTimer>) -> records::ArmTimer {
    match timer {
        Some(timer) => arm_timer_record(&timer),
        None => records::ArmTimer::default(),
    }
}

/// Lists the frames of the blocks of timers that the first valid GTDT has.
pub fn frames(source: &Source<'_>, out: &mut [records::GtFrame]) -> Result<usize, Refusal> {
    let memory = Mapped::new(source.regions);
    let gtdt = first::<Gtdt>(&memory, source)?;
    Ok(fill_frames(gtdt.bytes(), out))
}

/// The frames of all blocks of a GTDT.
fn fill_frames(table: &[u8], out: &mut [records::GtFrame]) -> usize {
    let mut count = 0;
    for timer in TimerStructureIter::over(table) {
        if let PlatformTimer::GtBlock(block) = timer {
            count = fill_from(block.frames, &block.address, out, count);
        }
    }
    count
}

impl Listing<u64, records::GtFrame> for GtFrameIter<'_> {
    fn record(block: &u64, frame: GtFrame) -> Option<records::GtFrame> {
        Some(frame_record(*block, &frame))
    }
}

/// Lists the watchdogs that the first valid GTDT has.
pub fn watchdogs(source: &Source<'_>, out: &mut [Watchdog]) -> Result<usize, Refusal> {
    let memory = Mapped::new(source.regions);
    let gtdt = first::<Gtdt>(&memory, source)?;
    Ok(fill(TimerStructureIter::over(gtdt.bytes()), &(), out))
}

impl Listing<(), Watchdog> for TimerStructureIter<'_> {
    fn record(_known: &(), timer: PlatformTimer<'_>) -> Option<Watchdog> {
        match timer {
            PlatformTimer::SbsaWatchdog(watchdog) => Some(watchdog_record(&watchdog)),
            PlatformTimer::GtBlock(_) => None,
        }
    }
}
