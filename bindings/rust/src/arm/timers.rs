// Made by scripts/erase of crates/acpi_arm/src/timers.rt, where it is proved.
//! The Platform Timer Structures of a GTDT, one at a time (section 5.2.24.1).

mod readings;

use crate::arm::frames::{FRAME_LENGTH, GtFrameIter};
use crate::base::bytes::{field, skip};
use crate::base::entries::{EntryLayout, Grammar, Place, Width, split_front};
use crate::base::model::{Polarity, TriggerMode};
use readings::watchdog_at;

/// GT Block: a block of timers in memory (section 5.2.24.1.1).
#[derive(Clone, Copy, Debug)]
#[non_exhaustive]
pub struct GtBlock<'a> {
    /// GT Block Physical address: that of the block's control frame.
    pub address: u64,
    /// The block's frames, in order: GT Block Timer Count of them, from GT Block Timer Offset on.
    pub frames: GtFrameIter<'a>,
}

/// Arm Generic Watchdog: a watchdog of the Server Base System Architecture (section 5.2.24.1.2).
#[derive(Clone, Copy, Debug)]
pub struct SbsaWatchdog {
    /// RefreshFrame Physical Address: that of the watchdog's refresh frame.
    pub refresh_frame: u64,
    /// WatchdogControlFrame Physical Address: that of the watchdog's control frame.
    pub control_frame: u64,
    /// Watchdog Timer GSIV: the number of the watchdog's interrupt at the GIC.
    pub interrupt: u32,
    /// Timer Interrupt Mode (bit 0 of Watchdog Timer Flags, set if it is edge-triggered): what raises the
    /// interrupt.
    pub trigger_mode: TriggerMode,
    /// Timer Interrupt Polarity (bit 1 of Watchdog Timer Flags, set if it is active low): the level at
    /// which the interrupt counts as raised.
    pub polarity: Polarity,
    /// Secure Timer (bit 2 of Watchdog Timer Flags): only secure software may use the watchdog.
    pub is_secure: bool,
}

/// A timer of the platform: a Platform Timer Structure of a GTDT (section 5.2.24.1).
#[derive(Clone, Copy, Debug)]
#[non_exhaustive]
pub enum PlatformTimer<'a> {
    /// GT Block, type 0 (section 5.2.24.1.1).
    GtBlock(GtBlock<'a>),
    /// Arm Generic Watchdog, type 1 (section 5.2.24.1.2).
    SbsaWatchdog(SbsaWatchdog),
}

/// How a number of structures of platform timers is cut.
#[inline(always)]
pub fn timers_grammar(count: u32) -> Grammar<2> {
    Grammar {
        layout: EntryLayout {
            kind_place: Place { at: 0, width: Width::One },
            length_place: Place { at: 1, width: Width::Two },
            least_lengths: [20, 28],
            least_of_others: 4,
        },
        most: Some(count as usize),
    }
}

/// Whether a block's frames, if it has some, are between its 20 fixed bytes and its end.
fn frames_fit(block: &[u8]) -> bool {
    let count = field(block, 12, 4); // GT Block Timer Count
    let offset = field(block, 16, 4); // GT Block Timer Offset
    count == 0 || (offset >= 20 && offset + FRAME_LENGTH as u64 * count <= block.len() as u64)
}

/// How many of a block's frames are between its 20 fixed bytes and its end.
pub(crate) fn frames_there(block: &[u8]) -> u32 {
    let count = field(block, 12, 4); // GT Block Timer Count
    let offset = field(block, 16, 4) as usize; // GT Block Timer Offset
    if offset < 20 {
        return 0;
    }
    let room = block.len().saturating_sub(offset) / FRAME_LENGTH;
    count.min(room as u64) as u32
}

/// Where in a GT Block no further frame begins, in bytes from its first one on: after those that are between its 20
/// fixed bytes and its end, or at GT Block Timer Offset if none does; at most at the block's end.
pub fn frames_end(block: &[u8]) -> usize {
    let offset = field(block, 16, 4) as usize; // GT Block Timer Offset
    (offset + FRAME_LENGTH * frames_there(block) as usize).min(block.len())
}

/// Whether a structure isn't malformed: only a GT Block can still be, whose frames have to be between its 20 fixed
/// bytes and its end.
pub fn is_sound(structure: &[u8]) -> bool {
    field(structure, 0, 1) != 0 || frames_fit(structure) // Type
}

impl<'a> PlatformTimer<'a> {
    /// The timer that a structure describes, a block with a number of frames, or `None` if its type isn't defined.
    pub(crate) fn read(structure: &'a [u8], frame_count: u32) -> Option<PlatformTimer<'a>> {
        // Type.
        match field(structure, 0, 1) {
            0 => {
                // GT Block Timer Offset.
                let frames = skip(structure, field(structure, 16, 4) as usize);
                Some(PlatformTimer::GtBlock(GtBlock {
                    address: field(structure, 4, 8), // GT Block Physical address
                    frames: GtFrameIter::over(frames, frame_count),
                }))
            }
            1 => Some(PlatformTimer::SbsaWatchdog(watchdog_at(structure))),
            _ => None,
        }
    }
}

/// The timers of the platform that a GTDT lists (section 5.2.24.1), in order: as many structures as Platform
/// Timer Count, one after the other. Structures of undefined types count too, and are skipped. It ends when
/// that many were taken, or at the first fault: if the structures begin before byte 96, if less than 4
/// bytes are left, if a length is less than the least of its type (20 for type 0, 28 for type 1, 4 for
/// others) or goes past the table's end, and at a block that has frames which begin before its byte 20 or
/// end after its end.
#[derive(Debug)]
pub struct PlatformTimerIter<'a> {
    rest: &'a [u8],
    left: u32,
    ended: bool,
}

impl<'a> PlatformTimerIter<'a> {
    /// The Platform Timer Structures of a GTDT's bytes (section 5.2.24.1), in order. It needs no handler. A
    /// table below revision 2 has none.
    pub fn over(table: &'a [u8]) -> Self {
        PlatformTimerIter { rest: timer_bytes(table), left: timer_count(table), ended: false }
    }

    /// Whether `next` has returned `None` at a fault, before it took as many structures as Platform Timer
    /// Count (section 5.2.24). Before `next` has returned `None` it is false.
    pub fn ended_malformed(&self) -> bool {
        self.ended && self.left > 0
    }
}

/// How many structures a table has by its count; below revision 2 there are none.
pub fn timer_count(table: &[u8]) -> u32 {
    // Revision.
    if field(table, 8, 1) < 2 {
        0
    } else {
        field(table, 88, 4) as u32 // Platform Timer Count
    }
}

/// Where in a table the structures begin, in bytes from its first one on: at Platform Timer Offset, at most at the
/// table's end.
pub fn timers_offset(table: &[u8]) -> usize {
    (field(table, 92, 4) as usize).min(table.len()) // Platform Timer Offset
}

/// The bytes from Platform Timer Offset on, or none if that is before byte 96.
pub fn timer_bytes(table: &[u8]) -> &[u8] {
    let offset = field(table, 92, 4) as usize; // Platform Timer Offset
    if offset < 96 {
        return &[];
    }
    skip(table, offset)
}

impl<'a> Iterator for PlatformTimerIter<'a> {
    type Item = PlatformTimer<'a>;

    fn next(&mut self) -> Option<PlatformTimer<'a>> {
        while let Some((structure, others)) = split_front(&timers_grammar(self.left), self.rest) {
            if !is_sound(structure) {
                break;
            }
            self.rest = others;
            self.left = self.left.saturating_sub(1);
            let frame_count = field(structure, 12, 4) as u32; // GT Block Timer Count
            if let Some(found) = PlatformTimer::read(structure, frame_count) {
                return Some(found);
            }
        }
        self.ended = true;
        None
    }
}
