// Made by scripts/erase of crates/acpi_arm/src/structures.rt, where it is proved.
//! The Platform Timer Structures of a GTDT, each by itself (section 5.2.24.1).

use crate::arm::timers::{PlatformTimer, frames_there, timer_bytes, timer_count, timers_grammar};
use crate::base::entries::split_front;

/// The timers of the platform that a GTDT lists (section 5.2.24.1), in order, each by itself: a block whose frames
/// don't fit has the ones that are there, and ends nothing. Structures of undefined types are skipped. It ends when as
/// many as Platform Timer Count were taken, or where none begins: if the structures begin before byte 96, if less
/// than 4 bytes are left, or if a length is less than the least of its type (20 for type 0, 28 for type 1, 4 for
/// others) or goes past the table's end.
#[derive(Debug)]
pub struct TimerStructureIter<'a> {
    rest: &'a [u8],
    left: u32,
}

impl<'a> TimerStructureIter<'a> {
    /// The timers in a GTDT's bytes. It needs no handler. A table below revision 2 has none.
    pub fn over(table: &'a [u8]) -> Self {
        TimerStructureIter { rest: timer_bytes(table), left: timer_count(table) }
    }
}

impl<'a> Iterator for TimerStructureIter<'a> {
    type Item = PlatformTimer<'a>;

    fn next(&mut self) -> Option<PlatformTimer<'a>> {
        while let Some((structure, others)) = split_front(&timers_grammar(self.left), self.rest) {
            self.rest = others;
            self.left = self.left.saturating_sub(1);
            if let Some(found) = PlatformTimer::read(structure, frames_there(structure)) {
                return Some(found);
            }
        }
        None
    }
}
