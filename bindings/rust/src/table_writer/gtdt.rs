// Made by scripts/erase of crates/acpi_table_writer/src/gtdt.rt, where it is proved.
//! The Generic Timer Description Table (GTDT, section 5.2.24), from the timers of an Arm machine.

pub(crate) mod structures;

use crate::alloc::AllocError;
use crate::arm::gtdt::{ArmTimer, GtFrame, SbsaWatchdog};
use crate::base::Signature;
use crate::table_writer::arm::check_base;
use crate::table_writer::checked::{Checked, check_all};
use crate::table_writer::error::WriterError;
use crate::table_writer::ids::TableIds;
use crate::table_writer::spelled::{Each, Spelled, Then};
use crate::table_writer::table::{Table, write};

/// A GT Block (section 5.2.24.1.1), in the words of `GtBlock`, as which it is read, or with what is written as its
/// frames.
#[derive(Clone, Copy, Debug)]
pub struct GtBlockContents<'a, F = GtFrame> {
    /// GT Block Physical address: that of the block's control frame.
    pub address: u64,
    /// The block's frames, of which the specification allows 8.
    pub frames: &'a [F],
}

/// A timer of the platform (section 5.2.24.1), in the words of `PlatformTimer`, as which it is read.
#[derive(Clone, Copy, Debug)]
#[non_exhaustive]
pub enum PlatformTimerContents<'a, F = GtFrame> {
    /// GT Block.
    GtBlock(GtBlockContents<'a, F>),
    /// Arm Generic Watchdog.
    SbsaWatchdog(SbsaWatchdog),
}

/// What a GTDT is to contain, in the words of `Gtdt`, as which it is read, or with what is written as its timers.
#[derive(Copy, Debug)]
pub struct GtdtContents<'a, T = PlatformTimerContents<'a>> {
    /// CntControlBase Physical Address, if there is one.
    pub counter_control_base: Option<u64>,
    /// Secure EL1 Timer GSIV and Flags.
    pub secure_el1_timer: ArmTimer,
    /// Non-Secure EL1 Timer GSIV and Flags.
    pub non_secure_el1_timer: ArmTimer,
    /// Virtual EL1 Timer GSIV and Flags.
    pub virtual_el1_timer: ArmTimer,
    /// EL2 Timer GSIV and Flags.
    pub el2_timer: ArmTimer,
    /// CntReadBase Physical Address, if there is one.
    pub counter_read_base: Option<u64>,
    /// Virtual EL2 Timer GSIV and Flags.
    pub virtual_el2_timer: ArmTimer,
    /// Platform Timer Structures.
    pub platform_timers: &'a [T],
}

impl<T: Copy> Clone for GtdtContents<'_, T> {
    fn clone(&self) -> Self {
        *self
    }
}

impl<'a, T: Checked + Copy + Spelled> Table for GtdtContents<'a, T> {
    type Body = Then<GtdtContents<'a, T>, Each<'a, T>>;

    fn head(&self) -> (Signature, u8) {
        (Signature::GTDT, 3)
    }

    fn check(&self) -> Result<(), WriterError> {
        check_base(self.counter_control_base)?;
        self.secure_el1_timer.check()?;
        self.non_secure_el1_timer.check()?;
        self.virtual_el1_timer.check()?;
        self.el2_timer.check()?;
        check_base(self.counter_read_base)?;
        self.virtual_el2_timer.check()?;
        check_all(self.platform_timers)
    }

    fn body(&self) -> Then<GtdtContents<'a, T>, Each<'a, T>> {
        Then(*self, Each(self.platform_timers))
    }
}

/// Writes a GTDT of revision 3 to the front of a slice, and returns how many bytes it has: 104, and 28 for each
/// watchdog, 20 for each GT Block, and 40 for each frame of it. An address that is `None` is written as all ones.
/// Platform Timer Offset is 104, also if there is no timer of the platform.
///
/// Returns the first error in the order of the fields: `NoAddress` if a base address is `Some` of all ones, and
/// `SameAsBus` if a trigger mode or a polarity is a bus's. Of a GT Block it returns first `TooManyFrames` if it
/// has more than 1637, and then the first error of a frame, of which CntEL0BaseX comes before the timers. Then it
/// returns, in this order, `BadName` if a name of the ids is not valid UTF-8, `NoRoom` if the slice is shorter than the
/// table, and `TooLong` if the table has 2^32 bytes or more.
pub fn write_gtdt<T: Checked + Copy + Spelled>(
    out: &mut [u8],
    ids: &TableIds,
    contents: &GtdtContents<'_, T>,
) -> Result<usize, WriterError> {
    write(out, ids, contents)
}
