// Made by scripts/erase of crates/acpi_arm/src/frames.rt, where it is proved.
//! The frames of a GT Block (section 5.2.24.1.1).

mod readings;

use crate::arm::interrupt::{polarity_in, trigger_in};
use crate::base::bytes::{field, skip};
use crate::base::model::{Polarity, TriggerMode};
use readings::frame_at;

/// How many bytes the structure of a frame has.
pub(crate) const FRAME_LENGTH: usize = 40;

/// The interrupt of a timer of a GT Block's frame (section 5.2.24.1.1).
#[derive(Clone, Copy, Debug)]
pub struct TimerInterrupt {
    /// GSIV: the number of the interrupt at the GIC. 0: the timer isn't there.
    pub interrupt: u32,
    /// Timer Interrupt Mode (bit 0 of the timer's flags, set if it is edge-triggered): what raises the
    /// interrupt.
    pub trigger_mode: TriggerMode,
    /// Timer Interrupt Polarity (bit 1 of the timer's flags, set if it is active low): the level at which
    /// the interrupt counts as raised.
    pub polarity: Polarity,
}

/// GTx: a frame of a GT Block, with a physical timer and a virtual one (section 5.2.24.1.1).
#[derive(Clone, Copy, Debug)]
pub struct GtFrame {
    /// GT Frame Number: the number of the frame, from 0 to 7 by the specification. It is kept as it is.
    pub number: u8,
    /// CntBaseX: the physical address of the frame's registers.
    pub base: u64,
    /// CntEL0BaseX: the physical address of the frame's registers as EL0 sees them, or `None` if all its
    /// bits are ones: EL0 sees none.
    pub el0_base: Option<u64>,
    /// GTx Physical Timer GSIV and Flags: the interrupt of the frame's physical timer.
    pub physical_timer: TimerInterrupt,
    /// GTx Virtual Timer GSIV and Flags: the interrupt of the frame's virtual timer.
    pub virtual_timer: TimerInterrupt,
    /// Secure Timer (bit 0 of GTx Common Flags): only secure software may use the frame.
    pub is_secure: bool,
    /// Always-on Capability (bit 1 of GTx Common Flags): the frame's timers keep their state and raise
    /// their interrupts in every low power state of the processors.
    pub is_always_on: bool,
}

/// The interrupt whose number and flags are at an offset. A byte past the end is read as zero.
fn interrupt_at(bytes: &[u8], offset: usize) -> TimerInterrupt {
    let flags = field(bytes, offset + 4, 4) as u32; // Flags
    TimerInterrupt {
        interrupt: field(bytes, offset, 4) as u32, // GSIV
        trigger_mode: trigger_in(flags, 0),        // Timer interrupt Mode
        polarity: polarity_in(flags, 1),           // Timer Interrupt polarity
    }
}

/// The frames of a GT Block (section 5.2.24.1.1), in order.
#[derive(Clone, Copy, Debug)]
pub struct GtFrameIter<'a> {
    rest: &'a [u8],
    left: u32,
}

impl<'a> GtFrameIter<'a> {
    /// The frames that bytes have, `count` of them, one after the other.
    pub(crate) fn over(bytes: &'a [u8], count: u32) -> Self {
        GtFrameIter { rest: bytes, left: count }
    }
}

impl Iterator for GtFrameIter<'_> {
    type Item = GtFrame;

    fn next(&mut self) -> Option<GtFrame> {
        if self.left == 0 {
            return None;
        }
        let frame = frame_at(self.rest);
        self.rest = skip(self.rest, FRAME_LENGTH);
        self.left -= 1;
        Some(frame)
    }
}
