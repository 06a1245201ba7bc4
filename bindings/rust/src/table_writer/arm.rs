// Made by scripts/erase of crates/acpi_table_writer/src/arm.rt, where it is proved.
//! What the tables of an Arm machine share: flags, the trigger mode and the polarity of an interrupt in them, and
//! addresses that may be missing.

use crate::base::model::{Polarity, TriggerMode};
use crate::table_writer::checked::require;
use crate::table_writer::error::WriterError;
use crate::table_writer::numbers::bit_of;

/// Four flags, from bit 0 on.
pub(crate) fn flags_of(a: bool, b: bool, c: bool, d: bool) -> u8 {
    bit_of(a) + 2 * bit_of(b) + 4 * bit_of(c) + 8 * bit_of(d)
}

/// Whether the flag of a trigger mode is set: it is for edge-triggered interrupts.
pub(crate) fn is_edge(trigger_mode: TriggerMode) -> bool {
    match trigger_mode {
        TriggerMode::Edge => true,
        _ => false,
    }
}

/// Whether a flag can express the trigger mode, since there is no bus of which it could be.
pub(crate) fn has_trigger(trigger_mode: TriggerMode) -> bool {
    match trigger_mode {
        TriggerMode::SameAsBus => false,
        _ => true,
    }
}

/// Whether the flag of a polarity is set: it is for interrupts that are active low.
pub(crate) fn is_low(polarity: Polarity) -> bool {
    match polarity {
        Polarity::ActiveLow => true,
        _ => false,
    }
}

/// Whether a flag can express the polarity.
fn has_polarity(polarity: Polarity) -> bool {
    match polarity {
        Polarity::SameAsBus => false,
        _ => true,
    }
}

/// Returns `SameAsBus` if flags can't express the trigger mode and the polarity.
pub(crate) fn check_modes(trigger_mode: TriggerMode, polarity: Polarity) -> Result<(), WriterError> {
    require(has_trigger(trigger_mode) && has_polarity(polarity), WriterError::SameAsBus)
}

/// Returns `NoAddress` if there is an address whose bits are all ones, which means none.
pub(crate) fn check_base(base: Option<u64>) -> Result<(), WriterError> {
    match base {
        Some(address) => require(address < u64::MAX, WriterError::NoAddress),
        None => Ok(()),
    }
}
