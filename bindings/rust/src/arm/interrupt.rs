// Made by scripts/erase of crates/acpi_arm/src/interrupt.rt, where it is proved.
//! The trigger mode and the polarity of an interrupt of an Arm machine, by bits of its flags.

use crate::base::bytes::has_bit;
use crate::base::model::{Polarity, TriggerMode};

/// The trigger mode of a bit of the flags: 1 is edge-triggered.
pub(crate) fn trigger_in(flags: u32, bit: u32) -> TriggerMode {
    if has_bit(flags as u64, bit) { TriggerMode::Edge } else { TriggerMode::Level }
}

/// The polarity of a bit of the flags: 1 is active low.
pub(crate) fn polarity_in(flags: u32, bit: u32) -> Polarity {
    if has_bit(flags as u64, bit) { Polarity::ActiveLow } else { Polarity::ActiveHigh }
}

/// An address, unless all its bits are ones, which mean none.
pub(crate) fn unless_ones(address: u64) -> Option<u64> {
    if address == u64::MAX { None } else { Some(address) }
}
