// Made by scripts/erase of crates/acpi/src/platform/interrupt.rt, where it is proved.
//! Interrupt controllers, and how interrupts come to them (section 5.2.12): the types of
//! `base::model`.

pub use crate::base::model::{
    Apic, InterruptModel, InterruptSourceOverride, IoApic, IoApicPin, IsaInterrupt, LocalInterruptLine, LocalNmiLines,
    NmiLine, NmiProcessor, NmiSource, Polarity, TriggerMode,
};
