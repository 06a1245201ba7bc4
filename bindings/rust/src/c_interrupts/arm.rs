// Made by scripts/erase of crates/acpi_c_interrupts/src/arm.rt, where it is proved.
//! The GIC and the generic timers of an Arm machine.

pub mod gic;
pub mod records;
pub mod timer_faults;
pub mod timers;
