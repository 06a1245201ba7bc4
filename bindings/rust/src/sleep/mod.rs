// Made by scripts/erase of crates/acpi_sleep/src/lib.rt, where it is proved.
//! The sleep types of a machine: what is by its AML to be written to the power management registers, to sleep or to
//! power off (ACPI 6.4, section 7.4.2).
//!
//! AML is not run. A walk goes along the objects at the root of one block of AML, a DSDT's or an SSDT's, and skips what
//! has a length. What it would have to run hides what follows it, and bytes that are no AML end it with an error.
//!
//! Section numbers are the ACPI Specification's, version 6.4.

#![forbid(unsafe_code)]
// What contracts alone use.
#![allow(dead_code, unused_imports, unused_labels, unused_variables)]
// It is written as it is proved.
#![allow(clippy::style, clippy::complexity, clippy::perf, clippy::manual_unwrap_or_default)]

mod argument;
pub mod block;
pub mod error;
pub mod name;
pub mod opcode;
mod package;
pub mod plan;
pub mod sleep;
mod step;
pub mod tables;
pub mod term;

pub use error::{AmlError, PlanError, SleepError};
pub use plan::{Plan, PlanStep, StepKind, enable_plan, pm_timer_ticks, reset_plan, sleep_plan};
pub use sleep::{SleepAnswer, SleepTypes, sleep_types};
pub use tables::SleepTables;
