//! The machine in short: processors, interrupts, timers, PCI, memory domains, the console, and units of other tables,
//! one fact a line.

mod domains;
mod facts;
mod gic;
mod platform;
mod processors;
mod units;

pub(crate) use domains::add_domains;
pub(crate) use facts::{Facts, Summary};
pub(crate) use platform::add_facts;
pub(crate) use units::add_units;
