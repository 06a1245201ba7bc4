// Made by scripts/erase of crates/acpi_table_writer/src/madt/gic/entries.rt, where it is proved.
//! The entries of a GIC, each with its bytes (sections 5.2.12.14 to 5.2.12.18).

use crate::arm::gic::{GicCpuInterface, SpiRange};
use crate::table_writer::arm::{flags_of, has_trigger, is_edge};
use crate::table_writer::checked::{Checked, require};
use crate::table_writer::error::WriterError;
use crate::table_writer::fields::Field;

impl Checked for GicCpuInterface {
    fn check(&self) -> Result<(), WriterError> {
        require(has_trigger(self.performance_trigger) && has_trigger(self.maintenance_trigger), WriterError::SameAsBus)
    }
}

/// The flags of a processor.
pub(crate) fn gicc_flags(x: &GicCpuInterface) -> u8 {
    flags_of(x.is_enabled, is_edge(x.performance_trigger), is_edge(x.maintenance_trigger), x.is_online_capable)
}

/// The length of a GICC.
pub(crate) fn gicc_length(trace_buffer_interrupt: Option<u16>) -> u8 {
    match trace_buffer_interrupt {
        Some(_) => 82,
        None => 80,
    }
}

/// TRBE Interrupt, if a GICC has it.
pub(crate) fn trace_field(trace_buffer_interrupt: Option<u16>) -> Field {
    match trace_buffer_interrupt {
        Some(interrupt) => Field::U16(interrupt),
        None => Field::Zeros(0),
    }
}

/// The interrupts of a frame, or none of them.
pub(crate) fn spis_of(spis: Option<SpiRange>) -> SpiRange {
    match spis {
        Some(range) => range,
        None => SpiRange { base: 0, count: 0 },
    }
}

/// Whether the entry of a frame has its interrupts.
pub(crate) fn has_spis(spis: Option<SpiRange>) -> bool {
    match spis {
        Some(_) => true,
        None => false,
    }
}
