// Made by scripts/erase of crates/acpi_base/src/model/gather.rt, where it is proved.
//! The walks along the entries: the first one counts, or finds a fault, and the second one gathers.

use super::ModelAndProcessors;
use super::builder::ModelBuilder;
use super::counts::Counts;
use super::interrupt::InterruptModel;
use crate::alloc::Allocator;
use crate::alloc::TryClone;
use crate::base::bytes::skip;
use crate::base::entries::split_whole;
use crate::base::error::AcpiResult;
use crate::base::memory::handler::PhysicalRecord;
use crate::base::tables::madt::{MADT_GRAMMAR, Madt};

/// The model of APICs, with room for exactly what is counted.
///
/// Fails with `AllocError` if memory is refused, or a clone of the allocator.
fn gather<A: Allocator + TryClone>(
    madt: &Madt,
    table: &[u8],
    counts: Counts,
    allocator: A,
) -> AcpiResult<ModelAndProcessors<A>> {
    let mut builder = ModelBuilder::with_room(madt, counts, allocator)?;
    let mut rest = skip(table, Madt::MIN_LENGTH);
    while let Some((entry, others)) = split_whole(&MADT_GRAMMAR, rest) {
        rest = others;
        builder.add_entry(entry);
    }
    Ok(builder.finish())
}

/// The interrupt model and the processors of a MADT, out of its bytes.
///
/// Fails with `InvalidMadt` for the first fault, and then with `AllocError` if memory for a model of APICs
/// is refused.
pub(crate) fn model_in<A: Allocator + TryClone>(
    madt: &Madt,
    table: &[u8],
    allocator: A,
) -> AcpiResult<ModelAndProcessors<A>> {
    let counts = Counts::of(table)?;
    if !counts.is_of_apic {
        return Ok((InterruptModel::Unknown, None));
    }
    gather(madt, table, counts, allocator)
}
