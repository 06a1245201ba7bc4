// Made by scripts/erase of crates/acpi_base/src/model/builder.rt, where it is proved.
//! A model that is being gathered.

use super::ModelAndProcessors;
use super::counts::Counts;
use super::interrupt::{Apic, InterruptModel, InterruptSourceOverride, IoApic, NmiLine, NmiSource};
use super::item::{MadtItem, processor_of, x2apic_processor_of};
use super::processor::{Processor, ProcessorInfo, ProcessorState};
use crate::alloc::{AllocError, Allocator};
use crate::alloc::{TryClone, Vec};
use crate::base::error::AcpiResult;
use crate::base::managed_slice::ManagedSlice;
use crate::base::memory::handler::PhysicalRecord;
use crate::base::tables::madt::{LocalApicEntry, LocalX2ApicEntry, Madt};

/// The model that the entries so far describe.
#[derive(Debug)]
pub(super) struct ModelBuilder<A: Allocator> {
    local_apic_address: u64,
    has_legacy_pics: bool,
    io_apics: Vec<IoApic, A>,
    nmi_lines: Vec<NmiLine, A>,
    overrides: Vec<InterruptSourceOverride, A>,
    nmi_sources: Vec<NmiSource, A>,
    boot_processor: Option<Processor>,
    application_processors: Vec<Processor, A>,
}

impl<A: Allocator + TryClone> ModelBuilder<A> {
    /// A model of no entries yet, with room for exactly as many items as are counted.
    ///
    /// Fails with `AllocError` if memory runs out, also for a clone of the allocator.
    pub(super) fn with_room(madt: &Madt, counts: Counts, allocator: A) -> AcpiResult<Self> {
        Ok(ModelBuilder {
            local_apic_address: madt.local_apic_address as u64,
            has_legacy_pics: madt.supports_8259(),
            io_apics: room(&allocator, counts.io_apics)?,
            nmi_lines: room(&allocator, counts.nmi_lines)?,
            overrides: room(&allocator, counts.overrides)?,
            nmi_sources: room(&allocator, counts.nmi_sources)?,
            boot_processor: None,
            application_processors: Vec::with_capacity(allocator, counts.processors.saturating_sub(1))?,
        })
    }
}

impl<A: Allocator> ModelBuilder<A> {
    /// Adds the item of one more entry after the others. There is room for it.
    #[inline(always)]
    fn add(&mut self, item: MadtItem) {
        match item {
            MadtItem::Processor { processor_uid, local_apic_id, is_enabled } => {
                // Two records, each with constants: of one, the fields would be found by tests.
                let is_ap = self.boot_processor.is_some();
                if is_ap {
                    self.application_processors.push_reserved(Processor {
                        processor_uid,
                        local_apic_id,
                        state: if is_enabled { ProcessorState::WaitingForSipi } else { ProcessorState::Disabled },
                        is_ap: true,
                    });
                } else {
                    self.boot_processor = Some(Processor {
                        processor_uid,
                        local_apic_id,
                        state: if is_enabled { ProcessorState::Running } else { ProcessorState::Disabled },
                        is_ap: false,
                    });
                }
            }
            MadtItem::IoApic(io_apic) => self.io_apics.push_reserved(io_apic),
            MadtItem::Override(wiring) => self.overrides.push_reserved(wiring),
            MadtItem::NmiSource(source) => self.nmi_sources.push_reserved(source),
            MadtItem::NmiLine(line) => self.nmi_lines.push_reserved(line),
            MadtItem::LocalApicAddress(address) => {
                self.local_apic_address = address;
            }
            MadtItem::Wakeup => {}
        }
    }

    /// Adds the item of one more entry after the others, if it has one. There is room for it. Most entries
    /// are of processors: only for these the code is in line.
    #[inline(always)]
    pub(super) fn add_entry(&mut self, entry: &[u8]) {
        match entry[0] {
            0x00 => self.add(processor_of(&LocalApicEntry::read(entry))),
            0x09 => self.add(x2apic_processor_of(&LocalX2ApicEntry::read(entry))),
            _ => self.add_other(entry),
        }
    }

    /// What `add_entry` does, for an entry of any type, out of line.
    #[inline(never)]
    fn add_other(&mut self, entry: &[u8]) {
        if let Some(Ok(item)) = MadtItem::of_entry(entry) {
            self.add(item);
        }
    }

    /// The model, and the processors.
    pub(super) fn finish(self) -> ModelAndProcessors<A> {
        let ModelBuilder {
            local_apic_address,
            has_legacy_pics,
            io_apics,
            nmi_lines,
            overrides,
            nmi_sources,
            boot_processor,
            application_processors,
        } = self;
        let application_processors = ManagedSlice::from_vec(application_processors);
        let processors = match boot_processor {
            Some(boot_processor) => Some(ProcessorInfo { boot_processor, application_processors }),
            None => None,
        };
        let apic = Apic {
            local_apic_address,
            io_apics: ManagedSlice::from_vec(io_apics),
            local_apic_nmi_lines: ManagedSlice::from_vec(nmi_lines),
            interrupt_source_overrides: ManagedSlice::from_vec(overrides),
            nmi_sources: ManagedSlice::from_vec(nmi_sources),
            also_has_legacy_pics: has_legacy_pics,
        };
        (InterruptModel::Apic(apic), processors)
    }
}

/// An empty list with room for exactly this many items.
///
/// Fails if memory runs out, also for the clone of the allocator.
fn room<T, A: Allocator + TryClone>(allocator: &A, count: usize) -> Result<Vec<T, A>, AllocError> {
    Vec::with_capacity(allocator.try_clone()?, count)
}
