// Made by scripts/erase of crates/acpi_base/src/model.rt, where it is proved.
//! The interrupt model: the controllers and processors that the entries of a MADT describe together (section
//! 5.2.12).
//!
//! The first entry that is at fault decides. If none is, what the entries contain is gathered, each sort
//! in a list of its own.

mod builder;
mod counts;
mod entry_flags;
mod gather;
mod interrupt;
mod isa;
mod isa_overrides;
mod item;
mod items;
mod nmi_lines;
mod pin;
mod processor;

pub use counts::Counts;
pub(crate) use gather::model_in;
pub use interrupt::{
    Apic, InterruptModel, InterruptSourceOverride, IoApic, LocalInterruptLine, NmiLine, NmiProcessor, NmiSource,
    Polarity, TriggerMode,
};
pub use isa::IsaInterrupt;
pub use isa_overrides::IsaOverrides;
pub use item::{MadtItem, flags_fault};
pub use items::MadtItems;
pub use nmi_lines::LocalNmiLines;
pub use pin::IoApicPin;
pub use processor::{Processor, ProcessorInfo, ProcessorState};

/// The interrupt model of a MADT (section 5.2.12), and the processors, or `None` if it lists none.
pub type ModelAndProcessors<A> = (InterruptModel<A>, Option<ProcessorInfo<A>>);
