// Made by scripts/erase of crates/acpi_c_interrupts/src/writing/madt/shown.rt, where it is proved.
//! Made by scripts/shown: records for C, and what is written of C's, as definitions in specs/ have them.

use crate::base::model::{LocalInterruptLine, NmiProcessor};
use crate::c_interrupts::apics::records::{InterruptSourceOverride, IoApic, NmiLine, NmiSource, Processor};
use crate::c_interrupts::writing::madt::{polarity, trigger};
use crate::table_writer::{MadtNmiLine, MadtProcessor};

/// Enabled is set unless the state is 0.
pub(crate) fn processor_of(p: &Processor) -> MadtProcessor {
    MadtProcessor {
        processor_uid: p.uid,
        local_apic_id: p.local_apic_id,
        is_enabled: p.state != 0,
        is_online_capable: p.is_online_capable != 0,
        is_x2apic: p.is_x2apic != 0,
    }
}

pub(crate) fn io_apic_of(x: &IoApic) -> crate::base::model::IoApic {
    crate::base::model::IoApic {
        id: x.id,
        address: x.address,
        global_system_interrupt_base: x.global_system_interrupt_base,
    }
}

pub(crate) fn override_of(x: &InterruptSourceOverride) -> crate::base::model::InterruptSourceOverride {
    crate::base::model::InterruptSourceOverride {
        isa_source: x.isa_source,
        global_system_interrupt: x.global_system_interrupt,
        polarity: polarity(x.polarity),
        trigger_mode: trigger(x.trigger),
    }
}

pub(crate) fn nmi_source_of(x: &NmiSource) -> crate::base::model::NmiSource {
    crate::base::model::NmiSource {
        global_system_interrupt: x.global_system_interrupt,
        polarity: polarity(x.polarity),
        trigger_mode: trigger(x.trigger),
    }
}

pub(crate) fn nmi_line_of(x: &NmiLine) -> MadtNmiLine {
    MadtNmiLine {
        processor: if x.of_all == 0 { NmiProcessor::ProcessorUid(x.processor_uid) } else { NmiProcessor::All },
        line: if x.lint == 0 { LocalInterruptLine::Lint0 } else { LocalInterruptLine::Lint1 },
        polarity: polarity(x.polarity),
        trigger_mode: trigger(x.trigger),
    }
}
