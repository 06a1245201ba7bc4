// Made by scripts/erase of crates/acpi_view_lib/src/lines/platform.rt, where it is proved.
//! The lines of the platform.

use super::{print_refusal, yes_or_no};
use crate::rattle::alloc::{AllocError, Allocator};
use crate::rattle::{String, TryClone};
use core::fmt::Write;
use zacpi::platform::interrupt::{
    Apic, InterruptModel, InterruptSourceOverride, IoApic, NmiLine, NmiProcessor, NmiSource, Polarity, TriggerMode,
};
use zacpi::platform::{PmTimer, Processor, ProcessorInfo, ProcessorState};
use zacpi::{AcpiHandler, AcpiResult, AcpiTables, PlatformInfo};

/// The lines of the platform, as the FADT and the MADT describe it, or the one line of its error. Memory for
/// it is an allocator's.
///
/// Fails if memory for the text runs out.
pub fn print_platform<H: AcpiHandler, A: Allocator + TryClone>(
    alloc: A,
    tables: &AcpiTables<'_, H>,
    text: &mut String,
) -> Result<(), AllocError> {
    print_found(tables.platform_info_in(alloc), text)
}

/// The lines of the platform that is found, or its error.
fn print_found<A: Allocator>(found: AcpiResult<PlatformInfo<A>>, text: &mut String) -> Result<(), AllocError> {
    match found {
        Ok(platform) => print_info(&platform, text),
        Err(refusal) => print_refusal("platform", refusal, text),
    }
}

/// `platform profile N`, then the lines of the interrupt model, of the processors and of the timer.
fn print_info<A: Allocator>(platform: &PlatformInfo<A>, text: &mut String) -> Result<(), AllocError> {
    writeln!(text, "platform profile {}", platform.power_profile.code())?;
    print_model(&platform.interrupt_model, text)?;
    print_processors(&platform.processor_info, text)?;
    print_timer(platform.pm_timer, text)
}

/// `model unknown`, or the lines of the APICs.
fn print_model<A: Allocator>(model: &InterruptModel<A>, text: &mut String) -> Result<(), AllocError> {
    match model {
        InterruptModel::Apic(apic) => print_apic(apic, text),
        _ => text.push_str("model unknown\n"),
    }
}

/// `model apic ADDRESS pics yes|no`, then the lines of each list.
fn print_apic<A: Allocator>(apic: &Apic<A>, text: &mut String) -> Result<(), AllocError> {
    let pics = yes_or_no(apic.also_has_legacy_pics);
    writeln!(text, "model apic 0x{:x} pics {pics}", apic.local_apic_address)?;
    print_each(apic.io_apics.as_slice(), text)?;
    print_each(apic.interrupt_source_overrides.as_slice(), text)?;
    print_each(apic.nmi_sources.as_slice(), text)?;
    print_each(apic.local_apic_nmi_lines.as_slice(), text)
}

/// An item that is printed as one line.
trait Line {
    /// Puts the item's line after the text.
    fn print(&self, text: &mut String) -> Result<(), AllocError>;
}

/// The line of each item, in order.
fn print_each<L: Line>(items: &[L], text: &mut String) -> Result<(), AllocError> {
    for item in items {
        item.print(text)?;
    }
    Ok(())
}

/// `ioapic ID ADDRESS BASE`.
impl Line for IoApic {
    fn print(&self, text: &mut String) -> Result<(), AllocError> {
        let base = self.global_system_interrupt_base;
        writeln!(text, "ioapic {} 0x{:x} {base}", self.id, self.address)?;
        Ok(())
    }
}

/// `override SOURCE GSI POLARITY TRIGGER`.
impl Line for InterruptSourceOverride {
    fn print(&self, text: &mut String) -> Result<(), AllocError> {
        let (source, gsi) = (self.isa_source, self.global_system_interrupt);
        let (polarity, trigger) = (polarity_word(self.polarity), trigger_word(self.trigger_mode));
        writeln!(text, "override {source} {gsi} {polarity} {trigger}")?;
        Ok(())
    }
}

/// `nmi GSI POLARITY TRIGGER`.
impl Line for NmiSource {
    fn print(&self, text: &mut String) -> Result<(), AllocError> {
        let (polarity, trigger) = (polarity_word(self.polarity), trigger_word(self.trigger_mode));
        writeln!(text, "nmi {} {polarity} {trigger}", self.global_system_interrupt)?;
        Ok(())
    }
}

/// The word of a polarity: `bus`, `high` or `low`.
fn polarity_word(polarity: Polarity) -> &'static str {
    match polarity {
        Polarity::SameAsBus => "bus",
        Polarity::ActiveHigh => "high",
        Polarity::ActiveLow => "low",
    }
}

/// The word of a trigger mode: `bus`, `edge` or `level`.
fn trigger_word(trigger: TriggerMode) -> &'static str {
    match trigger {
        TriggerMode::SameAsBus => "bus",
        TriggerMode::Edge => "edge",
        TriggerMode::Level => "level",
    }
}

/// `line all|UID lint0|lint1`.
impl Line for NmiLine {
    fn print(&self, text: &mut String) -> Result<(), AllocError> {
        let number = self.line.code();
        match self.processor {
            NmiProcessor::All => writeln!(text, "line all lint{number}")?,
            NmiProcessor::ProcessorUid(uid) => writeln!(text, "line {uid} lint{number}")?,
        }
        Ok(())
    }
}

/// The line of each processor, the boot processor's first.
fn print_processors<A: Allocator>(processors: &Option<ProcessorInfo<A>>, text: &mut String) -> Result<(), AllocError> {
    let Some(info) = processors else {
        return Ok(());
    };
    info.boot_processor.print(text)?;
    print_each(info.application_processors.as_slice(), text)
}

/// `processor UID ID running|waiting|disabled`.
impl Line for Processor {
    fn print(&self, text: &mut String) -> Result<(), AllocError> {
        let (uid, id, state) = (self.processor_uid, self.local_apic_id, state_word(self.state));
        writeln!(text, "processor {uid} {id} {state}")?;
        Ok(())
    }
}

/// The word of a processor's state: `disabled`, `waiting` or `running`.
fn state_word(state: ProcessorState) -> &'static str {
    match state {
        ProcessorState::Disabled => "disabled",
        ProcessorState::WaitingForSipi => "waiting",
        ProcessorState::Running => "running",
    }
}

/// `timer none`, or `timer ADDRESS bits 24|32`.
fn print_timer(timer: Option<PmTimer>, text: &mut String) -> Result<(), AllocError> {
    let Some(timer) = timer else {
        return text.push_str("timer none\n");
    };
    let bits = if timer.supports_32bit { "32" } else { "24" };
    writeln!(text, "timer 0x{:x} bits {bits}", timer.base.address)?;
    Ok(())
}
