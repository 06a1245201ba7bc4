//! The facts that the library returns of the tables together: the platform, timers, PCI, memory and the console.

use super::domains::add_distances;
use super::facts::{Fact, Facts};
use super::gic::add_gic;
use super::processors::add_rows;
use crate::prelude::*;
use zacpi::arm::gic::GicModel;
use zacpi::madt::Madt;
use zacpi::numa::{MemoryAffinities, Slit, Srat};
use zacpi::platform::interrupt::{Apic, InterruptModel, NmiProcessor, Polarity, TriggerMode};
use zacpi::platform::{ProcessorInfo, ProcessorState};
use zacpi::spcr::Spcr;
use zacpi::{AcpiHandler, AcpiTables, HpetInfo, PciConfigRegions, PlatformInfo};

/// How many ticks of the PM timer are in a second (section 4.8.3.3).
const PM_TIMER_FREQUENCY: u64 = 3_579_545;

fn add_unless_missing(facts: &mut Facts, name: &'static str, refusal: AcpiError) {
    if !matches!(refusal, AcpiError::TableMissing(_)) {
        facts.refused(name, refusal);
    }
}

pub(crate) fn add_facts<H: AcpiHandler>(tables: &AcpiTables<'_, H>, facts: &mut Facts) {
    let srat = &tables.find_table::<Srat>();
    let srat = srat.as_ref().map_or(&[][..], |srat| srat.bytes());
    match &tables.platform_info() {
        Ok(platform) => add_platform(facts, platform, srat),
        Err(refusal) => add_other(tables, *refusal, srat, facts),
    }
    match HpetInfo::new(tables) {
        Ok(info) => add_hpet(facts, &info),
        Err(refusal) => add_unless_missing(facts, "HPET", refusal),
    }
    match &PciConfigRegions::new(tables) {
        Ok(regions) => {
            for region in regions.iter() {
                let (first, last) = region.bus_range.into_inner();
                facts.next("pci_segments").text("PCI segment ").number("segment", region.segment_group);
                facts.text("\tbuses ").number("first_bus", first).text(" to ").number("last_bus", last);
                facts.text(", from ").hex("address", region.physical_address).text(" on");
            }
        }
        Err(refusal) => add_unless_missing(facts, "PCI", *refusal),
    }
    if let Ok(affinities) = &MemoryAffinities::new(tables) {
        for range in affinities.ranges() {
            facts.next("memory_ranges").text("memory domain ").number("domain", range.domain).text("\t");
            facts.size("length", range.length).text(" from ").hex("base", range.base).text(" on");
            facts.member("hot_pluggable", Fact::Flag(range.is_hot_pluggable));
            facts.text(if range.is_hot_pluggable { ", hot pluggable" } else { "" });
        }
    }
    if let Ok(slit) = &tables.find_table::<Slit>() {
        add_distances(facts, slit.bytes());
    }
    if let Ok(console) = &tables.find_table::<Spcr>() {
        add_console(facts, console.get());
    }
}

/// Adds the parts of a GIC, or without a FADT what the MADT has of local APICs, or else why the platform isn't known.
fn add_other<H: AcpiHandler>(tables: &AcpiTables<'_, H>, refusal: AcpiError, srat: &[u8], facts: &mut Facts) {
    if let Ok(madt) = &tables.find_table::<Madt>() {
        if let Ok(Some(gic)) = &GicModel::of(madt.bytes(), Global) {
            return add_gic(facts, gic);
        }
        if refusal == AcpiError::TableMissing(Signature::FADT)
            && let Ok((model, processors)) = &madt.parse_interrupt_model_in(Global)
        {
            return add_model(facts, model, processors.as_ref(), srat);
        }
    }
    facts.refused("platform", refusal);
}

fn add_model(
    facts: &mut Facts,
    model: &InterruptModel<Global>,
    processors: Option<&ProcessorInfo<Global>>,
    srat: &[u8],
) {
    if let Some(info) = processors {
        let others = info.application_processors.as_slice();
        let disabled = others.iter().filter(|it| it.state == ProcessorState::Disabled).count();
        facts.one("processor_counts").text("processors\t").number("total", others.len() as u64 + 1);
        facts.text(", ").number("disabled", disabled as u64).text(" of them disabled");
        add_rows(facts, &info.boot_processor, others, srat);
    }
    match model {
        InterruptModel::Apic(apic) => add_apic(facts, apic),
        _ => {
            facts.one("").text("interrupts\tnot described by local APICs");
        }
    }
}

fn add_platform(facts: &mut Facts, platform: &PlatformInfo<Global>, srat: &[u8]) {
    let profile = platform.power_profile;
    facts.one("power").text("profile\t").code("profile", profile.code(), format_args!("{profile:?}"));
    add_model(facts, &platform.interrupt_model, platform.processor_info.as_ref(), srat);
    if let Some(timer) = platform.pm_timer {
        let bits = if timer.supports_32bit { 32u64 } else { 24 };
        facts.one("pm_timer").text("PM timer\t").number("bits", bits).text(" bits, ").register(&timer.base);
        facts.text(", ").number("frequency", PM_TIMER_FREQUENCY).text(" Hz");
    }
}

/// Adds the controllers, where each ISA interrupt comes, and the interrupts that can't be masked.
fn add_apic(facts: &mut Facts, apic: &Apic<Global>) {
    facts.one("local_apics").text("interrupts\tlocal APICs at ").hex("address", apic.local_apic_address);
    facts.member("has_8259s", Fact::Flag(apic.also_has_legacy_pics));
    facts.text(if apic.also_has_legacy_pics { ", and a pair of 8259s" } else { ", no 8259s" });
    for io_apic in apic.io_apics.as_slice() {
        facts.next("io_apics").text("I/O APIC ").number("id", io_apic.id).text("\tat ").hex("address", io_apic.address);
        facts.text(", interrupts from ").number("interrupt_base", io_apic.global_system_interrupt_base).text(" on");
    }
    // Without an override, and without 8259s, no device need have an ISA interrupt.
    let overrides = apic.interrupt_source_overrides.as_slice();
    for irq in 0..16u8 {
        if apic.also_has_legacy_pics || overrides.iter().any(|source| source.isa_source == irq) {
            add_isa(facts, apic, irq);
        }
    }
    for source in apic.nmi_sources.as_slice() {
        facts.next("nmis").text("NMI\tinterrupt ").number("interrupt", source.global_system_interrupt);
        add_signal(facts, source.polarity, source.trigger_mode);
    }
    for nmi in apic.local_apic_nmi_lines.as_slice() {
        facts.next("nmis").text("NMI\tLINT").number("lint", nmi.line.code());
        match nmi.processor {
            NmiProcessor::All => facts.text(" of every processor"),
            NmiProcessor::ProcessorUid(uid) => facts.text(" of processor ").number("uid", uid),
        };
    }
}

fn add_signal(facts: &mut Facts, polarity: Polarity, trigger: TriggerMode) {
    let of_polarity = match polarity {
        Polarity::SameAsBus => "polarity of the bus",
        Polarity::ActiveHigh => "active high",
        Polarity::ActiveLow => "active low",
    };
    let of_trigger = match trigger {
        TriggerMode::SameAsBus => "trigger of the bus",
        TriggerMode::Edge => "edge",
        TriggerMode::Level => "level",
    };
    facts.text(", ").code("polarity", polarity.code(), of_polarity);
    facts.text(", ").code("trigger", trigger.code(), of_trigger);
}

fn add_isa(facts: &mut Facts, apic: &Apic<Global>, irq: u8) {
    facts.next("isa_interrupts").text("ISA interrupt ").number("irq", irq).text("\t");
    let Some(isa) = apic.isa_interrupt(irq) else {
        facts.text("comes nowhere");
        return;
    };
    let interrupt = isa.global_system_interrupt;
    facts.text("interrupt ").number("interrupt", interrupt);
    if let Some(pin) = apic.io_apic_for(interrupt) {
        facts.text(", pin ").number("pin", pin.pin).text(" of I/O APIC ").number("io_apic", pin.io_apic.id);
    }
    add_signal(facts, isa.polarity, isa.trigger_mode);
}

fn add_hpet(facts: &mut Facts, info: &HpetInfo) {
    let bits = if info.main_counter_is_64bits() { 64u64 } else { 32 };
    facts
        .next("hpets")
        .text("HPET ")
        .number("number", info.hpet_number)
        .text("\tat ")
        .hex("address", info.base_address);
    facts.text(", ").number("bits", bits).text(" bits, ").number("comparators", info.num_comparators());
    facts.text(" comparators, periods of ").number("minimum_ticks", info.clock_tick_unit).text(" ticks or more");
}

fn add_console(facts: &mut Facts, console: &Spcr) {
    let base = match console.base_address() {
        None => {
            facts.one("console").text("console\toff").member("on", Fact::Flag(false));
            return;
        }
        Some(Err(refusal)) => return facts.refused("console", refusal),
        Some(Ok(base)) => base,
    };
    facts.one("console").text("console\t").member("on", Fact::Flag(true)).register(&base);
    if let Some(rate) = console.baud_rate() {
        facts.text(", ").number("bits_per_second", rate).text(" bits per second");
    }
}
