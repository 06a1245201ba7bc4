//! tables IMAGE rsdt REVISION ADDRESS | rsdp ADDRESS | bios: what acpi_view prints, through the package.
use std::fmt::Display;
use std::process::ExitCode;
use zacpi::alloc::Global;
use zacpi::bgrt::Bgrt;
use zacpi::fadt::Fadt;
use zacpi::hpet::HpetTable;
use zacpi::lists::records::Source;
use zacpi::lists::regions::Region;
use zacpi::madt::Madt;
use zacpi::mcfg::Mcfg;
use zacpi::platform::interrupt::{Apic, InterruptModel, NmiProcessor, Polarity, TriggerMode};
use zacpi::platform::{Processor, ProcessorState};
use zacpi::spcr::Spcr;
use zacpi::{AcpiResult, AcpiTable, AcpiTables, HpetInfo, PciConfigRegions, SourceMemory};

/// How many items of a list are printed; more are counted, and reported as left out.
const MOST: usize = 1024;

type Tables<'h> = AcpiTables<'h, SourceMemory<'h>>;

/// The first bytes, if there are so many, and the rest.
pub fn split(bytes: &[u8], length: u64) -> Option<(&[u8], &[u8])> {
    bytes.split_at_checked(usize::try_from(length).ok()?)
}

/// The number that the first eight bytes are, the lowest byte first.
pub fn eight(bytes: &[u8]) -> u64 {
    u64::from_le_bytes(bytes[..8].try_into().unwrap())
}

/// The regions of an image, in ascending order and without those of no byte, or what acpi_view reports of an image that
/// it rejects. tools/acpi_dump/data/README.md has the layout of images.
pub fn regions(mut image: &[u8]) -> Result<Vec<Region<'_>>, &'static str> {
    let mut found: Vec<Region<'_>> = Vec::new();
    let end = |r: &Region<'_>| r.address + r.bytes.len() as u64;
    while !image.is_empty() {
        let (head, rest) = split(image, 16).ok_or("Truncated")?;
        let (bytes, others) = split(rest, eight(&head[8..])).ok_or("Truncated")?;
        image = others;
        let new = Region { address: eight(head), bytes };
        new.address.checked_add(bytes.len() as u64).ok_or("EndTooLarge")?;
        if bytes.is_empty() {
            continue;
        }
        if found.iter().any(|r| r.address < end(&new) && new.address < end(r)) {
            return Err("Overlap");
        }
        found.push(new);
    }
    found.sort_by_key(|r| r.address);
    Ok(found)
}

/// Prints each item of a list, as far as they are printed.
fn each<T>(items: impl IntoIterator<Item = T>, print: impl Fn(T)) {
    let items: Vec<T> = items.into_iter().collect();
    if items.len() > MOST {
        println!("left out {}", items.len() - MOST);
    }
    items.into_iter().take(MOST).for_each(print);
}

fn print_tables(tables: &Tables<'_>) {
    each(tables.headers(), |t| println!("table {} length {} revision {}", t.signature, t.length, t.revision));
    match tables.dsdt() {
        Ok(aml) => println!("dsdt {:#x} length {}", aml.address, aml.length),
        Err(refused) => println!("dsdt: {refused}"),
    }
    each(tables.ssdts(), |aml| println!("ssdt {:#x} length {}", aml.address, aml.length));
}

fn flags(polarity: Polarity, trigger: TriggerMode) -> String {
    let polarity = match polarity {
        Polarity::ActiveHigh => "high",
        Polarity::ActiveLow => "low",
        Polarity::SameAsBus => "bus",
    };
    let trigger = match trigger {
        TriggerMode::Edge => "edge",
        TriggerMode::Level => "level",
        TriggerMode::SameAsBus => "bus",
    };
    format!("{polarity} {trigger}")
}

fn print_apic(apic: &Apic<Global>) {
    let pics = if apic.also_has_legacy_pics { "yes" } else { "no" };
    println!("model apic {:#x} pics {pics}", apic.local_apic_address);
    each(&apic.io_apics, |a| println!("ioapic {} {:#x} {}", a.id, a.address, a.global_system_interrupt_base));
    each(&apic.interrupt_source_overrides, |o| {
        println!("override {} {} {}", o.isa_source, o.global_system_interrupt, flags(o.polarity, o.trigger_mode))
    });
    each(&apic.nmi_sources, |n| println!("nmi {} {}", n.global_system_interrupt, flags(n.polarity, n.trigger_mode)));
    each(&apic.local_apic_nmi_lines, |n| {
        let of = match n.processor {
            NmiProcessor::All => "all".to_string(),
            NmiProcessor::ProcessorUid(uid) => uid.to_string(),
        };
        println!("line {of} lint{}", n.line.code())
    });
}

fn print_processor(p: &Processor) {
    let state = match p.state {
        ProcessorState::Disabled => "disabled",
        ProcessorState::WaitingForSipi => "waiting",
        ProcessorState::Running => "running",
    };
    println!("processor {} {} {state}", p.processor_uid, p.local_apic_id)
}

fn print_platform(tables: &Tables<'_>) {
    let platform = match tables.platform_info() {
        Ok(found) => found,
        Err(refused) => return println!("platform: {refused}"),
    };
    println!("platform profile {}", platform.power_profile.code());
    match &platform.interrupt_model {
        InterruptModel::Apic(apic) => print_apic(apic),
        _ => println!("model unknown"),
    }
    if let Some(info) = &platform.processor_info {
        each([&info.boot_processor].into_iter().chain(&info.application_processors), print_processor);
    }
    match platform.pm_timer {
        Some(timer) => {
            println!("timer {:#x} bits {}", timer.base.address, if timer.supports_32bit { 32 } else { 24 })
        }
        None => println!("timer none"),
    }
}

fn print_devices(tables: &Tables<'_>) {
    match HpetInfo::new(tables) {
        Ok(h) => println!("hpet {:#x} number {} tick {}", h.base_address, h.hpet_number, h.clock_tick_unit),
        Err(refused) => println!("hpet: {refused}"),
    }
    match PciConfigRegions::new(tables) {
        Ok(regions) => each(regions.iter(), |r| {
            println!("pci {} {} {} {:#x}", r.segment_group, r.bus_range.start(), r.bus_range.end(), r.physical_address)
        }),
        Err(refused) => println!("pci: {refused}"),
    }
    match tables.find_table::<Bgrt>() {
        Ok(g) => {
            let displayed = if g.was_displayed() { "yes" } else { "no" };
            let (x, y) = g.image_offset();
            println!("bgrt displayed {displayed} angle {} offset {x} {y}", g.orientation_offset());
        }
        Err(refused) => println!("bgrt: {refused}"),
    }
    let setting = |number: Option<u32>| number.map_or("none".to_string(), |number| number.to_string());
    match tables.find_table::<Spcr>() {
        Ok(c) => println!(
            "spcr baud {} irq {} gsi {}",
            setting(c.baud_rate()),
            setting(c.irq().map(u32::from)),
            setting(c.global_system_interrupt())
        ),
        Err(refused) => println!("spcr: {refused}"),
    }
}

/// Prints, on the standard error, the tables that a lookup above passes over.
fn print_faults<T: AcpiTable>(tables: &Tables<'_>) {
    for fault in tables.faults::<T>() {
        eprintln!("skipped {} {:#x}: {}", T::SIGNATURE, fault.address, fault.error)
    }
}

/// Where the tables are looked for: the address and the start of a source, and the revision of a root table.
pub fn start_of(words: &[&str]) -> Option<(u64, u32, Option<u8>)> {
    let address = |text: &str| u64::from_str_radix(text.trim_start_matches("0x"), 16).ok();
    Some(match words {
        ["rsdt", revision, at] => {
            let revision = revision.parse().ok()?;
            (address(at)?, if revision == 0 { 1 } else { 2 }, Some(revision))
        }
        ["rsdp", at] => (address(at)?, 0, None),
        ["bios"] => (0, 3, None),
        _ => return None,
    })
}

/// The tables of a source, below a root table of this revision if there is one.
pub fn opened<'h>(memory: &'h SourceMemory<'h>, source: &Source<'_>, revision: Option<u8>) -> AcpiResult<Tables<'h>> {
    match (source.start, revision) {
        (_, Some(revision)) => AcpiTables::from_rsdt(memory, revision, source.address),
        (0, _) => AcpiTables::from_rsdp(memory, source.address),
        _ => AcpiTables::search_for_rsdp_bios(memory),
    }
}

/// Prints the lines of tables that are opened.
pub fn print(tables: &Tables<'_>) {
    println!("revision {}", tables.revision());
    print_tables(tables);
    print_platform(tables);
    print_devices(tables);
    print_faults::<Fadt>(tables);
    print_faults::<Madt>(tables);
    print_faults::<Mcfg>(tables);
    print_faults::<HpetTable>(tables);
    print_faults::<Bgrt>(tables);
    print_faults::<Spcr>(tables);
}

fn refused(why: impl Display) -> ExitCode {
    eprintln!("refused: {why}");
    ExitCode::from(1)
}

fn main() -> ExitCode {
    let arguments: Vec<String> = std::env::args().skip(1).collect();
    let arguments: Vec<&str> = arguments.iter().map(String::as_str).collect();
    let Some((name, start)) = arguments.split_first() else { return ExitCode::from(2) };
    let Some((address, start, revision)) = start_of(start) else { return ExitCode::from(2) };
    let Ok(image) = std::fs::read(name) else { return refused("Unreadable") };
    let regions = match regions(&image) {
        Ok(found) => found,
        Err(why) => return refused(why),
    };
    let source = Source { regions: &regions, address, start, accept: 0 };
    let memory = match source.memory() {
        Ok(memory) => memory,
        Err(why) => return refused(why),
    };
    match opened(&memory, &source, revision) {
        Ok(tables) => {
            print(&tables);
            ExitCode::SUCCESS
        }
        Err(why) => refused(why),
    }
}
