//! What a source's tables contain, as lines: one and the same for every processor. `main.c` passes the memory of an image.
#![no_std]
extern crate alloc;

use core::alloc::{GlobalAlloc, Layout};
use core::fmt::{Debug, Write};
use zacpi::arm::gic::GicModel;
use zacpi::fadt::Fadt;
use zacpi::handler::Lender;
use zacpi::lists::records::Source;
use zacpi::lists::regions::Region;
use zacpi::lists::*;
use zacpi::madt::Madt;
use zacpi::numa::{MemoryAffinities, Slit, Srat, SratEntryIter};
use zacpi::sleep::SleepTables;
use zacpi::{AcpiResult, AcpiTables, PciConfigRegions, bgrt::Bgrt, hpet::HpetTable, mcfg::Mcfg, spcr::Spcr};

unsafe extern "C" {
    fn aligned_alloc(align: usize, size: usize) -> *mut u8;
    fn free(at: *mut u8);
    fn print(text: *const u8, length: usize);
    fn abort() -> !;
}

struct Heap;

// SAFETY: the C library's heap.
unsafe impl GlobalAlloc for Heap {
    unsafe fn alloc(&self, layout: Layout) -> *mut u8 {
        // SAFETY: the size is a multiple of the alignment.
        unsafe { aligned_alloc(layout.align().max(8), layout.size().next_multiple_of(layout.align().max(8))) }
    }

    unsafe fn dealloc(&self, at: *mut u8, _: Layout) {
        // SAFETY: it is of `alloc`.
        unsafe { free(at) }
    }
}

#[global_allocator]
static HEAP: Heap = Heap;

#[panic_handler]
fn panicked(info: &core::panic::PanicInfo<'_>) -> ! {
    let _ = writeln!(Out, "{info}");
    // SAFETY: it ends the program.
    unsafe { abort() }
}

struct Out;

impl Write for Out {
    fn write_str(&mut self, text: &str) -> core::fmt::Result {
        // SAFETY: a text has so many bytes.
        unsafe { print(text.as_ptr(), text.len()) };
        Ok(())
    }
}

fn say(name: &str, what: impl Debug) {
    let _ = writeln!(Out, "{name} {what:?}");
}

/// The items of lists, and how many there are, also of those that don't fit.
macro_rules! lists {
    ($source:ident: $($module:ident :: $list:ident)*) => { $(
        let mut items = [Default::default(); 32];
        let count = $module::$list($source, &mut items);
        say(stringify!($list), count);
        for item in &items[..count.unwrap_or(0).min(32)] {
            say(stringify!($list), item);
        }
    )* };
}

macro_rules! ones {
    ($source:ident: $($module:ident :: $one:ident)*) => { $( say(stringify!($one), $module::$one($source)); )* };
}

fn without_a_heap(source: &Source<'_>) {
    ones! { source: apics::mailbox arm_timers::arm_timers console::console devices::hpet devices::timer devices::graphic
        facs::facs fixed::fixed gic::distributor iommu::dmar_flags local_apic::local_apic numa::localities opening::root
        power::power_off_plan power::enable_plan power::reset_plan processors::model routes::sci rsdp::rsdp tables::dsdt }
    lists! { source: apics::processors arm_timers::frames arm_timers::watchdogs devices::hpets gtdt_faults::gtdt_faults
        iommu_faults::dmar_faults iommu_faults::ivrs_faults madt_faults::madt_faults members::members missing::missing
        pci::pci_regions pci::ecam_ranges srat_faults::srat_faults tables::tables tables::ssdts
        walks::ranges }
    let mut ranges = [numa_records::MemoryAffinity::default(); 32];
    say("affinities", affinities::srat_entries(source, &mut ranges).map(|count| (count, ranges)));
}

fn with_types<H: Lender>(tables: &AcpiTables<'_, H>) {
    say("revision", tables.revision());
    tables.headers().for_each(|header| say("header", header));
    tables.ssdts().for_each(|ssdt| say("ssdt", ssdt));
    say("dsdt", tables.dsdt());
    say("platform", tables.platform_info());
    say("fadt", tables.find_table::<Fadt>().map(|fadt| fadt.power_profile()));
    say("hpet", tables.find_table::<HpetTable>().map(|hpet| *hpet));
    say("mcfg", tables.find_table::<Mcfg>().map(|mcfg| mcfg.entries().count()));
    say("bgrt", tables.find_table::<Bgrt>().map(|bgrt| *bgrt));
    say("spcr", tables.find_table::<Spcr>());
    if let Ok(madt) = tables.find_table::<Madt>() {
        madt.entries().for_each(|entry| say("madt", entry));
    }
    if let Ok(srat) = tables.find_table::<Srat>() {
        SratEntryIter::over(srat.bytes()).for_each(|entry| say("srat", entry));
    }
    say("slit", tables.find_table::<Slit>().map(|slit| slit.region_length()));
    let regions = PciConfigRegions::new(tables);
    say("ecam", regions.map(|regions| [0u8, 1, 31, 255].map(|bus| regions.physical_address(0, bus, 31, 7))));
    let domains = MemoryAffinities::new(tables);
    say("domains", domains.map(|all| [0, 1 << 20, 1 << 31, 1 << 32, u64::MAX].map(|address| all.domain_of(address))));
    say("gic", GicModel::new(tables).map(|gic| gic.map(|gic| gic.distributor)));
    (0..7).for_each(|state| say("sleep", tables.sleep_types(state)));
}

fn opened<'h, H: Lender>(handler: &'h H, start: u32, address: u64, revision: u8) -> AcpiResult<AcpiTables<'h, H>> {
    match start {
        0 => AcpiTables::from_rsdp(handler, address),
        1 | 2 => AcpiTables::from_rsdt(handler, revision, address),
        _ => AcpiTables::search_for_rsdp_bios(handler),
    }
}

/// Prints what the tables contain from a start: `start` and `address` are as of a source, and a root table's is passed its
/// revision.
#[unsafe(no_mangle)]
unsafe extern "C" fn show(regions: *const Region<'_>, count: usize, start: u32, address: u64, revision: u8) {
    // SAFETY: the caller passes so many.
    let regions = unsafe { core::slice::from_raw_parts(regions, count) };
    let source = Source { regions, address, start, accept: 0 };
    without_a_heap(&source);
    match source.memory() {
        Ok(memory) => match opened(&memory, start, address, revision) {
            Ok(tables) => with_types(&tables),
            Err(error) => say("refused", error),
        },
        Err(error) => say("no memory", error),
    }
}
