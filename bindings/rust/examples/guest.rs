//! guest FILE: writes the ACPI tables of a guest into a file, as a hypervisor writes them into the guest's memory from
//! 0x7000000 on, where the RSDP lies, and reads them back: four processors and 4 GiB in two domains, an I/O APIC, PCI,
//! a console and reduced hardware, with no legacy timers.
use std::error::Error;
use zacpi::address::{AccessSize, AddressSpace, GenericAddress};
use zacpi::handler::MappedRegion;
use zacpi::mcfg::McfgEntry;
use zacpi::numa::MemoryRange;
use zacpi::platform::interrupt::IoApic;
use zacpi::spcr::{SpcrFlowControl, SpcrInterfaceType, SpcrInterruptType, SpcrTerminalType};
use zacpi::write::fadt::{ArmBootFeatures, FixedFeatures, LegacyFields, PcBootFeatures};
use zacpi::write::{
    AmlContents, ApicDomain, FadtContents, FadtHardware, Machine, MadtContents, MadtProcessor, SlitContents,
    SpcrContents, SratContents, TableContents, TableIds, dsdt_address, tables_size, write_tables,
};
use zacpi::{AcpiTables, PowerProfile, madt::Madt, madt::MadtEntry};

pub const TABLES: u64 = 0x700_0000;
const HALF: u64 = 2 << 30;

/// A machine of reduced hardware, whose DSDT is at this address.
pub fn reduced(dsdt: u64) -> FadtContents {
    FadtContents {
        dsdt,
        facs: None,
        power_profile: PowerProfile::Unspecified,
        sci_interrupt: 0,
        hardware: FadtHardware::Reduced,
        reset_register: None,
        reset_value: 0,
        sleep_control: None,
        sleep_status: None,
        features: FixedFeatures::NONE,
        pc_boot: PcBootFeatures::NONE,
        arm_boot: ArmBootFeatures::NONE,
        legacy: LegacyFields::NONE,
    }
}

/// A console of ports from this one on, with an interrupt of an I/O APIC.
pub fn console(port: u64, global_system_interrupt: u32, baud_rate: u32) -> SpcrContents<'static> {
    let (address_space, access_size) = (AddressSpace::SystemIo, AccessSize::ByteAccess);
    SpcrContents {
        interface_type: SpcrInterfaceType::Full16550,
        base_address: Some(GenericAddress { address_space, bit_width: 8, bit_offset: 0, access_size, address: port }),
        interrupt_type: SpcrInterruptType::IO_APIC,
        irq: 0,
        global_system_interrupt,
        baud_rate,
        parity: 0,
        stop_bits: 1,
        flow_control: SpcrFlowControl::empty(),
        terminal_type: SpcrTerminalType::ANSI,
        language: 0,
        pci_device: None,
        uart_clock_frequency: 0,
        namespace_string: ".",
    }
}

/// The guest's tables, for memory from [`TABLES`] on.
pub fn guest() -> Result<Vec<u8>, Box<dyn Error>> {
    let ids = TableIds { oem_id: *b"ZACPI ", oem_table_id: *b"GUEST   ", oem_revision: 1, ..TableIds::default() };
    let processors = [0, 1, 2, 3].map(|id| MadtProcessor {
        processor_uid: id,
        local_apic_id: id,
        is_enabled: true,
        is_online_capable: false,
        is_x2apic: false,
    });
    let madt = MadtContents {
        local_apic_address: 0xfee0_0000,
        also_has_legacy_pics: false,
        processors: &processors,
        io_apics: &[IoApic { id: 0, address: 0xfec0_0000, global_system_interrupt_base: 0 }],
        interrupt_source_overrides: &[],
        nmi_sources: &[],
        local_apic_nmi_lines: &[],
        wakeup_mailbox: None,
    };
    let pci = McfgEntry { base_address: 0xb000_0000, pci_segment_group: 0, bus_number_start: 0, bus_number_end: 255 };
    let ranges = [0, 1].map(|domain| MemoryRange {
        domain,
        base: u64::from(domain) * HALF,
        length: HALF,
        is_hot_pluggable: false,
        is_non_volatile: false,
    });
    let apics = [0, 1, 2, 3].map(|id| ApicDomain { local_apic_id: id, domain: id / 2 });
    let tables = [
        TableContents::Fadt(reduced(dsdt_address(TABLES, 6).ok_or("the tables' address")?)),
        TableContents::Madt(madt),
        TableContents::Mcfg(&[pci]),
        TableContents::Spcr(console(0x3f8, 4, 115_200)),
        TableContents::Srat(SratContents { apics: &apics, giccs: &[], ranges: &ranges }),
        TableContents::Slit(SlitContents { localities: 2, distances: &[10, 20, 20, 10] }),
    ];
    // Name (_S5, Package {0, 0})
    let dsdt = Some(AmlContents { revision: 2, bytes: b"\x08_S5_\x12\x04\x02\0\0" });
    let machine = Machine { ids, dsdt, facs: None, tables: &tables };
    let mut written = vec![0; tables_size(&machine)?];
    write_tables(&mut written, TABLES, &machine)?;
    Ok(written)
}

fn main() -> Result<(), Box<dyn Error>> {
    let written = guest()?;
    let handler = MappedRegion::new(TABLES, &written)?;
    let tables = AcpiTables::from_rsdp(&handler, TABLES)?;
    let madt = tables.find_table::<Madt>()?;
    let processors = madt.entries().filter(|entry| matches!(entry, MadtEntry::LocalApic(_))).count();
    let listed = tables.headers().count();
    println!("{processors} processors and {listed} tables, {} bytes for {TABLES:#x}", written.len());
    std::env::args().nth(1).map_or(Ok(()), |file| std::fs::write(file, &written).map_err(Into::into))
}
