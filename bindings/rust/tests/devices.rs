//! HPET, BGRT, SPCR and MCFG.
#![cfg(feature = "alloc")]
mod common;
use common::{Field, Memory, TABLE, all, filled, generic, plain, plains, with};
use zacpi::address::{AccessSize, AddressSpace, GenericAddress};
use zacpi::alloc::Global;
use zacpi::bgrt::{Bgrt, ImageType};
use zacpi::hpet::{HpetTable, PageProtection};
use zacpi::lists::fixed_records::EcamRange;
use zacpi::lists::records::{self, PciRegion};
use zacpi::lists::{console, devices, pci, refusal::Refusal};
use zacpi::mcfg::{Mcfg, McfgEntryIter, PciConfigEntry};
use zacpi::sdt::Signature;
use zacpi::spcr::{Spcr, SpcrInterfaceType};
use zacpi::{AcpiError, AddressRange, HpetInfo, PciConfigRegions};

#[test]
fn reads_an_hpet() {
    // Event Timer Block ID at 36: vendor 0x8086, legacy routing, 64 bits, 3 comparators, revision 1; BASE_ADDRESS at
    // 40; HPET Number at 52, Minimum Clock_tick at 53, Page Protection at 55.
    let mut fields = vec![(36, 4, 0x8086_a201), (52, 1, 1), (53, 2, 0x80), (55, 1, 0xf2)];
    fields.extend(generic(40, 0, 64, 0, 0, 0xfed0_0000));
    with("HPET", 1, 56, &fields).ask(|tables| {
        let hpet = HpetInfo::new(tables).unwrap();
        assert_eq!((hpet.event_timer_block_id, hpet.base_address), (0x8086_a201, 0xfed0_0000));
        assert_eq!((hpet.hpet_number, hpet.clock_tick_unit), (1, 0x80));
        assert_eq!(hpet.page_protection, PageProtection::Protected64K);
        assert_eq!((hpet.hardware_rev(), hpet.num_comparators(), hpet.pci_vendor_id()), (1, 3, 0x8086));
        assert_eq!((hpet.main_counter_is_64bits(), hpet.legacy_irq_capable()), (true, true));
        assert_eq!(tables.find_table::<HpetTable>().ok().unwrap().region_length(), 56);
    });
    let mut fields = vec![(36, 4, 0x8086_0001), (55, 1, 3)];
    fields.extend(generic(40, 0, 64, 0, 0, 0xfed0_0000));
    with("HPET", 1, 56, &fields).ask(|tables| {
        let hpet = HpetInfo::new(tables).unwrap();
        assert_eq!((hpet.event_timer_block_id, hpet.page_protection), (0x8086_0001, PageProtection::Other));
        let capable = (hpet.main_counter_is_64bits(), hpet.legacy_irq_capable());
        assert_eq!((hpet.num_comparators(), capable), (1, (false, false)));
    });
    with("HPET", 1, 56, &generic(40, 1, 64, 0, 0, 0xfed0)).ask(|tables| {
        assert_eq!(HpetInfo::new(tables).err(), Some(AcpiError::InvalidGenericAddress));
        assert_eq!(tables.find_table::<Bgrt>().err(), Some(AcpiError::TableMissing(Signature::BGRT)));
    });
}

/// Three blocks, of which the second has its registers in ports.
#[test]
fn lists_blocks_of_timers() {
    let mut memory = Memory::rsdt(&[TABLE, TABLE + 0x100, TABLE + 0x200]);
    for (n, space) in [(0, 0), (1, 1), (2, 0)] {
        let mut fields = vec![(36, 4, 0x8086_a201), (52, 1, 2 * n), (53, 2, 0x80 + n), (55, 1, n)];
        fields.extend(generic(40, space, 64, 0, 0, 0xfed0_0000 + (n << 12)));
        memory.table(TABLE + (n << 8), "HPET", 1, 56, &fields);
    }
    memory.list(|source| {
        let found: Vec<records::HpetInfo> = all(|out| devices::hpets(source, out)).unwrap();
        let places: Vec<_> = found.iter().map(|block| (block.base_address, block.event_timer_block_id)).collect();
        assert_eq!(places, [(0xfed0_0000, 0x8086_a201), (0xfed0_2000, 0x8086_a201)]);
        let rest: Vec<_> = found.iter().map(|it| (it.clock_tick_unit, it.number, it.page_protection)).collect();
        assert_eq!(rest, [(0x80, 0, 0), (0x82, 4, 2)]);
        assert_eq!(devices::hpet(source), Ok(found[0]));
        assert_eq!(filled(1, |out| devices::hpets(source, out)), Ok((vec![found[0]], 2)));
    });
    assert_eq!(Memory::rsdt(&[]).list(|source| devices::hpets(source, &mut [])), Ok(0));
}

#[test]
fn reads_a_boot_graphic() {
    // Status at 38: displayed, 180 degrees; Image Type at 39, Image Address at 40, Offset X at 48, Offset Y at 52.
    let fields = [(36, 2, 1), (38, 1, 5), (40, 8, 0x1_2345_6789), (48, 4, 7), (52, 4, 9)];
    let memory = with("BGRT", 1, 56, &fields);
    memory.ask(|tables| {
        let graphic = tables.find_table::<Bgrt>().ok().unwrap();
        assert_eq!((graphic.version, graphic.image_address, graphic.image_offset()), (1, 0x1_2345_6789, (7, 9)));
        assert_eq!((graphic.was_displayed(), graphic.orientation_offset()), (true, 180));
        assert_eq!(graphic.image_type(), ImageType::Bitmap);
    });
    assert_eq!(memory.list(devices::graphic).map(plain), Ok("BootGraphic 123456789 7 9 b4 1 0".into()));
    with("BGRT", 1, 56, &[(38, 1, 2), (39, 1, 1)]).ask(|tables| {
        let graphic = tables.find_table::<Bgrt>().ok().unwrap();
        assert_eq!((graphic.was_displayed(), graphic.orientation_offset()), (false, 90));
        assert_eq!(graphic.image_type(), ImageType::Reserved);
    });
}

#[test]
fn reads_a_console() {
    // Interface Type at 36, Base Address at 40, Interrupt Type at 52, IRQ at 53, Global System Interrupt at 54,
    // Configured Baud Rate at 58, Parity at 59, Stop Bits at 60, Flow Control at 61, Terminal Type at 62, Language at
    // 63, PCI Device ID at 64, PCI Vendor ID at 66, PCI Bus Number at 68, PCI Device Number at 69, PCI Function Number
    // at 70, PCI Flags at 71, PCI Segment at 75, UART Clock Frequency at 76, Precise Baud Rate at 80,
    // NamespaceStringLength at 84, NamespaceStringOffset at 86.
    #[rustfmt::skip]
    let mut fields = vec![
        (36, 1, 3), (52, 1, 9), (53, 1, 4), (54, 4, 33), (58, 1, 7), (59, 1, 0), (60, 1, 1), (64, 2, 0x1234),
        (66, 2, 0x8086), (68, 1, 2), (69, 1, 3), (70, 1, 4), (71, 4, 1), (75, 1, 5), (76, 4, 48_000_000),
        (61, 1, 6), (62, 1, 2), (63, 1, 1), (80, 4, 1_500_000), (84, 2, 9), (86, 2, 88),
        (88, 8, u64::from_le_bytes(*b"\\_SB.COM")),
    ];
    fields.extend(generic(40, 0, 32, 0, 3, 0x900_0000));
    let memory = with("SPCR", 4, 97, &fields);
    memory.ask(|tables| {
        let console = tables.find_table::<Spcr>().ok().unwrap();
        let base = GenericAddress {
            address_space: AddressSpace::SystemMemory,
            bit_width: 32,
            bit_offset: 0,
            access_size: AccessSize::DWordAccess,
            address: 0x900_0000,
        };
        assert_eq!(console.base_address(), Some(Ok(base)));
        assert_eq!(console.interface_type(), SpcrInterfaceType::ArmPL011);
        assert_eq!((console.irq(), console.global_system_interrupt()), (Some(4), Some(33)));
        assert_eq!((console.baud_rate(), console.uart_clock_frequency()), (Some(1_500_000), Some(48_000_000)));
        assert_eq!((console.parity, console.stop_bits, console.pci_flags, console.pci_segment), (0, 1, 1, 5));
        assert_eq!((console.interrupt_type().bits(), console.flow_control().bits()), (9, 6));
        assert_eq!((console.terminal_type().bits(), console.language), (2, 1));
        assert_eq!(console.namespace_string(), Ok("\\_SB.COM\0"));
        assert_eq!((console.pci_device_id(), console.pci_vendor_id()), (Some(0x1234), Some(0x8086)));
        assert_eq!((console.pci_bus_number(), console.pci_device_number()), (Some(2), Some(3)));
        assert_eq!(console.pci_function_number(), Some(4));
    });
    let record = "Console 9000000 0 20 0 3 1 16e360 21 2dc6c00 1 1234 8086 3 4 1 1 1 0 1 5 2 3 4";
    assert_eq!(memory.list(console::console).map(plain), Ok(record.into()));
    with("SPCR", 2, 80, &[(36, 1, 7), (58, 1, 3), (64, 4, 0xffff_ffff), (76, 4, 48_000_000)]).ask(|tables| {
        let console = tables.find_table::<Spcr>().ok().unwrap();
        assert_eq!(console.base_address(), None);
        assert_eq!(console.interface_type(), SpcrInterfaceType::Unknown(7));
        assert_eq!((console.irq(), console.global_system_interrupt()), (None, None));
        assert_eq!((console.baud_rate(), console.uart_clock_frequency()), (Some(9600), None));
        assert_eq!(console.namespace_string(), Ok(""));
        assert_eq!((console.pci_device_id(), console.pci_vendor_id()), (None, None));
    });
    with("SPCR", 2, 80, &generic(40, 0x0b, 8, 0, 0, 0x3f8)).ask(|tables| {
        let console = tables.find_table::<Spcr>().ok().unwrap();
        assert_eq!(console.base_address(), Some(Err(AcpiError::InvalidGenericAddress)));
        assert_eq!(console.baud_rate(), None);
    });
    // A string of a byte after the table's end, and one that isn't UTF-8.
    for name in [[(84, 2, 1), (86, 2, 90), (88, 2, 0)], [(84, 2, 2), (86, 2, 88), (88, 2, 0x80ff)]] {
        with("SPCR", 4, 90, &name).ask(|tables| {
            let console = tables.find_table::<Spcr>().ok().unwrap();
            assert_eq!(console.namespace_string(), Err(AcpiError::InvalidNamespaceString));
        });
    }
}

/// An entry of an MCFG, from 44 on 16 bytes each: Base Address at 0, PCI Segment Group Number at 8, Start and End Bus
/// Number at 10 and 11.
fn allocation(n: usize, base: u64, segment: u64, first: u64, last: u64) -> [Field; 4] {
    let at = 44 + 16 * n;
    [(at, 8, base), (at + 8, 2, segment), (at + 10, 1, first), (at + 11, 1, last)]
}

#[test]
fn reads_pci_configuration_space() {
    let entries = [(0xb000_0000, 0, 0, 63), (0x1_0000_0000, 2, 64, 127), (0xc000_0000, 3, 9, 8)];
    let fields: Vec<Field> = (0..).zip(entries).flat_map(|(n, it)| allocation(n, it.0, it.1, it.2, it.3)).collect();
    let memory = with("MCFG", 1, 93, &fields);
    memory.ask(|tables| {
        let pci = PciConfigRegions::new(tables).ok().unwrap();
        let shown = |it: PciConfigEntry| {
            (it.physical_address, it.segment_group.into(), (*it.bus_range.start()).into(), (*it.bus_range.end()).into())
        };
        assert_eq!(pci.iter().map(shown).collect::<Vec<(u64, u64, u64, u64)>>(), entries);
        // A bus has 2^20 bytes, a device 2^15, a function 2^12.
        let memory = |address| Some(AddressRange::new(address, 64 << 20));
        let ranges = [(0, memory(0xb000_0000)), (2, memory(0x1_0400_0000)), (3, None)];
        assert_eq!(pci.ecam_ranges().collect::<Vec<_>>(), ranges);
        assert_eq!(pci.ecam_address(0, 1, 2, 3), Some(0xb011_3000));
        assert_eq!(pci.ecam_address(2, 64, 0, 0), Some(0x1_0400_0000));
        // Upstream's base is that of the first bus.
        assert_eq!(pci.physical_address(2, 64, 1, 2), Some(0x1_0000_a000));
        assert_eq!((pci.ecam_address(0, 64, 0, 0), pci.physical_address(0, 64, 0, 0)), (None, None));
        let global = PciConfigRegions::new_in(tables, Global).ok().unwrap();
        assert_eq!(global.ecam_address(0, 0, 0, 7), Some(0xb000_7000));
        let table = tables.find_table::<Mcfg>().ok().unwrap();
        assert_eq!((table.entries().len(), McfgEntryIter::over(table.bytes()).count()), (3, 3));
        let first = table.entries().next().unwrap();
        assert_eq!(plain(first), "McfgEntry b0000000 0 0 3f");
        assert_eq!((first.ecam_address(63, 31, 7), first.ecam_range()), (Some(0xb3ff_f000), memory(0xb000_0000)));
    });
    memory.list(|source| {
        let regions: Vec<PciRegion> = all(|out| pci::pci_regions(source, out)).unwrap();
        assert_eq!(plain(regions[1]), "PciRegion 100000000 2 40 7f");
        let ranges: Vec<EcamRange> = all(|out| pci::ecam_ranges(source, out)).unwrap();
        assert_eq!(plains(&ranges[1..]), ["EcamRange 104000000 4000000 2 1", "EcamRange 0 0 3 0"]);
        assert_eq!(pci::ecam_address(source, 0, 1, 2, 3), Ok(0xb011_3000));
        let nowhere =
            [(0, 64, 0, 0), (0, 0, 32, 0), (0, 0, 0, 8)].map(|it| pci::ecam_address(source, it.0, it.1, it.2, it.3));
        assert_eq!(nowhere, [const { Err(Refusal::NoSuchFunction) }; 3]);
    });
    // Ten regions: of segments 0 to 8, and one more of segment 3, in which bus 16 would be at 2^64.
    let mut fields: Vec<Field> = (0..9).flat_map(|n| allocation(n, 0, n as u64, 0, 9)).collect();
    fields.extend(allocation(9, 0xffff_ffff_ff00_0000, 3, 10, 16));
    with("MCFG", 1, 44 + 160, &fields).ask(|tables| {
        let pci = PciConfigRegions::new(tables).ok().unwrap();
        assert_eq!(pci.ecam_address(3, 15, 31, 7), Some(0xffff_ffff_ffff_f000));
        assert_eq!((pci.ecam_address(3, 16, 0, 0), pci.ecam_address(3, 17, 0, 0)), (None, None));
        assert_eq!((pci.ecam_address(8, 9, 0, 1), pci.ecam_address(7, 9, 0, 1)), (Some(0x90_1000), Some(0x90_1000)));
    });
    Memory::rsdt(&[]).ask(|tables| {
        assert_eq!(PciConfigRegions::new(tables).err(), Some(AcpiError::TableMissing(Signature::MCFG)));
    });
}
