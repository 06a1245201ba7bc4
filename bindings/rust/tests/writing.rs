//! Each kind of table that is written is read back, by the types and by the records of `lists`, and each error has its
//! name; and whole machines. `writing_processors.rs` has the tables about processors.
#![cfg(feature = "alloc")]
mod common;
#[allow(dead_code)]
#[path = "../examples/guest.rs"]
mod guest;
use common::writing::{again, fails, written};
use common::{IDS, ROOT, Tables, all, generic, plain, plains, ports, with};
use zacpi::address::{AddressSpace, GenericAddress};
use zacpi::bgrt::Bgrt;
use zacpi::fadt::{Fadt, GpeBlock};
use zacpi::handler::MappedRegion;
use zacpi::lists::records::Source;
use zacpi::lists::refusal::Refusal;
use zacpi::lists::writing::{self, Contents};
use zacpi::lists::{self, written_records as records};
use zacpi::mcfg::{Mcfg, McfgEntry};
use zacpi::numa::{Domains, Srat};
use zacpi::sdt::{Signature, byte_sum};
use zacpi::spcr::{Spcr, SpcrFlowControl, SpcrInterfaceType, SpcrInterruptType, SpcrTerminalType};
use zacpi::write::fadt::{FixedFeatures, FixedHardware, LegacyFields, PcBootFeatures};
use zacpi::write::spelled::Bytes;
use zacpi::write::*;
use zacpi::{AcpiHandler, AcpiTables, HpetInfo, PowerProfile};

#[test]
fn writes_a_header_and_bytes() {
    #[rustfmt::skip]
    let expected = [
        b'O', b'E', b'M', b'7', 39, 0, 0, 0, 3, // Signature, Length, Revision
        b'O', b'E', b'M', b'I', b'D', b' ', b'H', b'A', b'N', b'D', b'M', b'A', b'D', b'E', // OEMID, OEM Table ID
        1, 0, 0, 0, b'T', b'E', b'S', b'T', 2, 0, 0, 0, 1, 2, 3, // OEM Revision, Creator ID, Creator Revision, bytes
    ];
    let signature = Signature::from_bytes(*b"OEM7");
    let check = |tables: &Tables<'_>, _: &Source<'_>| {
        let found = tables.find_sdt(signature).ok().unwrap();
        let mut bytes = found.bytes().to_vec();
        bytes.remove(9); // Checksum, which reading has looked at
        assert_eq!(bytes, expected);
        assert_eq!(byte_sum(found.bytes()), 0);
    };
    written(39, |out| write_table(out, signature, 3, &IDS, &Bytes(&[1, 2, 3]))).ask(check);
    let named = lists::records::Signature { letters: *b"OEM7" };
    written(39, |out| writing::write_table(out, &IDS, named, 3, &[1, 2, 3])).ask(check);
    let ids = TableIds { creator_id: [0xff; 4], ..IDS };
    assert_eq!(fails(|out| write_table(out, signature, 3, &ids, &Bytes(&[])), 99), WriterError::BadName);
    assert_eq!((ids.are_texts(), IDS.are_texts()), (false, true));
}

#[test]
fn writes_roots_and_aml() {
    let mut memory = [0; 0x100];
    assert_eq!(write_rsdp(&mut memory, &IDS, ROOT + 36), Ok(36));
    assert_eq!(write_xsdt(&mut memory[36..], &IDS, &[ROOT + 0x80]), Ok(44));
    assert_eq!(write_ssdt(&mut memory[0x80..], &IDS, 2, &[0xa3, 0xa3]), Ok(38));
    let handler = MappedRegion::new(ROOT, &memory).unwrap();
    let tables = AcpiTables::from_rsdp(&handler, ROOT).ok().unwrap();
    assert_eq!(tables.ssdts().map(|aml| aml.length).collect::<Vec<_>>(), [2]);
    let mut memory = [0; 0x100];
    assert_eq!(write_rsdt(&mut memory, &IDS, &[ROOT as u32 + 0x80, 0]), Ok(44));
    assert_eq!(write_dsdt(&mut memory[0x80..], &IDS, 2, &[0xa3, 0xa3]), Ok(38));
    let handler = MappedRegion::new(ROOT, &memory).unwrap();
    let tables = AcpiTables::from_rsdt(&handler, 0, ROOT).ok().unwrap();
    assert_eq!(tables.find_sdt(Signature::DSDT).ok().unwrap().revision, 2);
    // The table that was written isn't the AML of one.
    let whole = &memory[0x80..0x80 + 38];
    assert_eq!(fails(|out| write_dsdt(out, &IDS, 2, whole), 0x100), WriterError::HasHeader);
    assert_eq!(write_ssdt(&mut [0; 0x100], &IDS, 2, whole), Ok(74));
    assert_eq!(fails(|out| write_rsdp(out, &IDS, 0), 36), WriterError::NoAddress);
}

/// The FADT of a PC, with each register.
fn pc() -> FadtContents {
    let block = |address, byte_length| Some(GpeBlock { space: AddressSpace::SystemIo, address, byte_length });
    let hardware = FixedHardware {
        smi_cmd_port: 0xb2,
        acpi_enable: 0xa0,
        acpi_disable: 0xa1,
        s4bios_req: 0,
        pstate_control: 0,
        c_state_control: 0,
        pm1a_event: ports(0x600, 32),
        pm1b_event: Some(ports(0x610, 32)),
        pm1a_control: ports(0x604, 16),
        pm1b_control: Some(ports(0x614, 16)),
        pm2_control: Some(ports(0x650, 8)),
        pm_timer: Some(ports(0x608, 32)),
        gpe0: block(0x620, 16),
        gpe1: block(0x640, 4),
        gpe1_base: 0x40,
    };
    FadtContents {
        facs: Some(0x1_0000_0040),
        power_profile: PowerProfile::Mobile,
        sci_interrupt: 9,
        hardware: FadtHardware::Fixed(hardware),
        reset_register: Some(ports(0xcf9, 8)),
        reset_value: 6,
        sleep_control: Some(ports(0x700, 8)),
        sleep_status: Some(ports(0x701, 8)),
        features: FixedFeatures { pm_timer_is_32_bit: true, ..FixedFeatures::NONE },
        pc_boot: PcBootFeatures { motherboard_implements_8042: true, ..PcBootFeatures::NONE },
        legacy: LegacyFields { flush_size: 1024, century: 0x32, ..LegacyFields::NONE },
        ..guest::reduced(0x1234_5678)
    }
}

#[test]
fn writes_fixed_hardware() {
    written(276, |out| write_fadt(out, &IDS, &pc())).ask(|tables, source| {
        let f = tables.find_table::<Fadt>().ok().unwrap();
        assert_eq!((f.dsdt_address(), f.facs_address()), (Ok(0x1234_5678), Ok(0x1_0000_0040)));
        assert_eq!((f.power_profile(), f.sci_interrupt, f.smi_cmd_port), (PowerProfile::Mobile, 9, 0xb2));
        assert_eq!((f.acpi_enable, f.acpi_disable, f.flush_size, f.century), (0xa0, 0xa1, 1024, 0x32));
        let required = [f.pm1a_event_block(), f.pm1a_control_block(), f.reset_register()];
        assert_eq!(required, [Ok(ports(0x600, 32)), Ok(ports(0x604, 16)), Ok(ports(0xcf9, 8))]);
        assert_eq!(
            (f.pm1b_event_block(), f.pm_timer_block()),
            (Ok(Some(ports(0x610, 32))), Ok(Some(ports(0x608, 32))))
        );
        assert_eq!(f.pm2_control_block(), Ok(Some(ports(0x650, 8))));
        assert_eq!((plain(f.gpe0()), plain(f.gpe1())), ("Ok SystemIo 620 10".into(), "Ok SystemIo 640 4".into()));
        assert_eq!(
            (f.gpe1_base(), f.reset_value, f.sleep_status_register()),
            (Some(0x40), 6, Ok(Some(ports(0x701, 8))))
        );
        assert!(f.flags.pm_timer_is_32_bit() && f.flags.supports_system_reset_via_fadt());
        assert!(f.iapc_boot_arch.motherboard_implements_8042() && !f.flags.system_is_hw_reduced_acpi());
        again(tables, Signature::FADT, Contents::Fadt(lists::fixed::fixed(source).unwrap()));
        let mut hardware = lists::fixed::fixed(source).unwrap();
        hardware.pm1a_event.at.space = 0x0b;
        assert_eq!(fails(|out| writing::write_hardware(out, &IDS, &hardware), 276), Refusal::UnknownCode);
    });
    let reduced = guest::reduced(0x1000);
    written(276, |out| write_fadt(out, &IDS, &reduced)).ask(|tables, source| {
        let f = tables.find_table::<Fadt>().ok().unwrap();
        assert!(f.flags.system_is_hw_reduced_acpi() && f.pm_timer_block() == Ok(None));
        let f = lists::fixed::fixed(source).unwrap();
        assert_eq!((f.revision, f.minor_revision, f.hypervisor_id), (6, 4, 0));
        again(tables, Signature::FADT, Contents::Fadt(f));
    });
    let fixed = |pm1a_event| {
        let FadtHardware::Fixed(hardware) = pc().hardware else { panic!("it is fixed") };
        let hardware = FadtHardware::Fixed(FixedHardware { pm1a_event, ..hardware });
        fails(|out| write_fadt(out, &IDS, &FadtContents { hardware, ..pc() }), 276)
    };
    assert_eq!(fixed(ports(0, 32)), WriterError::BadRegister);
    let space = GenericAddress { address_space: AddressSpace::OemDefined(0x0b), ..ports(0x600, 32) };
    assert_eq!(fixed(space), WriterError::BadRegister);
    assert_eq!(fails(|out| write_fadt(out, &IDS, &guest::reduced(0)), 276), WriterError::NoAddress);
    let profile = FadtContents { power_profile: PowerProfile::Reserved(1), ..pc() };
    assert_eq!(fails(|out| write_fadt(out, &IDS, &profile), 276), WriterError::BadProfile);
}

#[test]
fn writes_a_console() {
    let device =
        SpcrPciDevice { device_id: 0x1234, vendor_id: 0x8086, bus: 1, device: 2, function: 3, flags: 1, segment: 4 };
    let console = SpcrContents {
        base_address: Some(ports(0x3f8, 8)),
        interrupt_type: SpcrInterruptType::DUAL_8259 | SpcrInterruptType::IO_APIC,
        irq: 4,
        flow_control: SpcrFlowControl::RTS_CTS,
        terminal_type: SpcrTerminalType::VT1000,
        pci_device: Some(device),
        uart_clock_frequency: 1_843_200,
        ..guest::console(0x3f8, 20, 115_200)
    };
    written(90, |out| write_spcr(out, &IDS, &console)).ask(|tables, source| {
        let found = tables.find_table::<Spcr>().ok().unwrap();
        // Interrupt Type: an 8259 and an I/O APIC; Flow Control: RTS and CTS; Terminal Type: VT100.
        let bytes = found.bytes();
        assert_eq!((bytes[52], bytes[61], bytes[62]), (3, 2, 1));
        assert_eq!((found.namespace_string(), found.base_address()), (Ok(".\0"), Some(Ok(ports(0x3f8, 8)))));
        assert_eq!(
            (found.irq(), found.global_system_interrupt(), found.baud_rate()),
            (Some(4), Some(20), Some(115_200))
        );
        assert_eq!((found.pci_vendor_id(), found.pci_function_number(), found.pci_segment), (Some(0x8086), Some(3), 4));
        assert_eq!((found.uart_clock_frequency(), found.stop_bits, found.pci_flags), (Some(1_843_200), 1, 1));
        let mut contents = records::SpcrContents {
            console: lists::console::console(source).unwrap(),
            interrupt_controllers: 2,
            flow_control: 2,
            terminal_type: 1,
        };
        again(tables, Signature::SPCR, Contents::Spcr(contents));
        contents.interrupt_controllers = 1;
        let refused = fails(|out| writing::write_contents(out, &IDS, &Contents::Spcr(contents)), 90);
        assert_eq!(refused, Refusal::UnknownCode);
    });
    let error = |console: SpcrContents<'_>| fails(|out| write_spcr(out, &IDS, &console), 90);
    assert_eq!(error(SpcrContents { base_address: Some(ports(0, 8)), ..console }), WriterError::NoAddress);
    assert_eq!(error(SpcrContents { interface_type: SpcrInterfaceType::Unknown(3), ..console }), WriterError::BadCode);
}

#[test]
fn writes_an_image() {
    let image = BgrtContents {
        was_displayed: true,
        orientation_offset: BgrtOrientation::Degrees270,
        image_address: 0x1_2345_6789,
        image_offset: (640, 480),
    };
    written(56, |out| write_bgrt(out, &IDS, &image)).ask(|tables, source| {
        let found = tables.find_table::<Bgrt>().ok().unwrap();
        assert_eq!((found.image_address, found.image_offset()), (0x1_2345_6789, (640, 480)));
        assert_eq!((found.was_displayed(), found.orientation_offset()), (true, 270));
        let graphic = lists::devices::graphic(source).unwrap();
        again(tables, Signature::BGRT, Contents::Bgrt(graphic));
        let turned = lists::records::BootGraphic { orientation: 45, ..graphic };
        let refused = fails(|out| writing::write_contents(out, &IDS, &Contents::Bgrt(turned)), 56);
        assert_eq!(refused, Refusal::UnknownCode);
    });
}

#[test]
fn writes_devices() {
    // BASE_ADDRESS, Event Timer Block ID, HPET Number, Main Counter Minimum Clock_tick and Page Protection
    let mut fields = generic(40, 0, 64, 0, 0, 0xfed0_0000).to_vec();
    fields.extend([(36, 4, 0x8086_a201), (52, 1, 1), (53, 2, 100), (55, 1, 2)]);
    let info = with("HPET", 1, 56, &fields).ask(|tables| HpetInfo::new(tables).unwrap());
    written(56, |out| write_hpet(out, &IDS, &info)).ask(|tables, source| {
        assert_eq!(HpetInfo::new(tables).map(plain), Ok(plain(info)));
        again(tables, Signature::HPET, Contents::Hpet(lists::devices::hpet(source).unwrap()));
    });
    let entry = McfgEntry { base_address: 0xb000_0000, pci_segment_group: 1, bus_number_start: 0, bus_number_end: 63 };
    written(60, |out| write_mcfg(out, &IDS, &[entry])).ask(|tables, source| {
        assert_eq!(plains(tables.find_table::<Mcfg>().ok().unwrap().entries()), [plain(entry)]);
        let regions: Vec<_> = all(|out| lists::pci::pci_regions(source, out)).unwrap();
        again(tables, Signature::MCFG, Contents::Mcfg(&regions));
    });
    let facs = FacsContents {
        hardware_signature: 0x1234_5678,
        waking_vector: 1,
        x_waking_vector: 2,
        supports_s4bios: true,
        supports_64_bit_wake: true,
    };
    let (mut bytes, mut again) = ([0; 64], [0; 64]);
    assert_eq!(write_facs(&mut bytes, &facs), Ok(64));
    // Hardware Signature at 8, Firmware_Waking_Vector at 12, Flags at 20, X_Firmware_Waking_Vector at 24.
    assert_eq!((bytes[8..13].to_vec(), bytes[20], bytes[24], bytes[32]), (vec![0x78, 0x56, 0x34, 0x12, 1], 3, 2, 2));
    let mut record =
        records::FacsContents { waking_vector_64: 2, hardware_signature: 0x1234_5678, ..Default::default() };
    (record.waking_vector, record.supports_s4bios, record.supports_64_bit_wake) = (1, 1, 1);
    assert_eq!((writing::write_facs(&mut again, &record), bytes == again), (Ok(64), true));
}

/// The guest of the example is read back.
#[test]
fn reads_the_example() {
    let memory = guest::guest().unwrap();
    let handler = MappedRegion::new(guest::TABLES, &memory).unwrap();
    let tables = AcpiTables::from_rsdp(&handler, guest::TABLES).ok().unwrap();
    let signatures: Vec<_> = tables.headers().map(|table| table.signature.to_string()).collect();
    assert_eq!(signatures, ["FACP", "APIC", "MCFG", "SPCR", "SRAT", "SLIT"]);
    let srat = tables.find_table::<Srat>().ok().unwrap();
    let domains = Domains::over(srat.bytes());
    assert_eq!([0, 1, 2, 3, 4].map(|id| domains.domain_of_apic(id)), [Some(0), Some(0), Some(1), Some(1), None]);
    let console = tables.find_table::<Spcr>().ok().unwrap();
    assert_eq!((console.baud_rate(), console.irq()), (Some(115_200), None));
    assert_eq!(zacpi::PciConfigRegions::new(&tables).ok().unwrap().ecam_address(0, 1, 0, 0), Some(0xb010_0000));
    assert_eq!(tables.dsdt().map(|aml| aml.length), Ok(10));
}

/// A machine whose tables are in memory with and without an RSDP; a FACS is at a multiple of 64.
#[test]
fn writes_a_machine() {
    let at = 0x700_0000;
    let dsdt = AmlContents { revision: 2, bytes: &[0xa3; 7] };
    let facs_at = facs_address(at, 1, Some(dsdt)).unwrap();
    let facs = FacsContents {
        hardware_signature: 7,
        waking_vector: 0,
        x_waking_vector: 0,
        supports_s4bios: false,
        supports_64_bit_wake: false,
    };
    let fadt = FadtContents { facs: Some(facs_at), ..guest::reduced(dsdt_address(at, 1).unwrap()) };
    let tables = [TableContents::Fadt(fadt)];
    let machine = Machine { ids: IDS, dsdt: Some(dsdt), facs: Some(facs), tables: &tables };
    let size = tables_size(&machine).unwrap();
    let mut memory = vec![0x5a; size + 16];
    assert_eq!(write_tables(&mut memory, at, &machine), Ok(size));
    assert!(memory[size..].iter().all(|byte| *byte == 0x5a));
    let handler = MappedRegion::new(at, &memory).unwrap();
    let read = AcpiTables::from_rsdp(&handler, at).ok().unwrap();
    let aml = read.dsdt().unwrap();
    assert_eq!(handler.map_physical_region(aml.address, 7).unwrap()[..7], [0xa3; 7]);
    assert_eq!((read.facs().map(|it| it.address), facs_at % 64), (Ok(facs_at), 0));
    let mut without = vec![0; size - 48];
    assert_eq!(write_tables_without_rsdp(&mut without, at, &machine), Ok(size - 48));
    let handler = MappedRegion::new(at, &without).unwrap();
    assert_eq!(AcpiTables::from_rsdt(&handler, 2, at).ok().unwrap().headers().count(), 1);
    // The same of tables that are written already.
    let mut bytes = [0; 276];
    assert_eq!(write_fadt(&mut bytes, &IDS, &fadt), Ok(276));
    let list = [records::ListedTable { bytes: &bytes }];
    let dsdts = [records::AmlContents { aml: dsdt.bytes, revision: 2 }];
    let facs = [records::FacsContents { hardware_signature: 7, ..Default::default() }];
    let listed = records::Machine { ids: IDS, tables: &list, dsdts: &dsdts, facs: &facs };
    let mut copy = vec![0x5a; size + 16];
    assert_eq!((writing::tables_size(&listed), writing::write_tables(&mut copy, at, &listed)), (Ok(size), Ok(size)));
    assert!(copy == memory && writing::dsdt_place(at, 1) == Ok(dsdt_address(at, 1).unwrap()));
    assert_eq!(writing::facs_place(at, 1, &dsdts), Ok(facs_at));
    assert_eq!(writing::write_tables_without_rsdp(&mut copy, at, &listed), Ok(size - 48));
    let short = [records::ListedTable { bytes: &bytes[..35] }];
    let short = records::Machine { tables: &short, ..listed };
    assert_eq!(fails(|out| writing::write_tables(out, at, &short), 4096), Refusal::BadTable);
}

/// After each error the memory is as it was.
#[test]
fn fails_as_a_whole() {
    let empty: Machine<'_> = Machine { ids: IDS, dsdt: None, facs: None, tables: &[] };
    let error = |machine: &Machine<'_>, at, length| fails(|out| write_tables(out, at, machine), length);
    let size = tables_size(&empty).unwrap();
    assert_eq!((error(&empty, 0x1000, size - 1), error(&empty, 0x1000, 0)), (WriterError::NoRoom, WriterError::NoRoom));
    for at in [0x1008, 0, u64::MAX - 15] {
        assert_eq!(error(&empty, at, 4096), WriterError::NoAddress);
    }
    let mut unnamed = empty;
    unnamed.ids.oem_id[0] = 0xff;
    assert_eq!(
        (error(&unnamed, 0x1000, 4096), tables_size(&unnamed)),
        (WriterError::BadName, Err(WriterError::BadName))
    );
    assert_eq!((dsdt_address(u64::MAX, 1), facs_address(u64::MAX - 84, 1, None)), (None, None));
    assert_eq!(writing::dsdt_place(u64::MAX, 1), Err(Refusal::Writer(WriterError::NoAddress)));
    // 4 GiB of zeros, of which none is looked at: Length can't count so many.
    #[cfg(target_pointer_width = "64")]
    {
        let long = vec![0; 1 << 32];
        let machine = Machine { dsdt: Some(AmlContents { revision: 2, bytes: &long }), ..empty };
        assert_eq!(error(&machine, 0x1000, 4096), WriterError::TooLong);
    }
}

/// A checksum is what the others lack of a multiple of 256: 0x100 less 1, 2 and 3; 0 of none.
#[test]
fn sums_anew() {
    let mut bytes = [1, 2, 0x77, 3];
    zacpi::set_sum(&mut bytes, 2);
    assert_eq!(bytes, [1, 2, 0xfa, 3]);
    assert!(std::panic::catch_unwind(move || zacpi::set_sum(&mut bytes, 4)).is_err());
    let mut one = [0x77];
    zacpi::set_sum(&mut one, 0);
    assert_eq!(one, [0]);
}
