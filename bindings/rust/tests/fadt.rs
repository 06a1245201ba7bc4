//! The FADT's fields, getters and flags.
mod common;
use common::{Field, Memory, TABLE, generic, plain, ports, with};
use zacpi::address::{AccessSize, AddressSpace, GenericAddress};
use zacpi::fadt::{ArmBootArchFlags, Fadt, FixedFeatureFlags, IaPcBootArchFlags};
use zacpi::lists::{devices, fixed, refusal::Refusal};
use zacpi::sdt::Signature;
use zacpi::{AcpiError, PhysicalRecord, PowerProfile};

/// What is read of a FADT of these fields (section 5.2.9), which its view has too.
fn fadt<T>(revision: u64, length: usize, fields: &[Field], ask: impl FnOnce(&Fadt) -> T) -> T {
    with("FACP", revision, length, fields).ask(|tables| {
        let fadt = tables.find_table::<Fadt>().ok().unwrap();
        let (view, f) = (tables.find_fadt().ok().unwrap(), fadt.get());
        assert_eq!((view.physical_start(), view.bytes()), (TABLE, fadt.bytes()));
        assert_eq!(plain(view.record()), plain(f));
        let numbers = (view.sci_interrupt(), view.smi_cmd_port(), view.acpi_enable(), view.acpi_disable());
        assert_eq!(numbers, (f.sci_interrupt, f.smi_cmd_port, f.acpi_enable, f.acpi_disable));
        assert_eq!((view.power_profile(), view.reset_value()), (f.power_profile(), f.reset_value));
        let flags = [plain(view.flags()), plain(view.iapc_boot_arch()), plain(view.arm_boot_arch())];
        assert_eq!(flags, [plain(f.flags), plain(f.iapc_boot_arch), plain(f.arm_boot_arch)]);
        assert_eq!((view.facs_address(), view.dsdt_address()), (f.facs_address(), f.dsdt_address()));
        let required = [view.pm1a_event_block(), view.pm1a_control_block(), view.reset_register()];
        assert_eq!(required, [f.pm1a_event_block(), f.pm1a_control_block(), f.reset_register()]);
        let optional = [
            (view.pm1b_event_block(), f.pm1b_event_block()),
            (view.pm1b_control_block(), f.pm1b_control_block()),
            (view.pm2_control_block(), f.pm2_control_block()),
            (view.pm_timer_block(), f.pm_timer_block()),
            (view.gpe0_block(), f.gpe0_block()),
            (view.gpe1_block(), f.gpe1_block()),
            (view.sleep_control_register(), f.sleep_control_register()),
            (view.sleep_status_register(), f.sleep_status_register()),
        ];
        assert!(optional.iter().all(|(seen, read)| seen == read));
        assert_eq!([plain(view.gpe0()), plain(view.gpe1())], [plain(f.gpe0()), plain(f.gpe1())]);
        assert_eq!(view.gpe1_base(), f.gpe1_base());
        ask(f)
    })
}

#[test]
fn reads_the_fields_of_the_first_revision() {
    #[rustfmt::skip]
    let fields = [
        (36, 4, 0x1000),      // FIRMWARE_CTRL
        (40, 4, 0x2000),      // DSDT
        (45, 1, 2),           // Preferred_PM_Profile
        (46, 2, 9),           // SCI_INT
        (48, 4, 0xb2),        // SMI_CMD
        (52, 1, 0xa0),        // ACPI_ENABLE
        (53, 1, 0xa1),        // ACPI_DISABLE
        (54, 1, 0xa2),        // S4BIOS_REQ
        (55, 1, 0xa3),        // PSTATE_CNT
        (56, 4, 0x600),       // PM1a_EVT_BLK
        (60, 4, 0x610),       // PM1b_EVT_BLK
        (64, 4, 0x604),       // PM1a_CNT_BLK
        (68, 4, 0x614),       // PM1b_CNT_BLK
        (72, 4, 0x650),       // PM2_CNT_BLK
        (76, 4, 0x608),       // PM_TMR_BLK
        (80, 4, 0x620),       // GPE0_BLK
        (84, 4, 0x630),       // GPE1_BLK
        (88, 1, 4),           // PM1_EVT_LEN
        (89, 1, 2),           // PM1_CNT_LEN
        (90, 1, 1),           // PM2_CNT_LEN
        (91, 1, 4),           // PM_TMR_LEN
        (92, 1, 8),           // GPE0_BLK_LEN
        (93, 1, 6),           // GPE1_BLK_LEN
        (94, 1, 0x10),        // GPE1_BASE
        (95, 1, 0xa4),        // CST_CNT
        (96, 2, 101),         // P_LVL2_LAT
        (98, 2, 1001),        // P_LVL3_LAT
        (100, 2, 1024),       // FLUSH_SIZE
        (102, 2, 16),         // FLUSH_STRIDE
        (104, 1, 1),          // DUTY_OFFSET
        (105, 1, 3),          // DUTY_WIDTH
        (106, 1, 0xd),        // DAY_ALRM
        (107, 1, 0xe),        // MON_ALRM
        (108, 1, 0x32),       // CENTURY
        (109, 2, 0x0003),     // IAPC_BOOT_ARCH
        (112, 4, 0x0000_0501), // Flags: bits 0, 8 and 10
    ];
    fadt(1, 116, &fields, |f| {
        assert_eq!((f.facs_address(), f.dsdt_address()), (Ok(0x1000), Ok(0x2000)));
        assert_eq!(f.power_profile(), PowerProfile::Mobile);
        assert_eq!((f.sci_interrupt, f.smi_cmd_port), (9, 0xb2));
        assert_eq!((f.acpi_enable, f.acpi_disable, f.s4bios_req), (0xa0, 0xa1, 0xa2));
        assert_eq!((f.pstate_control, f.c_state_control, f.gpe1_base), (0xa3, 0xa4, 0x10));
        assert_eq!((f.worst_c2_latency, f.worst_c3_latency), (101, 1001));
        assert_eq!((f.flush_size, f.flush_stride), (1024, 16));
        assert_eq!((f.duty_offset, f.duty_width), (1, 3));
        assert_eq!((f.day_alarm, f.month_alarm, f.century, f.reset_value), (0xd, 0xe, 0x32, 0));
        assert_eq!([plain(f.flags), plain(f.iapc_boot_arch)], ["FixedFeatureFlags 501", "IaPcBootArchFlags 3"]);
        assert_eq!(f.pm1a_event_block(), Ok(ports(0x600, 32)));
        assert_eq!(f.pm1b_event_block(), Ok(Some(ports(0x610, 32))));
        assert_eq!(f.pm1a_control_block(), Ok(ports(0x604, 16)));
        assert_eq!(f.pm1b_control_block(), Ok(Some(ports(0x614, 16))));
        assert_eq!(f.pm2_control_block(), Ok(Some(ports(0x650, 8))));
        assert_eq!(f.pm_timer_block(), Ok(Some(ports(0x608, 32))));
        assert_eq!(f.gpe0_block(), Ok(Some(ports(0x620, 64))));
        assert_eq!(f.gpe1_block(), Ok(Some(ports(0x630, 48))));
        let [first, second] = [f.gpe0(), f.gpe1()].map(|block| plain(block.unwrap().unwrap()));
        assert_eq!([first, second], ["GpeBlock SystemIo 620 8", "GpeBlock SystemIo 630 6"]);
        assert_eq!(f.gpe1_base(), Some(0x10));
        assert_eq!((f.sleep_control_register(), f.sleep_status_register()), (Ok(None), Ok(None)));
    });
    with("FACP", 1, 116, &fields).list(|source| {
        let timer = "PmTimer 608 1 20 0 0 1 1";
        assert_eq!(devices::timer(source).map(plain), Ok(timer.into()));
        let f = fixed::fixed(source).unwrap();
        assert_eq!((f.facs_address, f.dsdt_address, f.smi_command, f.flags), (0x1000, 0x2000, 0xb2, 0x501));
        assert_eq!((f.pm1a_event.at.address, f.pm1a_event.present, f.sleep_control.present), (0x600, 1, 0));
        assert_eq!((plain(f.gpe0_block), f.power_profile, f.century), ("GpeBlock 620 1 8 1".into(), 2, 0x32));
        assert_eq!((f.revision, f.minor_revision, f.hypervisor_id), (1, 0, 0));
    });
}

#[test]
fn reads_the_fields_of_later_revisions() {
    #[rustfmt::skip]
    let mut fields = vec![
        (128, 1, 6),                  // RESET_VALUE
        (129, 2, 3),                  // ARM_BOOT_ARCH
        (131, 1, 0x14),               // FADT Minor Version
        (132, 8, 0x1_0000_1000),      // X_FIRMWARE_CTRL
        (140, 8, 0x1_0000_2000),      // X_DSDT
        (45, 1, 9),                   // Preferred_PM_Profile, reserved
        (91, 1, 4),                   // PM_TMR_LEN
        (268, 8, 0x4d56_4b4d_564b),   // Hypervisor Vendor Identity
    ];
    fields.extend(generic(116, 1, 8, 0, 1, 0xcf9)); // RESET_REG
    fields.extend(generic(148, 0, 32, 0, 3, 0x1_0000_3000)); // X_PM1a_EVT_BLK
    fields.extend(generic(160, 1, 32, 0, 5, 0x610)); // X_PM1b_EVT_BLK: a reserved Access Size
    fields.extend(generic(172, 0xc0, 16, 1, 4, 0x604)); // X_PM1a_CNT_BLK
    fields.extend(generic(184, 0x0b, 16, 0, 0, 0x614)); // X_PM1b_CNT_BLK: a reserved Address Space ID
    fields.extend(generic(208, 2, 32, 0, 2, 0x0001_0002_0003)); // X_PM_TMR_BLK
    fields.extend(generic(244, 0x7f, 8, 0, 0, 0x1234)); // SLEEP_CONTROL_REG
    fields.extend(generic(256, 1, 8, 0, 0, 0)); // SLEEP_STATUS_REG
    fadt(6, 276, &fields, |f| {
        let at = |address_space, bit_width, bit_offset, access_size, address| GenericAddress {
            address_space,
            bit_width,
            bit_offset,
            access_size,
            address,
        };
        assert_eq!((f.facs_address(), f.dsdt_address()), (Ok(0x1_0000_1000), Ok(0x1_0000_2000)));
        assert_eq!((f.power_profile(), f.reset_value), (PowerProfile::Reserved(9), 6));
        assert_eq!(plain(f.arm_boot_arch), "ArmBootArchFlags 3");
        assert_eq!(f.reset_register(), Ok(at(AddressSpace::SystemIo, 8, 0, AccessSize::ByteAccess, 0xcf9)));
        let event = at(AddressSpace::SystemMemory, 32, 0, AccessSize::DWordAccess, 0x1_0000_3000);
        assert_eq!(f.pm1a_event_block(), Ok(event));
        assert_eq!(f.pm1b_event_block(), Err(AcpiError::InvalidGenericAddress));
        let control = at(AddressSpace::OemDefined(0xc0), 16, 1, AccessSize::QWordAccess, 0x604);
        assert_eq!(f.pm1a_control_block(), Ok(control));
        assert_eq!(f.pm1b_control_block(), Err(AcpiError::InvalidGenericAddress));
        let timer = at(AddressSpace::PciConfigSpace, 32, 0, AccessSize::WordAccess, 0x0001_0002_0003);
        assert_eq!(f.pm_timer_block(), Ok(Some(timer)));
        assert_eq!((f.pm2_control_block(), f.gpe0_block(), f.gpe1_block()), (Ok(None), Ok(None), Ok(None)));
        assert!(matches!((f.gpe0(), f.gpe1(), f.gpe1_base()), (Ok(None), Ok(None), None)));
        let sleep = at(AddressSpace::FunctionalFixedHardware, 8, 0, AccessSize::Undefined, 0x1234);
        assert_eq!(f.sleep_control_register(), Ok(Some(sleep)));
        let none = at(AddressSpace::SystemIo, 8, 0, AccessSize::Undefined, 0);
        assert_eq!(f.sleep_status_register(), Ok(Some(none)));
    });
    // Hypervisor Vendor Identity counts from revision 6 on.
    let of = |revision| with("FACP", revision, 276, &fields).list(|source| fixed::fixed(source).unwrap());
    let hypervisor = [6, 5].map(|revision| (of(revision).minor_revision, of(revision).hypervisor_id));
    assert_eq!(hypervisor, [(0x14, 0x4d56_4b4d_564b), (0x14, 0)]);
}

#[test]
fn says_that_addresses_are_missing() {
    fadt(1, 116, &[], |f| {
        assert_eq!(f.facs_address(), Err(AcpiError::InvalidFacsAddress));
        assert_eq!(f.dsdt_address(), Err(AcpiError::InvalidDsdtAddress));
        assert_eq!(f.pm1a_event_block(), Ok(ports(0, 0)));
    });
    let missing = AcpiError::TableMissing(Signature::FADT);
    Memory::rsdt(&[]).ask(|tables| {
        assert_eq!((tables.find_table::<Fadt>().err(), tables.find_fadt().err()), (Some(missing), Some(missing)));
        assert_eq!(tables.dsdt(), Err(missing));
    });
    assert_eq!(Memory::rsdt(&[]).list(fixed::fixed), Err(Refusal::Acpi(missing)));
}

/// A FADT of these bytes at an offset.
fn of_bytes(at: usize, bytes: &[u8]) -> Fadt {
    let mut table = [0; 276];
    table[at..at + bytes.len()].copy_from_slice(bytes);
    Fadt::read(&table)
}

/// Each getter returns its own bit, which is its place in the list (tables 5.10, 5.12 and 5.13).
#[test]
fn flags_are_their_bits() {
    let fixed: [fn(&FixedFeatureFlags) -> bool; 22] = [
        FixedFeatureFlags::supports_equivalent_to_wbinvd,
        FixedFeatureFlags::wbinvd_flushes_all_caches,
        FixedFeatureFlags::all_procs_support_c1_power_state,
        FixedFeatureFlags::c2_configured_for_mp_system,
        FixedFeatureFlags::power_button_is_control_method,
        FixedFeatureFlags::sleep_button_is_control_method,
        FixedFeatureFlags::no_rtc_wake_in_fixed_register_space,
        FixedFeatureFlags::rtc_wakes_system_from_s4,
        FixedFeatureFlags::pm_timer_is_32_bit,
        FixedFeatureFlags::supports_docking,
        FixedFeatureFlags::supports_system_reset_via_fadt,
        FixedFeatureFlags::case_is_sealed,
        FixedFeatureFlags::system_is_headless,
        FixedFeatureFlags::use_instr_after_write_to_slp_typx,
        FixedFeatureFlags::supports_pciexp_wake_in_pm1,
        FixedFeatureFlags::use_pm_or_hpet_for_monotonically_decreasing_timers,
        FixedFeatureFlags::rtc_sts_is_valid_after_wakeup_from_s4,
        FixedFeatureFlags::ospm_may_leave_gpe_wake_events_armed_before_s5,
        FixedFeatureFlags::lapics_must_use_cluster_model_for_logical_mode,
        FixedFeatureFlags::local_xapics_must_use_physical_destination_mode,
        FixedFeatureFlags::system_is_hw_reduced_acpi,
        FixedFeatureFlags::no_benefit_to_s3,
    ];
    let pc: [fn(&IaPcBootArchFlags) -> bool; 6] = [
        IaPcBootArchFlags::legacy_devices_are_accessible,
        IaPcBootArchFlags::motherboard_implements_8042,
        IaPcBootArchFlags::dont_probe_vga,
        IaPcBootArchFlags::dont_enable_msi,
        IaPcBootArchFlags::dont_enable_pcie_aspm,
        IaPcBootArchFlags::use_time_and_alarm_namespace_for_rtc,
    ];
    let arm: [fn(&ArmBootArchFlags) -> bool; 2] =
        [ArmBootArchFlags::implements_psci, ArmBootArchFlags::use_hvc_as_psci_conduit];
    for (bit, flag) in fixed.iter().enumerate() {
        for (bits, is_set) in [(1u32 << bit, true), (!(1u32 << bit), false)] {
            let low = (bits as u16).to_le_bytes();
            assert_eq!(flag(&of_bytes(112, &bits.to_le_bytes()).flags), is_set, "Flags, bit {bit}");
            let found = pc.get(bit).is_none_or(|flag| flag(&of_bytes(109, &low).iapc_boot_arch) == is_set);
            assert!(found, "IAPC_BOOT_ARCH, bit {bit}");
            let found = arm.get(bit).is_none_or(|flag| flag(&of_bytes(129, &low).arm_boot_arch) == is_set);
            assert!(found, "ARM_BOOT_ARCH, bit {bit}");
        }
    }
}
