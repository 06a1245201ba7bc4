//! A table of each kind, by its contents and byte by byte (ACPI 6.4, section 5.2; the SPCR's layout is Microsoft's, the
//! MCFG's the PCI Firmware Specification's, the HPET's the IA-PC HPET Specification's). `tests/c/rows_written.h` has
//! more bytes of each, but for what C can't pass: FADTs by the names of flags, timers of the platform in a GTDT, and an
//! SPCR's name and interfaces.
use zacpi::address::{AccessSize, AddressSpace, GenericAddress};
use zacpi::arm::gic::{GicCpuInterface, GicDistributor};
use zacpi::arm::gtdt::{ArmTimer, GtFrame, SbsaWatchdog, TimerInterrupt};
use zacpi::fadt::GpeBlock;
use zacpi::hpet::PageProtection;
use zacpi::mcfg::McfgEntry;
use zacpi::platform::interrupt::{IoApic, Polarity, TriggerMode};
use zacpi::spcr::{SpcrFlowControl, SpcrInterfaceType, SpcrInterruptType, SpcrTerminalType};
use zacpi::write::fadt::{ArmBootFeatures, FixedFeatures, FixedHardware, LegacyFields, PcBootFeatures};
use zacpi::write::*;
use zacpi::{HpetInfo, PowerProfile};

pub(super) const IDS: TableIds = TableIds {
    oem_id: *b"GUEST ",
    oem_table_id: *b"MACHINE ",
    oem_revision: 0x01020304,
    creator_id: *b"ZUGZ",
    creator_revision: 0x05060708,
};

/// A table with these ids, by its Signature, the low bytes of its Length, its Revision, its Checksum, and the rest.
#[rustfmt::skip]
macro_rules! table {
    ($a:expr, $b:expr, $c:expr, $d:expr, $low:expr, $high:expr, $revision:expr, $checksum:expr, $($rest:expr),*) => {
        [
            $a, $b, $c, $d, $low, $high, 0, 0, $revision, $checksum,
            b'G', b'U', b'E', b'S', b'T', b' ', // OEMID
            b'M', b'A', b'C', b'H', b'I', b'N', b'E', b' ', // OEM Table ID
            4, 3, 2, 1, b'Z', b'U', b'G', b'Z', 8, 7, 6, 5, // OEM Revision, Creator ID, Creator Revision
            $($rest),*
        ]
    };
}

/// A register of ports.
#[rustfmt::skip]
pub(super) const PORT: GenericAddress = GenericAddress {
    address_space: AddressSpace::SystemIo, bit_width: 32, bit_offset: 0, access_size: AccessSize::WordAccess,
    address: 0x600,
};

#[rustfmt::skip]
pub(super) const HARDWARE: FixedHardware = FixedHardware {
    smi_cmd_port: 0xb2, acpi_enable: 0xe1, acpi_disable: 0x1e, s4bios_req: 0xf2,
    pstate_control: 0x80, c_state_control: 0x85,
    pm1a_event: PORT,
    pm1b_event: Some(GenericAddress { address: 0x700, ..PORT }),
    pm1a_control: GenericAddress { bit_width: 16, address: 0x604, ..PORT },
    pm1b_control: Some(GenericAddress {
        address_space: AddressSpace::SystemMemory, bit_width: 16, bit_offset: 1, access_size: AccessSize::QWordAccess,
        address: 0x1_fed80000,
    }),
    pm2_control: Some(GenericAddress { bit_width: 8, address: 0x608, ..PORT }),
    pm_timer: Some(GenericAddress { access_size: AccessSize::DWordAccess, address: 0x610, ..PORT }),
    gpe0: Some(GpeBlock { space: AddressSpace::SystemIo, address: 0x620, byte_length: 16 }),
    gpe1: Some(GpeBlock { space: AddressSpace::SystemMemory, address: 0xfed81000, byte_length: 32 }),
    gpe1_base: 0x40,
};

/// Its DSDT and FACS are where `machine` has them.
#[rustfmt::skip]
pub(super) const FADT: FadtContents = FadtContents {
    dsdt: 0x10b0, facs: Some(0x1100),
    power_profile: PowerProfile::EnterpriseServer,
    sci_interrupt: 9,
    hardware: FadtHardware::Fixed(HARDWARE),
    reset_register: Some(GenericAddress { bit_width: 8, access_size: AccessSize::ByteAccess, address: 0xcf9, ..PORT }),
    reset_value: 6,
    sleep_control: None, sleep_status: None,
    features: FixedFeatures {
        supports_equivalent_to_wbinvd: true, all_procs_support_c1_power_state: true, pm_timer_is_32_bit: true,
        sleep_button_is_control_method: true, no_benefit_to_s3: true,
        use_pm_or_hpet_for_monotonically_decreasing_timers: true,
        ..FixedFeatures::NONE
    },
    pc_boot: PcBootFeatures {
        legacy_devices_are_accessible: true, motherboard_implements_8042: true, dont_enable_pcie_aspm: true,
        ..PcBootFeatures::NONE
    },
    arm_boot: ArmBootFeatures { implements_psci: false, use_hvc_as_psci_conduit: true },
    legacy: LegacyFields::NONE,
};

/// Of Flags the bits 0, 2, 5, 8, 10, 15 and 21 are set, of IAPC_BOOT_ARCH the bits 0, 1 and 4.
#[rustfmt::skip]
pub(super) const FADT_BYTES: [u8; 276] = table!(b'F', b'A', b'C', b'P', 0x14, 1, 6, 0x18,
    0, 0x11, 0, 0, 0xb0, 0x10, 0, 0, 0, 4, 9, 0, // FIRMWARE_CTRL, DSDT, Reserved, Preferred_PM_Profile, SCI_INT
    0xb2, 0, 0, 0, 0xe1, 0x1e, 0xf2, 0x80, // SMI_CMD, ACPI_ENABLE, ACPI_DISABLE, S4BIOS_REQ, PSTATE_CNT
    0, 6, 0, 0, 0, 7, 0, 0, // PM1a_EVT_BLK, PM1b_EVT_BLK
    4, 6, 0, 0, 0, 0, 0, 0, // PM1a_CNT_BLK, PM1b_CNT_BLK
    8, 6, 0, 0, 0x10, 6, 0, 0, // PM2_CNT_BLK, PM_TMR_BLK
    0x20, 6, 0, 0, 0, 0, 0, 0, // GPE0_BLK, GPE1_BLK
    4, 2, 1, 4, 16, 32, 0x40, 0x85, // PM1_EVT_LEN to GPE1_BLK_LEN, GPE1_BASE, CST_CNT
    0xff, 0x0f, 0xff, 0x0f, 0, 0, 0, 0, // P_LVL2_LAT, P_LVL3_LAT, FLUSH_SIZE, FLUSH_STRIDE
    0, 0, 0, 0, 0, 0x13, 0, 0, // DUTY_OFFSET, DUTY_WIDTH, DAY_ALRM, MON_ALRM, CENTURY, IAPC_BOOT_ARCH, Reserved
    0x25, 0x85, 0x20, 0, // Flags
    1, 8, 0, 1, 0xf9, 0x0c, 0, 0, 0, 0, 0, 0, // RESET_REG
    6, 2, 0, 4, // RESET_VALUE, ARM_BOOT_ARCH, FADT Minor Version
    0, 0x11, 0, 0, 0, 0, 0, 0, 0xb0, 0x10, 0, 0, 0, 0, 0, 0, // X_FIRMWARE_CTRL, X_DSDT
    1, 32, 0, 2, 0, 6, 0, 0, 0, 0, 0, 0, // X_PM1a_EVT_BLK
    1, 32, 0, 2, 0, 7, 0, 0, 0, 0, 0, 0, // X_PM1b_EVT_BLK
    1, 16, 0, 2, 4, 6, 0, 0, 0, 0, 0, 0, // X_PM1a_CNT_BLK
    0, 16, 1, 4, 0, 0, 0xd8, 0xfe, 1, 0, 0, 0, // X_PM1b_CNT_BLK
    1, 8, 0, 2, 8, 6, 0, 0, 0, 0, 0, 0, // X_PM2_CNT_BLK
    1, 32, 0, 3, 0x10, 6, 0, 0, 0, 0, 0, 0, // X_PM_TMR_BLK
    1, 128, 0, 0, 0x20, 6, 0, 0, 0, 0, 0, 0, // X_GPE0_BLK
    0, 255, 0, 0, 0, 0x10, 0xd8, 0xfe, 0, 0, 0, 0, // X_GPE1_BLK
    0, 0, 0, 0, 0, 0, 0, 0, 0, 0, 0, 0, // SLEEP_CONTROL_REG
    0, 0, 0, 0, 0, 0, 0, 0, 0, 0, 0, 0, // SLEEP_STATUS_REG
    0, 0, 0, 0, 0, 0, 0, 0 // Hypervisor Vendor Identity
);

pub(super) const FACS: FacsContents = FacsContents {
    hardware_signature: 0x12345678,
    waking_vector: 0x9abcd,
    x_waking_vector: 0x1_02030405,
    supports_s4bios: false,
    supports_64_bit_wake: true,
};

#[rustfmt::skip]
pub(super) const FACS_BYTES: [u8; 64] = [
    b'F', b'A', b'C', b'S', 64, 0, 0, 0, 0x78, 0x56, 0x34, 0x12, // Signature, Length, Hardware Signature
    0xcd, 0xab, 9, 0, 0, 0, 0, 0, 2, 0, 0, 0, // Firmware Waking Vector, Global Lock, Flags
    5, 4, 3, 2, 1, 0, 0, 0, 2, 0, 0, 0, 0, 0, 0, 0, // X_Firmware_Waking_Vector, Version, Reserved, OSPM Flags
    0, 0, 0, 0, 0, 0, 0, 0, 0, 0, 0, 0, 0, 0, 0, 0, 0, 0, 0, 0, 0, 0, 0, 0, // Reserved
];

/// One that will be online, by both flags, and one whose ids are too large for a Processor Local APIC.
#[rustfmt::skip]
pub(super) const PROCESSORS: [MadtProcessor; 2] = [
    MadtProcessor {
        processor_uid: 254, local_apic_id: 254, is_enabled: true, is_online_capable: true, is_x2apic: false,
    },
    MadtProcessor {
        processor_uid: 255, local_apic_id: 0x1234, is_enabled: false, is_online_capable: true, is_x2apic: false,
    },
];

/// These processors with one I/O APIC.
#[rustfmt::skip]
const MADT: MadtContents<'static> = MadtContents {
    local_apic_address: 0xfee00000, also_has_legacy_pics: false, processors: &PROCESSORS,
    io_apics: &[IoApic { id: 0, address: 0xfec00000, global_system_interrupt_base: 0 }],
    interrupt_source_overrides: &[], nmi_sources: &[], local_apic_nmi_lines: &[], wakeup_mailbox: None,
};

#[rustfmt::skip]
pub(super) const MADT_BYTES: [u8; 80] = table!(b'A', b'P', b'I', b'C', 80, 0, 5, 0x4d,
    0, 0, 0xe0, 0xfe, 0, 0, 0, 0, // Local Interrupt Controller Address, Flags
    0, 8, 254, 254, 3, 0, 0, 0, // Processor Local APIC: Enabled, Online Capable
    9, 16, 0, 0, 0x34, 0x12, 0, 0, 2, 0, 0, 0, 255, 0, 0, 0, // Processor Local x2APIC: Online Capable
    1, 12, 0, 0, 0, 0, 0xc0, 0xfe, 0, 0, 0, 0 // I/O APIC
);

/// A processor by an entry of ACPI 6.4.
#[rustfmt::skip]
const GIC: GicContents<'static> = GicContents {
    distributor: GicDistributor { id: 0x01020304, address: 0x1_2f000000, version: 3, system_vector_base: 0x05060708 },
    cpu_interfaces: &[GicCpuInterface {
        number: 0x11, processor_uid: 0x22, mpidr: 0x302f2e2d_2c2b2a29, is_enabled: true, is_online_capable: false,
        performance_interrupt: 23, performance_trigger: TriggerMode::Edge, parking_protocol_version: 0x33,
        parked_address: 0x08070605_04030201, address: 0x100f0e0d_0c0b0a09, virtual_address: 0x18171615_14131211,
        hypervisor_address: 0x201f1e1d_1c1b1a19, maintenance_interrupt: 25, maintenance_trigger: TriggerMode::Level,
        redistributor_address: 0x28272625_24232221, efficiency_class: 5, spe_overflow_interrupt: 0x1234,
        trace_buffer_interrupt: None,
    }],
    redistributors: &[], translation_services: &[], msi_frames: &[],
};

#[rustfmt::skip]
const GIC_BYTES: [u8; 148] = table!(b'A', b'P', b'I', b'C', 148, 0, 6, 0xc6,
    0, 0, 0, 0, 0, 0, 0, 0, // Local Interrupt Controller Address, Flags
    12, 24, 0, 0, 4, 3, 2, 1, 0, 0, 0, 0x2f, 1, 0, 0, 0, // GICD: GIC ID, Physical Base Address
    8, 7, 6, 5, 3, 0, 0, 0, // System Vector Base, GIC version
    11, 80, 0, 0, 0x11, 0, 0, 0, 0x22, 0, 0, 0, 3, 0, 0, 0, // GICC: CPU Interface Number, ACPI Processor UID, Flags
    0x33, 0, 0, 0, 23, 0, 0, 0, // Parking Protocol Version, Performance Interrupt GSIV
    1, 2, 3, 4, 5, 6, 7, 8, 9, 10, 11, 12, 13, 14, 15, 16, // Parked Address, Physical Base Address
    17, 18, 19, 20, 21, 22, 23, 24, 25, 26, 27, 28, 29, 30, 31, 32, // GICV, GICH
    0x19, 0, 0, 0, 33, 34, 35, 36, 37, 38, 39, 40, // VGIC Maintenance interrupt, GICR Base Address
    41, 42, 43, 44, 45, 46, 47, 48, 5, 0, 0x34, 0x12 // MPIDR, Processor Power Efficiency Class, SPE overflow Interrupt
);

#[rustfmt::skip]
const MCFG: [McfgEntry; 1] = [McfgEntry {
    base_address: 0x20_00000000, pci_segment_group: 0x102, bus_number_start: 16, bus_number_end: 31,
}];

#[rustfmt::skip]
const MCFG_BYTES: [u8; 60] = table!(b'M', b'C', b'F', b'G', 60, 0, 1, 0x23,
    0, 0, 0, 0, 0, 0, 0, 0, // Reserved
    0, 0, 0, 0, 0x20, 0, 0, 0, 2, 1, 16, 31, 0, 0, 0, 0 // segment 0x102, buses 16 to 31
);

#[rustfmt::skip]
const HPET: HpetInfo = HpetInfo {
    event_timer_block_id: 0x8086a201, base_address: 0xfed00000, hpet_number: 2, clock_tick_unit: 0x80,
    page_protection: PageProtection::Protected4K,
};

#[rustfmt::skip]
const HPET_BYTES: [u8; 56] = table!(b'H', b'P', b'E', b'T', 56, 0, 1, 0x6b,
    1, 0xa2, 0x86, 0x80, // Event Timer Block ID
    0, 0, 0, 0, 0, 0, 0xd0, 0xfe, 0, 0, 0, 0, // BASE_ADDRESS: an address in memory
    2, 0x80, 0, 1 // HPET Number, Main Counter Minimum Clock_tick, Page Protection
);

/// From the first locality to the second it is further than back.
#[rustfmt::skip]
const SLIT: SlitContents<'static> = SlitContents { localities: 2, distances: &[10, 21, 20, 10] };

#[rustfmt::skip]
const SLIT_BYTES: [u8; 48] = table!(b'S', b'L', b'I', b'T', 48, 0, 1, 0x23,
    2, 0, 0, 0, 0, 0, 0, 0, 10, 21, 20, 10 // Number of System Localities, Entry[0][0] to Entry[1][1]
);

/// Scope (_SB_) {}
#[rustfmt::skip]
pub(super) const AML: AmlContents<'static> = AmlContents { revision: 2, bytes: &[0x10, 5, b'_', b'S', b'B', b'_'] };

#[rustfmt::skip]
pub(super) const DSDT_BYTES: [u8; 42] = table!(b'D', b'S', b'D', b'T', 42, 0, 2, 0x0c, 0x10, 5, b'_', b'S', b'B', b'_');

#[rustfmt::skip]
const SSDT_BYTES: [u8; 42] = table!(b'S', b'S', b'D', b'T', 42, 0, 2, 0xfd, 0x10, 5, b'_', b'S', b'B', b'_');

/// Ids at the edge of what a Processor Local APIC/SAPIC Affinity holds: 255 means all there.
#[rustfmt::skip]
const SRAT: SratContents<'static> = SratContents {
    apics: &[ApicDomain { local_apic_id: 254, domain: 0x01020304 }, ApicDomain { local_apic_id: 255, domain: 5 }],
    giccs: &[], ranges: &[],
};

#[rustfmt::skip]
const SRAT_BYTES: [u8; 88] = table!(b'S', b'R', b'A', b'T', 88, 0, 3, 0x01,
    1, 0, 0, 0, 0, 0, 0, 0, 0, 0, 0, 0, // Reserved
    0, 16, 4, 254, 1, 0, 0, 0, 0, 3, 2, 1, 0, 0, 0, 0, // Processor Local APIC/SAPIC Affinity: domain 0x01020304
    2, 24, 0, 0, 5, 0, 0, 0, 255, 0, 0, 0, 1, 0, 0, 0, 0, 0, 0, 0, 0, 0, 0, 0 // Processor Local x2APIC Affinity
);

#[rustfmt::skip]
const COM: GenericAddress = GenericAddress {
    address_space: AddressSpace::SystemIo, bit_width: 8, bit_offset: 0, access_size: AccessSize::ByteAccess,
    address: 0x3f8,
};

/// A PCI device that is a 16550 on an I/O APIC.
#[rustfmt::skip]
pub(super) const SPCR: SpcrContents<'static> = SpcrContents {
    interface_type: SpcrInterfaceType::Generic16550, base_address: Some(COM),
    interrupt_type: SpcrInterruptType::IO_APIC, irq: 4, global_system_interrupt: 0x08070605,
    baud_rate: 115200, parity: 0, stop_bits: 1, flow_control: SpcrFlowControl::RTS_CTS,
    terminal_type: SpcrTerminalType::ANSI, language: 0,
    pci_device: Some(SpcrPciDevice {
        device_id: 0x1234, vendor_id: 0x8086, bus: 1, device: 2, function: 3, flags: 0x01020304, segment: 5,
    }),
    uart_clock_frequency: 1_843_200, namespace_string: "\\_SB.COM0",
};

#[rustfmt::skip]
const SPCR_BYTES: [u8; 98] = table!(b'S', b'P', b'C', b'R', 98, 0, 4, 0x9d,
    0x12, 0, 0, 0, 1, 8, 0, 1, 0xf8, 3, 0, 0, 0, 0, 0, 0, // Interface Type, Reserved, Base Address
    2, 0, 5, 6, 7, 8, // Interrupt Type, IRQ (of no 8259), Global System Interrupt
    7, 0, 1, 2, 8, 0, // Configured Baud Rate, Parity, Stop Bits, Flow Control, Terminal Type, Language
    0x34, 0x12, 0x86, 0x80, 1, 2, 3, 4, 3, 2, 1, 5, // PCI: ids, bus, device, function, flags, segment
    0, 0x20, 0x1c, 0, 0, 0xc2, 1, 0, 10, 0, 88, 0, // UART Clock Frequency, Precise Baud Rate, length and offset
    b'\\', b'_', b'S', b'B', b'.', b'C', b'O', b'M', b'0', 0 // NamespaceString
);

/// An image that is on the screen, turned by three quarters.
#[rustfmt::skip]
const BGRT: BgrtContents = BgrtContents {
    was_displayed: true, orientation_offset: BgrtOrientation::Degrees270, image_address: 0x1_00200000,
    image_offset: (0x0102, 0x030405),
};

#[rustfmt::skip]
const BGRT_BYTES: [u8; 56] = table!(b'B', b'G', b'R', b'T', 56, 0, 1, 0x2f,
    1, 0, 7, 0, 0, 0, 0x20, 0, 1, 0, 0, 0, // Version, Status, Image Type, Image Address
    2, 1, 0, 0, 5, 4, 3, 0 // Image Offset X, Image Offset Y
);

/// A frame that EL0 doesn't see, of secure software.
#[rustfmt::skip]
pub(super) const SECURE: GtFrame = GtFrame {
    number: 2, base: 0x2a850000, el0_base: None, is_secure: true, is_always_on: false,
    physical_timer: TimerInterrupt { interrupt: 315, trigger_mode: TriggerMode::Edge, polarity: Polarity::ActiveLow },
    virtual_timer: TimerInterrupt { interrupt: 572, trigger_mode: TriggerMode::Level, polarity: Polarity::ActiveHigh },
};

#[rustfmt::skip]
const FRAMES: [GtFrame; 2] = [
    GtFrame {
        number: 1, base: 0x2a830000, el0_base: Some(0x2a840000), is_secure: false, is_always_on: true,
        physical_timer: TimerInterrupt {
            interrupt: 313, trigger_mode: TriggerMode::Edge, polarity: Polarity::ActiveHigh,
        },
        virtual_timer: TimerInterrupt {
            interrupt: 570, trigger_mode: TriggerMode::Level, polarity: Polarity::ActiveLow,
        },
    },
    SECURE,
];

#[rustfmt::skip]
const LEVEL: ArmTimer = ArmTimer {
    interrupt: 1308, trigger_mode: TriggerMode::Level, polarity: Polarity::ActiveHigh, always_on: false,
};

/// Each flag of a timer set by itself, all of them, and none.
#[rustfmt::skip]
pub(super) const GTDT: GtdtContents<'static> = GtdtContents {
    counter_control_base: None,
    secure_el1_timer: ArmTimer { interrupt: 285, trigger_mode: TriggerMode::Edge, ..LEVEL },
    non_secure_el1_timer: ArmTimer { interrupt: 542, polarity: Polarity::ActiveLow, ..LEVEL },
    virtual_el1_timer: ArmTimer { interrupt: 795, always_on: true, ..LEVEL },
    el2_timer: ArmTimer {
        interrupt: 1050, trigger_mode: TriggerMode::Edge, polarity: Polarity::ActiveLow, always_on: true,
    },
    counter_read_base: Some(0x01020304_05060708),
    virtual_el2_timer: LEVEL,
    platform_timers: &[
        PlatformTimerContents::GtBlock(GtBlockContents { address: 0x2a810000, frames: &FRAMES }),
        PlatformTimerContents::SbsaWatchdog(SbsaWatchdog {
            refresh_frame: 0x2a450000, control_frame: 0x1_2a440000, interrupt: 829,
            trigger_mode: TriggerMode::Level, polarity: Polarity::ActiveLow, is_secure: true,
        }),
    ],
};

#[rustfmt::skip]
const GTDT_BYTES: [u8; 232] = table!(b'G', b'T', b'D', b'T', 232, 0, 3, 0x1e,
    255, 255, 255, 255, 255, 255, 255, 255, 0, 0, 0, 0, // CntControlBase Physical Address: there is none
    29, 1, 0, 0, 1, 0, 0, 0, 30, 2, 0, 0, 2, 0, 0, 0, // Secure EL1 Timer, Non-Secure EL1 Timer: GSIV, Flags
    27, 3, 0, 0, 4, 0, 0, 0, 26, 4, 0, 0, 7, 0, 0, 0, // Virtual EL1 Timer, EL2 Timer: GSIV, Flags
    8, 7, 6, 5, 4, 3, 2, 1, 2, 0, 0, 0, 104, 0, 0, 0, // CntReadBase Physical Address, Platform Timer Count and Offset
    28, 5, 0, 0, 0, 0, 0, 0, // Virtual EL2 Timer: GSIV, Flags
    0, 100, 0, 0, 0, 0, 0x81, 0x2a, 0, 0, 0, 0, 2, 0, 0, 0, 20, 0, 0, 0, // GT Block: address, Timer Count and Offset
    1, 0, 0, 0, 0, 0, 0x83, 0x2a, 0, 0, 0, 0, 0, 0, 0x84, 0x2a, 0, 0, 0, 0, // GTx: Frame Number, CntBaseX, CntEL0BaseX
    57, 1, 0, 0, 1, 0, 0, 0, 58, 2, 0, 0, 2, 0, 0, 0, 2, 0, 0, 0, // its physical and its virtual timer, Common Flags
    2, 0, 0, 0, 0, 0, 0x85, 0x2a, 0, 0, 0, 0, 255, 255, 255, 255, 255, 255, 255, 255, // GTx: there is no CntEL0BaseX
    59, 1, 0, 0, 3, 0, 0, 0, 60, 2, 0, 0, 0, 0, 0, 0, 1, 0, 0, 0, // its physical and its virtual timer, Common Flags
    1, 28, 0, 0, 0, 0, 0x45, 0x2a, 0, 0, 0, 0, // Arm Generic Watchdog: RefreshFrame
    0, 0, 0x44, 0x2a, 1, 0, 0, 0, 61, 3, 0, 0, 6, 0, 0, 0 // WatchdogControlFrame, GSIV, Flags
);

/// All of them, in the order in which `machine` lists them.
#[rustfmt::skip]
pub(super) const TABLES: [TableContents<'static>; 11] = [
    TableContents::Fadt(FADT), TableContents::Madt(MADT), TableContents::GicMadt(GIC), TableContents::Mcfg(&MCFG),
    TableContents::Hpet(HPET), TableContents::Slit(SLIT), TableContents::Ssdt(AML), TableContents::Srat(SRAT),
    TableContents::Spcr(SPCR), TableContents::Bgrt(BGRT), TableContents::Gtdt(GTDT),
];

/// Their names in a message, where they are in the machine, and their bytes.
#[rustfmt::skip]
pub(super) static WRITTEN: [(&str, usize, &[u8]); 11] = [
    ("FADT", 0x160, &FADT_BYTES), ("MADT", 0x280, &MADT_BYTES), ("GIC", 0x2d0, &GIC_BYTES),
    ("MCFG", 0x370, &MCFG_BYTES), ("HPET", 0x3b0, &HPET_BYTES), ("SLIT", 0x3f0, &SLIT_BYTES),
    ("SSDT", 0x420, &SSDT_BYTES), ("SRAT", 0x450, &SRAT_BYTES), ("SPCR", 0x4b0, &SPCR_BYTES),
    ("BGRT", 0x520, &BGRT_BYTES), ("GTDT", 0x560, &GTDT_BYTES),
];
