// Made by scripts/erase of crates/acpi_c_interrupts/src/arm/records.rt, where it is proved.
//! Made by scripts/records: what C sees of an Arm machine.
//! `include/zacpi.h` has what each field is.

/// `struct zacpi_gic_distributor`.
#[repr(C)]
#[derive(Clone, Copy, Debug, Default, PartialEq, Eq)]
pub struct GicDistributor {
    /// The physical address.
    pub address: u64,
    /// The id.
    pub id: u32,
    /// System vector base: reserved, and kept as it is.
    pub system_vector_base: u32,
    /// Version: 1 to 4; 0: the hardware shows it.
    pub version: u8,
    /// Reserved: 0.
    pub reserved: [u8; 7],
}

/// `struct zacpi_gic_cpu_interface`.
#[repr(C)]
#[derive(Clone, Copy, Debug, Default, PartialEq, Eq)]
pub struct GicCpuInterface {
    /// MPIDR: the processor's id in its registers.
    pub mpidr: u64,
    /// Parked address: the parking protocol's mailbox.
    pub parked_address: u64,
    /// Physical Base Address.
    pub address: u64,
    /// GICV: the physical address of the virtual interface.
    pub virtual_address: u64,
    /// GICH: the physical address of the virtual interface control registers.
    pub hypervisor_address: u64,
    /// GICR Base Address: of its redistributor.
    pub redistributor_address: u64,
    /// CPU Interface Number.
    pub number: u32,
    /// ACPI Processor UID.
    pub processor_uid: u32,
    /// Performance Interrupt GSIV.
    pub performance_interrupt: u32,
    /// VGIC Maintenance Interrupt.
    pub maintenance_interrupt: u32,
    /// Parking protocol version: 0: none; PSCI wakes processors.
    pub parking_protocol_version: u32,
    /// SPE Overflow Interrupt.
    pub spe_overflow_interrupt: u16,
    /// TRBE Interrupt, since ACPI 6.5: 0 below revision 6, and if the entry lacks one of its bytes.
    pub trace_buffer_interrupt: u16,
    /// Whether it can be used.
    pub is_enabled: u8,
    /// Whether it can be enabled later.
    pub is_online_capable: u8,
    /// Whether the performance interrupt is edge-triggered.
    pub performance_trigger: u8,
    /// Whether the maintenance interrupt is edge-triggered.
    pub maintenance_trigger: u8,
    /// Processor Power Efficiency Class: lower uses less power.
    pub efficiency_class: u8,
    /// Reserved: 0.
    pub reserved: [u8; 3],
}

/// `struct zacpi_gic_translation_service`.
#[repr(C)]
#[derive(Clone, Copy, Debug, Default, PartialEq, Eq)]
pub struct GicTranslationService {
    /// The physical address.
    pub address: u64,
    /// The id.
    pub id: u32,
    /// Reserved: 0.
    pub reserved: [u8; 4],
}

/// `struct zacpi_gic_msi_frame`.
#[repr(C)]
#[derive(Clone, Copy, Debug, Default, PartialEq, Eq)]
pub struct GicMsiFrame {
    /// The physical address.
    pub address: u64,
    /// The id.
    pub id: u32,
    /// SPI Base: the first of its interrupts.
    pub spi_base: u16,
    /// SPI Count: the number of its interrupts.
    pub spi_count: u16,
    /// SPI Count/Base Select, bit 0 of Flags. 0: the frame's registers show them.
    pub has_spis: u8,
    /// Reserved: 0.
    pub reserved: [u8; 7],
}

/// `struct zacpi_arm_timer`.
#[repr(C)]
#[derive(Clone, Copy, Debug, Default, PartialEq, Eq)]
pub struct ArmTimer {
    /// GSIV: of the GIC; 0: none.
    pub interrupt: u32,
    /// The polarity of its interrupt, as the table has it.
    pub polarity: u8,
    /// The trigger mode of its interrupt, as the table has it.
    pub trigger: u8,
    /// Whether it keeps its state in each power state of the processor.
    pub always_on: u8,
    /// Present: 0: the table lacks this timer's fields, and all else is 0.
    pub present: u8,
}

/// `struct zacpi_arm_timers`.
#[repr(C)]
#[derive(Clone, Copy, Debug, Default, PartialEq, Eq)]
pub struct ArmTimers {
    /// CntControlBase Physical Address; all ones: none.
    pub control_base: u64,
    /// CntReadBase Physical Address; all ones: none, also below revision 2.
    pub read_base: u64,
    /// The secure timer of EL1.
    pub secure_el1: ArmTimer,
    /// The non-secure timer of EL1.
    pub non_secure_el1: ArmTimer,
    /// The virtual timer of EL1.
    pub virtual_el1: ArmTimer,
    /// The timer of EL2.
    pub el2: ArmTimer,
    /// The virtual timer of EL2.
    pub virtual_el2: ArmTimer,
    /// Whether a structure of a platform timer is malformed.
    pub platform_timers_malformed: u8,
    /// Reserved: 0.
    pub reserved: [u8; 7],
}

/// `struct zacpi_gt_frame`.
#[repr(C)]
#[derive(Clone, Copy, Debug, Default, PartialEq, Eq)]
pub struct GtFrame {
    /// Block address: of the block's control frame.
    pub block_address: u64,
    /// The physical address.
    pub address: u64,
    /// CntEL0BaseX: of the registers as EL0 sees them; all ones: none.
    pub el0_address: u64,
    /// The interrupt of the physical timer. 0: no such timer.
    pub physical_interrupt: u32,
    /// The interrupt of the virtual timer. 0: no such timer.
    pub virtual_interrupt: u32,
    /// Number: in the block, from 0 to 7.
    pub number: u8,
    /// The polarity of the physical timer's interrupt.
    pub physical_polarity: u8,
    /// The trigger mode of the physical timer's interrupt.
    pub physical_trigger: u8,
    /// The polarity of the virtual timer's interrupt.
    pub virtual_polarity: u8,
    /// The trigger mode of the virtual timer's interrupt.
    pub virtual_trigger: u8,
    /// Whether it is of the secure state.
    pub is_secure: u8,
    /// Whether it keeps its state in each power state of the processor.
    pub is_always_on: u8,
    /// Reserved: 0.
    pub reserved: u8,
}

/// `struct zacpi_watchdog`.
#[repr(C)]
#[derive(Clone, Copy, Debug, Default, PartialEq, Eq)]
pub struct Watchdog {
    /// The physical address of its refresh frame.
    pub refresh_frame: u64,
    /// The physical address of its control frame.
    pub control_frame: u64,
    /// The global system interrupt.
    pub interrupt: u32,
    /// The polarity of its interrupt, as the table has it.
    pub polarity: u8,
    /// The trigger mode of its interrupt, as the table has it.
    pub trigger: u8,
    /// Whether it is of the secure state.
    pub is_secure: u8,
    /// Reserved: 0.
    pub reserved: u8,
}
