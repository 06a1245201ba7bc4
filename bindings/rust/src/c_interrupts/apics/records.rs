// Made by scripts/erase of crates/acpi_c_interrupts/src/apics/records.rt, where it is proved.
//! Made by scripts/records: what C sees of interrupts and processors of a machine with APICs.
//! `include/zacpi.h` has what each field is.

/// `struct zacpi_interrupt_model`.
#[repr(C)]
#[derive(Clone, Copy, Debug, Default, PartialEq, Eq)]
#[non_exhaustive]
pub struct InterruptModel {
    /// Local APIC address: of the last override of it (section 5.2.12.8), or else Local Interrupt Controller Address.
    pub local_apic_address: u64,
    /// The number of I/O APICs.
    pub io_apics: usize,
    /// The number of overrides of ISA interrupts.
    pub overrides: usize,
    /// The number of interrupts that are non-maskable.
    pub nmi_sources: usize,
    /// The number of LINT pins that NMIs arrive at.
    pub nmi_lines: usize,
    /// The number of processors.
    pub processors: usize,
    /// Known: 1 if a MADT lists an entry of Types 0 to 5, 9 or 0xa; else all is 0.
    pub known: u8,
    /// PCAT_COMPAT, bit 0 of Flags: there is a pair of 8259s to be masked.
    pub also_has_8259: u8,
    /// Reserved: 0.
    pub reserved: [u8; 6],
}

/// `struct zacpi_local_apic`.
#[repr(C)]
#[derive(Clone, Copy, Debug, Default, PartialEq, Eq)]
#[non_exhaustive]
pub struct LocalApic {
    /// Address: as in `struct zacpi_interrupt_model`, by the entries up to where none begins.
    pub address: u64,
    /// PCAT_COMPAT, bit 0 of Flags.
    pub also_has_8259: u8,
    /// Reserved: 0.
    pub reserved: [u8; 7],
}

/// `struct zacpi_io_apic`.
#[repr(C)]
#[derive(Clone, Copy, Debug, Default, PartialEq, Eq)]
pub struct IoApic {
    /// The physical address.
    pub address: u32,
    /// Global system interrupt base: the interrupt of its first pin.
    pub global_system_interrupt_base: u32,
    /// The id.
    pub id: u8,
    /// Reserved: 0.
    pub reserved: [u8; 3],
}

/// `struct zacpi_interrupt_source_override`.
#[repr(C)]
#[derive(Clone, Copy, Debug, Default, PartialEq, Eq)]
pub struct InterruptSourceOverride {
    /// Global System Interrupt.
    pub global_system_interrupt: u32,
    /// Source: the interrupt on the ISA bus.
    pub isa_source: u8,
    /// The polarity of its interrupt, as the table has it.
    pub polarity: u8,
    /// The trigger mode of its interrupt, as the table has it.
    pub trigger: u8,
    /// Bus: 0 ISA; others are reserved.
    pub bus: u8,
}

/// `struct zacpi_nmi_source`.
#[repr(C)]
#[derive(Clone, Copy, Debug, Default, PartialEq, Eq)]
pub struct NmiSource {
    /// Global System Interrupt.
    pub global_system_interrupt: u32,
    /// The polarity of its interrupt, as the table has it.
    pub polarity: u8,
    /// The trigger mode of its interrupt, as the table has it.
    pub trigger: u8,
    /// Reserved: 0.
    pub reserved: [u8; 2],
}

/// `struct zacpi_nmi_line`.
#[repr(C)]
#[derive(Clone, Copy, Debug, Default, PartialEq, Eq)]
pub struct NmiLine {
    /// Processor UID: 0 if `of_all`.
    pub processor_uid: u32,
    /// ACPI Processor UID is 0xff, or 0xffffffff for an x2APIC: all processors.
    pub of_all: u8,
    /// Local APIC LINT#: 0 LINT0, 1 LINT1; others are reserved.
    pub lint: u8,
    /// The polarity of its interrupt, as the table has it.
    pub polarity: u8,
    /// The trigger mode of its interrupt, as the table has it.
    pub trigger: u8,
}

/// `struct zacpi_processor`.
#[repr(C)]
#[derive(Clone, Copy, Debug, Default, PartialEq, Eq)]
pub struct Processor {
    /// ACPI Processor UID.
    pub uid: u32,
    /// APIC ID or X2APIC ID.
    pub local_apic_id: u32,
    /// State: one of `enum zacpi_processor_state`.
    pub state: u8,
    /// Whether it is the boot processor.
    pub is_boot: u8,
    /// Is online capable: bit 1 of Flags: disabled, it can be enabled later. 0 below revision 5 (ACPI 6.3), where the
    /// bit is reserved.
    pub is_online_capable: u8,
    /// Is x2apic: the entry is a Processor Local x2APIC.
    pub is_x2apic: u8,
}

/// `struct zacpi_platform_lists`.
#[repr(C)]
#[derive(Debug)]
pub struct PlatformLists<'a> {
    /// The processors.
    pub processors: &'a mut [Processor],
    /// The number of processors, also if they are more than there is capacity for.
    pub processors_count: usize,
    /// The I/O APICs.
    pub io_apics: &'a mut [IoApic],
    /// The number of I/O APICs, also if they are more than there is capacity for.
    pub io_apics_count: usize,
    /// The overrides of ISA interrupts.
    pub overrides: &'a mut [InterruptSourceOverride],
    /// The number of overrides, also if they are more than there is capacity for.
    pub overrides_count: usize,
    /// The interrupts that are non-maskable.
    pub nmi_sources: &'a mut [NmiSource],
    /// The number of NMI sources, also if they are more than there is capacity for.
    pub nmi_sources_count: usize,
    /// The LINT pins that NMIs arrive at.
    pub nmi_lines: &'a mut [NmiLine],
    /// The number of LINT pins, also if they are more than there is capacity for.
    pub nmi_lines_count: usize,
}

/// `struct zacpi_interrupt`.
#[repr(C)]
#[derive(Clone, Copy, Debug, Default, PartialEq, Eq)]
#[non_exhaustive]
pub struct Interrupt {
    /// Global System Interrupt.
    pub global_system_interrupt: u32,
    /// The polarity of its interrupt, as the table has it.
    pub polarity: u8,
    /// The trigger mode of its interrupt, as the table has it.
    pub trigger: u8,
    /// Reserved: 0.
    pub reserved: [u8; 2],
}

/// `struct zacpi_io_apic_pin`.
#[repr(C)]
#[derive(Clone, Copy, Debug, Default, PartialEq, Eq)]
#[non_exhaustive]
pub struct IoApicPin {
    /// The I/O APIC.
    pub io_apic: IoApic,
    /// Pin: from 0 on.
    pub pin: u32,
}

/// `struct zacpi_isa_route`.
#[repr(C)]
#[derive(Clone, Copy, Debug, Default, PartialEq, Eq)]
#[non_exhaustive]
pub struct IsaRoute {
    /// Interrupt: what zacpi_get_isa_interrupt returns, or zeros.
    pub interrupt: Interrupt,
    /// Pin: what zacpi_get_io_apic_pin returns for it, or zeros.
    pub pin: IoApicPin,
    /// Present: 0: zacpi_get_isa_interrupt fails.
    pub present: u8,
    /// Has pin: 0: it isn't present, or zacpi_get_io_apic_pin fails.
    pub has_pin: u8,
    /// Reserved: 0.
    pub reserved: [u8; 2],
}

/// `struct zacpi_isa_interrupts`.
#[repr(C)]
#[derive(Clone, Copy, Debug, Default, PartialEq, Eq)]
#[non_exhaustive]
pub struct IsaInterrupts {
    /// Routes: item n is irq n.
    pub routes: [IsaRoute; 16],
}
