// Made by scripts/erase of crates/acpi_c_devices/src/fixed/records.rt, where it is proved.
//! Made by scripts/records: what C sees of the fixed hardware, the serial console and configuration space.
//! `include/zacpi.h` has what each field is.

use crate::c_devices::records::Register;

/// `struct zacpi_gpe_block`.
#[repr(C)]
#[derive(Clone, Copy, Debug, Default, PartialEq, Eq)]
pub struct GpeBlock {
    /// X_GPEn_BLK or GPEn_BLK: of the first register, in its space.
    pub address: u64,
    /// Space: as in `struct zacpi_generic_address`.
    pub space: u8,
    /// GPEn_BLK_LEN: first the status bits, in the second half the enable bits.
    pub byte_length: u8,
    /// Present: 0: none, also if GPEn_BLK_LEN is 0. 1: there is one. 2: its Address Space ID is reserved; Access Size
    /// isn't looked at.
    pub present: u8,
    /// Reserved: 0.
    pub reserved: [u8; 5],
}

/// `struct zacpi_fixed_hardware`.
#[repr(C)]
#[derive(Clone, Copy, Debug, Default, PartialEq, Eq)]
pub struct FixedHardware {
    /// FIRMWARE_CTRL. 0: none.
    pub facs_address: u64,
    /// DSDT. 0: none.
    pub dsdt_address: u64,
    /// PM1a_EVT_BLK.
    pub pm1a_event: Register,
    /// PM1b_EVT_BLK.
    pub pm1b_event: Register,
    /// PM1a_CNT_BLK.
    pub pm1a_control: Register,
    /// PM1b_CNT_BLK.
    pub pm1b_control: Register,
    /// PM2_CNT_BLK.
    pub pm2_control: Register,
    /// PM_TMR_BLK (section 4.8.3.3). None if PM_TMR_LEN isn't 4.
    pub pm_timer: Register,
    /// GPE0_BLK.
    pub gpe0: Register,
    /// GPE1_BLK.
    pub gpe1: Register,
    /// RESET_REG: counts only with ZACPI_FADT_RESET_REG_SUP.
    pub reset: Register,
    /// Sleep control: of reduced hardware.
    pub sleep_control: Register,
    /// Sleep status: of reduced hardware.
    pub sleep_status: Register,
    /// GPE0_BLK, of any length.
    pub gpe0_block: GpeBlock,
    /// GPE1_BLK, of any length.
    pub gpe1_block: GpeBlock,
    /// SMI_CMD: the port that acpi_enable to c_state_control are written to. 0: no system management mode.
    pub smi_command: u32,
    /// Flags: of `enum zacpi_fadt_flag`.
    pub flags: u32,
    /// SCI_INT: of the 8259, or else a global system interrupt.
    pub sci_interrupt: u16,
    /// IAPC_BOOT_ARCH.
    pub x86_boot_flags: u16,
    /// ARM_BOOT_ARCH.
    pub arm_boot_flags: u16,
    /// P_LVL2_LAT.
    pub c2_latency: u16,
    /// P_LVL3_LAT.
    pub c3_latency: u16,
    /// Flush size: strides to read to write back all caches.
    pub flush_size: u16,
    /// Flush stride: their width in bytes.
    pub flush_stride: u16,
    /// Preferred_PM_Profile: 0 to 8, others are reserved.
    pub power_profile: u8,
    /// ACPI_ENABLE: the value that, written to the port, begins ACPI.
    pub acpi_enable: u8,
    /// ACPI_DISABLE: the value that, written to the port, ends ACPI.
    pub acpi_disable: u8,
    /// S4BIOS_REQ: the value that, written to the port, requests S4BIOS.
    pub s4bios_request: u8,
    /// PSTATE_CNT. 0: none.
    pub pstate_control: u8,
    /// CST_CNT.
    pub c_state_control: u8,
    /// GPE1_BASE: the number of the first event of GPE1.
    pub gpe1_base: u8,
    /// DUTY_OFFSET.
    pub duty_offset: u8,
    /// DUTY_WIDTH.
    pub duty_width: u8,
    /// DAY_ALRM: the register of the clock.
    pub day_alarm: u8,
    /// MON_ALRM: the register of the clock.
    pub month_alarm: u8,
    /// CENTURY: the register of the clock.
    pub century: u8,
    /// RESET_VALUE: what to write to the reset register.
    pub reset_value: u8,
    /// Revision.
    pub revision: u8,
    /// FADT Minor Version: errata in bits 4 to 7.
    pub minor_revision: u8,
    /// Reserved: 0.
    pub reserved: [u8; 3],
    /// Hypervisor Vendor Identity; 0 below revision 6.
    pub hypervisor_id: u64,
}

/// `struct zacpi_console`.
#[repr(C)]
#[derive(Clone, Copy, Debug, Default, PartialEq, Eq)]
pub struct Console {
    /// Base Address. None if all its twelve bytes are 0.
    pub base: Register,
    /// Precise Baud Rate, or if that is 0 what Configured Baud Rate means: 3 9600, 4 19200, 6 57600, 7 115200; 0 unless
    /// it is there. In bits per second.
    pub baud_rate: u32,
    /// Global system interrupt: 0 unless it is there.
    pub global_system_interrupt: u32,
    /// UART Clock Frequency, in Hz. 0: unspecified, or the table is below revision 3.
    pub clock_frequency: u32,
    /// PCI flags: bit 0: neither switch the device off nor look for its like.
    pub pci_flags: u32,
    /// PCI Device ID. 0xffff: no PCI device.
    pub pci_device_id: u16,
    /// PCI Vendor ID. 0xffff: no PCI device.
    pub pci_vendor_id: u16,
    /// Interface type: of `enum zacpi_console_type`.
    pub interface_type: u8,
    /// IRQ: on the 8259s; 0 unless it is there.
    pub irq: u8,
    /// Has IRQ: bit 0 of Interrupt Type is set.
    pub has_irq: u8,
    /// Has global system interrupt: one of bits 1 to 4 of Interrupt Type is set.
    pub has_global_system_interrupt: u8,
    /// Whether the baud rate is there.
    pub has_baud_rate: u8,
    /// Parity. 0: none.
    pub parity: u8,
    /// Stop bits. 1: one.
    pub stop_bits: u8,
    /// PCI Segment.
    pub pci_segment: u8,
    /// PCI Bus Number.
    pub pci_bus: u8,
    /// PCI Device Number.
    pub pci_device: u8,
    /// PCI Function Number.
    pub pci_function: u8,
    /// Reserved: 0.
    pub reserved: u8,
}

/// `struct zacpi_ecam_range`.
#[repr(C)]
#[derive(Clone, Copy, Debug, Default, PartialEq, Eq)]
#[non_exhaustive]
pub struct EcamRange {
    /// The physical address.
    pub address: u64,
    /// The number of bytes.
    pub length: u64,
    /// PCI segment group.
    pub segment_group: u16,
    /// Present: 0: the last bus is below the first, or the range ends at 2^64 or above.
    pub present: u8,
    /// Reserved: 0.
    pub reserved: [u8; 5],
}
