// Made by scripts/erase of crates/acpi_c_devices/src/records.rt, where it is proved.
//! Made by scripts/records: what C sees of registers and devices.
//! `include/zacpi.h` has what each field is.

/// `struct zacpi_generic_address`.
#[repr(C)]
#[derive(Clone, Copy, Debug, Default, PartialEq, Eq)]
pub struct GenericAddress {
    /// Address: in its space.
    pub address: u64,
    /// Space: of `enum zacpi_address_space`.
    pub space: u8,
    /// Register Bit Width.
    pub bit_width: u8,
    /// Register Bit Offset.
    pub bit_offset: u8,
    /// Access size: 0 unspecified, 1 one byte, 2 two, 3 four, 4 eight.
    pub access_size: u8,
    /// Reserved: 0.
    pub reserved: [u8; 4],
}

/// `struct zacpi_register`.
#[repr(C)]
#[derive(Clone, Copy, Debug, Default, PartialEq, Eq)]
pub struct Register {
    /// At: zeros unless it is present.
    pub at: GenericAddress,
    /// Present: 0: none. 1: it is `at`. 2: its address is an error.
    pub present: u8,
    /// Reserved: 0.
    pub reserved: [u8; 7],
}

/// `struct zacpi_pm_timer`.
#[repr(C)]
#[derive(Clone, Copy, Debug, Default, PartialEq, Eq)]
#[non_exhaustive]
pub struct PmTimer {
    /// X_PM_TMR_BLK or PM_TMR_BLK.
    pub base: GenericAddress,
    /// Present: 0: there is none, and all else is 0.
    pub present: u8,
    /// TMR_VAL_EXT: it counts in 32 bits, else in 24.
    pub is_32_bit: u8,
    /// Reserved: 0.
    pub reserved: [u8; 6],
}

/// `struct zacpi_hpet_info`.
#[repr(C)]
#[derive(Clone, Copy, Debug, Default, PartialEq, Eq)]
pub struct HpetInfo {
    /// The physical address of its registers.
    pub base_address: u64,
    /// Event Timer Block ID.
    pub event_timer_block_id: u32,
    /// Main Counter Minimum Clock_tick in Periodic Mode.
    pub clock_tick_unit: u16,
    /// HPET Number.
    pub number: u8,
    /// Page protection: bits 0 to 3: 0 nothing is promised, 1 the 4 KiB may be accessed, 2 the 64 KiB, 3 reserved (3 to
    /// 15).
    pub page_protection: u8,
}

/// `struct zacpi_boot_graphic`.
#[repr(C)]
#[derive(Clone, Copy, Debug, Default, PartialEq, Eq)]
pub struct BootGraphic {
    /// The physical address.
    pub address: u64,
    /// Image Offset X, in pixels.
    pub x: u32,
    /// Image Offset Y, in pixels.
    pub y: u32,
    /// Orientation Offset, bits 1 and 2 of Status: in degrees, clockwise, 0, 90, 180 or 270.
    pub orientation: u16,
    /// Displayed: bit 0 of Status: it is still on the screen.
    pub displayed: u8,
    /// Image type: 0: a bitmap. 1: another code, which is reserved.
    pub image_type: u8,
    /// Reserved: 0.
    pub reserved: [u8; 4],
}

/// `struct zacpi_pci_region`.
#[repr(C)]
#[derive(Clone, Copy, Debug, Default, PartialEq, Eq)]
pub struct PciRegion {
    /// Base address: where bus 0 of the segment group would be.
    pub base_address: u64,
    /// PCI segment group.
    pub segment_group: u16,
    /// Start Bus Number.
    pub first_bus: u8,
    /// End Bus Number.
    pub last_bus: u8,
    /// Reserved: 0.
    pub reserved: [u8; 4],
}
