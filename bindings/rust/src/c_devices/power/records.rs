// Made by scripts/erase of crates/acpi_c_devices/src/power/records.rt, where it is proved.
//! Made by scripts/records: what C sees of sleep types, and of what to write to sleep, to enable ACPI and to reset.
//! `include/zacpi.h` has what each field is.

use crate::c_devices::records::Register;

/// `struct zacpi_step`.
#[repr(C)]
#[derive(Clone, Copy, Debug, Default, PartialEq, Eq)]
#[non_exhaustive]
pub struct Step {
    /// At: present.
    pub at: Register,
    /// The bits that are looked at or set.
    pub mask: u32,
    /// What the bits are to be.
    pub value: u32,
    /// Width: of one access, in bits: 8 or 16.
    pub width: u8,
    /// Kind: of `enum zacpi_step_kind`.
    pub kind: u8,
    /// Reserved: 0.
    pub reserved: [u8; 6],
}

/// `struct zacpi_plan`.
#[repr(C)]
#[derive(Clone, Copy, Debug, Default, PartialEq, Eq)]
#[non_exhaustive]
pub struct Plan {
    /// Steps: zeros from `count` on.
    pub steps: [Step; 8],
    /// The number of steps.
    pub count: u32,
    /// Reserved: 0.
    pub reserved: [u8; 4],
}

/// `struct zacpi_sleep_types`.
#[repr(C)]
#[derive(Clone, Copy, Debug, Default, PartialEq, Eq)]
#[non_exhaustive]
pub struct SleepTypes {
    /// SLP_TYPa: the value for the first control register.
    pub a: u8,
    /// SLP_TYPb: the value for the second control register.
    pub b: u8,
}
