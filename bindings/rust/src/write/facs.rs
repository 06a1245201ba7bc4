// Made by scripts/erase of crates/acpi_writer/src/facs.rt, where it is proved.
//! The Firmware ACPI Control Structure (FACS, section 5.2.10).

use crate::table_writer::error::WriterError;
use crate::table_writer::numbers::{bit_of, dword, qword};
use crate::write::rsdp::write_front;

/// The contents of a FACS (section 5.2.10).
#[derive(Clone, Copy, Debug)]
pub struct FacsContents {
    /// Hardware Signature: a number that changes if the hardware does.
    pub hardware_signature: u32,
    /// Firmware Waking Vector: the address at which the system goes on after a sleep, which it sets itself.
    pub waking_vector: u32,
    /// X_Firmware_Waking_Vector: such an address of 64 bits.
    pub x_waking_vector: u64,
    /// S4BIOS_F, bit 0 of Flags: whether the firmware can put the machine into S4.
    pub supports_s4bios: bool,
    /// 64BIT_WAKE_SUPPORTED_F, bit 1 of Flags: whether the firmware can wake the system in 64-bit mode.
    pub supports_64_bit_wake: bool,
}

/// A FACS of version 2.
pub(crate) fn facs_bytes(contents: &FacsContents) -> [u8; 64] {
    let [a, b, c, d] = dword(contents.hardware_signature);
    let [e, f, g, h] = dword(contents.waking_vector);
    let [i, j, k, l, m, n, o, p] = qword(contents.x_waking_vector);
    let flags = bit_of(contents.supports_s4bios) + 2 * bit_of(contents.supports_64_bit_wake);
    [
        b'F', b'A', b'C', b'S', 64, 0, 0, 0, a, b, c, d, e, f, g, h, 0, 0, 0, 0, flags, 0, 0, 0, i, j, k, l, m, n, o,
        p, 2, 0, 0, 0, 0, 0, 0, 0, 0, 0, 0, 0, 0, 0, 0, 0, 0, 0, 0, 0, 0, 0, 0, 0, 0, 0, 0, 0, 0, 0, 0, 0,
    ]
}

/// Writes a FACS of version 2 to the front of a slice, and returns how many bytes it has, 64. Its Global Lock and its
/// OSPM Flags are 0. It has no checksum, and no header by which its makers are known.
///
/// Returns `NoRoom` if the slice is shorter than the FACS.
pub fn write_facs(out: &mut [u8], contents: &FacsContents) -> Result<usize, WriterError> {
    write_front(out, &facs_bytes(contents))
}
