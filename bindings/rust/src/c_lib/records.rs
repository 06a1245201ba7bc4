// Made by scripts/erase of crates/acpi_c_lib/src/records.rt, where it is proved.
//! Made by scripts/records: what C sees of memory and tables.
//! `include/zacpi.h` has what each field is.

use crate::c_lib::regions::Region;

/// `struct zacpi_range`.
#[repr(C)]
#[derive(Clone, Copy, Debug, Default, PartialEq, Eq)]
pub struct Range {
    /// The physical address.
    pub address: u64,
    /// The number of bytes.
    pub length: u64,
}

/// `struct zacpi_source`.
#[repr(C)]
#[derive(Clone, Copy, Debug, Default, PartialEq, Eq)]
pub struct Source<'a> {
    /// The regions of memory, which may not overlap.
    pub regions: &'a [Region<'a>],
    /// Address: where to start; a search doesn't look at it.
    pub address: u64,
    /// Start: one of `enum zacpi_start`.
    pub start: u32,
    /// Accept: 0, or bits of `enum zacpi_accept`: an RSDP, a root table, a listed table or a DSDT with no other error
    /// is valid.
    pub accept: u32,
}

/// `struct zacpi_place`.
#[repr(C)]
#[derive(Clone, Copy, Debug, Default, PartialEq, Eq)]
#[non_exhaustive]
pub struct Place {
    /// Which region it is in, from 0 on.
    pub region: usize,
    /// The offset of the byte in the region.
    pub offset: usize,
}

/// `struct zacpi_signature`.
#[repr(C)]
#[derive(Clone, Copy, Debug, Default, PartialEq, Eq)]
pub struct Signature {
    /// Letters: such as "APIC", without a zero after it.
    pub letters: [u8; 4],
}

/// `struct zacpi_root`.
#[repr(C)]
#[derive(Clone, Copy, Debug, Default, PartialEq, Eq)]
#[non_exhaustive]
pub struct Root {
    /// The physical address.
    pub address: u64,
    /// The number of bytes.
    pub length: u32,
    /// Revision: of the RSDP; 0 if opened at an RSDT, 2 if at an XSDT.
    pub revision: u8,
    /// Pointer width: 4 for an RSDT, 8 for an XSDT.
    pub pointer_width: u8,
    /// Reserved 1: 0.
    pub reserved_1: [u8; 2],
    /// RSDP address: 0 if opened at a root table, and so is the length.
    pub rsdp_address: u64,
    /// Length; at revision 0, which lacks it, 20, though 36 bytes have to be mapped there too.
    pub rsdp_length: u32,
    /// Reserved 2: 0.
    pub reserved_2: [u8; 4],
}

/// `struct zacpi_rsdp`.
#[repr(C)]
#[derive(Clone, Copy, Debug, Default, PartialEq, Eq)]
#[non_exhaustive]
pub struct Rsdp {
    /// The physical address.
    pub address: u64,
    /// Xsdt address: 0 at revision 0, which lacks it.
    pub xsdt_address: u64,
    /// RsdtAddress.
    pub rsdt_address: u32,
    /// Length: as rsdp_length of `struct zacpi_root`.
    pub length: u32,
    /// Revision.
    pub revision: u8,
    /// OEMID.
    pub oem_id: [u8; 6],
    /// Reserved: 0.
    pub reserved: u8,
}

/// `struct zacpi_table`.
#[repr(C)]
#[derive(Clone, Copy, Debug, Default, PartialEq, Eq)]
#[non_exhaustive]
pub struct Table {
    /// The physical address.
    pub address: u64,
    /// The number of bytes.
    pub length: u32,
    /// Signature.
    pub signature: Signature,
    /// Revision.
    pub revision: u8,
    /// OEMID.
    pub oem_id: [u8; 6],
    /// OEM Table ID.
    pub oem_table_id: [u8; 8],
    /// Reserved 1: 0.
    pub reserved_1: u8,
    /// OEM Revision.
    pub oem_revision: u32,
    /// Creator ID: of the program that wrote the table.
    pub creator_id: [u8; 4],
    /// Creator Revision: of the program that wrote the table.
    pub creator_revision: u32,
    /// Reserved 2: 0.
    pub reserved_2: [u8; 4],
}

/// `struct zacpi_member`.
#[repr(C)]
#[derive(Clone, Copy, Debug, Default, PartialEq, Eq)]
#[non_exhaustive]
pub struct Member {
    /// Table: zeros but for the address unless has_header.
    pub table: Table,
    /// Status: 0, or, if zacpi_list_tables skips it, its first error in zacpi_open's order that `accept` doesn't take.
    pub status: u32,
    /// Has header: 0: the 36 bytes of a header aren't mapped there.
    pub has_header: u8,
    /// Reserved: 0.
    pub reserved: [u8; 3],
}

/// `struct zacpi_fault`.
#[repr(C)]
#[derive(Clone, Copy, Debug, Default, PartialEq, Eq)]
#[non_exhaustive]
pub struct Fault {
    /// The physical address.
    pub address: u64,
    /// Status: why it isn't valid: ZACPI_MAP_FAILED or a ZACPI_SDT_ error other than ZACPI_SDT_INVALID_SIGNATURE. Of
    /// several, the first in zacpi_open's order that `accept` doesn't take, or, if it takes all, the first.
    pub status: u32,
    /// Accepted: 1: it isn't skipped, thanks to `accept` of the source.
    pub accepted: u8,
    /// Reserved: 0.
    pub reserved: [u8; 3],
}

/// `struct zacpi_walk`.
#[repr(C)]
#[derive(Clone, Copy, Debug, Default, PartialEq, Eq)]
pub struct Walk {
    /// First: the first entry's offset in the table.
    pub first: u32,
    /// The offset of Type in an entry.
    pub type_offset: u8,
    /// The width of Type, in bytes: 1, 2 or 4.
    pub type_width: u8,
    /// The offset of Length in an entry.
    pub length_offset: u8,
    /// The width of Length, in bytes: 1, 2 or 4.
    pub length_width: u8,
}

/// `struct zacpi_entry`.
#[repr(C)]
#[derive(Clone, Copy, Debug, Default, PartialEq, Eq)]
#[non_exhaustive]
pub struct Entry {
    /// The physical address.
    pub address: u64,
    /// Type of the entry.
    pub entry_type: u32,
    /// Length: including Type and Length.
    pub length: u32,
}

/// `struct zacpi_aml_table`.
#[repr(C)]
#[derive(Clone, Copy, Debug, Default, PartialEq, Eq)]
#[non_exhaustive]
pub struct AmlTable {
    /// Address: of the byte after the table's header.
    pub address: u64,
    /// Length less 36.
    pub length: u32,
    /// Revision: of a DSDT: below 2 integers have 32 bits, else 64.
    pub revision: u8,
    /// Reserved: 0.
    pub reserved: [u8; 3],
    /// The physical address of the table.
    pub table_address: u64,
}

/// `struct zacpi_facs`.
#[repr(C)]
#[derive(Clone, Copy, Debug, Default, PartialEq, Eq)]
#[non_exhaustive]
pub struct Facs {
    /// The physical address.
    pub address: u64,
    /// X_Firmware_Waking_Vector.
    pub waking_vector_64: u64,
    /// The number of bytes.
    pub length: u32,
    /// Hardware Signature.
    pub hardware_signature: u32,
    /// Firmware_Waking_Vector.
    pub waking_vector: u32,
    /// Flags: bit 0 S4BIOS_F, 1 64BIT_WAKE_SUPPORTED_F.
    pub flags: u32,
    /// Version.
    pub version: u8,
    /// Reserved: 0.
    pub reserved: [u8; 7],
}
