//! A machine of a DSDT, a FACS and a table of each kind, laid out from 0x1000 on and read there (ACPI 6.4, sections
//! 5.2.5.3, 5.2.8, 5.2.9, 5.2.10, 5.2.16 and 5.2.17).
use super::tables::{AML, DSDT_BYTES, FACS, FACS_BYTES, IDS, TABLES, WRITTEN};
use zacpi::handler::MappedRegion;
use zacpi::numa::{Distances, Domains, Slit, Srat};
use zacpi::write::{Machine, facs_address, tables_size, write_tables, write_tables_without_rsdp};
use zacpi::{AcpiTables, AddressRange, HpetInfo};

static MACHINE: Machine<'static> = Machine { ids: IDS, dsdt: Some(AML), facs: Some(FACS), tables: &TABLES };

/// The RSDP at 0x1000, of an XSDT at 0x1030.
#[rustfmt::skip]
const RSDP_BYTES: [u8; 36] = [
    b'R', b'S', b'D', b' ', b'P', b'T', b'R', b' ', 0x37, // Signature, Checksum
    b'G', b'U', b'E', b'S', b'T', b' ', 2, // OEMID, Revision
    0, 0, 0, 0, 36, 0, 0, 0, // RsdtAddress, Length
    0x30, 0x10, 0, 0, 0, 0, 0, 0, 0x9c, 0, 0, 0, // XsdtAddress, Extended Checksum, Reserved
];

/// The XSDT at 0x1030: after it, at 0x10b0, the DSDT, at 0x1100 the FACS, and from 0x1160 on the tables.
#[rustfmt::skip]
const XSDT_BYTES: [u8; 124] = [
    b'X', b'S', b'D', b'T', 124, 0, 0, 0, 1, 0xdb, // Signature, Length, Revision, Checksum
    b'G', b'U', b'E', b'S', b'T', b' ', // OEMID
    b'M', b'A', b'C', b'H', b'I', b'N', b'E', b' ', // OEM Table ID
    4, 3, 2, 1, b'Z', b'U', b'G', b'Z', 8, 7, 6, 5, // OEM Revision, Creator ID, Creator Revision
    0x60, 0x11, 0, 0, 0, 0, 0, 0, 0x80, 0x12, 0, 0, 0, 0, 0, 0, // Entry: FADT, MADT
    0xd0, 0x12, 0, 0, 0, 0, 0, 0, 0x70, 0x13, 0, 0, 0, 0, 0, 0, // the GIC's MADT, MCFG
    0xb0, 0x13, 0, 0, 0, 0, 0, 0, 0xf0, 0x13, 0, 0, 0, 0, 0, 0, // HPET, SLIT
    0x20, 0x14, 0, 0, 0, 0, 0, 0, 0x50, 0x14, 0, 0, 0, 0, 0, 0, // SSDT, SRAT
    0xb0, 0x14, 0, 0, 0, 0, 0, 0, 0x20, 0x15, 0, 0, 0, 0, 0, 0, // SPCR, BGRT
    0x60, 0x15, 0, 0, 0, 0, 0, 0, // GTDT
];

/// What comes before the tables: a name, an offset, and bytes.
static FIRST: [(&str, usize, &[u8]); 4] =
    [("RSDP", 0, &RSDP_BYTES), ("XSDT", 0x30, &XSDT_BYTES), ("DSDT", 0xb0, &DSDT_BYTES), ("FACS", 0x100, &FACS_BYTES)];

/// Each table's bytes are at its offset, and after them zeros up to the next multiple of 16.
#[test]
fn each_table_stands_at_its_place() {
    let mut out = [7; 1632];
    assert_eq!(write_tables(&mut out, 0x1000, &MACHINE), Ok(1616));
    assert_eq!(tables_size(&MACHINE), Ok(1616));
    for (name, place, bytes) in FIRST.iter().chain(&WRITTEN) {
        let mut wanted = bytes.to_vec();
        wanted.resize(bytes.len().next_multiple_of(16), 0);
        assert_eq!(out[*place..][..wanted.len()], wanted, "{name}");
    }
    assert_eq!(out[1616..], [7; 16]);
    let mut without_rsdp = [7; 1568];
    assert_eq!(write_tables_without_rsdp(&mut without_rsdp, 0x1030, &MACHINE), Ok(1568));
    assert_eq!(without_rsdp, out[48..1616]);
}

#[test]
fn a_reader_finds_what_was_passed() {
    let mut out = [7; 1616];
    assert_eq!(write_tables(&mut out, 0x1000, &MACHINE), Ok(1616));
    let region = MappedRegion::new(0x1000, &out).unwrap();
    let tables = AcpiTables::from_rsdp(&region, 0x1000).unwrap();
    assert_eq!(tables.dsdt().map(|aml| aml.address), Ok(0x10d4));
    assert_eq!(tables.facs(), Ok(AddressRange { address: 0x1100, length: 64 }));
    assert_eq!(HpetInfo::new(&tables).map(|timers| timers.hpet_number), Ok(2));
    let srat = tables.find_table::<Srat>().unwrap();
    let domains = Domains::over(srat.bytes());
    assert_eq!([254, 255].map(|id| domains.domain_of_apic(id)), [Some(0x01020304), Some(5)]);
    let slit = tables.find_table::<Slit>().unwrap();
    assert_eq!(Distances::over(slit.bytes()).distance(0, 1), Some(21));
}

/// An RSDP's address, and that of the FACS of three tables: the first multiple of 64 from 0xa0 bytes after it on.
#[test]
fn the_address_of_the_facs_is_known_before() {
    #[rustfmt::skip]
    let places = [
        (0x1000, Some(0x10c0)), (0x1010, Some(0x10c0)), (0x1020, Some(0x10c0)), (0x1030, Some(0x1100)),
        (0xffff_ffff_ffff_ff30, None), (0xffff_ffff_ffff_ff20, Some(0xffff_ffff_ffff_ffc0)),
    ];
    for (address, wanted) in places {
        assert_eq!(facs_address(address, 3, Some(AML)), wanted, "{address:#x}");
    }
}

/// Addresses of the RSDP, and the FACS's offset after the first 0xe0 bytes of the machine.
#[test]
fn the_facs_stands_between_zeros() {
    for (address, offset) in [(0x1000, 0x20), (0x1010, 0x10), (0x1020, 0), (0x1030, 0x30)] {
        let mut out = [7; 1616];
        assert_eq!(write_tables(&mut out, address, &MACHINE), Ok(1616));
        let mut wanted = [0; 128];
        wanted[offset..][..64].copy_from_slice(&FACS_BYTES);
        assert_eq!(out[0xe0..0x160], wanted, "{address:#x}");
    }
}
