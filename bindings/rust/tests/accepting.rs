//! What a policy gives up of RSDPs, and that it gives up no check that is a type's own.
mod common;
use common::{Memory, ROOT};
use zacpi::handler::{MappedRegion, MappedRegions};
use zacpi::root::{RootKind, RootPointer};
use zacpi::rsdp::{Rsdp, map_accepted_rsdp, read_accepted};
use zacpi::sdt::{SdtHeader, Signature};
use zacpi::{Accept, AcpiError, AcpiResult, AcpiTable, AcpiTables, AddressRange, PhysicalRecord};

const RSDT: u64 = ROOT + 0x80;
const XSDT: u64 = ROOT + 0x100;
const TABLE: u64 = ROOT + 0x200;
/// In the BIOS area.
const RSDP: u64 = 0xf0000;

/// An RSDP (section 5.2.5.3) with other bytes at some offsets: OEMID is at 9, Revision at 15, Length at 20. It sums to
/// 0, except where the byte is that of a sum, Checksum at 8 or Extended Checksum at 32: then by as much as it is.
fn rsdp(others: &[(usize, u8)]) -> Vec<u8> {
    let mut bytes = b"RSD PTR \0OEMID \x02".to_vec();
    bytes.extend_from_slice(&(RSDT as u32).to_le_bytes());
    bytes.extend_from_slice(&36u32.to_le_bytes());
    bytes.extend_from_slice(&XSDT.to_le_bytes());
    bytes.resize(36, 0);
    others.iter().for_each(|&(at, value)| bytes[at] = value);
    for (at, length) in [(8, 20), (32, 36)] {
        let wrong = std::mem::take(&mut bytes[at]);
        bytes[at] = bytes[..length].iter().fold(wrong, |sum, byte| sum.wrapping_sub(*byte));
    }
    bytes
}

/// The root tables that an RSDP leads to by a policy, each as its address and the revision: from its address, and by
/// both searches.
fn opened(rsdp: &[u8], bits: u32) -> [AcpiResult<(u64, u8)>; 3] {
    let mut memory = Memory::new();
    memory.table(RSDT, "RSDT", 1, 36, &[]);
    memory.table(XSDT, "XSDT", 1, 36, &[]);
    let (second, mut bios) = (vec![0; 0x410], vec![0; 0x20010]);
    bios[0x10000..0x10024].copy_from_slice(rsdp);
    // The word at 0x40e is the segment of the second area.
    let given: [(u64, &[u8]); 4] =
        [(0x40e, &[0, 0x90]), (0x90000, &second), (0xe0000, &bios), (ROOT + 0x10, &memory.bytes[0x10..])];
    let regions = given.map(|(address, bytes)| MappedRegion::new(address, bytes).unwrap());
    let (handler, areas) = (MappedRegions::new(&regions).unwrap(), [AddressRange::new(RSDP - 0x100, 0x1000)]);
    let policy = Accept { bits };
    let root = |tables: AcpiTables<'_, MappedRegions<'_>, Accept>| (tables.root_address(), tables.revision());
    let found = [
        AcpiTables::from_rsdp_accepting(&handler, RSDP, policy).map(root),
        AcpiTables::search_in_accepting(&handler, &areas, policy).map(root),
        AcpiTables::search_for_rsdp_bios_accepting(&handler, policy).map(root),
    ];
    let mapped = [
        map_accepted_rsdp(&handler, RSDP, bits),
        Rsdp::search_in_accepting(&handler, &areas, bits),
        Rsdp::search_for_on_bios_accepting(&handler, bits),
    ];
    for (mapped, found) in mapped.iter().zip(&found) {
        let read = mapped.as_ref().map(|mapped| read_accepted(&handler, mapped, bits).root());
        assert_eq!(read.map(|root| (root.address, root.revision)).map_err(|error| *error), *found);
    }
    found
}

/// What all three return.
fn root(rsdp: &[u8], bits: u32) -> Option<(u64, u8)> {
    let found = opened(rsdp, bits);
    assert_eq!([found[1], found[2]], found[0].map_or([Err(AcpiError::NoValidRsdp); 2], |root| [Ok(root); 2]));
    found[0].ok()
}

/// What bits of a policy give up: bit 2 an OEMID of 0xff, bit 3 Revision 1, bit 4 a wrong sum of all 36 bytes and a
/// Length that is too small or isn't mapped. Of each there is the root table by these bits, and by all others.
#[test]
fn accepts_rsdps() {
    let (by_rsdt, by_xsdt) = (Some((RSDT, 0)), Some((XSDT, 2)));
    let cases = [
        (rsdp(&[]), 0, by_xsdt, by_xsdt),
        (rsdp(&[(9, 0xff)]), 4, by_xsdt, None),
        (rsdp(&[(9, 0xff), (32, 1)]), 4 | 16, by_rsdt, None),
        (rsdp(&[(15, 1), (20, 0)]), 8, by_rsdt, by_rsdt), // by bit 4
        (rsdp(&[(15, 1), (20, 0)]), 8 | 16, by_rsdt, None),
        (rsdp(&[(9, 0xff), (15, 1), (20, 0)]), 4 | 8, by_rsdt, None),
        (rsdp(&[(32, 1)]), 16, by_rsdt, None),
        (rsdp(&[(20, 35)]), 16, by_rsdt, None),
        (rsdp(&[(22, 0x10)]), 16, by_rsdt, None),
    ];
    for (bytes, bits, with, without) in &cases {
        assert_eq!([root(bytes, *bits), root(bytes, 31 & !bits)], [*with, *without]);
    }
    let errors = cases.map(|(bytes, ..)| opened(&bytes, 3)[0].err());
    let (sum, id) = (Some(AcpiError::RsdpInvalidChecksum), Some(AcpiError::RsdpInvalidOemId));
    assert_eq!(errors, [None, id, id, sum, sum, id, sum, sum, Some(AcpiError::MapFailed)]);
    // No policy accepts a wrong sum of the first 20 bytes.
    assert_eq!(opened(&rsdp(&[(8, 1)]), 31)[0], Err(AcpiError::RsdpInvalidChecksum));
    // By bit 3 one of Revision 1 that passes all checks leads to the RSDT.
    assert_eq!([0, 4 | 16, 8].map(|bits| root(&rsdp(&[(15, 1)]), bits)), [Some((XSDT, 1)), Some((XSDT, 1)), by_rsdt]);
}

/// A kernel's own type, whose byte 36 has to be 1.
struct Numbered(SdtHeader);

impl PhysicalRecord for Numbered {
    const MIN_LENGTH: usize = 37;
    fn read(bytes: &[u8]) -> Self {
        Numbered(SdtHeader::read(bytes))
    }
}

impl AcpiTable for Numbered {
    const SIGNATURE: Signature = Signature::UEFI;
    fn header(&self) -> &SdtHeader {
        &self.0
    }
    fn validate(&self, bytes: &[u8]) -> AcpiResult<()> {
        self.0.validate(Self::SIGNATURE, bytes)
    }
    fn check_own(bytes: &[u8]) -> AcpiResult<()> {
        if bytes.get(36) == Some(&1) { Ok(()) } else { Err(AcpiError::InvalidGenericAddress) }
    }
}

/// One that has no check of its own, and doesn't name it.
struct Plain(SdtHeader);

impl PhysicalRecord for Plain {
    const MIN_LENGTH: usize = 36;
    fn read(bytes: &[u8]) -> Self {
        Plain(SdtHeader::read(bytes))
    }
}

impl AcpiTable for Plain {
    const SIGNATURE: Signature = Signature::UEFI;
    fn header(&self) -> &SdtHeader {
        &self.0
    }
    fn validate(&self, bytes: &[u8]) -> AcpiResult<()> {
        self.0.validate(Self::SIGNATURE, bytes)
    }
}

/// Two tables, of which by some bits none, the first or the second is found.
#[test]
fn gives_up_no_own_check() {
    let second = TABLE + 0x100;
    let found = |first: &[(usize, usize, u64)], bits: u32| {
        let mut memory = Memory::rsdt(&[TABLE, second]);
        memory.table(TABLE, "UEFI", 1, 40, &[(36, 1, 1)]);
        memory.put(TABLE, first);
        memory.table(second, "UEFI", 1, 40, &[(36, 1, 1)]);
        let handler = memory.handler();
        let root = RootPointer { revision: 0, kind: RootKind::Rsdt, address: ROOT };
        let tables = AcpiTables::open_accepting(&handler, root, Accept { bits }).ok().unwrap();
        let numbered = tables.find_table::<Numbered>().ok().map(|table| table.physical_start());
        (numbered, tables.find_table::<Plain>().ok().map(|table| table.physical_start()))
    };
    // A wrong sum, its own check passed and failed; that check failed alone; and an id, with its own check failed.
    let (first, other) = (Some(TABLE), Some(second));
    assert_eq!([0, 1, 2].map(|bits| found(&[(39, 1, 1)], bits)), [(other, other), (first, first), (other, other)]);
    assert_eq!([0, 1, 3].map(|bits| found(&[(36, 1, 2)], bits)), [(other, other), (other, first), (other, first)]);
    assert_eq!([0, 3].map(|bits| found(&[(36, 2, 0xff02)], bits)), [(other, first); 2]);
    assert_eq!([0, 1, 2].map(|bits| found(&[(10, 1, 0xff), (36, 1, 2)], bits)), [(other, other); 3]);
    assert_eq!(found(&[(10, 1, 0xff), (36, 1, 2)], 3), (other, first));
}
