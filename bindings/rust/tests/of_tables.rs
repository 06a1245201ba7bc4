//! Tables that no root table lists: files, and those that the caller has chosen.
use zacpi::base::bytes::byte_sum;
use zacpi::lists::facs;
use zacpi::lists::members::members;
use zacpi::lists::records::{Member, Source, Table};
use zacpi::lists::refusal::Refusal;
use zacpi::lists::regions::Region;
use zacpi::lists::tables::tables;
use zacpi::madt::{Madt, MadtEntry};
use zacpi::sdt::Signature;
use zacpi::{AcpiError, AcpiTables, SourceMemory, of_tables};

/// ZACPI_MAP_FAILED of include/zacpi.h.
const MAP_FAILED: u32 = 10;
const NO_ROOM: Refusal = Refusal::Acpi(AcpiError::AllocError);

/// A table (section 5.2.6) of zeros but for Signature at 0, Length at 4, Revision at 8, Checksum at 9 and these bytes.
fn table(signature: &str, revision: u8, length: usize, fields: &[(usize, u8)]) -> Vec<u8> {
    let mut bytes = vec![0; length];
    bytes[..4].copy_from_slice(signature.as_bytes());
    (bytes[4], bytes[8]) = (length as u8, revision);
    fields.iter().for_each(|(at, byte)| bytes[*at] = *byte);
    bytes[9] = 0u8.wrapping_sub(byte_sum(&bytes));
    bytes
}

/// A MADT of one Processor Local APIC (section 5.2.12.2): type 0, 8 bytes, ACPI Processor UID, APIC ID, enabled.
fn madt(id: u8) -> Vec<u8> {
    table("APIC", 4, 52, &[(45, 8), (46, 1), (47, id), (48, 1)])
}

/// What the tables are, in the order of the root table, and the regions then: the address of each, and its length.
type Found = (Vec<(Signature, u64)>, Vec<(u64, usize)>);

/// Tables in a source's memory.
struct Opened<'k> {
    source: Source<'k>,
    tables: AcpiTables<'k, SourceMemory<'k>>,
}

impl Opened<'_> {
    fn found(&self) -> Found {
        let regions = self.source.regions.iter().map(|region| (region.address, region.bytes.len()));
        let mut listed = [Table::default(); 8];
        let count = tables(&self.source, &mut listed).unwrap();
        let listed =
            listed[..count].iter().map(|table| (Signature::from_bytes(table.signature.letters), table.address));
        (listed.collect(), regions.collect())
    }

    fn root_length(&self) -> usize {
        let root = self.source.regions.iter().find(|region| region.address == self.source.address);
        root.unwrap().bytes.len()
    }

    fn id(&self) -> u8 {
        match self.tables.find_table::<Madt>().unwrap().entries().next() {
            Some(MadtEntry::LocalApic(entry)) => entry.apic_id,
            _ => panic!("no local APIC"),
        }
    }
}

fn opened<T>(source: Source<'_>, ask: impl FnOnce(Opened<'_>) -> T) -> T {
    let memory = source.memory().unwrap();
    let tables = AcpiTables::from_rsdt(&memory, 2, source.address).unwrap();
    ask(Opened { source, tables })
}

/// Those of these tables, of an address and bytes each, with as much capacity as they take.
fn of<T>(given: &[(u64, &[u8])], ask: impl FnOnce(Opened<'_>) -> T) -> Result<T, Refusal> {
    let mut xsdt = [0; 36 + 8 * 8];
    let mut regions: Vec<_> = given.iter().map(|&(address, bytes)| Region { address, bytes }).collect();
    regions.push(Region::default());
    of_tables(&mut regions, given.len(), &mut xsdt).map(|source| opened(source, ask))
}

/// Two files. What isn't a pointer sums to 0x647: "XSDT" 0x143, Length 0x34, Revision 1, "ZACPI " 0x197, "TABLES  "
/// 0x1fb, OEM Revision 1, "ZFIR" 0x13b, Creator Revision 1; with the pointers' 0x10 and 0x20 it is 0x677, and Checksum
/// 0x89.
#[test]
fn lists_files() {
    let (first, second) = (madt(7), table("SSDT", 2, 36, &[]));
    let mut xsdt = [0xa5; 53];
    let region = |address, bytes| Region { address, bytes };
    let mut regions = [region(0, &first[..]), region(0, &second), Region::default(), region(1, &first)];
    let source = of_tables(&mut regions, 2, &mut xsdt).unwrap();
    let listed = vec![(Signature::MADT, 0x1000), (Signature::SSDT, 0x2000)];
    opened(source, |tables| {
        assert_eq!(tables.found(), (listed, vec![(0x1000, 52), (0x2000, 36), (0x3000, 52)]));
        assert_eq!((tables.source.address, tables.source.start, tables.id()), (0x3000, 2, 7));
    });
    let root = source.regions[2].bytes;
    assert_eq!(&root[..24], b"XSDT\x34\0\0\0\x01\x89ZACPI TABLES  ");
    assert_eq!(&root[24..], b"\x01\0\0\0ZFIR\x01\0\0\0\0\x10\0\0\0\0\0\0\0\x20\0\0\0\0\0\0");
    assert_eq!((byte_sum(root), regions[3].address, xsdt[52]), (0, 1, 0xa5));
}

/// Of three MADTs, where they are in memory, the caller's first is read.
#[test]
fn chooses_a_madt() {
    let (madts, places) = ([madt(1), madt(2), madt(3)], [0x9000, 0x5000, 0x7000]);
    for chosen in 0..3 {
        let given = [0, 1, 2].map(|n| (places[(chosen + n) % 3], &madts[(chosen + n) % 3][..]));
        let (listed, regions, id, entries) = of(&given, |tables| {
            let (listed, regions) = tables.found();
            (listed, regions, tables.id(), tables.tables.find_table::<Madt>().unwrap().entries().count())
        })
        .unwrap();
        assert_eq!((listed[0].1, listed[2].1, id, entries), (given[0].0, given[2].0, chosen as u8 + 1, 1));
        assert_eq!(regions, [(0x1000, 60), (0x5000, 52), (0x7000, 52), (0x9000, 52)]);
    }
}

#[test]
fn needs_capacity() {
    let processors = madt(7);
    let run = |given: u64, count: usize, capacity: usize, length: usize| {
        let mut xsdt = vec![0xa5; length];
        let mut regions = vec![Region { address: 0, bytes: &processors }; capacity];
        regions[0].address = given;
        let source = of_tables(&mut regions, count, &mut xsdt);
        source.map(|source| opened(source, |tables| (tables.root_length(), tables.source.regions.len())))
    };
    assert_eq!(run(0x5000, 2, 2, 52), Err(NO_ROOM));
    assert_eq!(run(0x5000, 2, 3, 51), Err(NO_ROOM));
    assert_eq!(run(0x5000, 2, 3, 52), Ok((52, 3)));
    assert_eq!(run(0x5000, usize::MAX, 3, 52), Err(NO_ROOM));
    assert_eq!(run(0x5000, 0, 1, 35), Err(NO_ROOM));
    assert_eq!(run(0x5000, 0, 1, 36), Ok((36, 1)));
    assert_eq!(run(u64::MAX, 1, 1, 0), Err(NO_ROOM));
    assert_eq!(run(u64::MAX, 1, 2, 0), Err(Refusal::RegionTooHigh));
}

/// Tables of 52 bytes share a byte up to 51 bytes from each other; a region ends at 2^64 - 1 at most.
#[test]
fn shares_no_byte() {
    let (first, second) = (madt(1), madt(2));
    let run = |one: u64, other: u64| of(&[(one, &first), (other, &second)], |tables| tables.found().1[1].0);
    assert_eq!(run(0x5000, 0x5033), Err(Refusal::RegionsNotAscending));
    assert_eq!(run(0x5033, 0x5000), Err(Refusal::RegionsNotAscending));
    assert_eq!(run(0x5000, 0x5000), Err(Refusal::RegionsNotAscending));
    assert_eq!(run(0x5034, 0x5000), Ok(0x5000));
    assert_eq!(run(0x5000, u64::MAX - 51), Err(Refusal::RegionTooHigh));
    assert_eq!(run(0x5000, u64::MAX - 52), Ok(0x5000));
    // One without bytes may be where the other begins, and not inside.
    let empty = |at: u64| of(&[(0x5000, &first), (at, &[])], |tables| tables.found().1[1]);
    assert_eq!((empty(0x5000), empty(0x5001)), (Ok((0x5000, 0)), Err(Refusal::RegionsNotAscending)));
}

/// A file comes to the first page at which it touches no table. So does the XSDT, of 60 bytes: from 0x2000 on it would
/// share bytes with the table at 0x2035. An empty file has a page of its own.
#[test]
fn places_files() {
    let (low, high, file, large) = (madt(1), madt(2), madt(3), [0; 0x1800]);
    let run = |given: &[(u64, &[u8])]| of(given, |tables| (tables.found().1, tables.source.address)).unwrap();
    let placed = |at: u64, other: u64| run(&[(0, &file), (at, &low), (other, &high)]);
    assert_eq!(placed(0x1fcb, 0x2035), (vec![(0x1000, 52), (0x1fcb, 52), (0x2035, 52), (0x3000, 60)], 0x3000));
    assert_eq!(placed(0x1034, 0x2035), (vec![(0x1034, 52), (0x2000, 52), (0x2035, 52), (0x3000, 60)], 0x3000));
    assert_eq!(placed(0xfcc, 0x2034), (vec![(0xfcc, 52), (0x2034, 52), (0x3000, 52), (0x4000, 60)], 0x4000));
    // A file of more than a page, before it has an address, is nowhere.
    let wide = run(&[(0x4000, &low), (0, &file), (0, &large)]);
    assert_eq!(wide.0, [(0x1000, 52), (0x2000, 0x1800), (0x4000, 52), (0x5000, 60)]);
    let wide = run(&[(0x1000, &low), (0, &file), (0, &large)]);
    assert_eq!(wide.0, [(0x1000, 52), (0x2000, 52), (0x3000, 0x1800), (0x5000, 60)]);
    let empty = of(&[(0, &[]), (0, &file), (0, b"DSD")], |tables| {
        let mut listed = [Member::default(); 3];
        assert_eq!(members(&tables.source, &mut listed), Ok(3));
        listed.map(|member| (member.table.address, member.status))
    });
    assert_eq!(empty.unwrap(), [(0x1000, MAP_FAILED), (0x2000, 0), (0x3000, MAP_FAILED)]);
}

/// A FADT (section 5.2.9): FIRMWARE_CTRL is at 36, DSDT at 40, X_FIRMWARE_CTRL at 132 and X_DSDT at 140.
#[test]
fn finds_by_the_fadt() {
    let (dsdt, mut facs, other) = (table("DSDT", 2, 37, &[]), vec![0; 64], table("OEM1", 1, 52, &[]));
    facs[..5].copy_from_slice(b"FACS\x40");
    // How long the root table is, and where the FACS and the DSDT are, if the calls find them.
    let run = |fadt: &[u8], dsdt_at: u64, other_at: u64| {
        let given = [(0, &facs[..]), (other_at, &other[..]), (dsdt_at, &dsdt[..]), (0, fadt)];
        let pick = |regions: &[(u64, usize)], length| regions.iter().find(|(_, all)| *all == length).unwrap().0;
        of(&given, |tables| {
            let regions = tables.found().1;
            let facs = facs::facs(&tables.source).ok().map(|_| pick(&regions, 64));
            (tables.root_length(), facs, tables.tables.dsdt().ok().map(|aml| aml.address - 36), pick(&regions, 37))
        })
        .unwrap()
    };
    let narrow = [(37, 0x70), (41, 0x60)];
    // Of X_DSDT seven bytes are there.
    let partial = [(37, 0x70), (41, 0x60), (141, 0x55)];
    let first = table("FACP", 1, 116, &narrow);
    assert_eq!(run(&first, 0, 0), (52, Some(0x7000), Some(0x6000), 0x6000));
    // The fields of 64 bits are read from revision 2 on, if they aren't 0.
    let wide = [(37, 0x70), (41, 0x60), (133, 0x90), (147, 0x40)];
    assert_eq!(run(&table("FACP", 3, 244, &wide), 0, 0), (52, Some(0x9000), Some(0x4000_0000_0000_0000), 0x40 << 56));
    assert_eq!(run(&table("FACP", 1, 244, &wide), 0, 0), (52, Some(0x7000), Some(0x6000), 0x6000));
    assert_eq!(run(&table("FACP", 3, 147, &partial), 0, 0), (52, Some(0x7000), Some(0x6000), 0x6000));
    // An address that another table has, that leaves too few bytes below 2^64, or that the FADT lacks, isn't taken.
    let taken = run(&first, 0, 0x6001);
    assert_eq!((taken.0, taken.1, taken.3), (52, Some(0x7000), 0x1000));
    let top: Vec<_> = (140..148).map(|at| (at, 0xff)).collect();
    assert_eq!(run(&table("FACP", 3, 244, &top), 0, 0), (52, None, None, 0x3000));
    assert_eq!(run(&table("FACP", 1, 116, &[]), 0, 0).3, 0x3000);
    // The caller's own addresses stay.
    assert_eq!(run(&first, 0x8000, 0).3, 0x8000);
    // FADTs of 115 bytes, of a Length of 115 and of a byte less than their Length point to nothing: the next one does.
    let mut short = table("FACP", 1, 116, &[(37, 0x90), (41, 0x80)]);
    let next = |short: &[u8]| {
        let given = [(0, short), (0, &dsdt[..]), (0, &first[..])];
        of(&given, |tables| tables.tables.dsdt().map(|aml| aml.address - 36))
    };
    assert_eq!(next(&short[..115]), Ok(Ok(0x6000)));
    short[4] = 115;
    assert_eq!(next(&short), Ok(Ok(0x6000)));
    assert_eq!(next(&table("FACP", 3, 244, &wide)[..243]), Ok(Ok(0x6000)));
}
