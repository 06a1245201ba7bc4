//! Opening, lookups, lists, bytes, entries and ranges.
mod common;
use common::{Memory, ROOT, TABLE, Tables, all, filled, plain, plains, with};
use zacpi::fadt::Fadt;
use zacpi::handler::{MappedRegion, MappedRegions};
use zacpi::lists::records::{Entry, Fault, Member, Range, Root, Source, Table, Walk};
use zacpi::lists::regions::{Region, locate};
use zacpi::lists::{copied, entries, facs, faults, members, opening, refusal::Refusal, rsdp, tables as lookups, walks};
use zacpi::root::{RootKind, RootPointer};
use zacpi::rsdp::{Rsdp, bios_areas, map_rsdp};
use zacpi::sdt::{SdtHeader, Signature, map_own_sdt, map_sdt, map_table};
use zacpi::{Accept, AcpiError, AcpiHandler, AcpiResult, AcpiTables, AddressRange, AmlTable, PhysicalMapping};
use zacpi::{PhysicalRecord, SdtTable, TableFault, facs_length};

const FADT: u64 = ROOT + 0x1000;
const DSDT: u64 = ROOT + 0x2000;
const SSDT: u64 = ROOT + 0x3000;
const OTHER_SSDT: u64 = ROOT + 0x4000;
const BAD_SSDT: u64 = ROOT + 0x5000;
const DMAR: u64 = ROOT + 0x6000;
const FACS: u64 = ROOT + 0x7000;

/// An RSDT with a FADT of 116 bytes that names a DSDT of 40 (DSDT at 40), an SSDT that sums to 1, SSDTs of 37 and 36
/// bytes, and a table of a type that has no view.
fn machine() -> Memory {
    let mut memory = Memory::rsdt(&[FADT, BAD_SSDT, SSDT, OTHER_SSDT, DMAR]);
    memory.table(FADT, "FACP", 1, 116, &[(40, 4, DSDT)]);
    memory.table(DSDT, "DSDT", 2, 40, &[(36, 4, 0x04030201)]);
    memory.table(SSDT, "SSDT", 2, 37, &[(36, 1, 0xa3)]);
    memory.table(OTHER_SSDT, "SSDT", 1, 36, &[]);
    memory.table(BAD_SSDT, "SSDT", 1, 36, &[]);
    memory.put(BAD_SSDT, &[(35, 1, 1)]);
    // Entries from 48 on, Type at 0 and Length at 2: 4 bytes of type 1, 6 of type 0x102, then 3 bytes that are none.
    let fields = [(48, 2, 1), (50, 2, 4), (52, 2, 0x102), (54, 2, 6), (56, 2, 0xbbaa), (58, 3, 0x00_0004)];
    memory.table(DMAR, "DMAR", 1, 61, &fields);
    memory
}

/// A type of the test's own.
#[derive(Debug)]
struct Ssdt(SdtHeader);

impl PhysicalRecord for Ssdt {
    const MIN_LENGTH: usize = 36;
    fn read(bytes: &[u8]) -> Self {
        Ssdt(SdtHeader::read(bytes))
    }
}

impl SdtTable for Ssdt {
    const NAME: Signature = Signature::SSDT;
    fn sdt_header(&self) -> &SdtHeader {
        &self.0
    }
}

fn bad_sum(signature: Signature) -> AcpiError {
    AcpiError::SdtInvalidChecksum(signature)
}

fn range(address: u64, length: u64) -> AddressRange {
    AddressRange::new(address, length)
}

/// A table as the calls of `lists` have it.
fn record(address: u64, signature: &[u8; 4], length: u32, revision: u8) -> Table {
    let (oem_id, oem_table_id) = (*b"OEMID ", *b"HANDMADE");
    zeros_but(|it: &mut Table| {
        (it.address, it.length, it.signature, it.revision) = (address, length, named(signature), revision);
        (it.oem_id, it.oem_table_id) = (oem_id, oem_table_id);
    })
}

/// A record of zeros, but for the fields that are set.
fn zeros_but<T: Default>(set: impl FnOnce(&mut T)) -> T {
    let mut made = T::default();
    set(&mut made);
    made
}

fn named(letters: &[u8; 4]) -> zacpi::lists::records::Signature {
    zacpi::lists::records::Signature { letters: *letters }
}

#[test]
fn finds_and_lists_tables() {
    let memory = machine();
    memory.ask(|tables| {
        let fadt = tables.find_table::<Fadt>().ok().unwrap();
        assert_eq!((fadt.physical_start(), fadt.region_length(), fadt.get().dsdt_address()), (FADT, 116, Ok(DSDT)));
        assert!(fadt.mapped_length() >= 116 && fadt.lent_bytes().len() >= 116 && fadt.bytes().len() == 116);
        let found = |signature| tables.find_sdt(signature).map(|table| (table.physical_start(), table.region_length()));
        assert_eq!((found(Signature::SSDT), found(Signature::DMAR)), (Ok((SSDT, 37)), Ok((DMAR, 61))));
        assert_eq!(found(Signature::HPET), Err(AcpiError::TableMissing(Signature::HPET)));
        let ssdts = tables.find_tables::<Ssdt>().map(|table| (table.physical_start(), table.get().0.revision));
        assert_eq!(ssdts.collect::<Vec<_>>(), [(SSDT, 2), (OTHER_SSDT, 1)]);
        assert_eq!(tables.find_table::<Ssdt>().map(|table| table.physical_start()), Ok(SSDT));
        let headers = tables.headers().map(|header| (header.signature.to_bytes(), header.length, header.revision));
        let expected = [(*b"FACP", 116, 1), (*b"SSDT", 37, 2), (*b"SSDT", 36, 1), (*b"DMAR", 61, 1)];
        assert_eq!(headers.collect::<Vec<_>>(), expected);
        assert_eq!(tables.addresses().collect::<Vec<_>>(), [FADT, BAD_SSDT, SSDT, OTHER_SSDT, DMAR]);
        let fault: TableFault = tables.faults::<Ssdt>().next().unwrap();
        assert_eq!((fault.address, fault.error), (BAD_SSDT, bad_sum(Signature::SSDT)));
        assert_eq!(tables.faults::<Ssdt>().collect::<Vec<_>>(), [fault]);
        let (mut elsewhere, mut otherwise) = (fault, fault);
        (elsewhere.address, otherwise.error) = (SSDT, AcpiError::MapFailed);
        assert!(fault != elsewhere && fault != otherwise);
        let members = tables.members().map(|it| (it.address, it.header.map(|header| header.length)));
        let bad = Err(bad_sum(Signature::SSDT));
        let expected = [(FADT, Ok(116)), (BAD_SSDT, bad), (SSDT, Ok(37)), (OTHER_SSDT, Ok(36)), (DMAR, Ok(61))];
        assert_eq!(members.collect::<Vec<_>>(), expected);
        let aml = |address, length| AmlTable { address, length };
        assert_eq!(tables.dsdt(), Ok(aml(DSDT + 36, 4)));
        assert_eq!(tables.ssdts().collect::<Vec<_>>(), [aml(SSDT + 36, 1), aml(OTHER_SSDT + 36, 0)]);
        assert_eq!(tables.facs(), Err(AcpiError::InvalidFacsAddress));
        // The root table, the listed tables in order, the DSDT.
        let lengths = [(ROOT, 56), (FADT, 116), (SSDT, 37), (OTHER_SSDT, 36), (DMAR, 61), (DSDT, 40)];
        assert_eq!(tables.ranges().collect::<Vec<_>>(), lengths.map(|(address, length)| range(address, length)));
        let at = |address, signature| tables.sdt_at(address, signature).map(|table| table.region_length());
        assert_eq!((at(DSDT, Signature::DSDT), tables.own_sdt_at(DSDT).map(|it| it.region_length())), (Ok(40), Ok(40)));
        assert_eq!(at(DSDT, Signature::SSDT), Err(AcpiError::SdtInvalidSignature(Signature::SSDT)));
        assert_eq!(tables.table_at::<Ssdt>(BAD_SSDT).err(), Some(bad_sum(Signature::SSDT)));
    });
    let handler = memory.handler();
    assert_eq!(map_table::<_, Ssdt>(&handler, SSDT).ok().unwrap().bytes()[36..], [0xa3]);
    assert_eq!(map_sdt(&handler, DSDT, Signature::DSDT).ok().unwrap().bytes()[36..], [1, 2, 3, 4]);
    assert_eq!(map_own_sdt(&handler, BAD_SSDT).err(), Some(bad_sum(Signature::SSDT)));
    let header = PhysicalMapping::<_, SdtHeader>::map(&handler, SSDT, 36).ok().unwrap();
    assert_eq!((header.oem_id(), header.oem_table_id()), (Some("OEMID "), Some("HANDMADE")));
    assert_eq!(header.validate(Signature::SSDT, &header.lent_bytes()[..37]), Ok(()));
    assert_eq!(PhysicalMapping::<_, SdtHeader>::map(&handler, ROOT + 0xffff, 36).err(), Some(AcpiError::MapFailed));
    let own = PhysicalMapping::<_, SdtHeader>::new(SSDT, &memory.bytes[0x3000..0x3030], 37, &handler);
    assert_eq!((own.region_length(), own.mapped_length(), own.get().length), (37, 48, 37));
    assert_eq!(own.handler().map_physical_region(SSDT, 4).map(|bytes| bytes[..4].to_vec()), Ok(b"SSDT".to_vec()));
}

/// The same by the calls of `lists`.
#[test]
fn fills_each_list() {
    machine().list(|source| {
        let expected = [
            record(FADT, b"FACP", 116, 1),
            record(SSDT, b"SSDT", 37, 2),
            record(OTHER_SSDT, b"SSDT", 36, 1),
            record(DMAR, b"DMAR", 61, 1),
        ];
        assert_eq!(all(|out| lookups::tables(source, out)), Ok(expected.to_vec()));
        assert_eq!(filled(3, |out| lookups::tables(source, out)), Ok((expected[..3].to_vec(), 4)));
        assert_eq!(lookups::tables(source, &mut []), Ok(4));
        assert_eq!(lookups::find(source, named(b"SSDT")), Ok(expected[1]));
        let nth = |index| walks::nth(source, named(b"SSDT"), index);
        let missing = Err(Refusal::Acpi(AcpiError::TableMissing(Signature::SSDT)));
        assert_eq!([0, 1, 2].map(nth), [Ok(expected[1]), Ok(expected[2]), missing]);
        let aml: Vec<_> = all(|out| lookups::ssdts(source, out)).unwrap();
        assert_eq!(plains(&aml), ["AmlTable 103024 1 2 103000", "AmlTable 104024 0 1 104000"]);
        assert_eq!(lookups::dsdt(source).map(plain), Ok("AmlTable 102024 4 2 102000".into()));
        let found: Vec<Fault> = all(|out| faults::faults(source, named(b"SSDT"), out)).unwrap();
        assert_eq!(found, [zeros_but(|it: &mut Fault| (it.address, it.status) = (BAD_SSDT, 24))]);
        let ranges: Vec<Range> = all(|out| walks::ranges(source, out)).unwrap();
        assert_eq!((ranges.len(), ranges[5]), (6, Range { address: DSDT, length: 40 }));
        let list: Vec<Member> = all(|out| members::members(source, out)).unwrap();
        let member =
            |table, status| zeros_but(|it: &mut Member| (it.table, it.status, it.has_header) = (table, status, 1));
        assert_eq!(list[0], member(expected[0], 0));
        // Creator Revision is the header's last field.
        let mut bad = record(BAD_SSDT, b"SSDT", 36, 1);
        bad.creator_revision = 0x0100_0000;
        assert_eq!((list.len(), list[1]), (5, member(bad, 24)));
        assert_eq!(locate(source.regions, ROOT + 0xffff, 1).map(plain), Ok("Place 0 ffff".into()));
        let outside = [(ROOT + 0xffff, 2), (ROOT - 1, 2)].map(|(at, length)| locate(source.regions, at, length));
        assert_eq!(outside, [const { Err(Refusal::Acpi(AcpiError::MapFailed)) }; 2]);
        assert_eq!(facs::facs(source), Err(Refusal::Acpi(AcpiError::TableMissing(Signature::FACS))));
    });
    let mut memory = with("OEM7", 3, 36, &[(24, 4, 0x1234_5678), (28, 4, 0x444e_4148), (32, 4, 0x2026_0001)]);
    let ids = (0x1234_5678, *b"HAND", 0x2026_0001);
    let table = |memory: &Memory| memory.list(|source| lookups::find(source, named(b"OEM7"))).unwrap();
    let found = table(&memory);
    assert_eq!((found.oem_revision, found.creator_id, found.creator_revision), ids);
    memory.put(TABLE, &[(35, 1, 0)]);
    assert_eq!(memory.list(|source| lookups::tables(source, &mut [])), Ok(0));
}

/// RSDPs of revision 0 and 2 (section 5.2.5.3), and an XSDT.
#[test]
fn opens_a_root_table() {
    let (rsdp_0, rsdp_2, xsdt) = (ROOT + 0x8000, ROOT + 0x8100, ROOT + 0x8200);
    let mut memory = machine();
    memory.rsdp(rsdp_0, ROOT, None);
    memory.rsdp(rsdp_2, 0, Some(xsdt));
    memory.table(xsdt, "XSDT", 1, 52, &[(36, 8, SSDT), (44, 8, DSDT)]);
    let handler = memory.handler();
    let root = |tables: AcpiResult<Tables<'_>>| {
        tables.map(|it| (it.revision(), it.root_address(), it.root_length(), it.root_signature(), it.headers().count()))
    };
    let (old, new) = ((0, ROOT, 56, Signature::RSDT, 4), (2, xsdt, 52, Signature::XSDT, 2));
    assert_eq!(root(AcpiTables::from_rsdp(&handler, rsdp_0)), Ok(old));
    assert_eq!(root(AcpiTables::from_rsdp(&handler, rsdp_2)), Ok(new));
    assert_eq!(root(AcpiTables::from_validated_rsdp(&handler, map_rsdp(&handler, rsdp_2).ok().unwrap())), Ok(new));
    assert_eq!(root(AcpiTables::from_rsdt(&handler, 1, xsdt)), Ok((1, xsdt, 52, Signature::XSDT, 2)));
    assert_eq!(root(AcpiTables::search_in(&handler, &[range(rsdp_0 - 0x400, 0x500)])), Ok(old));
    let refused = |tables: AcpiResult<Tables<'_>>| tables.err();
    let bad_root = Some(AcpiError::SdtInvalidSignature(Signature::RSDT));
    assert_eq!(refused(AcpiTables::from_rsdt(&handler, 0, xsdt)), bad_root);
    assert_eq!(refused(AcpiTables::from_rsdp(&handler, ROOT)), Some(AcpiError::RsdpIncorrectSignature));
    assert_eq!(refused(AcpiTables::from_rsdt(&handler, 2, 0)), Some(AcpiError::MapFailed));
    assert_eq!(refused(AcpiTables::search_for_rsdp_bios(&handler)), Some(AcpiError::MapFailed));
    assert_eq!(refused(AcpiTables::search_in(&handler, &[])), Some(AcpiError::NoValidRsdp));
    let pointer = map_rsdp(&handler, rsdp_2).ok().unwrap().root();
    assert!(pointer.kind.width() == 8 && pointer.address == xsdt && pointer.revision == 2);
    assert_eq!(RootKind::of_revision(0).signature(), Signature::RSDT);
    // By the calls of `lists`: 0 is an RSDP, 1 an RSDT, 2 an XSDT, 3 and 4 are searches.
    let regions = [Region { address: ROOT, bytes: &memory.bytes }];
    let by = |start, address| opening::root(&Source { regions: &regions, address, start, accept: 0 });
    let root = |address, length, revision, pointer_width| {
        zeros_but(|it: &mut Root| {
            (it.address, it.length, it.revision, it.pointer_width) = (address, length, revision, pointer_width)
        })
    };
    let mut by_rsdp = root(ROOT, 56, 0, 4);
    assert_eq!(by(1, ROOT), Ok(by_rsdp));
    (by_rsdp.rsdp_address, by_rsdp.rsdp_length) = (rsdp_0, 20);
    assert_eq!(by(0, rsdp_0), Ok(by_rsdp));
    assert_eq!((by(2, xsdt), by(0, rsdp_2).map(|it| it.rsdp_length)), (Ok(root(xsdt, 52, 2, 8)), Ok(36)));
    let failures = [by(1, xsdt), by(3, 0), by(4, 0), by(5, 0)].map(|root| root.unwrap_err().to_string());
    assert_eq!(failures, ["SdtInvalidSignature RSDT", "MapFailed", "NoValidRsdp", "UnknownStart"]);
    let from = Source { regions: &regions, address: rsdp_2, start: 0, accept: 32 };
    assert_eq!(opening::root(&from), Err(Refusal::UnknownPolicy));
    let from = Source { accept: 0, ..from };
    assert_eq!(all(|out| walks::ranges(&from, out)).map(|it| it[0]), Ok(Range { address: rsdp_2, length: 36 }));
}

/// The fields of an RSDP of revision 2: OEMID at 9, and what [`Memory::rsdp`] has.
#[test]
fn reads_an_rsdp_and_its_copy() {
    let at = ROOT + 0x8000;
    let mut memory = Memory::new();
    memory.put(at, &[(9, 6, u64::from_le_bytes(*b"OEMID \0\0"))]);
    memory.rsdp(at, ROOT, Some(1 << 32));
    let handler = memory.handler();
    let found = map_rsdp(&handler, at).ok().unwrap();
    let Rsdp { .. } = *found.get();
    assert_eq!((found.signature(), found.oem_id(), found.revision()), (*b"RSD PTR ", Some("OEMID "), 2));
    assert_eq!((found.rsdt_address(), found.length(), found.xsdt_address()), (ROOT as u32, Some(36), Some(1 << 32)));
    let bytes = found.bytes();
    assert_eq!((found.checksum(), found.ext_checksum(), found.validate(bytes)), (bytes[8], Some(bytes[32]), Ok(())));
    let regions = [Region { address: ROOT, bytes: &memory.bytes }];
    let source = Source { regions: &regions, address: at, start: 0, accept: 0 };
    let record = "Rsdp 108000 100000000 100000 24 2 4f 45 4d 49 44 20";
    assert_eq!(rsdp::rsdp(&source).map(plain), Ok(record.into()));
    assert_eq!(rsdp::rsdp(&Source { start: 1, ..source }), Err(Refusal::UnknownStart));
    let start = |copy: &[u8]| copied::start_of_rsdp(copy, source).map(|it| (it.start, it.address));
    assert_eq!(start(bytes), Ok((2, 1 << 32)));
    let fails = |copy: &[u8]| start(copy).unwrap_err().to_string();
    let mut damaged = bytes.to_vec();
    damaged[32] += 1;
    assert_eq!(fails(&damaged), "RsdpInvalidChecksum");
    assert_eq!(
        [fails(&bytes[..35]), fails(&[]), fails(&[0; 20])],
        ["MapFailed", "MapFailed", "RsdpIncorrectSignature"]
    );
    let mut memory = Memory::new();
    memory.rsdp(at, ROOT, None);
    assert_eq!(start(&memory.bytes[0x8000..0x8014]), Ok((1, ROOT)));
    assert_eq!(fails(&memory.bytes[0x8000..0x8013]), "MapFailed");
}

/// The word at 0x40e, by which there is no EBDA; an RSDT that lists one table; and the area from 0xe0000 on with the 16
/// bytes after it, in which an RSDP is at 0xfffe0, the last place that one can have (section 5.2.5.1).
#[test]
fn searches() {
    let mut memory = Memory::rsdt(&[SSDT]);
    memory.table(SSDT, "SSDT", 2, 36, &[]);
    memory.rsdp(ROOT + 0x100, ROOT + 0x10, None);
    let mut area = vec![0; 0x20010];
    area[0x1ffe0..0x1fff4].copy_from_slice(&memory.bytes[0x100..0x114]);
    // The area ends at 0x100010, so the root table is mapped from there on.
    memory.bytes.copy_within(..40, 0x10);
    let rest = &memory.bytes[0x10..];
    let given: [(u64, &[u8]); 3] = [(0x40e, &[0, 0]), (0xe0000, &area), (ROOT + 0x10, rest)];
    let regions = given.map(|(address, bytes)| MappedRegion::new(address, bytes).unwrap());
    let handler = MappedRegions::new(&regions).unwrap();
    let root = |tables: AcpiTables<'_, MappedRegions<'_>>| (tables.root_address(), tables.headers().count());
    assert_eq!(AcpiTables::search_for_rsdp_bios(&handler).map(root), Ok((ROOT + 0x10, 1)));
    assert_eq!(Rsdp::search_for_on_bios(&handler).ok().unwrap().physical_start(), 0xfffe0);
    assert_eq!(bios_areas(Some(0x9fc00)), [range(0x9fc00, 1024), range(0xe0000, 0x20000)]);
    // The part of the area from 0xf0000 on is enough for the search of what is mapped.
    let part = [MappedRegion::new(0xf0000, &area[0x10000..]).unwrap(), regions[2]];
    let handler = MappedRegions::new(&part).unwrap();
    assert_eq!(AcpiTables::search_for_rsdp_bios(&handler).err(), Some(AcpiError::MapFailed));
    assert_eq!(AcpiTables::search_in(&handler, &bios_areas(None)).map(root), Ok((ROOT + 0x10, 1)));
    let list = [Region { address: 0xf0000, bytes: &area[0x10000..] }, Region { address: ROOT + 0x10, bytes: rest }];
    let source = Source { regions: &list, address: 0, start: 4, accept: 0 };
    assert_eq!(opening::root(&source).map(|it| (it.address, it.rsdp_address)), Ok((ROOT + 0x10, 0xfffe0)));
}

/// Signature at 0, Length at 4, Hardware Signature at 8, Firmware_Waking_Vector at 12, Global Lock at 16, Flags at 20,
/// X_Firmware_Waking_Vector at 24, Version at 32 (section 5.2.10). A FACS has no checksum.
#[test]
fn reads_a_facs() {
    let signature = u64::from(u32::from_le_bytes(*b"FACS"));
    #[rustfmt::skip]
    let fields = [
        (0, 4, signature), (4, 4, 64), (8, 4, 0x1122_3344), (12, 4, 0x5566_7788), (16, 4, 1), (20, 4, 3),
        (24, 8, 0x12_3456_7890), (32, 1, 2),
    ];
    let mut memory = Memory::rsdt(&[FADT]);
    memory.table(FADT, "FACP", 1, 116, &[(36, 4, FACS)]);
    memory.put(FACS, &fields);
    let record = memory.list(facs::facs).map(plain);
    assert_eq!(record, Ok("Facs 107000 1234567890 40 11223344 55667788 3 2".into()));
    let found = |memory: &Memory| memory.ask(|tables| (tables.facs(), tables.ranges().count()));
    assert_eq!(found(&memory), (Ok(range(FACS, 64)), 3));
    let name = Signature::FACS;
    for (field, refusal) in [
        ((4, 4, 63), AcpiError::SdtInvalidLength(name)),
        ((4, 4, 0x9001), AcpiError::MapFailed), // one byte more than there is memory
        ((0, 1, 0x66), AcpiError::SdtInvalidSignature(name)),
    ] {
        memory.put(FACS, &fields);
        memory.put(FACS, &[field]);
        assert_eq!(found(&memory), (Err(refusal), 2));
        assert_eq!(memory.list(facs::facs), Err(Refusal::Acpi(refusal)));
    }
    assert_eq!((facs_length(name, 64), facs_length(name, 63).is_err()), (Ok(64), true));
    assert_eq!(found(&Memory::rsdt(&[])), (Err(AcpiError::TableMissing(Signature::FADT)), 1));
}

/// A table that sums to 1, and one whose OEMID, at 10, isn't UTF-8. Bit 0 accepts any sum, bit 1 any ids.
#[test]
fn accepts_bad_sums_and_ids() {
    let mut memory = Memory::rsdt(&[BAD_SSDT, SSDT]);
    memory.table(BAD_SSDT, "SSDT", 1, 36, &[]);
    memory.put(BAD_SSDT, &[(35, 1, 1)]);
    memory.table(SSDT, "SSDT", 2, 37, &[]);
    memory.put(SSDT, &[(10, 1, 0xff)]);
    memory.sum(SSDT, 37, 9);
    let (sum, id) = ((BAD_SSDT, 24), (SSDT, 21));
    let all_cases = [
        (0, None, vec![(sum, 0), (id, 0)]),
        (1, Some(BAD_SSDT), vec![(sum, 1)]),
        (2, Some(SSDT), vec![(sum, 0), (id, 1)]),
        (3, Some(BAD_SSDT), vec![(sum, 1)]),
    ];
    let handler = memory.handler();
    for (bits, first, expected) in all_cases {
        let root = RootPointer { revision: 0, kind: RootKind::Rsdt, address: ROOT };
        let tables = AcpiTables::open_accepting(&handler, root, Accept { bits }).ok().unwrap();
        assert_eq!(tables.find_table::<Ssdt>().ok().map(|table| table.physical_start()), first);
        assert_eq!(tables.ssdts().count(), bits.count_ones() as usize);
        let found: Vec<Fault> = memory.list(|source| {
            all(|out| faults::faults(&Source { accept: bits, ..*source }, named(b"SSDT"), out)).unwrap()
        });
        let found: Vec<_> = found.iter().map(|it| ((it.address, it.status), it.accepted)).collect();
        assert_eq!(found, expected);
    }
    // An RSDT that sums to 1.
    memory.put(ROOT, &[(8, 1, 2)]);
    let open = |accept| memory.list(|source| opening::root(&Source { accept, ..*source }).map(|root| root.address));
    let refused = Err(Refusal::Acpi(bad_sum(Signature::RSDT)));
    assert_eq!([0, 2, 1].map(open), [refused, refused, Ok(ROOT)]);
}

/// Entries by Type and Length of the same width, one after the other.
fn walk(first: u32, width: u8) -> Walk {
    Walk { first, type_offset: 0, type_width: width, length_offset: width, length_width: width }
}

/// Each entry's offset, type and length, and whether bytes are left.
type Walked = (Vec<(u64, u32, u32)>, bool);

fn walked(memory: &Memory, address: u64, walk: Walk) -> Result<Walked, Refusal> {
    let mut malformed = 0;
    let found: Vec<Entry> =
        memory.list(|source| all(|out| entries::table_entries(source, address, walk, out, &mut malformed)))?;
    Ok((found.iter().map(|it| (it.address - address, it.entry_type, it.length)).collect(), malformed == 1))
}

#[test]
fn walks_entries() {
    let memory = machine();
    assert_eq!(walked(&memory, DMAR, walk(48, 2)), Ok((vec![(48, 1, 4), (52, 0x102, 6)], true)));
    // From 49 on with one byte each: Type 0 and Length 4, then at 53 Type 1 and Length 6, then Length 0.
    assert_eq!(walked(&memory, DMAR, walk(49, 1)), Ok((vec![(49, 0, 4), (53, 1, 6)], true)));
    assert_eq!(walked(&memory, DMAR, walk(61, 1)), Ok((vec![], false)));
    let failures =
        [walked(&memory, DMAR, walk(62, 1)), walked(&memory, DMAR, walk(48, 3)), walked(&memory, 0, walk(48, 1))];
    let texts = failures.map(|found| found.unwrap_err().to_string());
    assert_eq!(texts, ["SdtInvalidLength DMAR", "UnknownWidth", "MapFailed"]);
    // Type and Length of four bytes each, as in an LPIT: 12 bytes of type 0x10002, 8 of the greatest type, then 4 bytes
    // that are none.
    #[rustfmt::skip]
    let fields = [
        (36, 4, 0x0001_0002), (40, 4, 12), (44, 4, 0x0403_0201), (48, 4, 0xffff_ffff), (52, 4, 8), (56, 4, 1),
    ];
    let memory = with("LPIT", 1, 60, &fields);
    assert_eq!(walked(&memory, TABLE, walk(36, 4)), Ok((vec![(36, 0x1_0002, 12), (48, u32::MAX, 8)], true)));
    // A Length of 1 is too short.
    assert_eq!(walked(&memory, TABLE, walk(52, 4)), Ok((vec![], true)));
}
