//! Domains and distances.
#![cfg(feature = "alloc")]
mod common;
use common::{Memory, all, filled, plain, plains, with};
use zacpi::AcpiError;
use zacpi::alloc::Global;
use zacpi::lists::numa_records::{GenericInitiator, ItsAffinity, MemoryAffinity, ProcessorAffinity};
use zacpi::lists::{affinities, numa, refusal::Refusal, srat_faults};
use zacpi::numa::srat::affinities_count;
use zacpi::numa::{Distances, Domains, MemoryAffinities, NumaError, Slit, Srat, SratEntryIter};
use zacpi::sdt::Signature;

#[test]
fn reads_domains() {
    #[rustfmt::skip]
    let fields = [
        // Local APIC (section 5.2.16.1): Proximity Domain [7:0] at 2, APIC ID at 3, Flags at 4, [31:8] at 9.
        (48, 2, 0x1000), (50, 1, 5), (51, 1, 3), (52, 4, 1), (57, 3, 1),
        // Memory (section 5.2.16.2): Proximity Domain at 2, Base Address at 8, Length at 16, Flags at 28.
        (64, 2, 0x2801), (66, 4, 1), (72, 8, 0x1000), (80, 8, 0x1000), (92, 4, 1),
        (104, 2, 0x2801), (106, 4, 2), (112, 8, 0x2000), (120, 8, 0x2000), (132, 4, 7),
        (144, 2, 0x2801), (146, 4, 3), (152, 8, 0x4000), (160, 8, 0x1000), (172, 4, 0),
        // x2APIC (section 5.2.16.3): Proximity Domain at 4, X2APIC ID at 8, Flags at 12.
        (184, 2, 0x1802), (188, 4, 6), (192, 4, 0x100), (196, 4, 1),
        // GICC (section 5.2.16.4): Proximity Domain at 2, ACPI Processor UID at 6, Flags at 10, Clock Domain at 14.
        (208, 2, 0x1203), (210, 4, 7), (214, 4, 9), (218, 4, 1), (222, 4, 8),
        // ITS (section 5.2.16.5): Proximity Domain at 2, ITS ID at 8. Generic Initiator (section 5.2.16.6): Device
        // Handle Type at 3, Proximity Domain at 4, Device Handle at 8, Flags at 24.
        (226, 2, 0x0c04), (228, 4, 4), (234, 4, 0x11),
        (238, 2, 0x2005), (241, 1, 1), (242, 4, 2), (246, 4, 0x1234_0001), (262, 4, 3),
    ];
    let memory = with("SRAT", 3, 270, &fields);
    let ranges = ["MemoryRange 1 1000 1000 false false", "MemoryRange 2 2000 2000 true true"];
    memory.ask(|tables| {
        let found = MemoryAffinities::new(tables).ok().unwrap();
        assert_eq!(plains(found.ranges()), ranges);
        let domains = [0x1fff, 0x2000, 0x4000, 0].map(|at| found.domain_of(at));
        assert_eq!(domains, [Some(1), Some(2), None, None]);
        assert_eq!((found.ranges()[0].holds(0x1000), found.ranges()[0].ends_below()), (true, true));
        assert_eq!(MemoryAffinities::new_in(tables, Global).ok().unwrap().ranges().len(), 2);
    });
    memory.bytes_of::<Srat, _>(|table| {
        assert_eq!(affinities_count(table), Ok(2));
        assert_eq!(plains(MemoryAffinities::over(table, Global).ok().unwrap().ranges()), ranges);
        let domains = Domains::over(table);
        assert_eq!([3, 0x100, 4].map(|id| domains.domain_of_apic(id)), [Some(0x105), Some(6), None]);
        assert_eq!([9, 3].map(|uid| domains.domain_of_processor(uid)), [Some(7), None]);
        let mut entries = SratEntryIter::over(table);
        let expected = [
            "LocalApic 105 3 1 0 0",
            "Memory 1 1000 1000 1",
            "Memory 2 2000 2000 7",
            "Memory 3 4000 1000 0",
            "LocalX2Apic 6 100 1 0",
            "Gicc 7 9 1 8",
            "GicIts 4 11",
            "GenericInitiator 1 2 1 0 34 12 0 0 0 0 0 0 0 0 0 0 0 0 3",
        ];
        assert_eq!(plains(entries.by_ref()), expected);
        assert!(!entries.ended_malformed());
        let enabled = domains.entries().map(|entry| entry.is_enabled());
        assert_eq!(enabled.filter(|it| *it == Some(true)).count(), 6);
        assert_eq!(domains.entries().filter(|entry| entry.memory_range().is_some()).count(), 2);
    });
    memory.list(|source| {
        let list: Vec<MemoryAffinity> = all(|out| affinities::srat_entries(source, out)).unwrap();
        assert_eq!(plains(&list), ["MemoryAffinity 1000 1000 1 0 0", "MemoryAffinity 2000 2000 2 1 1"]);
        let list: Vec<ProcessorAffinity> = all(|out| affinities::srat_entries(source, out)).unwrap();
        assert_eq!(filled(1, |out| affinities::srat_entries_from(source, 1, out)), Ok((vec![list[1]], 3)));
        let expected = ["ProcessorAffinity 3 105 0 0", "ProcessorAffinity 100 6 0 2", "ProcessorAffinity 9 7 8 3"];
        assert_eq!(plains(&list), expected);
        let list: Vec<GenericInitiator> = all(|out| affinities::srat_entries(source, out)).unwrap();
        assert_eq!(plains(&list), ["GenericInitiator 2 1 1 1 0 34 12 0 0 0 0 0 0 0 0 0 0 0 0"]);
        let list: Vec<ItsAffinity> = all(|out| affinities::srat_entries(source, out)).unwrap();
        assert_eq!(plains(&list), ["ItsAffinity 4 11"]);
        let none = Err(Refusal::NoDomain);
        assert_eq!([0x1fff, 0x2000, 0x4000].map(|at| numa::domain_of_address(source, at)), [Ok(1), Ok(2), none]);
        assert_eq!([3, 0x100, 4].map(|id| numa::domain_of_apic(source, id)), [Ok(0x105), Ok(6), none]);
        assert_eq!([9, 3].map(|uid| numa::domain_of_processor(source, uid)), [Ok(7), none]);
    });
}

/// A range that ends above 2^64 - 1, and a byte after it; a table that is too short.
#[test]
fn entries_may_be_at_fault() {
    let memory = with("SRAT", 3, 89, &[(48, 2, 0x2801), (56, 8, u64::MAX), (64, 8, 1), (76, 4, 1)]);
    memory.ask(|tables| assert_eq!(MemoryAffinities::new(tables).err(), Some(NumaError::InvalidEntryLength)));
    let high = with("SRAT", 3, 88, &[(48, 2, 0x2801), (56, 8, u64::MAX), (64, 8, 1), (76, 4, 1)]);
    high.bytes_of::<Srat, _>(|table| assert_eq!(affinities_count(table), Err(NumaError::InvalidMemoryRange)));
    memory.list(|source| {
        assert_eq!(affinities::srat_entries::<MemoryAffinity>(source, &mut []), Ok(0));
        let faults = all(|out| srat_faults::srat_faults(source, out)).unwrap();
        assert_eq!(plains(&faults), ["EntryFault 101030 33 1", "EntryFault 101058 32 0"]);
        assert_eq!(numa::domain_of_address(source, u64::MAX), Err(Refusal::InvalidMemoryRange));
        assert_eq!(numa::domain_of_address(source, 0), Err(Refusal::InvalidSratEntryLength));
        assert_eq!(numa::domain_of_apic(source, 0), Err(Refusal::InvalidSratEntryLength));
        assert_eq!(numa::domain_of_processor(source, 0), Err(Refusal::InvalidSratEntryLength));
    });
    let missing = NumaError::Acpi(AcpiError::TableMissing(Signature::SRAT));
    with("SRAT", 3, 47, &[]).ask(|tables| assert_eq!(MemoryAffinities::new(tables).err(), Some(missing)));
    assert_eq!(missing.to_string(), "TableMissing SRAT");
}

#[test]
fn reads_distances() {
    // Number of System Localities at 36, then two rows of two bytes.
    let memory = with("SLIT", 1, 48, &[(36, 8, 2), (44, 1, 10), (45, 1, 20), (46, 1, 255), (47, 1, 10)]);
    memory.ask(|tables| assert_eq!(tables.find_table::<Slit>().ok().unwrap().localities, 2));
    memory.bytes_of::<Slit, _>(|table| {
        let slit = Distances::over(table);
        assert_eq!((slit.localities(), slit.is_sane()), (2, true));
        let distances = [(0, 1), (1, 0), (1, 1), (0, 2), (2, 0)].map(|(from, to)| slit.distance(from, to));
        assert_eq!(distances, [Some(20), Some(255), Some(10), None, None]);
    });
    memory.list(|source| {
        assert_eq!(numa::localities(source).map(|found| (found.localities, found.is_sane)), Ok((2, 1)));
        assert_eq!((numa::distance(source, 1, 0), numa::distance(source, 0, 2)), (Ok(255), Err(Refusal::NoDistance)));
    });
    let short = with("SLIT", 1, 45, &[(36, 8, 2), (44, 1, 10)]);
    short.bytes_of::<Slit, _>(|table| {
        let slit = Distances::over(table);
        assert_eq!((slit.is_sane(), slit.distance(0, 0), slit.distance(0, 1)), (false, Some(10), None));
    });
    let missing = numa::localities;
    assert_eq!(plain(Memory::rsdt(&[]).list(missing).unwrap_err().to_string()), "\"TableMissing SLIT\"");
}
