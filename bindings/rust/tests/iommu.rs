//! The units that remap what devices ask of memory.
mod common;
use common::{Memory, all, filled, plain, plains, with};
use zacpi::AcpiError;
use zacpi::iommu::{Dmar, DmarFields, DmarStructureIter, DmarUnits, Hop, IommuError, Ivrs, IvrsBlockIter, IvrsBlocks};
use zacpi::lists::iommu_records::{DmarAffinity, DmarReserved, DmarRootPorts, DmarUnit, IvrsMemory, IvrsUnit};
use zacpi::lists::{iommu, iommu_faults, iommu_lists, iommu_regions, refusal::Refusal};
use zacpi::sdt::Signature;

fn hop(device: u8, function: u8) -> Hop {
    Hop { device, function }
}

const UNITS: [&str; 2] = ["Drhd 0 0 0 1fed90000", "Drhd 1 3 0 1fed91000"];

fn dmar() -> Memory {
    #[rustfmt::skip]
    let fields = [
        // Host Address Width at 36, Flags at 37.
        // DRHD (section 8.3): Type, Length at 2, Flags at 4, Segment Number at 6, Register Base Address at 8; and its
        // scope (section 8.3.1): Type, Length at 1, Enumeration ID at 4, Start Bus Number at 5, Path at 6.
        (36, 2, 0x0326), (48, 4, 0x18_0000), (56, 8, 0x1_fed9_0000), (64, 2, 0x0801), (70, 2, 0x0002),
        // Size at 5. An I/O APIC with the id 2 and an HPET with the number 1, whose path is missing.
        (72, 4, 0x1e_0000), (76, 1, 1), (77, 1, 3), (80, 8, 0x1_fed9_1000),
        (88, 2, 0x0803), (92, 1, 2), (93, 1, 0xf0), (94, 2, 0x001f), (96, 2, 0x0604), (100, 1, 1),
        // RMRR (section 8.4): Segment Number at 6, Base Address at 8, Limit Address at 16, and an endpoint's scope.
        (102, 4, 0x20_0001), (110, 8, 0x7b80_0000), (118, 8, 0x7fff_ffff), (126, 2, 0x0801), (132, 2, 0x0002),
        (134, 4, 0x20_0001), (142, 8, 2), (150, 8, 1), (158, 2, 0x0801), (164, 2, 0x0003),
        // ATSR (section 8.5): Flags at 4, Segment Number at 6, and a sub-hierarchy's scope. RHSA (section 8.6):
        // Register Base Address at 8, Proximity Domain at 16.
        (166, 4, 0x10_0002), (170, 1, 1), (172, 2, 2), (174, 2, 0x0802), (180, 2, 0x001c),
        (182, 4, 0x14_0003), (190, 8, 0x1_fed9_1000), (198, 4, 0x102),
    ];
    with("DMAR", 1, 202, &fields)
}

#[test]
fn reads_a_dmar() {
    dmar().ask(|tables| {
        let dmar = tables.find_table::<Dmar>().ok().unwrap();
        assert_eq!((dmar.address_bits(), dmar.flags), (39, 3));
        let flags = (dmar.remaps_interrupts(), dmar.opts_out_of_x2apic(), dmar.opts_into_dma_control());
        assert_eq!(flags, (true, true, false));
        let units = DmarUnits::over(dmar.bytes());
        let unit = |segment, hops: &[Hop]| units.unit_for(segment, 0, hops).map(|it| it.map(plain));
        assert_eq!(unit(0, &[hop(2, 0)]), Ok(Some(UNITS[0].into())));
        assert_eq!(unit(0, &[hop(2, 0), hop(0, 0)]), Ok(Some(UNITS[1].into())));
        assert_eq!((unit(1, &[hop(2, 0)]), units.find_unit(1, 0, &[]).map(plain)), (Ok(None), Ok("None".into())));
        let io_apic = units.unit_of_io_apic(2).unwrap().unwrap();
        assert_eq!((io_apic.bus, io_apic.hop), (0xf0, Some(hop(0x1f, 0))));
        assert_eq!((io_apic.unit.register_bytes(), io_apic.unit.includes_pci_all()), (32768, true));
        let hpet = units.unit_of_hpet(1).unwrap().unwrap();
        assert_eq!((plain(hpet.unit), hpet.bus, hpet.hop), (UNITS[1].into(), 0, None));
        assert!(units.unit_of_io_apic(1).unwrap().is_none() && units.find_source(4, 2).unwrap().is_none());
        let reserved = |device| plains(units.each_reserved(0, 0, &[hop(device, 0)]));
        let failed = |device| units.reserved_for(0, 0, &[hop(device, 0)]).err();
        assert_eq!([2, 3].map(failed), [None, Some(IommuError::InvalidMemoryRange)]);
        let ranges = ["Rmrr 0 7b800000 7fffffff", "Rmrr 0 2 1"];
        assert_eq!((reserved(2), reserved(3), reserved(4).len()), (vec![ranges[0].into()], vec![ranges[1].into()], 0));
        assert_eq!(units.each_reserved(0, 0, &[hop(2, 0)]).next().unwrap().length(), Some(0x480_0000));
        let mut structures = DmarStructureIter::over(dmar.bytes());
        let all: Vec<_> = structures.by_ref().collect();
        assert!(!structures.ended_malformed() && structures.rest().is_empty());
        assert_eq!(
            all.iter().map(|it| (it.kind(), it.length())).collect::<Vec<_>>(),
            [(0, 24), (0, 30), (1, 32), (1, 32), (2, 16), (3, 20)]
        );
        let fields = [0, 4, 5].map(|n: usize| plain(all[n].fields().unwrap()));
        assert_eq!(fields, [UNITS[0], "Atsr 1 2", "Rhsa 1fed91000 102"]);
        assert!(matches!(all[4].fields(), Some(DmarFields::Atsr(it)) if it.has_all_ports()));
        assert_eq!((all[3].fault(), all[2].fault()), (Some(IommuError::InvalidMemoryRange), None));
        assert_eq!((all[1].drhd().map(plain), all[2].drhd().is_none()), (Some(UNITS[1].into()), true));
        assert!(all[0].names(0, &[hop(2, 0)]) && !all[0].names(1, &[hop(2, 0)]) && all[0].object_name() == Some(""));
        let scopes: Vec<_> = all[1].scopes().collect();
        let scope = (scopes[0].kind(), scopes[0].flags(), scopes[0].enumeration_id(), scopes[0].start_bus());
        assert_eq!((scopes.len(), scope), (2, (3, 0, 2, 0xf0)));
        assert_eq!((scopes[0].hops().collect::<Vec<_>>(), scopes[1].hops().count()), (vec![hop(0x1f, 0)], 0));
        assert!(!scopes[0].names(0xf0, &[hop(0x1f, 0)])); // Types 1 and 2 alone name devices
        assert_eq!(units.structures().count(), 6);
    });
    // A SATC, Type 5 of 8 bytes, with its Flags at 4.
    let requires_cache = |flags| {
        let mut table = [0; 56];
        (table[48], table[50], table[52]) = (5, 8, flags);
        let satc = DmarUnits::over(&table).structures().next().and_then(|it| it.fields());
        if let Some(DmarFields::Satc(satc)) = satc { Some(satc.requires_cache()) } else { None }
    };
    assert_eq!([1, 2].map(requires_cache), [Some(true), Some(false)]);
}

/// Units have Size and Flags last.
#[test]
fn fills_the_lists_of_a_dmar() {
    dmar().list(|source| {
        assert_eq!(iommu::dmar_flags(source).map(plain), Ok("DmarFlags 27 3".into()));
        let (first, second) = ("DmarUnit 1fed90000 1000 0 0 0 0", "DmarUnit 1fed91000 8000 0 1 1 3");
        let units: Vec<DmarUnit> = all(|out| iommu_regions::dmar_structures(source, out)).unwrap();
        assert_eq!(plains(&units), [first, second]);
        assert_eq!(iommu::dmar_unit(source, 0, 0, &[hop(2, 0)]), Ok(units[0]));
        assert_eq!(iommu::dmar_unit(source, 1, 0, &[hop(2, 0)]), Err(Refusal::NoIommu));
        let io_apic = iommu::dmar_io_apic(source, 2).unwrap();
        assert_eq!((io_apic.unit, io_apic.bus, io_apic.hop, io_apic.has_hop), (units[1], 0xf0, hop(0x1f, 0), 1));
        let hpet = iommu::dmar_hpet(source, 1).unwrap();
        assert_eq!((hpet.unit, hpet.bus, hpet.has_hop), (units[1], 0, 0));
        let regions: Vec<DmarReserved> = all(|out| iommu_regions::dmar_structures(source, out)).unwrap();
        assert_eq!(plains(&regions), ["DmarReserved 7b800000 7fffffff 0", "DmarReserved 2 1 0"]);
        assert_eq!(all(|out| iommu::dmar_reserved(source, 0, 0, &[hop(3, 0)], out)), Ok(vec![regions[1]]));
        let ports: Vec<DmarRootPorts> = all(|out| iommu_regions::dmar_structures(source, out)).unwrap();
        assert_eq!(plains(&ports), ["DmarRootPorts 2 1 1"]);
        let near: Vec<DmarAffinity> = all(|out| iommu_regions::dmar_structures(source, out)).unwrap();
        assert_eq!(plains(&near), ["DmarAffinity 1fed91000 102"]);
        let scopes = all(|out| iommu_lists::dmar_scopes(source, 1, out)).unwrap();
        let of = |n: usize| (scopes[n].path_length, scopes[n].scope_type, scopes[n].enumeration_id, scopes[n].bus);
        assert_eq!((of(0), of(1), scopes[0].path[0]), ((1, 3, 2, 0xf0), (0, 4, 1, 0), hop(0x1f, 0)));
        assert_eq!(filled(1, |out| iommu_lists::dmar_scopes(source, 1, out)), Ok((vec![scopes[0]], 2)));
        assert_eq!(iommu_lists::dmar_scopes(source, 2, &mut []), Err(Refusal::NoIommu));
        let scopes = all(|out| iommu_lists::dmar_structure_scopes(source, 2, 0, out)).unwrap();
        assert_eq!((scopes.len(), scopes[0].path[0]), (1, hop(0x1c, 0)));
        let faults = all(|out| iommu_faults::dmar_faults(source, out)).unwrap();
        assert_eq!(plains(&faults), ["EntryFault 101086 37 1"]);
    });
    // A byte after the fixed fields; a table that is too short.
    let memory = with("DMAR", 1, 49, &[]);
    memory.bytes_of::<Dmar, _>(|table| {
        let units = DmarUnits::over(table);
        assert_eq!(units.unit_for(0, 0, &[hop(2, 0)]).err(), Some(IommuError::InvalidStructureLength));
        assert_eq!(units.unit_of_io_apic(2).err(), Some(IommuError::InvalidStructureLength));
        assert_eq!((units.structures().count(), units.each_reserved(0, 0, &[]).count()), (0, 0));
    });
    memory.list(|source| {
        assert_eq!(iommu::dmar_unit(source, 0, 0, &[hop(2, 0)]), Err(Refusal::InvalidIommuStructureLength));
        let faults = all(|out| iommu_faults::dmar_faults(source, out)).unwrap();
        assert_eq!(plains(&faults), ["EntryFault 101030 36 0"]);
    });
    let missing = AcpiError::TableMissing(Signature::DMAR);
    with("DMAR", 1, 47, &[]).ask(|tables| assert_eq!(tables.find_table::<Dmar>().err(), Some(missing)));
}

fn ivrs() -> Memory {
    #[rustfmt::skip]
    let fields = [
        // IVHD (section 5.2): Type, Flags at 1, Length at 2, DeviceID at 4, Capability Offset at 6, IOMMU Base Address
        // at 8, PCI Segment Group at 16, IOMMU Info at 18, IOMMU Attributes at 20, EFR Register Image at 24.
        (48, 4, 0x34_b011), (52, 2, 2), (54, 2, 0x40), (56, 8, 0x1_feb8_0000), (66, 2, 0x105), (68, 4, 0x8004_8f6e),
        (72, 8, 0x2465_77ef_a225_4afa),
        // A select: Type, DeviceID at 1, DTE Setting at 3; an alias: the same, and Source DeviceID at 5.
        (88, 4, 0xd700_1002), (92, 4, 0x0203_0042), (97, 2, 0x308),
        // IVMDs: Type, Flags at 1, Length at 2, DeviceID at 4, Auxiliary Data at 6, start at 16, length at 24.
        (100, 4, 0x20_0822), (104, 2, 0x100), (106, 2, 0x1ff), (116, 8, 0x1_0000_0000), (124, 8, 0x2_0000),
        (132, 4, 0x20_0121), (136, 2, 0x300), (148, 8, u64::MAX), (156, 8, 1),
    ];
    with("IVRS", 2, 164, &fields)
}

#[test]
fn reads_an_ivrs() {
    ivrs().bytes_of::<Ivrs, _>(|table| {
        let blocks = IvrsBlocks::over(table);
        let device = |segment, id| blocks.block_for(segment, id).unwrap().map(plain);
        let unit = "11 b0 2 40 1feb80000 0 105 80048f6e 246577efa2254afa";
        assert_eq!(device(0, 0x10), Some(format!("DeviceUnit {unit} d7 10")));
        assert_eq!(device(0, 0x300), Some(format!("DeviceUnit {unit} 2 308")));
        assert_eq!((device(0, 0x11), device(1, 0x10)), (None, None));
        assert_eq!(blocks.find_block(0, 0x10).unwrap().map(|it| it.source), Some(0x10));
        let memory = |id| plains(blocks.each_memory(id));
        let failed = |id| blocks.memory_for(id).err();
        assert_eq!([0x180, 0x300].map(failed), [None, Some(IommuError::InvalidMemoryRange)]);
        let rules = ["Ivmd 22 8 100 1ff 100000000 20000", "Ivmd 21 1 300 0 ffffffffffffffff 1"];
        assert_eq!([0x180, 0x300].map(memory), [[rules[0]], [rules[1]]].map(|it| it.map(String::from).to_vec()));
        let all: Vec<_> = IvrsBlockIter::over(table).collect();
        assert_eq!(
            all.iter().map(|it| (it.kind(), it.length())).collect::<Vec<_>>(),
            [(0x11, 52), (0x22, 32), (0x21, 32)]
        );
        assert_eq!((all[0].ivhd().map(plain), all[1].fields().is_some()), (Some(format!("Ivhd {unit}")), true));
        assert_eq!([0, 1, 2].map(|n: usize| all[n].fault()), [None, None, Some(IommuError::InvalidMemoryRange)]);
        let entries: Vec<_> = all[0].entries().collect();
        let of = |n: usize| (entries[n].kind(), entries[n].first(), entries[n].last(), entries[n].settings());
        assert_eq!((entries.len(), of(0), of(1)), (2, (2, 0x10, 0x10, 0xd7), (0x42, 0x300, 0x300, 2)));
        let second = entries[1];
        assert_eq!((second.alias(), second.extended_settings(), second.covers(0x300)), (Some(0x308), None, true));
        let none = (second.special().is_none(), second.hardware_id(), second.compatible_id());
        assert_eq!((none, second.unique_id_format(), second.unique_id()), ((true, Some(""), Some("")), None, &[][..]));
        assert_eq!(second.bytes(), [0x42, 0, 3, 2, 0, 8, 3, 0]);
        assert_eq!((blocks.blocks().count(), blocks.blocks_of_best_type().unwrap().count()), (3, 1));
    });
}

#[test]
fn fills_the_lists_of_an_ivrs() {
    ivrs().list(|source| {
        let units: Vec<IvrsUnit> = all(|out| iommu_regions::ivrs_blocks(source, out)).unwrap();
        let unit = "1feb80000 246577efa2254afa 80048f6e 0 2 40 105 11 b0 1";
        assert_eq!(plains(&units), [format!("IvrsUnit {unit}")]);
        assert_eq!(iommu::ivrs_unit(source, 0, 0x300).map(plain), Ok(format!("IvrsDevice {unit} 308 2")));
        assert_eq!(iommu::ivrs_unit(source, 0, 0x11), Err(Refusal::NoIommu));
        let rules: Vec<IvrsMemory> = all(|out| iommu_regions::ivrs_blocks(source, out)).unwrap();
        let first = "IvrsMemory 100000000 20000 100 1ff 22 8";
        assert_eq!(plains(&rules), [first, "IvrsMemory ffffffffffffffff 1 300 0 21 1"]);
        assert_eq!(all(|out| iommu::ivrs_memory(source, 0x180, out)), Ok(vec![rules[0]]));
        let faults = all(|out| iommu_faults::ivrs_faults(source, out)).unwrap();
        assert_eq!(plains(&faults), ["EntryFault 101084 37 21"]);
        let entries = all(|out| iommu_lists::ivrs_entries(source, 0, out)).unwrap();
        let of = |n: usize| (entries[n].entry_type, entries[n].first, entries[n].last, entries[n].settings);
        assert_eq!((entries.len(), of(0), of(1)), (2, (2, 0x10, 0x10, 0xd7), (0x42, 0x300, 0x300, 2)));
        assert_eq!((entries[1].source_id, entries[1].unique_id_length, entries[1].hardware_id), (0x308, 0, [0; 8]));
        assert_eq!(iommu_lists::ivrs_entries(source, 1, &mut []), Err(Refusal::NoIommu));
    });
    // Type 0x10 has no image, and an entry for all devices. Then a byte after the fixed fields.
    let memory = with("IVRS", 2, 76, &[(48, 4, 0x1c_0010), (72, 4, 0xd700_0901)]);
    memory.list(|source| {
        let device = iommu::ivrs_unit(source, 0, 0x1234).unwrap();
        assert_eq!((device.unit.has_extended_features, device.source_id), (0, 0x1234));
        let entry = all(|out| iommu_lists::ivrs_entries(source, 0, out)).unwrap()[0];
        assert_eq!((entry.entry_type, entry.first, entry.last, entry.settings), (1, 0, 0xffff, 0xd7));
    });
    with("IVRS", 2, 49, &[]).bytes_of::<Ivrs, _>(|table| {
        let blocks = IvrsBlocks::over(table);
        assert_eq!(blocks.block_for(0, 0).err(), Some(IommuError::InvalidStructureLength));
        assert_eq!(blocks.each_memory(0).count(), 0);
    });
}
