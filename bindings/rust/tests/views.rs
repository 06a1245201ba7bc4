//! Views over the bytes of tables, from bytes worked out by hand.

use zacpi::tables::{
    Dmar, DmarStructure, Facp, Hest, HestSource, Iort, IortNode, Pptt, PpttNode, Srat, SratEntry, Tpm2, View,
};

/// A header with this signature and length; its other bytes are 0.
fn header(signature: &[u8; 4], length: u32) -> Vec<u8> {
    let mut bytes = vec![0; 36];
    bytes[..4].copy_from_slice(signature);
    bytes[4..8].copy_from_slice(&length.to_le_bytes());
    bytes
}

fn with(head: Vec<u8>, parts: &[&[u8]]) -> Vec<u8> {
    parts.iter().fold(head, |bytes, part| [&bytes[..], part].concat())
}

#[test]
fn nodes_of_a_pptt() {
    // A processor of one private resource, at 60: Flags 2, Parent 0, ACPI Processor ID 7; and a cache of 32 KiB.
    let processor: &[u8] = &[0, 24, 0, 0, 2, 0, 0, 0, 0, 0, 0, 0, 7, 0, 0, 0, 1, 0, 0, 0, 60, 0, 0, 0];
    let cache: &[u8] = &[1, 28, 0, 0, 0x7f, 0, 0, 0, 0, 0, 0, 0, 0, 0x80, 0, 0, 64, 0, 0, 0, 8, 2, 64, 0, 9, 0, 0, 0];
    let table = with(header(b"PPTT", 88), &[processor, cache]);
    let mut nodes = Pptt::of(&table).unwrap().nodes();
    let Some(PpttNode::ProcessorHierarchyNodeStructure(it)) = nodes.next() else { panic!("no processor") };
    assert_eq!((it.flags(), it.parent(), it.acpi_processor_id(), it.number_of_private_resources()), (2, 0, 7, 1));
    let Some(PpttNode::CacheTypeStructure(it)) = nodes.next() else { panic!("no cache") };
    assert_eq!((it.size(), it.number_of_sets(), it.associativity(), it.line_size()), (0x8000, 64, 8, 64));
    assert_eq!((it.attributes(), it.cache_id(), it.bytes().len()), (2, 9, 28));
    assert!(nodes.next().is_none() && nodes.rest().is_empty());
}

/// Type has two bytes, and chooses the length, since there is none: NMI, a machine check with two banks of 28 bytes,
/// generic hardware errors, and a reserved type.
#[test]
fn sources_of_a_hest() {
    let mut sources = [0; 20 + 96 + 64 + 5];
    (sources[0], sources[20 + 32], sources[116], sources[180]) = (2, 2, 9, 3);
    let table = with(header(b"HEST", 225), &[&[4, 0, 0, 0], &sources]);
    let mut sources = Hest::of(&table).unwrap().sources();
    let Some(HestSource::Ia32ArchitectureNonMaskableInterrupt(it)) = sources.next() else { panic!("no NMI") };
    assert_eq!(it.bytes().len(), 20);
    let Some(HestSource::Ia32ArchitectureMachineCheckException(it)) = sources.next() else {
        panic!("no machine check")
    };
    assert_eq!((it.bytes().len(), it.banks().count()), (96, 2));
    let Some(HestSource::GenericHardwareErrorSourceStructure(it)) = sources.next() else { panic!("no generic errors") };
    assert_eq!(it.bytes().len(), 64);
    assert!(sources.next().is_none() && sources.rest().len() == 5);
}

#[test]
fn a_list_ends_at_what_is_malformed() {
    for (last, left) in [([1, 0, 0, 0], 4), ([1, 28, 0, 0], 4), ([1, 4, 0, 0], 0)] {
        let table = with(header(b"PPTT", 45), &[&[9, 5, 0, 0, 1], &last]);
        let mut nodes = Pptt::of(&table).unwrap().nodes();
        assert!(matches!(nodes.next(), Some(PpttNode::Other([9, 5, 0, 0, 1]))));
        let short = nodes.next();
        assert_eq!(nodes.rest().len(), left);
        let Some(PpttNode::CacheTypeStructure(it)) = short else {
            assert!(left == 4 && short.is_none());
            continue;
        };
        assert!(left == 0 && !it.is_whole() && it.size() == 0, "fields past the end are 0");
    }
    assert!(Pptt::of(&[0; 35]).is_none());
}

#[test]
fn nodes_at_an_offset() {
    // Two nodes from byte 52 on: an ITS group of one ITS, and a root complex with a mapping of 256 ids from 0 on to
    // 0x100 of the node at 52.
    let its: &[u8] = &[0, 24, 0, 1, 0, 0, 0, 0, 0, 0, 0, 0, 0, 0, 0, 0, 1, 0, 0, 0, 5, 0, 0, 0];
    let mut root = vec![0; 60];
    root[..16].copy_from_slice(&[2, 60, 0, 3, 1, 0, 0, 0, 1, 0, 0, 0, 40, 0, 0, 0]);
    root[40..].copy_from_slice(&[0, 0, 0, 0, 255, 0, 0, 0, 0, 1, 0, 0, 52, 0, 0, 0, 0, 0, 0, 0]);
    let front: &[u8] = &[2, 0, 0, 0, 52, 0, 0, 0, 0, 0, 0, 0, 0xff, 0xff, 0xff, 0xff];
    let table = with(header(b"IORT", 136), &[front, its, &root]);
    let nodes: Vec<_> = Iort::of(&table).unwrap().nodes().collect();
    assert_eq!(nodes.len(), 2);
    assert!(matches!(nodes[0], IortNode::ItsGroup(_)));
    let IortNode::RootComplex(root) = nodes[1] else { panic!("no root complex") };
    let mappings: Vec<_> = root.mappings().collect();
    assert_eq!(mappings.len(), 1);
    assert_eq!((mappings[0].input_base(), mappings[0].output_base(), mappings[0].output_reference()), (0, 0x100, 52));
}

#[test]
fn entries_scopes_and_parts() {
    // 2 GiB from 0 on, in domain 3, which are enabled.
    let mut memory = vec![0; 40];
    memory[..3].copy_from_slice(&[1, 40, 3]);
    (memory[19], memory[28]) = (0x80, 1);
    let table = with(header(b"SRAT", 88), &[&[0; 12], &memory]);
    let entries: Vec<_> = Srat::of(&table).unwrap().entries().collect();
    let [SratEntry::MemoryAffinity(it)] = entries[..] else { panic!("no memory") };
    assert_eq!((it.proximity_domain(), it.base_address(), it.length_2(), it.flags()), (3, 0, 0x8000_0000, 1));
    // A unit whose scope is device 2, function 1 on bus 0.
    let unit: &[u8] = &[0, 0, 24, 0, 0, 0, 0, 0, 0, 0, 0xd9, 0xfe, 0, 0, 0, 0, 1, 8, 0, 0, 0, 0, 2, 1];
    let table = with(header(b"DMAR", 72), &[&[38, 1, 0, 0, 0, 0, 0, 0, 0, 0, 0, 0], unit]);
    let dmar = Dmar::of(&table).unwrap();
    let Some(DmarStructure::DmaRemappingHardwareUnitDefinitionDrhd(it)) = dmar.structures().next() else {
        panic!("no unit");
    };
    assert_eq!((it.register_base_address(), it.scopes().count()), (0xfed9_0000, 1));
}

#[test]
fn registers_and_late_fields() {
    let mut table = header(b"FACP", 276);
    table.resize(276, 0);
    table[116..128].copy_from_slice(&[1, 8, 0, 1, 0xf9, 0x0c, 0, 0, 0, 0, 0, 0]);
    let register = Facp::of(&table).unwrap().reset_reg();
    assert_eq!((register.address_space_id, register.bit_width, register.access_size), (1, 8, 1));
    assert_eq!((register.bit_offset, register.address), (0, 0xcf9));
    let older = Facp::of(&table[..117]).unwrap();
    assert!(!older.is_whole() && older.reset_reg().address_space_id == 1);
    assert_eq!(older.hypervisor_vendor_identity(), [0; 8]);
    let table = with(header(b"TPM2", 52), &[&[0, 0, 0, 0, 0, 0, 0xd4, 0xfe, 0, 0, 0, 0, 6, 0, 0, 0]]);
    assert_eq!(Tpm2::of(&table).unwrap().start_method(), 6);
}
