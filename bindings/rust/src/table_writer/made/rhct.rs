// Made by scripts/erase of crates/acpi_table_writer/src/made/rhct.rt, where it is proved.
//! Made by scripts/written of specs/Rhct.antt.

use crate::table_writer::fields::Field;

/// After the header: the fixed fields, and of the ISA String Node, at 56, all but the string.
pub(crate) fn front_fields(flags: u32, frequency: u64, count: u32, node_length: u16, isa_length: u16) -> [Field; 8] {
    [
        // 36: Flags, 40: Time Base Frequency
        Field::U32(flags),
        Field::U64(frequency),
        // 48: Number of RHCT nodes, 52: Offset to the RHCT node array
        Field::U32(count),
        Field::U32(56),
        // in the node 0: Type, 2: Length
        Field::U16(0),
        Field::U16(node_length),
        // 4: Revision, 6: ISA Length
        Field::U16(1),
        Field::U16(isa_length),
    ]
}

/// Hart Info Node.
pub(crate) fn hart_fields(uid: u32) -> [Field; 6] {
    [
        // 0: Type, 2: Length, 4: Revision
        Field::U16(0xffff),
        Field::U16(16),
        Field::U16(1),
        // 6: Number of Offsets, 8: ACPI Processor UID, 12: Offset (of the ISA String Node)
        Field::U16(1),
        Field::U32(uid),
        Field::U32(56),
    ]
}
