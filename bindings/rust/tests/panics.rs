//! The `# Panics` of each function, which `scripts/panics.txt` lists: by a call that keeps just what it requires, and one
//! that doesn't. Overflow is checked.
use std::panic::{AssertUnwindSafe, catch_unwind};
use zacpi::base::bytes::{bits, field_in, filled_in, has_bit, u8_in, u16_in, u32_in};
use zacpi::base::model::MadtItem;
use zacpi::base::table::valid_by;
use zacpi::fadt::FadtView;
use zacpi::handler::MappedRegion;
use zacpi::mcfg::McfgEntry;
use zacpi::numa::SratEntry;
use zacpi::riscv::RiscvEntry;
use zacpi::rsdp::Rsdp;
use zacpi::sdt::{SdtHeader, Signature};
use zacpi::sleep::{sleep_types, tables::block_answer};
use zacpi::write::spelled::{Bytes, Spelled};
use zacpi::write::{Listed, TableContents, TableIds};
use zacpi::{AcpiTables, PhysicalMapping, PhysicalRecord, Pointers, set_sum};

/// Checks that a call returns, and another one panics.
fn check<T, U>(function: &str, kept: impl FnOnce() -> T, broken: impl FnOnce() -> U) {
    assert!(catch_unwind(AssertUnwindSafe(kept)).is_ok(), "{function}: panics");
    assert!(catch_unwind(AssertUnwindSafe(broken)).is_err(), "{function}: doesn't panic");
}

/// A table without ids, whose Length is that of a part of it and whose sum, over that part, is 0.
fn table(signature: &[u8; 4], length: u8) -> [u8; 128] {
    let mut table = [0; 128];
    table[..4].copy_from_slice(signature);
    table[4] = length;
    set_sum(&mut table[..length.into()], 9);
    table
}

#[test]
fn fields_of_bytes() {
    let bytes = [0; 8];
    check("acpi_bytes/src/bytes.rt filled_in", || filled_in::<4>(&bytes, 4), || filled_in::<4>(&bytes, 5));
    check("acpi_bytes/src/bytes.rt field_in", || field_in(&bytes, 4, 4), || field_in(&bytes, 5, 4));
    check("acpi_bytes/src/bytes.rt u8_in", || u8_in(&bytes, 7), || u8_in(&bytes, 8));
    check("acpi_bytes/src/bytes.rt u16_in", || u16_in(&bytes, 6), || u16_in(&bytes, 7));
    check("acpi_bytes/src/bytes.rt u32_in", || u32_in(&bytes, 4), || u32_in(&bytes, 5));
    check("acpi_bytes/src/bytes.rt has_bit", || has_bit(1, 63), || has_bit(1, 64));
    check("acpi_bytes/src/bytes.rt bits", || bits(1, 63, 63), || bits(1, 64, 1));
    check("acpi_bytes/src/bytes.rt bits", || bits(1, 63, 63), || bits(1, 1, 64));
    check("acpi_image/src/sums.rt set_sum", || set_sum(&mut [0; 8], 7), || set_sum(&mut [0; 8], 8));
}

#[test]
fn entries_and_records() {
    let [apic, affinity] = [[0, 8, 0, 0, 0, 0, 0, 0], [0, 16, 0, 0, 0, 0, 0, 0]];
    check("acpi_base/src/model/item.rt fault", || MadtItem::fault(&apic), || MadtItem::fault(&apic[..7]));
    let whole = [affinity, [0; 8]].concat();
    check("acpi_numa/src/srat/entry.rt read", || SratEntry::read(1, &whole), || SratEntry::read(1, &whole[..7]));
    check("acpi_numa/src/srat/entry.rt read", || SratEntry::read(1, &whole), || SratEntry::read(1, &[]));
    check("acpi_riscv/src/entry.rt is_short", || RiscvEntry::is_short(&[0x18]), || RiscvEntry::is_short(&[]));
    check("acpi_bytes/src/handler.rt read", || SdtHeader::read(&[0; 36]), || SdtHeader::read(&[0; 35]));
    let mut rsdp = [0; 36];
    rsdp[..8].copy_from_slice(b"RSD PTR ");
    let validate = |length: usize| Rsdp::read(&rsdp).validate(&rsdp[..length]);
    check("acpi/src/rsdp.rt validate", || validate(20), || validate(19));
}

#[test]
fn mappings() {
    let bytes = table(b"SSDT", 36);
    let memory = MappedRegion::new(0x1000, &bytes).unwrap();
    let new = |length| PhysicalMapping::<_, SdtHeader>::new(0x1000, &bytes[..64], length, &memory).region_length();
    check("acpi_base/src/memory/mapping.rt new", || new(64), || new(65));
    check("acpi_base/src/memory/mapping.rt new", || new(36), || new(35));
    let map = |size| PhysicalMapping::<_, SdtHeader>::map(&memory, 0x1000, size).unwrap().region_length();
    check("acpi_base/src/memory/mapping.rt map", || map(36), || map(35));
}

/// The tables that `least` below 36 lets through.
#[test]
fn tables_shorter_than_a_header() {
    let [short, whole] = [table(b"SSDT", 20), table(b"SSDT", 36)];
    let length_of = |bytes: &[u8], least| {
        let memory = MappedRegion::new(0x1000, bytes).unwrap();
        let found = valid_by(&memory, 0x1000, Signature::SSDT, least, 0).unwrap();
        found.mapping::<SdtHeader>().region_length()
    };
    check("acpi_base/src/table/lookup.rt valid_by", || length_of(&whole, 36), || length_of(&short, 20));
    check("acpi_base/src/table/lookup.rt mapping", || length_of(&whole, 20), || length_of(&short, 20));
    let found = |member: &[u8; 128], least| {
        let mut root = table(b"RSDT", 40);
        root[36..40].copy_from_slice(&0x1080u32.to_le_bytes());
        set_sum(&mut root[..40], 9);
        let bytes = [root, *member].concat();
        let memory = MappedRegion::new(0x1000, &bytes).unwrap();
        let tables = AcpiTables::from_rsdt(&memory, 0, 0x1000).unwrap();
        tables.find_bytes(Signature::SSDT, least).unwrap().mapping::<SdtHeader>().region_length()
    };
    check("acpi/src/tables/places.rt find_bytes", || found(&whole, 36), || found(&short, 20));
}

#[test]
fn a_view_of_a_short_table() {
    let profile = |length: u8| {
        let bytes = table(b"FACP", length);
        let memory = MappedRegion::new(0x1000, &bytes).unwrap();
        FadtView::new(valid_by(&memory, 0x1000, Signature::FADT, 36, 0).unwrap()).power_profile()
    };
    check("acpi_fixed/src/fadt/view.rt new", || profile(116), || profile(36));
}

/// The first is followed as far as is asked for.
#[test]
fn pointers_without_a_width() {
    let count = |width| Pointers::new(width, &[0; 16]).take(1000).count();
    assert_eq!([count(8), count(0)], [2, 1000], "acpi/src/pointers.rt new");
}

#[test]
fn a_sleep_state_that_has_no_name() {
    let bytes = [&table(b"SSDT", 36)[..36], &[0x08, b'_', b'S', b'5', b'_', 0x00]].concat();
    let answer = |state| block_answer(Signature::SSDT, state, &bytes).is_ok();
    check("acpi_sleep/src/sleep.rt sleep_types", || sleep_types(&bytes[36..], 207), || sleep_types(&bytes[36..], 208));
    check("acpi_sleep/src/tables.rt block_answer", || answer(207), || answer(208));
}

#[test]
fn slices_of_another_length() {
    let put = |length| Bytes(b"four").put(&mut [0; 8][..length]);
    check("acpi_table_writer/src/spelled.rt put", || put(4), || put(3));
    let (oem_id, oem_table_id, creator_id) = (*b"ZUGZW ", *b"PANICS  ", *b"TEST");
    let ids = TableIds { oem_id, oem_table_id, oem_revision: 1, creator_id, creator_revision: 1 };
    let mcfg: TableContents<'_> = TableContents::Mcfg(&[] as &[McfgEntry]);
    let length = mcfg.size(&ids).unwrap();
    let put = |length| mcfg.put(&mut [0; 64][..length], &ids);
    check("acpi_table_writer/src/listed.rt put", || put(length), || put(35));
}
