//! The harts and interrupt controllers of a RISC-V machine.
mod common;
use common::{IDS, Memory, TABLE, all, filled, plain, plains, with};
use zacpi::AcpiError;
use zacpi::lists::{madt_faults, refusal::Refusal, riscv as lists};
use zacpi::madt::Madt;
use zacpi::riscv::{Aplic, Imsic, Plic, Rintc, RiscvEntry, RiscvEntryIter};
use zacpi::sdt::Signature;
use zacpi::write::{RhctContents, RiscvContents, WriterError, write_rhct, write_riscv_madt};

fn machine() -> Memory {
    #[rustfmt::skip]
    let fields = [
        // RINTC of 36 bytes (ACPI 6.6, section 5.2.12): Version at 2, Flags at 4, Hart ID at 8, ACPI Processor UID at
        // 16, External Interrupt Controller ID at 20, IMSIC Base Address at 24, IMSIC Size at 32.
        (44, 2, 0x2418), (46, 1, 1), (48, 4, 3), (52, 8, 0x1_0000_0002), (60, 4, 4), (64, 4, 0x500_0006),
        (68, 8, 0x2_2800_0000), (76, 4, 0x1000),
        // IMSIC: Version, Flags, identities at 8 and 10, bits at 12 to 14, Group Index Shift at 15.
        (80, 2, 0x1019), (82, 1, 1), (84, 4, 0), (88, 2, 255), (90, 2, 63), (92, 1, 3), (93, 1, 7), (94, 1, 1),
        (95, 1, 24),
        // RINTC of 20 bytes.
        (96, 2, 0x1418), (98, 1, 1), (100, 4, 1), (104, 8, 9), (112, 4, 5),
        // APLIC: ID at 3, Flags at 4, Hardware ID at 8, Number of IDCs at 16, sources at 18, Global System Interrupt
        // Base at 20, APLIC Address at 24, APLIC Size at 32.
        (116, 2, 0x241a), (118, 1, 1), (119, 1, 2), (124, 8, 0x3130), (132, 2, 0), (134, 2, 96), (136, 4, 0x60),
        (140, 8, 0xd00_0000), (148, 4, 0x8000),
        // PLIC: ID at 3, Hardware ID at 4, sources at 12, Max Priority at 14, Flags at 16, PLIC Size at 20, PLIC
        // Address at 24, Global System Interrupt Vector Base at 32.
        (152, 2, 0x241b), (154, 1, 1), (155, 1, 3), (156, 8, 0x33), (164, 2, 95), (166, 2, 7), (172, 4, 0x60_0000),
        (176, 8, 0xc00_0000), (184, 4, 0x20),
    ];
    with("APIC", 6, 188, &fields)
}

const EXPECTED: [&str; 5] = [
    "Rintc 100000002 228000000 3 4 5000006 1000 1",
    "Imsic 0 ff 3f 3 7 1 18 1",
    "Rintc 9 0 1 5 0 0 1",
    "Aplic d000000 3130 0 60 8000 0 60 2 1",
    "Plic c000000 33 0 20 600000 5f 7 3 1",
];

#[test]
fn lists_harts_and_controllers() {
    let memory = machine();
    memory.bytes_of::<Madt, _>(|table| assert_eq!(plains(RiscvEntryIter::over(table)), EXPECTED));
    memory.list(|source| {
        let rintcs: Vec<Rintc> = all(|out| lists::riscv_entries(source, out)).unwrap();
        assert_eq!(plains(&rintcs), [EXPECTED[0], EXPECTED[2]]);
        assert_eq!(filled(1, |out| lists::riscv_entries_from(source, 1, out)), Ok((vec![rintcs[1]], 2)));
        let imsics: Vec<Imsic> = all(|out| lists::riscv_entries(source, out)).unwrap();
        let aplics: Vec<Aplic> = all(|out| lists::riscv_entries(source, out)).unwrap();
        let plics: Vec<Plic> = all(|out| lists::riscv_entries(source, out)).unwrap();
        assert_eq!([plain(imsics[0]), plain(aplics[0]), plain(plics[0])], [EXPECTED[1], EXPECTED[3], EXPECTED[4]]);
    });
    // A RINTC of 19 bytes, and no other entry.
    with("APIC", 6, 63, &[(44, 2, 0x1318)]).list(|source| {
        assert_eq!(lists::riscv_entries::<Rintc>(source, &mut []), Err(Refusal::NoRiscv));
        let faults = all(|out| madt_faults::madt_faults(source, out)).unwrap();
        assert_eq!(plains(&faults), [format!("EntryFault {:x} 3b 18", TABLE + 44)]);
    });
    assert_eq!([19, 20].map(|length| RiscvEntry::is_short(&[0x18; 20][..length])), [true, false]);
    let missing = Refusal::Acpi(AcpiError::TableMissing(Signature::MADT));
    assert_eq!(Memory::rsdt(&[]).list(|source| lists::riscv_entries::<Plic>(source, &mut [])), Err(missing));
}

/// What was written is read, and nothing is written without a hart. A RINTC is written with 36 bytes.
#[test]
fn writes_what_is_read() {
    machine().list(|source| {
        let rintcs: Vec<Rintc> = all(|out| lists::riscv_entries(source, out)).unwrap();
        let imsics: Vec<Imsic> = all(|out| lists::riscv_entries(source, out)).unwrap();
        let aplics: Vec<Aplic> = all(|out| lists::riscv_entries(source, out)).unwrap();
        let plics: Vec<Plic> = all(|out| lists::riscv_entries(source, out)).unwrap();
        let contents = RiscvContents { rintcs: &rintcs, imsics: &imsics, aplics: &aplics, plics: &plics };
        let mut bytes = [0; 512];
        let length = 44 + 2 * 36 + 16 + 36 + 36;
        assert_eq!(write_riscv_madt(&mut bytes, &IDS, &contents), Ok(length));
        let order = [0, 2, 1, 3, 4].map(|n: usize| EXPECTED[n]);
        assert_eq!(plains(RiscvEntryIter::over(&bytes[..length])), order);
        let none = RiscvContents { rintcs: &[], ..contents };
        assert_eq!(write_riscv_madt(&mut bytes, &IDS, &none), Err(WriterError::NoProcessor));
    });
}

/// An ISA String Node at 56, and a Hart Info Node of it for each hart.
#[test]
fn writes_hart_capabilities() {
    let mut bytes = [0; 128];
    let rhct = RhctContents { isa: b"rv64i", harts: &[7, 8], time_base_frequency: 10_000_000, flags: 0 };
    assert_eq!(write_rhct(&mut bytes, &IDS, &rhct), Ok(102));
    assert_eq!(bytes[40..48], 10_000_000u64.to_le_bytes());
    assert_eq!(bytes[56..70], *b"\0\0\x0e\0\x01\0\x06\0rv64i\0");
    assert_eq!(bytes[86..102], [255, 255, 16, 0, 1, 0, 1, 0, 8, 0, 0, 0, 56, 0, 0, 0]);
    let none = RhctContents { isa: b"", harts: &[], ..rhct };
    assert_eq!(write_rhct(&mut bytes, &IDS, &none), Err(WriterError::NoProcessor));
}
