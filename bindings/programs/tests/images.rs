//! Images of memory that are written, and read again, also in too little memory. `acpi_rows` has the bytes of more, and
//! why others are not written (`data/images.rows`), and what is read in them (`data/runs.rows` and `data/lent.rows`).
use acpi_programs::image::write::write_in;
use acpi_programs::image::{ImageError, MemoryImage, PlacedTable, WriteError, write_image};
use acpi_programs::image_reader::reader::records_of;
use acpi_programs::rattle::alloc::{AllocError, Allocator, Global};
use std::cell::Cell;
use zacpi::bgrt::Bgrt;
use zacpi::sdt::Signature;
use zacpi::{AcpiError, AcpiResult, AcpiTables};

/// A boot graphic, displayed and turned by 180 degrees, whose checksum is 0.
#[rustfmt::skip]
static GRAPHIC: [u8; 56] = [
    b'B', b'G', b'R', b'T', 56, 0, 0, 0, 0, 0, 0, 0, 0, 0, 0, 0, 0, 0, 0, 0, 0, 0, 0, 0, 0, 0, 0, 0, 0, 0, 0, 0, 0, 0,
    0, 0, 1, 0, 5, 0, 0, 0, 0, 0, 0, 0, 0, 0, 0, 0, 0, 0, 0, 0, 0, 0, // Version, Status
];

fn graphic_at(address: u64) -> PlacedTable<'static> {
    PlacedTable { address, bytes: &GRAPHIC }
}

/// The revision, how many tables are listed, and where the boot graphic is and how it is turned, in an image whose RSDP
/// is at 0x500.
type Graphic = AcpiResult<(u8, usize, u64, u16)>;

fn graphic_in(file: &[u8]) -> Graphic {
    let image = MemoryImage::from_bytes(Global, file).unwrap();
    let tables = AcpiTables::from_rsdp(&image, 0x500)?;
    let graphic = tables.find_table::<Bgrt>()?;
    Ok((tables.revision(), tables.headers().count(), graphic.physical_start(), graphic.orientation_offset()))
}

/// Bytes, and their offset before them.
type Part = (usize, &'static [u8]);

/// Writes an image of an RSDP at 0x500, a root table at 0x1000 and a number of boot graphics, which begin at every
/// 0x1000 bytes from an address on. It has this length, and these bytes at their offsets.
fn written(revision: u8, first: u64, count: u64, length: usize, parts: &[Part]) -> Graphic {
    let tables: Vec<_> = (0..count).map(|index| graphic_at(first + 0x1000 * index)).collect();
    let file = write_image(Global, 0x500, 0x1000, revision, &tables).unwrap();
    assert_eq!(file.len(), length);
    for (offset, part) in parts {
        assert_eq!(file[*offset..][..part.len()], **part, "at {offset}");
    }
    graphic_in(&file)
}

#[test]
fn an_image_of_no_tables() {
    assert_eq!(written(0, 0x2000, 0, 104, &[]), Err(AcpiError::TableMissing(Signature::BGRT)));
}

/// The bytes of the pointers 0x10000, 0x11000 and so on up to 0x4bf000 sum to 160: 16 of them in a row sum to 240 times
/// 8 and 16 times one of 1 to 75.
#[test]
fn an_rsdt_of_1200_tables() {
    let parts: [Part; 9] = [
        (52, &[0, 0x10, 0, 0, 0, 0, 0, 0, 0xe4, 0x12, 0, 0]),
        (68, b"RSDT\xe4\x12\x00\x00\x01\x6c              "),
        (104, &[0, 0, 1, 0, 0, 0x10, 1, 0]),
        (4896, &[0, 0xe0, 0x4b, 0, 0, 0xf0, 0x4b, 0]),
        (4904, &[0, 0, 1, 0, 0, 0, 0, 0, 56, 0, 0, 0, 0, 0, 0, 0]),
        (4920, &[b'B', b'G', b'R', b'T', 56, 0, 0, 0, 0, 0x93]),
        (91232, &[0, 0xf0, 0x4b, 0, 0, 0, 0, 0, 56, 0, 0, 0]),
        (91248, &[b'B', b'G', b'R', b'T', 56, 0, 0, 0, 0, 0x93]),
        (91284, &[1, 0, 5, 0, 0, 0, 0, 0, 0, 0, 0, 0, 0, 0]),
    ];
    assert_eq!(written(0, 0x1_0000, 1200, 91304, &parts), Ok((0, 1200, 0x1_0000, 180)));
}

#[test]
fn an_xsdt_of_1200_tables() {
    let parts: [Part; 9] = [
        (52, &[0, 0x10, 0, 0, 0, 0, 0, 0, 0xa4, 0x25, 0, 0]),
        (68, b"XSDT\xa4\x25\x00\x00\x01\x93              "),
        (104, &[0, 0, 1, 0, 0, 0, 0, 0, 0, 0x10, 1, 0, 0, 0, 0, 0]),
        (9696, &[0, 0xf0, 0x4b, 0, 0, 0, 0, 0]),
        (9704, &[0, 0, 1, 0, 0, 0, 0, 0, 56, 0, 0, 0, 0, 0, 0, 0]),
        (9720, &[b'B', b'G', b'R', b'T', 56, 0, 0, 0, 0, 0x93]),
        (96032, &[0, 0xf0, 0x4b, 0, 0, 0, 0, 0, 56, 0, 0, 0]),
        (96048, &[b'B', b'G', b'R', b'T', 56, 0, 0, 0, 0, 0x93]),
        (96084, &[1, 0, 5, 0, 0, 0, 0, 0, 0, 0, 0, 0, 0, 0]),
    ];
    assert_eq!(written(2, 0x1_0000, 1200, 96104, &parts), Ok((2, 1200, 0x1_0000, 180)));
}

#[test]
fn what_is_written_is_opened() {
    let tables = [graphic_at(0x3000), graphic_at(0x2000)];
    for revision in [0, 1, 2, 255] {
        let file = write_image(Global, 0x500, 0x1000, revision, &tables).unwrap();
        assert_eq!(graphic_in(&file), Ok((revision, 2, 0x3000, 180)));
    }
}

/// An SSDT of 70,000 bytes, 0x11170, with this Checksum. Each byte from offset 36 on is its offset modulo 251: these
/// are 278 times 0 to 250 and then 0 to 221, without the first 0 to 35. All but Checksum sum up to 8,746,601, which is
/// 0x69 modulo 256.
fn large_table(checksum: u8) -> Vec<u8> {
    let mut bytes = b"SSDT\x70\x11\x01\x00\x02".to_vec();
    bytes.push(checksum);
    bytes.resize(36, 0);
    bytes.extend((36..70_000u32).map(|offset| (offset % 251) as u8));
    bytes
}

#[test]
fn a_table_above_64_kib_is_read_back() {
    let (table, wanted) = (large_table(0), large_table(0x97));
    let placed = [PlacedTable { address: 0x2000, bytes: &table }];
    // Three records of 16 bytes each, with 36 bytes of the RSDP, 40 of an RSDT or 44 of an XSDT, and the table.
    for (revision, length) in [(0, 70_124), (2, 70_128)] {
        let file = write_image(Global, 0x500, 0x1000, revision, &placed).unwrap();
        assert_eq!(file.len(), length);
        let image = MemoryImage::from_bytes(Global, &file).unwrap();
        let tables = AcpiTables::from_rsdp(&image, 0x500).unwrap();
        assert!(tables.find_sdt(Signature::SSDT).unwrap().bytes() == wanted);
    }
}

/// So many bytes of the global allocator's memory, how many of them are taken, and how many blocks these are.
struct Limit {
    room: usize,
    taken: Cell<usize>,
    blocks: Cell<usize>,
}

impl Limit {
    fn new(room: usize) -> Self {
        Limit { room, taken: Cell::new(0), blocks: Cell::new(0) }
    }
}

impl Allocator for Limit {
    fn take(&self, size: usize) -> Result<(), AllocError> {
        let taken = self.taken.get() + size;
        if taken > self.room {
            return Err(AllocError);
        }
        self.taken.set(taken);
        self.blocks.set(self.blocks.get() + 1);
        Ok(())
    }

    fn give(&self, size: usize) {
        self.taken.set(self.taken.get().checked_sub(size).expect("it was taken"));
        self.blocks.set(self.blocks.get() - 1);
    }
}

/// How many bytes are written in so much memory, of which then the file alone has some, and afterwards nothing.
fn length_within(room: usize, root: u64, revision: u8, tables: &[PlacedTable<'_>]) -> Result<usize, WriteError> {
    let limit = Limit::new(room);
    let length = write_in(&limit, 0x500, root, revision, tables).map(|file| {
        assert!(limit.blocks.get() == 1 && limit.taken.get() >= file.len());
        file.len()
    });
    assert_eq!((limit.taken.get(), limit.blocks.get()), (0, 0));
    length
}

#[test]
fn writing_fails_wherever_memory_runs_out() {
    let tables = [graphic_at(0x2000), graphic_at(0x3000)];
    let found: Vec<_> = (0..64).map(|blocks| length_within(16 * blocks, 0x1000, 0, &tables)).collect();
    let is_known = |it: &Result<usize, WriteError>| matches!(it, Ok(256) | Err(WriteError::OutOfMemory));
    assert!(found.iter().all(is_known), "{found:?}");
    let refused = found.iter().filter(|it| it.is_err()).count();
    assert!(refused > 1 && found.len() - refused > 1, "{found:?}");
}

#[test]
fn writing_needs_memory_only_after_its_checks() {
    assert_eq!(length_within(0, 0x500, 0, &[]), Err(WriteError::Overlap));
    assert_eq!(length_within(0, 0x1000, 0, &[]), Err(WriteError::OutOfMemory));
}

/// Fourteen boot graphics that touch, from 0x2000 to 0x2310, in another order than by their addresses, and after them
/// one that shares a byte with the last, or none.
#[test]
fn tables_are_compared_without_memory_too() {
    for (address, error) in [(0x230f, WriteError::Overlap), (0x2310, WriteError::OutOfMemory)] {
        let mut tables: Vec<_> = (0..14).map(|index| graphic_at(0x2000 + 56 * (5 * index % 14))).collect();
        tables.push(graphic_at(address));
        for blocks in 0..64 {
            assert_eq!(length_within(16 * blocks, 0x1000, 2, &tables), Err(error), "{blocks}");
        }
    }
}

/// The file of fourteen records of one byte, a 7 at each address from 0 on.
fn fourteen() -> Vec<u8> {
    let record = |start: u64| [&start.to_le_bytes()[..], &1u64.to_le_bytes(), &[7]].concat();
    (0..14).flat_map(record).collect()
}

/// At how many of the fifteen lowest addresses a 7 is mapped and nothing after it, for a file that is read in so much
/// memory, some of which is used then, and none afterwards.
fn sevens_within(room: usize, file: &[u8]) -> Result<usize, ImageError> {
    let limit = Limit::new(room);
    let sevens = records_of(&limit, file).map(|records| {
        let sevens = (0..15).filter(|start| records.rest_at(*start) == [7]).count();
        assert!(sevens == 0 || limit.taken.get() > 0);
        sevens
    });
    assert_eq!(limit.taken.get(), 0);
    sevens
}

#[test]
fn reading_fails_wherever_memory_runs_out() {
    let file = fourteen();
    let found: Vec<_> = (0..256).map(|blocks| sevens_within(16 * blocks, &file)).collect();
    assert!(found.iter().all(|it| matches!(it, Ok(14) | Err(ImageError::OutOfMemory))), "{found:?}");
    let refused = found.iter().filter(|it| it.is_err()).count();
    assert!(refused > 1 && found.len() - refused > 1, "{found:?}");
}

/// How many bytes of the file are left, and what is returned without memory.
#[test]
fn reading_needs_memory_only_after_its_checks() {
    let file = fourteen();
    for (left, answer) in [(127, Err(ImageError::OutOfMemory)), (15, Err(ImageError::Truncated)), (0, Ok(0))] {
        assert_eq!(sevens_within(0, &file[..left]), answer);
    }
}

/// Checks that each error equals itself and its clone, and no other.
fn are_apart<T: Copy + std::fmt::Debug + PartialEq>(errors: &[T]) {
    for (row, error) in errors.iter().enumerate() {
        assert_eq!(T::clone(error), *error);
        assert!(errors.iter().enumerate().all(|(column, other)| (error == other) == (row == column)), "{error:?}");
    }
}

#[test]
fn errors_are_apart_and_print_their_names() {
    use WriteError::*;
    are_apart(&[ImageError::Truncated, ImageError::EndTooLarge, ImageError::Overlap, ImageError::OutOfMemory]);
    are_apart(&[ZeroRoot, BadTable(1), BadTable(2), TooMany, PointerTooLarge, EndTooLarge, Overlap, OutOfMemory]);
    let printed = [ZeroRoot, BadTable(12), TooMany, PointerTooLarge, EndTooLarge, Overlap, OutOfMemory];
    let texts = ["ZeroRoot", "BadTable 12", "TooMany", "PointerTooLarge", "EndTooLarge", "Overlap", "OutOfMemory"];
    assert_eq!(printed.map(|error| error.to_string()), texts);
}
