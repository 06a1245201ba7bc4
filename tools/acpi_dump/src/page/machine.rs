//! The machine as a drawing: a tile for each domain, controller, unit and so on, in which a structure is a box.

use super::drawn::{Kind, Word, drawn_of, print_line};
use super::escape::Html;
use super::escape::Piece::Text;
use super::escape::word_if;
use super::matrices::print_matrices;
use super::sheet::{Sheet, classes_of};
use super::tile::Tile;
use super::values::print_digest;
use crate::prelude::*;
use acpi_programs::walk::share::share_of;
use zacpi::base::model::IsaOverrides;
use zacpi::platform::interrupt::{InterruptSourceOverride, Polarity, TriggerMode};

/// Up to how many processors of a tile have a box each, and how many boxes there are for more.
const SINGLE: usize = 512;

const BOXES: usize = 128;

/// How many boxes as wide as the tile it has at most.
const ROWS: usize = 40;

/// A structure in the drawing.
struct Shape {
    /// The kind of its tile, the number of the table, and that of the tile.
    tile: (Kind, usize, usize),
    part: usize,
    /// Whether its box is as wide as the tile.
    is_wide: bool,
    class: &'static str,
    text: &'static [Word],
    /// An ISA interrupt, and the pin that it comes to.
    isa: Option<(u64, u64)>,
}

/// Where a structure is drawn, if it is, within the one of this number that the table itself has.
fn shape_of(sheet: &Sheet<'_>, table: usize, part: usize, unit: usize) -> Option<Shape> {
    let structure = &sheet.side.parts[part];
    let drawn = drawn_of(sheet, structure)?;
    let entry = sheet.side.bytes(structure.offset, structure.length);
    let tile = match drawn.kind {
        Kind::Domain => share_of(sheet.entry.bytes, entry)?.domain as usize,
        Kind::IoApic | Kind::Unit => unit,
        _ => 0,
    };
    let is_off = drawn.flags.is_some_and(|flags| number_at(entry, flags, 4) & 1 == 0);
    Some(Shape {
        tile: (drawn.kind, table, tile),
        part,
        is_wide: drawn.flags.is_none(),
        class: if is_off { "cpu off" } else { drawn.class },
        text: drawn.text,
        isa: None,
    })
}

/// The structures of a table that are drawn.
fn shapes_of(sheet: &Sheet<'_>, table: usize) -> Vec<Shape> {
    let (mut unit, mut shapes) = (0, Vec::new());
    for (part, structure) in sheet.side.parts.iter().enumerate().skip(1) {
        if structure.parent == 0 {
            unit = part;
        }
        shapes.extend(shape_of(sheet, table, part, unit));
    }
    if sheet.is(b"APIC") {
        add_interrupts(sheet, table, &mut shapes);
    }
    shapes
}

/// Adds the ISA interrupts of a MADT to the tiles of the I/O APICs that they come to (sections 5.2.12.3 and 5.2.12.5):
/// all if there are 8259s, by the flag PCAT_COMPAT, and else those that have an override. Each leads to its override,
/// or to the I/O APIC if it has none.
fn add_interrupts(sheet: &Sheet<'_>, table: usize, shapes: &mut Vec<Shape>) {
    let (overrides, parts) = overrides_of(sheet);
    let has_pics = number_at(sheet.entry.bytes, 40, 4) & 1 != 0; // Flags
    for (irq, part) in (0..16).zip(parts) {
        if (has_pics || part.is_some())
            && let Some(isa) = overrides.isa_interrupt(irq)
            && let Some((controller, pin)) = pin_of(sheet, isa.global_system_interrupt.into())
        {
            shapes.push(Shape {
                tile: (Kind::IoApic, table, controller),
                part: part.unwrap_or(controller),
                is_wide: false,
                class: if part.is_some() { "pin hot" } else { "pin" },
                text: &[],
                isa: Some((irq.into(), pin)),
            });
        }
    }
}

/// The structures of a MADT, of each its number and its bytes, that have a type.
fn entries_of<'p>(sheet: &Sheet<'p>, kind: u64) -> impl Iterator<Item = (usize, &'p [u8])> {
    let side = sheet.side;
    let of_kind = side.parts.iter().enumerate().filter(move |(_, part)| part.kind == Some(kind));
    of_kind.map(move |(number, part)| (number, side.bytes(part.offset, part.length)))
}

/// The Interrupt Source Overrides of a MADT, and the number of the structure that is the last of each ISA interrupt.
fn overrides_of(sheet: &Sheet<'_>) -> (IsaOverrides, [Option<usize>; 16]) {
    let (mut overrides, mut parts) = (IsaOverrides::new(), [None; 16]);
    for (part, entry) in entries_of(sheet, 2).filter(|(_, entry)| field(entry, 2, 1) == 0) {
        let isa_source = field(entry, 3, 1) as u8;
        overrides.add(&InterruptSourceOverride {
            isa_source,
            global_system_interrupt: field(entry, 4, 4) as u32,
            polarity: Polarity::SameAsBus,
            trigger_mode: TriggerMode::SameAsBus,
        });
        if let Some(last) = parts.get_mut(usize::from(isa_source)) {
            *last = Some(part);
        }
    }
    (overrides, parts)
}

/// The I/O APIC of a MADT that an interrupt comes to, by the number of its structure, and the pin: the first one with
/// the greatest base up to the interrupt.
fn pin_of(sheet: &Sheet<'_>, interrupt: u64) -> Option<(usize, u64)> {
    // Global System Interrupt Base.
    let pin = |entry| interrupt.checked_sub(number_at(entry, 8, 4));
    entries_of(sheet, 1).filter_map(|(part, entry)| Some((part, pin(entry)?))).min_by_key(|(_, pin)| *pin)
}

/// Prints the tiles of the drawing: none if there is nothing to draw.
pub(super) fn print_machine(sheets: &[Sheet<'_>], out: &mut Html) {
    let drawn = sheets.iter().enumerate().filter(|(_, sheet)| sheet.is_drawn());
    let mut shapes: Vec<_> = drawn.flat_map(|(table, sheet)| shapes_of(sheet, table)).collect();
    shapes.sort_by_key(|shape| (shape.tile, shape.is_wide));
    let (processors, others) = shapes.split_at(shapes.partition_point(|shape| shape.tile.0 < Kind::IoApic));
    print_tiles(sheets, processors, out);
    print_matrices(sheets, out);
    print_tiles(sheets, others, out);
}

/// Prints the tiles of structures in order.
fn print_tiles(sheets: &[Sheet<'_>], shapes: &[Shape], out: &mut Html) {
    for shapes in shapes.chunk_by(|shape, next| shape.tile == next.tile) {
        let (kind, table, number) = shapes[0].tile;
        print_tile(&sheets[table], kind, number, shapes, out);
    }
}

fn print_title(sheet: &Sheet<'_>, kind: Kind, number: usize, out: &mut Html) {
    let title: &[Word] = match kind {
        Kind::Domain => {
            let domain = "<figure class=\"tile d%\"><div><figcaption><h3>Domain %</h3>";
            return out.words(domain, &[number as u64 % 6, number as u64]);
        }
        Kind::Processors => &[Word::Is("Processors")],
        Kind::IoApic => &[Word::Is("I/O APIC "), Word::Of("I/O APIC ID")],
        Kind::Segments => &[Word::Is("PCI segments")],
        Kind::Unit => &[Word::Name],
        Kind::Gic => &[Word::Is("GIC")],
    };
    out.markup("<figure class=\"tile\"><div><figcaption><h3>");
    print_line(sheet, number, title, out);
    out.markup("</h3>");
}

/// Prints a tile of structures, of which those as wide as the tile come last.
fn print_tile(sheet: &Sheet<'_>, kind: Kind, number: usize, shapes: &[Shape], out: &mut Html) {
    let (boxes, rows) = shapes.split_at(shapes.partition_point(|shape| !shape.is_wide));
    let each = if boxes.len() > SINGLE { boxes.len().div_ceil(BOXES) } else { 1 };
    print_title(sheet, kind, number, out);
    if each > 1 {
        out.words("<p>% processors, % in a box</p>", &[boxes.len() as u64, each as u64]);
    }
    let mut tile = Tile::new(match boxes.len() {
        _ if kind == Kind::IoApic => 3,
        65..=SINGLE => 12,
        _ => 8,
    });
    boxes.chunks(each).for_each(|some| add_box(sheet, some, &mut tile));
    tile.columns = 1;
    rows.chunks(1).take(ROWS).for_each(|some| add_box(sheet, some, &mut tile));
    if let Some(others @ 1..) = rows.len().checked_sub(ROWS) {
        tile.text.words("and % more", &[others as u64]);
        tile.add(None, "", "");
    }
    tile.print(out);
}

/// Adds a box for structures, of which there are several only if they are processors.
fn add_box(sheet: &Sheet<'_>, some: &[Shape], tile: &mut Tile) {
    let (first, structure) = (&some[0], &sheet.side.parts[some[0].part]);
    print_line(sheet, first.part, first.text, &mut tile.text);
    if let Some((irq, pin)) = first.isa {
        tile.text.words("ISA %→%", &[irq, pin]);
        tile.title.words("ISA interrupt %, pin %: ", &[irq, pin]);
    }
    if some.len() > 1 {
        tile.title.words("% processors from this one on: ", &[some.len() as u64]);
    }
    tile.title.fill("$$: ", &[word_if(first.class == "cpu off", "disabled: "), Text(structure.name)]);
    print_digest(sheet.side, first.part, structure, &mut tile.title);
    let seen = some.iter().map(|shape| &sheet.side.parts[shape.part]);
    let seen = seen.fold((0, false), |seen, part| sheet.seen(part.offset, part.length, seen));
    tile.add(Some((sheet, structure.offset)), first.class, classes_of(seen));
}
