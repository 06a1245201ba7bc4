//! Entries of tables: where they are, and new ones.

use crate::memory::HEADER;
use crate::random::Random;
use crate::words::{number, put};

/// How a table's entries are laid out: the first one, how wide Type is, and where Length is and how wide; a width of 0
/// is an MCFG's regions', which have neither.
struct Shape {
    first: usize,
    kind: usize,
    at: usize,
    width: usize,
}

fn shape(name: &[u8]) -> Option<Shape> {
    let (first, kind, at, width) = match name {
        b"APIC" | b"SRAT" => (if name == b"APIC" { 44 } else { 48 }, 1, 1, 1),
        b"DMAR" => (48, 2, 2, 2),
        b"IVRS" => (48, 1, 2, 2),
        b"GTDT" => (96, 1, 1, 2),
        b"MCFG" => (44, 0, 0, 0),
        b"RHCT" => (56, 2, 2, 2),
        _ => return None,
    };
    Some(Shape { first, kind, at, width })
}

pub fn has_entries(name: &[u8]) -> bool {
    shape(name).is_some()
}

/// Types with lengths that they can have, the shortest ones too.
const KINDS: &[(&[u8; 4], &[(u16, u16)])] = &[
    (
        b"APIC",
        &[
            (0, 8), (1, 12), (2, 10), (3, 8), (4, 6), (5, 12), (6, 16), (7, 22), (8, 16), (9, 16), (10, 12), (11, 82),
            (11, 80), (11, 76), (12, 24), (13, 24), (14, 16), (14, 20), (15, 20), (16, 16), (24, 36), (24, 20),
            (25, 16), (26, 36), (27, 36),
        ],
    ),
    (b"SRAT", &[(0, 16), (1, 40), (2, 24), (3, 18), (4, 12), (5, 32), (6, 32)]),
    (
        b"DMAR",
        &[
            (0, 16), (0, 24), (0, 32), (1, 24), (1, 32), (2, 8), (2, 16), (3, 20), (4, 8), (4, 12), (5, 8), (5, 16),
            (6, 8), (6, 16), (7, 4), (9, 12),
        ],
    ),
    (
        b"IVRS",
        &[(16, 24), (16, 32), (17, 40), (17, 48), (64, 40), (64, 64), (32, 32), (33, 32), (34, 32), (35, 4)],
    ),
    (b"GTDT", &[(0, 60), (0, 100), (0, 20), (1, 28)]),
    (b"RHCT", &[(0, 16), (65535, 16), (1, 10)]),
];

/// Where the entries of a table are, and their lengths.
pub fn entries(table: &[u8]) -> Vec<(usize, usize)> {
    let mut found = Vec::new();
    if table.len() < HEADER {
        return found;
    }
    let Some(shape) = shape(&table[..4]) else { return found };
    let is_moved = &table[..4] == b"GTDT" && table.len() > 96; // by Platform Timer Offset
    let mut from = if is_moved { number(&table[92..96]) as usize } else { shape.first };
    while found.len() < 200 && from + 4 <= table.len() {
        let end = (from + shape.at + shape.width).min(table.len());
        let length = if shape.width == 0 { 16 } else { number(&table[from + shape.at..end]) as usize };
        if length < 2 || from + length > table.len() {
            break;
        }
        found.push((from, length));
        from += length;
    }
    found
}

/// Small numbers mostly, and large ones.
pub fn value(random: &mut Random) -> u64 {
    match random.below(8) {
        0..4 => random.below(9),
        4 => random.below(256),
        5 => 1 << random.below(64),
        6 => (1u64 << random.below(64)).wrapping_sub(random.below(3)),
        _ => random.next(),
    }
}

/// An entry of a type that a table can have.
pub fn made_entry(name: &[u8], random: &mut Random) -> Vec<u8> {
    let Some((_, types)) = KINDS.iter().find(|kind| &kind.0[..] == name) else { return Vec::new() };
    let Some(shape) = shape(name) else { return Vec::new() };
    let (kind, mut length) = random.of(types);
    match random.below(12) {
        0 => length = (length as u64 + random.below(5)).saturating_sub(2) as u16,
        1 => length = 2 + random.below(14) as u16,
        2 | 3 => length = 2 + random.below(length as u64 + 4) as u16, // fields are cut at each place
        _ => {}
    }
    let mut entry = vec![0; length as usize];
    let (mut from, density) = (0, random.below(4));
    while from < entry.len() {
        let size = random.of(&[1, 1, 2, 4, 8]);
        if random.below(4) >= density {
            let number = value(random);
            put(&mut entry, from, size, number);
        }
        from += size;
    }
    put(&mut entry, 0, shape.kind, kind as u64);
    put(&mut entry, shape.at, shape.width, length as u64);
    match name {
        b"DMAR" if kind != 3 => make_scopes(&mut entry, kind, random),
        b"IVRS" if kind < 32 || kind == 64 => make_devices(&mut entry, if kind == 16 { 24 } else { 40 }, random),
        _ => {}
    }
    entry
}

/// Device scopes of one hop or two.
fn make_scopes(entry: &mut [u8], kind: u16, random: &mut Random) {
    let mut from = [16, 24, 8, 20, 8, 8, 8][kind as usize % 7];
    while from + 8 <= entry.len() {
        let hops = 1 + random.index(2);
        entry[from] = random.below(6) as u8;
        entry[from + 1] = (6 + 2 * hops) as u8;
        for i in 5..8 {
            entry[from + i] = random.below(4) as u8;
        }
        from += 6 + 2 * hops;
    }
}

/// Device entries of an IVHD.
fn make_devices(entry: &mut [u8], first: usize, random: &mut Random) {
    let mut from = first;
    while from + 4 <= entry.len() {
        let kind = random.of(&[0u8, 1, 2, 3, 4, 66, 67, 70, 71, 72, 240, 1, 2, 129, 193]);
        entry[from] = kind;
        put(entry, from + 1, 2, random.below(40));
        let size = match kind {
            0..=63 => 4,
            64..=127 => 8,
            128..=191 => 16,
            192..=239 => 32,
            _ => 22,
        };
        if kind == 240 && from + 22 <= entry.len() {
            entry[from + 20] = random.below(3) as u8;
            entry[from + 21] = random.below(12) as u8;
        }
        from += size;
    }
}
