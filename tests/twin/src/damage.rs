//! Changes of tables.

use crate::aml::{made_aml, terms};
use crate::entries::{entries, has_entries, made_entry, value};
use crate::memory::HEADER;
use crate::random::Random;
use crate::words::put;

const MOST: usize = 6000; // bytes of a table

fn splice(table: &mut Vec<u8>, from: usize, gone: usize, new: Vec<u8>) {
    let from = from.min(table.len());
    let to = (from + gone).min(table.len());
    table.splice(from..to, new);
    table.truncate(MOST);
}

/// Changes one thing of a table: a field, a length, an entry, AML.
pub fn damage(table: &mut Vec<u8>, pool: &[Vec<u8>], random: &mut Random) {
    if table.len() < HEADER {
        table.resize(HEADER, 0);
    }
    let name: [u8; 4] = table[..4].try_into().expect("four bytes");
    let is_aml = matches!(&name, b"DSDT" | b"SSDT");
    let found = entries(table);
    match random.below(if is_aml { 20 } else if found.is_empty() { 12 } else { 18 }) {
        12.. if is_aml => put_aml(table, random),
        12.. => change_entry(table, &name, &found, random),
        how @ 0..7 => change_field(table, &name, how, random),
        how => change_length(table, &name, how, pool, random),
    }
    if found.is_empty() && random.one_in(4) && has_entries(&name) {
        table.extend(made_entry(&name, random));
    }
}

fn change_field(table: &mut Vec<u8>, name: &[u8; 4], how: u64, random: &mut Random) {
    let at = random.index(table.len());
    match how {
        0..4 => {
            let (size, number) = (random.of(&[1, 1, 1, 2, 4, 8]), value(random));
            put(table, at, size, number);
        }
        4 if random.one_in(3) => table[10 + random.index(14)] ^= 0x80, // OEMID and OEM Table ID are texts
        4 => table[at] ^= 1 << random.below(8),
        5 => {
            let at = HEADER + random.index(table.len() - HEADER + 1);
            let size = random.of(&[1, 1, 2, 4]);
            put(table, at, size, random.below(6));
        }
        _ => {
            let registers = [116, 148, 160, 172, 184, 196, 208, 220, 232, 244, 256];
            let at = if name == b"FACP" { random.of(&registers) } else { at };
            splice(table, at, 12, generic_address(random));
        }
    }
}

fn generic_address(random: &mut Random) -> Vec<u8> {
    let mut made = vec![
        random.of(&[0, 1, 1, 0, 2, 3, 4, 5, 6, 7, 8, 9, 10, 127, 192, 255]),
        random.of(&[0, 8, 16, 32, 64, 4, 24, 255]),
        random.of(&[0, 0, 0, 1, 8]),
        random.below(6) as u8,
    ];
    let address = if random.one_in(2) { random.below(0x10000) } else { value(random) };
    made.extend(address.to_le_bytes());
    made
}

fn change_length(table: &mut Vec<u8>, name: &[u8; 4], how: u64, pool: &[Vec<u8>], random: &mut Random) {
    let at = random.index(table.len());
    match how {
        7 => splice(table, at, 1 + random.index(24), Vec::new()),
        8 => {
            let made = (0..1 + random.index(24)).map(|_| value(random) as u8).collect();
            splice(table, at, 0, made);
        }
        9 => {
            let length = match random.below(3) {
                0 if name == b"FACP" => random.of(&[116, 129, 132, 140, 148, 159, 160, 172, 208, 220, 244, 268, 276]),
                1 => random.index(table.len()),
                _ => table.len() - random.index(10),
            };
            table.resize(length.max(HEADER), 0);
        }
        10 => table[8] = random.below(8) as u8,
        _ if pool.is_empty() => {}
        _ => {
            let other = &pool[random.index(pool.len())];
            let from = random.index(other.len());
            let length = (1 + random.index(64)).min(other.len() - from);
            splice(table, at, length, other[from..from + length].to_vec());
        }
    }
}

fn change_entry(table: &mut Vec<u8>, name: &[u8; 4], found: &[(usize, usize)], random: &mut Random) {
    let (from, length) = random.of(found);
    match random.below(6) {
        0 => splice(table, from, length, Vec::new()),
        1 => {
            let entry = table[from..from + length].to_vec();
            splice(table, from, 0, entry);
        }
        2 => splice(table, from, 0, made_entry(name, random)),
        3 => table.extend(made_entry(name, random)),
        _ => {
            let at = from + random.index(length);
            let (size, number) = (random.of(&[1, 1, 2, 4, 8]), value(random));
            put(table, at, size, number);
        }
    }
}

/// Puts the package of a sleep state somewhere, or in the place of one; or terms before what is there.
fn put_aml(table: &mut Vec<u8>, random: &mut Random) {
    if random.one_in(3) {
        return splice(table, HEADER, 0, terms(random));
    }
    let any = HEADER + random.index(table.len() - HEADER + 1);
    let made = made_aml(random);
    let there = table.windows(2).position(|two| two == b"_S").filter(|_| random.one_in(2));
    let gone = if random.one_in(2) { made.len() } else { 0 };
    splice(table, there.map_or(any, |at| at.max(1) - 1), gone, made);
}
