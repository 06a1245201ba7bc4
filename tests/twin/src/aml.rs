//! AML: packages of sleep states, and what may be before them and around them (section 20.2).

use crate::random::Random;

/// A PkgLength of what it is before, in the fewest bytes or in two, and that.
fn block(inside: Vec<u8>, random: &mut Random) -> Vec<u8> {
    let length = inside.len() + 1;
    let mut made = match length {
        0..=63 if !random.one_in(4) => vec![length as u8],
        _ => vec![0x40 | (length + 1) as u8 & 15, ((length + 1) >> 4) as u8],
    };
    if random.one_in(12) {
        made[0] = made[0].wrapping_add(random.below(4) as u8);
    }
    made.extend(inside);
    made
}

fn segment(random: &mut Random) -> Vec<u8> {
    match random.below(8) {
        0..5 => vec![b'_', b'S', b'0' + random.below(7) as u8, b'_'],
        5 => b"_SB_".to_vec(),
        6 => b"ABC0".to_vec(),
        _ => vec![b'_', b'S', random.next() as u8, b'_'],
    }
}

/// A name: at the root or some scopes up, of no segment, one, two or more.
fn name(random: &mut Random) -> Vec<u8> {
    let mut made = random.of(&[&b""[..], b"", b"", b"\\", b"\\", b"^", b"^^"]).to_vec();
    let (prefix, segments): (&[u8], u64) = match random.below(12) {
        0 => (&[0], 0),
        1 | 2 => (&[0x2e], 2),
        3 => (&[0x2f, 1], 1),
        4 => (&[0x2f, 3], 3),
        5 => (&[0x2f, 0], 0),
        _ => (&[], 1),
    };
    made.extend(prefix);
    (0..segments).for_each(|_| made.extend(segment(random)));
    made
}

/// An element of a package, or what may be there.
fn element(random: &mut Random) -> Vec<u8> {
    let (small, high) = (random.below(9) as u8, random.below(2) as u8);
    match random.below(14) {
        0..4 => vec![0x0a, small],
        4 => vec![0],
        5 => vec![1],
        6 => vec![0xff],
        7 => vec![0x0b, small, high],
        8 => vec![0x0c, small, 0, high, 0],
        9 => vec![0x0e, small, 0, 0, 0, 0, high, 0, 0],
        10 => name(random),
        11 => vec![0x60 + random.below(15) as u8],
        12 => vec![0x11, 5, 0x0a, 2, 1, 2],
        _ => vec![0x0d, b'a', 0],
    }
}

/// An argument of a term: an element, an operator with its own, or what is run.
fn argument(random: &mut Random, depth: u64) -> Vec<u8> {
    if depth > 3 {
        return element(random);
    }
    match random.below(10) {
        0 => {
            let mut made = vec![random.of(&[0x72, 0x74, 0x79, 0x7a, 0x7b, 0x7d])];
            (0..2).for_each(|_| made.extend(argument(random, depth + 1)));
            made.extend([0, 0x60, 0x6e, b'A'].get(random.index(3)));
            made
        }
        1 => random.of(&[&[0x70][..], &[0x85], &[0x83], &[0x5b, 0x30], &[0x5b, 0x31], &[0x5b, 0x12], &[0x5b]]).to_vec(),
        2 => [vec![0x12], block(vec![1, 0x0a, 5], random)].concat(),
        _ => element(random),
    }
}

fn arguments(count: u64, random: &mut Random, depth: u64) -> Vec<u8> {
    (0..count).flat_map(|_| argument(random, depth)).collect()
}

/// A term, of which other terms may be a part.
fn term(random: &mut Random, depth: u64) -> Vec<u8> {
    let named = name(random);
    let inside = |random: &mut Random| {
        let count = if depth > 2 { 0 } else { random.below(3) };
        (0..count).flat_map(|_| term(random, depth + 1)).collect::<Vec<u8>>()
    };
    match random.below(18) {
        0..3 => [vec![8], named, argument(random, 1)].concat(),
        3 | 4 => [vec![0x10], block([named, inside(random)].concat(), random)].concat(),
        5 => [vec![0x14], block([named, vec![0], inside(random)].concat(), random)].concat(),
        6 => [vec![6], named, name(random)].concat(),
        7 => [vec![0x15], named, vec![8, 0]].concat(),
        8 => {
            let opcode = random.of(&[0xa0, 0xa1, 0xa2]);
            [vec![opcode], block([argument(random, 1), inside(random)].concat(), random)].concat()
        }
        9 => {
            let opcode = random.of(&[0x8a, 0x8b, 0x8c, 0x8d, 0x8f]);
            [vec![opcode], arguments(2, random, 1), named].concat()
        }
        10 => [vec![0x5b, 0x13], arguments(3, random, 1), named].concat(),
        11 => [vec![0x5b, 0x80], named, vec![0], arguments(2, random, 1)].concat(),
        12 => [vec![0x5b, 0x88], named, arguments(3, random, 1)].concat(),
        13 => {
            let opcode = random.of(&[0x81, 0x82, 0x83, 0x84, 0x85, 0x86, 0x87]);
            [vec![0x5b, opcode], block([named, inside(random)].concat(), random)].concat()
        }
        14 => [vec![0x5b, 1], named, vec![0]].concat(),
        15 => [vec![0x5b, 2], named].concat(),
        16 => {
            let run = [0x70, 0x86, 0x8e, 0x9c, 0x9f, 0xa3, 0xa4, 0xa5, 0xcc, 0x21, 0x72, 0x99, 0x9e];
            [vec![random.of(&run)], arguments(random.below(3), random, 1)].concat()
        }
        _ => {
            let opcode = [0x12, 0x1f, 0x20, 0x21, 0x23, 0x25, 0x27, 0x28, 0x30, 0x31, 0x32, 0x33, 0x77];
            [vec![0x5b, random.of(&opcode)], named].concat()
        }
    }
}

/// Some terms.
pub fn terms(random: &mut Random) -> Vec<u8> {
    (0..1 + random.below(4)).flat_map(|_| term(random, 0)).collect()
}

/// A package for a sleep state, or what may be there.
pub fn made_aml(random: &mut Random) -> Vec<u8> {
    let count = random.below(5) as u8;
    let inside: Vec<u8> = (0..random.below(5)).flat_map(|_| element(random)).collect();
    let mut made = Vec::new();
    if !random.one_in(6) {
        made.push(random.of(&[8, 8, 8, 8, 8, 6, 0x14]));
    }
    match random.below(8) {
        0 => made.push(b'\\'),
        1 => made.push(b'^'),
        _ => {}
    }
    let opcode = random.of(&[0x12, 0x12, 0x12, 0x12, 0x13, 0x11, 0x0a]);
    made.extend([b'_', b'S', b'0' + random.below(7) as u8, b'_', opcode]);
    made.extend(block([vec![count], inside].concat(), random));
    made
}
