//! How the tables of a case are laid out in memory, and what a source of them is.

use crate::corpus::Case;
use crate::memory::{HEADER, Memory};
use crate::random::Random;
use crate::words::put;

/// What calls are passed of a case.
pub struct Laid {
    pub source: [u8; 32],
    pub rsdp: Vec<u8>,
    pub addresses: Vec<u64>,
    pub is_huge: bool, // a region has more than 4 GiB: with lengths that are right, since its sums take long
    pub is_search: bool,
}

type Chunk = (u64, Vec<u8>);

struct Layout {
    random: Random,
    chunks: Vec<Chunk>,
    next: u64,
    gap: u64,
    listed: Vec<u64>,
    fadts: Vec<usize>,
    dsdt: u64,
    facs: u64,
    addresses: Vec<u64>,
    is_huge: bool,
    is_wide: bool,
    start: u64,
}

/// Makes the checksum at a place right, of so many bytes.
fn mend(bytes: &mut [u8], at: usize, length: usize) {
    if at < length && length <= bytes.len() {
        bytes[at] = 0;
        bytes[at] = 0u8.wrapping_sub(bytes[..length].iter().fold(0, |sum, byte| sum.wrapping_add(*byte)));
    }
}

pub fn lay(memory: &mut Memory, case: &Case) -> Laid {
    let mut layout = Layout::new(Random::new(case.layout));
    let accept = match layout.random.below(8) {
        0..5 => 0,
        5..7 => layout.random.below(4),
        _ => [0, 1, 2, 3, 4, 0x10001][layout.random.index(6)],
    };
    case.tables.iter().for_each(|table| layout.table(table));
    layout.point_fadts();
    let root = layout.root();
    let rsdp = layout.rsdp(root);
    let mut address = layout.place_rsdp(root, rsdp.clone());
    layout.damage_regions();
    layout.map(memory);
    let random = &mut layout.random;
    if random.one_in(24) {
        let any = random.next();
        address = random.of(&[0, address.wrapping_add(1), address ^ 16, any]);
    }
    let is_search = matches!(layout.start, 3 | 4);
    let start = match random.below(60) {
        0 => random.next() & 0xffff_ffff,
        1 => layout.start | 1 << (3 + random.below(29)), // no start, but its lower bits are one
        _ => layout.start,
    };
    let mut source = [0; 32];
    let (regions, count) = memory.list();
    for (at, size, value) in [(0, 8, regions), (8, 8, count), (16, 8, address), (24, 4, start), (28, 4, accept)] {
        put(&mut source, at, size, value);
    }
    Laid { source, rsdp, addresses: layout.addresses, is_huge: layout.is_huge, is_search }
}

impl Layout {
    fn new(mut random: Random) -> Layout {
        let start = match random.below(16) {
            0..8 => 0,
            8..12 => 2,
            12 => 1,
            13 if random.one_in(3) => 4,
            14 if random.one_in(4) => 3,
            13 | 14 => 0,
            _ => random.of(&[0, 1, 2, 1, 5]),
        };
        let is_wide = match start {
            1 => false,
            2 => true,
            _ => !random.one_in(3),
        };
        let any = random.next() & !0xfff;
        let base = if is_wide && random.one_in(5) {
            random.of(&[0x1_0000_0000, 0xffff_ffff_fff0_0000, any])
        } else {
            random.of(&[0x1000, 0x10_0000, 0x7fe0_0000, 0xfff0_0000])
        };
        let next = base + random.of(&[0, 0, 64, 1]);
        let is_huge = random.one_in(if base >> 60 == 0 { 20 } else { 4 }); // which then ends too high
        let gap = random.of(&[0, 0, 1, 16, 16, 16, 64]);
        Layout {
            random, chunks: Vec::new(), next, gap, listed: Vec::new(), fadts: Vec::new(), dsdt: 0, facs: 0,
            addresses: Vec::new(), is_huge, is_wide, start,
        }
    }

    /// A table, with a Length and a Checksum that are mostly right.
    fn table(&mut self, table: &[u8]) {
        let mut bytes = table.to_vec();
        if bytes.len() < 8 {
            return;
        }
        let size = bytes.len() as u64;
        let length = if self.random.one_in(24) { self.random.below(size + 40) } else { size };
        if !self.random.one_in(40) || self.is_huge {
            put(&mut bytes, 4, 4, length);
        }
        match &bytes[..4] {
            b"FACS" if self.facs == 0 => self.facs = self.next,
            b"DSDT" if self.dsdt == 0 => self.dsdt = self.next,
            _ => self.listed.push(self.next),
        }
        if &bytes[..4] == b"FACP" {
            self.fadts.push(self.chunks.len());
        }
        if !self.random.one_in(32) && &bytes[..4] != b"FACS" {
            mend(&mut bytes, 9, length as usize);
        }
        self.addresses.push(self.next);
        self.chunks.push((self.next, bytes));
        self.next = self.next.wrapping_add(size + self.gap);
        if self.gap >= 16 {
            self.next = self.next.wrapping_add(15) & !15;
        }
    }

    /// Each FADT has the addresses of the DSDT and the FACS in its fields of 32 bits, of 64, in both, or has others.
    fn point_fadts(&mut self) {
        let random = &mut self.random;
        for at in &self.fadts {
            let bytes = &mut self.chunks[*at].1;
            let how = random.below(10);
            for (place, long, value) in [(40, 140, self.dsdt), (36, 132, self.facs)] {
                let (narrow, wide) = match how {
                    0..4 => (Some(value), Some(value)),
                    4..6 => (Some(value), Some(0)),
                    6..8 => (Some(0), Some(value)),
                    8 => (None, Some(value)),
                    _ => (None, None),
                };
                narrow.into_iter().for_each(|value| put(bytes, place, 4, value));
                wide.into_iter().for_each(|value| put(bytes, long, 8, value));
            }
            let length = bytes.len();
            if !random.one_in(32) {
                mend(bytes, 9, length);
            }
        }
    }

    /// The root table. Returns its address.
    fn root(&mut self) -> u64 {
        let random = &mut self.random;
        let mut root = if self.is_wide { b"XSDT".to_vec() } else { b"RSDT".to_vec() };
        root.resize(HEADER, 7);
        root[8] = 1;
        if random.one_in(16) {
            let any = random.next();
            let extra = random.of(&[0, self.dsdt, self.facs, any]);
            self.listed.insert(random.index(self.listed.len() + 1), extra);
        }
        if random.one_in(16) && !self.listed.is_empty() {
            self.listed.push(random.of(&self.listed));
        }
        let width = if self.is_wide { 8 } else { 4 };
        self.listed.iter().for_each(|address| root.extend(&address.to_le_bytes()[..width]));
        if random.one_in(32) {
            root.extend(&[1, 2, 3][..random.index(4)]);
        }
        let length = if random.one_in(40) { random.below(80) } else { root.len() as u64 };
        put(&mut root, 4, 4, length);
        if !random.one_in(40) {
            mend(&mut root, 9, length as usize);
        }
        let address = self.next;
        self.next = self.next.wrapping_add(root.len() as u64 + 16) & !15;
        self.chunks.push((address, root));
        address
    }

    fn rsdp(&mut self, root: u64) -> Vec<u8> {
        let random = &mut self.random;
        let mut rsdp = b"RSD PTR ".to_vec();
        rsdp.resize(36, 0);
        rsdp[9..15].copy_from_slice(b"OEMID ");
        rsdp[15] = if self.is_wide { 2 } else { random.of(&[0, 0, 2, 1]) };
        put(&mut rsdp, 16, 4, if self.is_wide { random.of(&[0, root, 4]) } else { root });
        put(&mut rsdp, 20, 4, random.of(&[36, 36, 36, 36, 36, 36, 36, 40, 33]));
        put(&mut rsdp, 24, 8, if self.is_wide { root } else { 0 });
        if random.one_in(12) && !self.is_huge {
            let at = random.index(36);
            rsdp[at] = random.next() as u8;
        }
        if !random.one_in(24) {
            mend(&mut rsdp, 8, 20);
            mend(&mut rsdp, 32, 36);
        }
        rsdp
    }

    /// Puts the RSDP where the start looks for it, and returns the address of the start.
    fn place_rsdp(&mut self, root: u64, mut rsdp: Vec<u8>) -> u64 {
        match self.start {
            0 | 5.. => {
                let ends = if rsdp[15] == 0 { 20 } else { 36 };
                rsdp.truncate(if self.random.one_in(2) { ends } else { 36 });
                self.chunks.push((self.next, rsdp));
                self.next
            }
            3 | 4 => {
                self.place_in_areas(&rsdp);
                root
            }
            _ => root,
        }
    }

    /// The areas of a BIOS: the word at 0x40e, the EBDA's first KiB, and what is from 0xe0000 on, of which a search of
    /// all takes longest.
    fn place_in_areas(&mut self, rsdp: &[u8]) {
        let random = &mut self.random;
        let in_ebda = random.one_in(3);
        let ebda = random.of(&[0x9fc00, 0x9f000, 0x80000]);
        let word = if random.one_in(10) { random.next() & 0xffff } else { ebda >> 4 };
        let mut low = vec![0; 0x20];
        put(&mut low, 0xe, 2, word);
        match random.below(16) {
            0 => {}
            1 | 2 => self.chunks.push((0x400, vec![0; 0xf])),
            3 => self.chunks.push((0x40e, vec![word as u8, (word >> 8) as u8])),
            _ => self.chunks.push((0x400, low)),
        }
        let at = 16 * random.index(0x3c) + if random.one_in(10) { 4 } else { 0 };
        let mut area = |length: usize, has_rsdp: bool| {
            let mut area = vec![0; length];
            if has_rsdp {
                area[at..at + 36].copy_from_slice(rsdp);
            }
            if random.one_in(3) {
                put(&mut area, 16 * random.index(0x3c), 8, u64::from_le_bytes(*b"RSD PTR "));
            }
            area
        };
        // some lack their last byte
        let (is_short, is_shorter) = (at & 0x70 == 0x70, at & 0x70 == 0x60);
        if in_ebda || self.start == 3 {
            self.chunks.push((ebda, area(0x400 - is_short as usize, in_ebda)));
        }
        if !in_ebda || self.start == 3 {
            let last = area(0x430, !in_ebda);
            let all = self.random.one_in(if self.start == 3 { 3 } else { 24 });
            let from = if all { 0xe0000 } else { self.random.of(&[0xe0000, 0xe8000, 0xffc00]) };
            let length = if all { 0x20000 - is_shorter as usize } else { 0x400 + self.random.index(64) };
            self.chunks.push((from, [last, vec![0; 0x20000]].concat()[..length].to_vec()));
        }
    }

    /// Joins the chunks, or breaks one of them.
    fn damage_regions(&mut self) {
        let how = if self.is_huge { 0 } else { self.random.below(20) };
        self.chunks.sort_by_key(|chunk| chunk.0);
        match how {
            0..9 => self.join(),
            16.. => self.break_one(),
            _ => {}
        }
    }

    fn join(&mut self) {
        let mut joined: Vec<Chunk> = Vec::new();
        for (at, bytes) in self.chunks.drain(..) {
            match joined.last_mut() {
                Some((from, last)) if at >= *from && at - *from < 0x8000 && at - *from >= last.len() as u64 => {
                    last.resize((at - *from) as usize, 0);
                    last.extend(bytes);
                }
                _ => joined.push((at, bytes)),
            }
        }
        self.chunks = joined;
    }

    fn break_one(&mut self) {
        let random = &mut self.random;
        let at = random.index(self.chunks.len());
        let (address, bytes) = &mut self.chunks[at];
        match random.below(7) {
            0 | 1 => bytes.truncate(bytes.len() - random.index(bytes.len().min(20))),
            2 => bytes.truncate(random.index(48)),
            3 => bytes.push(0x55),
            4 => *address = random.of(&[0, u64::MAX, u64::MAX - 63, address.wrapping_add(1)]),
            5 => {
                self.chunks.remove(at);
            }
            _ => {
                let from = random.index(bytes.len());
                let tail = bytes.split_off(from);
                let from = address.wrapping_add(from as u64);
                self.chunks.insert(at + 1, (from, tail));
            }
        }
    }

    fn map(&mut self, memory: &mut Memory) {
        memory.clear();
        let huge = if self.is_huge { self.chunks.len().wrapping_sub(1) } else { usize::MAX };
        for (i, (at, bytes)) in self.chunks.drain(..).enumerate() {
            if i == huge && bytes.len() < 0x10_0000 {
                memory.map_huge(at, bytes, self.random.index(64));
            } else {
                memory.map(at, bytes);
            }
        }
    }
}
