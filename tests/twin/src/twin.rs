//! Each call of the C library and the function of Rust that has the same words, from the same inputs, and if there is
//! one of the library in another process. The inputs are made once, in memory that all read; the outputs for each,
//! painted. They may differ in the padding of records that were written, and in nothing else.

use crate::child::Child;
use crate::random::Random;
use crate::values::{Arena, CAPACITY, Chance, Facts, Inputs};
use crate::words::{Call, Kind, Record, Words, number, put};

const GAP: usize = 32; // between outputs
pub const SIDES: [&str; 4] = ["C", "Rust", "the other process", "none of them"];

/// What may be written at a place of the outputs: `capacity` records, as many as the number at `count` if there is one.
struct Output {
    at: usize,
    record: usize,
    capacity: usize,
    count: Option<usize>,
}

/// A list in a record that the library changes: where its pointer is, where it leads, and its capacity.
struct Slot {
    at: usize,
    to: usize,
    capacity: usize,
}

/// What is passed to one call. Words of outputs are places in each side's memory.
#[derive(Default)]
struct Passed {
    words: Words,
    length: usize,
    is_out: [bool; 12],
    changed: Vec<(Kind, usize, usize, usize)>, // which is also read: its place, its record, its length
    slots: Vec<Slot>,
    bytes_out: bool,
}

impl Passed {
    fn word(&mut self, word: usize) {
        self.words[self.length] = word;
        self.length += 1;
    }

    fn out(&mut self, at: usize) {
        self.is_out[self.length] = true;
        self.word(at);
    }
}

pub struct Twin {
    inputs: Inputs,
    outs: Vec<Arena>, // by side
    child: Option<Child>,
    kept: Vec<u8>,
    records: &'static [Record],
    top: usize, // of the outputs
    outputs: Vec<Output>,
    pub calls_made: u64,
    pub answered: Vec<u64>, // by call, with status 0
}

impl Twin {
    pub fn new(records: &'static [Record], calls: usize, child: Option<Child>) -> Twin {
        Twin {
            inputs: Inputs::new(records),
            outs: (0..if child.is_some() { 3 } else { 2 }).map(|_| Arena::new()).collect(),
            child,
            kept: vec![0; CAPACITY],
            records,
            top: 0,
            outputs: Vec::new(),
            calls_made: 0,
            answered: vec![0; calls],
        }
    }

    fn output(&mut self, record: usize, capacity: usize, count: Option<usize>) -> usize {
        let at = self.top;
        self.top += self.taken(record, capacity);
        assert!(self.top <= CAPACITY);
        self.outputs.push(Output { at, record, capacity, count });
        at
    }

    fn taken(&self, record: usize, capacity: usize) -> usize {
        (self.records[record].size * capacity).next_multiple_of(16) + GAP
    }

    /// A call with random arguments, and again with capacities about the number of items that it has. Returns the bytes
    /// that it wrote, if it writes bytes.
    pub fn call(
        &mut self,
        index: usize,
        call: &Call,
        seed: u64,
        facts: &Facts,
        says: &dyn Fn(usize),
    ) -> Result<Option<Vec<u8>>, String> {
        let mut fixed = None;
        for round in 0..2 {
            let mut chance = Chance { random: Random::new(seed), nice: 0, facts };
            chance.nice = chance.random.below(4);
            let chosen = chosen_capacity(&mut chance.random);
            let passed = self.pass(call, &mut chance, fixed.unwrap_or(chosen), fixed.is_some());
            let status = self.all(index, call, &passed, facts.is_huge, says)?;
            if status != 0 {
                return Ok(None);
            }
            self.answered[index] += (round == 0) as u64;
            self.keep_read();
            // again, with a capacity about what there is
            let Some(count) = self.outputs.iter().find_map(|output| output.count) else { return Ok(None) };
            let count = number(&self.outs[1].bytes()[count..count + 8]) as usize;
            let most = if passed.bytes_out { 70_000 } else { 300 };
            if round == 1 || !chance.random.one_in(3) || count > most {
                return Ok(self.bytes_written(&passed, count));
            }
            fixed = Some((count + chance.random.index(3)).saturating_sub(1));
        }
        Ok(None)
    }

    /// Before the calls of a case.
    pub fn begin(&mut self) {
        self.inputs.forget();
    }

    /// Keeps the records that a call has written.
    fn keep_read(&mut self) {
        for output in &self.outputs {
            let size = self.records[output.record].size;
            let bytes = self.outs[1].bytes();
            let count = output.count.map_or(output.capacity, |at| number(&bytes[at..at + 8]) as usize);
            for i in 0..count.min(output.capacity) {
                self.inputs.keep_read(output.record, &bytes[output.at + i * size..][..size]);
            }
        }
    }

    fn bytes_written(&mut self, passed: &Passed, count: usize) -> Option<Vec<u8>> {
        let output = self.outputs.iter().find(|output| output.count.is_some())?;
        let at = output.at;
        (passed.bytes_out && count <= output.capacity).then(|| self.outs[1].bytes()[at..at + count].to_vec())
    }

    /// Makes the arguments: which memory is written, what is in it, and what is read.
    fn pass(&mut self, call: &Call, chance: &mut Chance, capacity: usize, is_fixed: bool) -> Passed {
        self.inputs.top = 0;
        self.top = GAP;
        self.outputs.clear();
        let paint = chance.random.of(&[0xa5, 0x5a, 0xff, 0]);
        let mut passed = Passed::default();
        for (i, &(kind, record, name)) in call.arguments.iter().enumerate() {
            match kind {
                Kind::Source => passed.word(self.inputs.copy(&chance.facts.source)),
                Kind::Number => passed.word(chance.argument(name, self.records[record].size) as usize),
                Kind::Letters => passed.word(chance.letters()),
                Kind::In => {
                    let at = self.inputs.take(self.records[record].size);
                    self.inputs.fill(at, record, chance, 0);
                    passed.word(self.inputs.arena.start() + at);
                }
                Kind::InList => {
                    let (at, length) = self.list(record, chance);
                    passed.word(at);
                    passed.word(length);
                }
                Kind::Out | Kind::Count | Kind::Named => passed.out(self.output(record, 1, None)),
                Kind::OutList => {
                    let has_count = matches!(call.arguments.get(i + 1), Some((Kind::Count, ..)));
                    self.pass_list(&mut passed, (record, has_count), chance, (capacity, is_fixed));
                }
                Kind::ChangedList | Kind::Changed => self.pass_changed(&mut passed, kind, record, chance, capacity),
            }
        }
        self.fill_outputs(&passed, paint, chance);
        passed
    }

    /// A list of the inputs: regions are the memory's.
    fn list(&mut self, record: usize, chance: &mut Chance) -> (usize, usize) {
        if self.records[record].name != "zacpi_region" {
            return self.inputs.list(record, chance, 0);
        }
        let source = &chance.facts.source;
        if chance.random.one_in(4) { (16, 0) } else { (number(&source[..8]) as usize, number(&source[8..16]) as usize) }
    }

    /// A list of the outputs, with the count after it if there is one. Bytes have a capacity of their own at first.
    fn pass_list(&mut self, passed: &mut Passed, item: (usize, bool), chance: &mut Chance, capacity: (usize, bool)) {
        let ((record, has_count), (mut capacity, is_fixed)) = (item, capacity);
        if self.records[record].size == 1 {
            passed.bytes_out = true;
            let few = chance.random.index(130);
            let chosen = match chance.random.below(40) {
                0 => 70_000,
                1..11 => few,
                _ => 4096,
            };
            if !is_fixed {
                capacity = chosen;
            }
        }
        // the count is the next argument, in the next memory
        let count = has_count.then_some(self.top + self.taken(record, capacity));
        passed.out(self.output(record, capacity, count));
        passed.word(capacity);
    }

    fn pass_changed(&mut self, passed: &mut Passed, kind: Kind, record: usize, chance: &mut Chance, capacity: usize) {
        let most = if chance.random.one_in(8) { 40 } else { 8 };
        let length = if kind == Kind::Changed { 1 } else { chance.random.index(most) };
        let at = self.output(record, length, None);
        passed.out(at);
        passed.changed.push((kind, at, record, length));
        if kind == Kind::ChangedList {
            return passed.word(length);
        }
        for field in self.records[record].fields {
            if field.item >= 0 && field.changed {
                let capacity = if chance.random.one_in(4) { chance.random.index(4) } else { capacity };
                let to = self.output(field.item as usize, capacity, Some(at + field.at + 16));
                passed.slots.push(Slot { at: at + field.at, to, capacity });
            }
        }
    }

    /// Paints the outputs, and puts into both what of them is read.
    fn fill_outputs(&mut self, passed: &Passed, paint: u8, chance: &mut Chance) {
        for out in &mut self.outs {
            let start = out.start();
            let bytes = &mut out.bytes()[..self.top];
            bytes.fill(paint);
            for slot in &passed.slots {
                put(bytes, slot.at, 8, (start + slot.to) as u64);
                put(bytes, slot.at + 8, 8, slot.capacity as u64);
            }
        }
        for &(kind, at, record, length) in &passed.changed {
            let size = self.records[record].size * length;
            let from = if kind == Kind::ChangedList {
                let from = self.inputs.take(size);
                (0..length).for_each(|i| self.inputs.fill(from + i * self.records[record].size, record, chance, 0));
                from
            } else if self.records[record].name == "zacpi_source" {
                self.inputs.copy(&chance.facts.source) - self.inputs.arena.start()
            } else {
                continue;
            };
            for out in &mut self.outs {
                out.bytes()[at..at + size].copy_from_slice(self.inputs.bytes(from, size));
            }
        }
    }

    /// Makes the call of each, and compares what they leave with what C does. Returns the status.
    fn all(
        &mut self,
        index: usize,
        call: &Call,
        passed: &Passed,
        is_huge: bool,
        says: &dyn Fn(usize),
    ) -> Result<u32, String> {
        let top = self.inputs.top;
        self.kept[..top].copy_from_slice(self.inputs.bytes(0, top));
        let mut statuses = Vec::new();
        for side in 0..if is_huge { 2 } else { self.outs.len() } {
            let mut words = passed.words;
            let outs = words.iter_mut().zip(&passed.is_out).filter(|(_, is_out)| **is_out);
            outs.for_each(|(word, _)| *word += self.outs[side].start());
            says(side);
            statuses.push(match (side, &mut self.child) {
                (0, _) => (call.c)(&words),
                (2, Some(child)) => child.call(index, &words).unwrap_or_else(|| panic!("{} ends it", call.name)),
                _ => (call.rust)(&words),
            });
            if self.kept[..top] != *self.inputs.bytes(0, top) {
                return Err(format!("{} changes its inputs in {}", call.name, SIDES[side]));
            }
        }
        says(3);
        self.calls_made += 1;
        for side in 1..statuses.len() {
            let (status, other) = (statuses[0], statuses[side]);
            if status != other {
                return Err(format!("{} returns {status} in C, {other} in {}", call.name, SIDES[side]));
            }
            let (first, others) = self.outs.split_at_mut(1);
            if first[0].bytes()[..self.top] != others[side - 1].bytes()[..self.top] {
                self.compare(call, status, &passed.slots, side)?;
            }
        }
        Ok(statuses[0])
    }

    /// Compares field by field what was written, and byte by byte what wasn't.
    fn compare(&mut self, call: &Call, status: u32, slots: &[Slot], side: usize) -> Result<(), String> {
        let starts = [0, side].map(|side| self.outs[side].start() as u64);
        let (first, others) = self.outs.split_at_mut(1);
        let (a, b) = (&mut first[0], &mut others[side - 1]);
        let (a, b) = (a.bytes(), b.bytes());
        let outside = || Err(format!("{} ({status}) writes outside its outputs", call.name));
        let mut from = 0;
        for output in &self.outputs {
            let record = &self.records[output.record];
            if a[from..output.at] != b[from..output.at] {
                return outside();
            }
            let count = match output.count {
                _ if status != 0 => 0,
                Some(at) => (number(&b[at..at + 8]) as usize).min(output.capacity),
                None => output.capacity,
            };
            for i in 0..output.capacity {
                let at = output.at + i * record.size;
                let (one, other) = (&a[at..at + record.size], &b[at..at + record.size]);
                if one == other {
                    continue;
                }
                if i >= count && !slots.iter().any(|slot| at <= slot.at && slot.at < at + record.size) {
                    return Err(format!("{} ({status}) writes {} {i}, beyond its count", call.name, record.name));
                }
                if let Some(text) = differs(record, one, other, starts) {
                    return Err(format!("{} ({status}): item {i}, {text} in {}", call.name, SIDES[side]));
                }
            }
            from = output.at + output.capacity * record.size;
        }
        if a[from..self.top] != b[from..self.top] { outside() } else { Ok(()) }
    }
}

fn chosen_capacity(random: &mut Random) -> usize {
    match random.below(6) {
        0 => random.index(3),
        1 => random.index(12),
        2 => 40 + random.index(60),
        _ => 12 + random.index(12),
    }
}

/// The first field of a record that differs. A pointer to a list that is written leads to the same place of each side.
fn differs(record: &Record, one: &[u8], other: &[u8], starts: [u64; 2]) -> Option<String> {
    for field in record.fields {
        let (x, y) = (number(&one[field.at..][..field.size]), number(&other[field.at..][..field.size]));
        let is_place = field.item >= 0 && field.changed;
        if x != y && !(is_place && x.wrapping_sub(starts[0]) == y.wrapping_sub(starts[1])) {
            return Some(format!("{}.{} is {x:#x} in C, {y:#x}", record.name, field.name));
        }
    }
    None
}
