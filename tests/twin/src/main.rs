//! twin: judges dist/zacpi.c by what the same sources become as Rust, and the other way round.
//!
//!     twin run CORPUS CASES SEED [CHILD]     the cases of a corpus, and so many made of them; status 1 at a difference
//!     twin judge CORPUS CASES SEED [CHILD]   the same, and no least case is looked for
//!     twin grow CORPUS CASES SEED IMAGE..    makes so many, and keeps those that reach more of the C
//!     twin keep CORPUS                       leaves the cases that are needed to reach as much
//!
//! The last two need an object of the C with counters (clang's -fsanitize-coverage=inline-8bit-counters). A difference
//! is printed, and CORPUS.differs has the case, without what it can do without. CHILD is a program of child.c, whose
//! calls are compared too, but where a region of the case has more than 4 GiB.

mod aml;
mod calls;
mod child;
mod corpus;
mod damage;
mod entries;
mod exports;
mod judge;
mod layout;
mod memory;
mod random;
mod twin;
mod values;
mod words;

use child::Child;
use corpus::{Case, Corpus};
use judge::Judge;
use random::Random;
use std::io;
use std::process::ExitCode;
use std::sync::atomic::{AtomicUsize, Ordering::Relaxed};

static COUNTERS: [AtomicUsize; 2] = [AtomicUsize::new(0), AtomicUsize::new(0)];

#[unsafe(no_mangle)]
extern "C" fn __sanitizer_cov_8bit_counters_init(start: usize, stop: usize) {
    COUNTERS[0].store(start, Relaxed);
    COUNTERS[1].store(stop, Relaxed);
}

fn counters() -> &'static mut [u8] {
    let [start, stop] = [0, 1].map(|i| COUNTERS[i].load(Relaxed));
    if start == 0 { &mut [] } else { unsafe { std::slice::from_raw_parts_mut(start as *mut u8, stop - start) } }
}

/// How often places of the C were reached by one case so far: a bit each for once, a few times, and more often.
struct Reached {
    seen: Vec<u8>,
    count: usize,
}

impl Reached {
    /// Takes what a case reached. Returns whether that is a new place, and whether it is one or a new number of times.
    fn take(&mut self) -> (bool, bool) {
        let (mut is_new, mut is_other) = (false, false);
        for (counter, seen) in counters().iter_mut().zip(&mut self.seen) {
            let bucket = match std::mem::take(counter) {
                0 => continue,
                1 => 1,
                2 | 3 => 2,
                4..32 => 4,
                _ => 8,
            };
            is_new |= *seen == 0;
            self.count += (*seen == 0) as usize;
            is_other |= *seen & bucket == 0;
            *seen |= bucket;
        }
        (is_new, is_other)
    }
}

fn differs(judge: &mut Judge, path: &str, case: &Case, number: usize, said: &str) -> io::Result<ExitCode> {
    println!("DIFFERS: {said} (case {number})");
    let least = judge.shrunk(case, said);
    println!("the least case has {} tables of {} bytes", least.tables.len(), least.size());
    Corpus { pool: Vec::new(), cases: vec![least] }.save(&format!("{path}.differs"))?;
    Ok(ExitCode::FAILURE)
}

fn run(path: &str, more: usize, mut random: Random, is_shrunk: bool, child: Option<Child>) -> io::Result<ExitCode> {
    let (corpus, mut judge) = (Corpus::load(path)?, Judge::new(child));
    let old = corpus.cases.len();
    for i in 0..old + more {
        let case = corpus.cases.get(i).cloned().unwrap_or_else(|| corpus.change(&mut random));
        if let Err(said) = judge.judge(&case) {
            if is_shrunk {
                return differs(&mut judge, path, &case, i, &said);
            }
            println!("DIFFERS: {said} (case {i})");
            return Ok(ExitCode::FAILURE);
        }
    }
    println!("{old} cases and {more} made of them, {} calls", judge.twin.calls_made);
    for (call, _) in calls::CALLS.iter().zip(&judge.twin.answered).filter(|(_, answered)| **answered == 0) {
        println!("{} never returns 0", call.name);
    }
    Ok(ExitCode::SUCCESS)
}

fn grow(path: &str, more: usize, mut random: Random, images: &[String]) -> io::Result<ExitCode> {
    let old = if std::fs::exists(path)? { Corpus::load(path)? } else { Corpus::default() };
    let mut corpus = Corpus { pool: old.pool, cases: Vec::new() };
    for image in images {
        corpus.take_pool(&std::fs::read(image)?, 24);
    }
    let (mut judge, mut reached) = (Judge::new(None), Reached { seen: vec![0; counters().len()], count: 0 });
    for i in 0..old.cases.len() + more {
        let case = old.cases.get(i).cloned().unwrap_or_else(|| corpus.change(&mut random));
        if let Err(said) = judge.judge(&case) {
            return differs(&mut judge, path, &case, i, &said);
        }
        if reached.take().1 {
            corpus.cases.push(case);
        }
        if i % 16 == 0 {
            std::mem::take(&mut judge.written).iter().for_each(|bytes| corpus.take_pool(bytes, 60));
        }
        if i >= old.cases.len() && i % 20_000 == 0 {
            println!("{i} cases, {} kept, {} of {} places", corpus.cases.len(), reached.count, reached.seen.len());
            corpus.save(path)?;
        }
    }
    println!("{} kept, {} of {} places", corpus.cases.len(), reached.count, reached.seen.len());
    corpus.save(path)?;
    Ok(ExitCode::SUCCESS)
}

/// The least cases first.
fn keep(path: &str) -> io::Result<ExitCode> {
    let mut corpus = Corpus::load(path)?;
    let (mut judge, mut reached) = (Judge::new(None), Reached { seen: vec![0; counters().len()], count: 0 });
    corpus.cases.sort_by_key(Case::size);
    corpus.cases.retain(|case| judge.judge(case).is_ok() && reached.take().0);
    println!("{} kept, {} of {} places", corpus.cases.len(), reached.count, reached.seen.len());
    corpus.save(path)?;
    Ok(ExitCode::SUCCESS)
}

fn main() -> io::Result<ExitCode> {
    let words: Vec<String> = std::env::args().skip(1).collect();
    let number = |i: usize| words.get(i).and_then(|word| word.parse::<u64>().ok()).unwrap_or(0);
    let (more, random) = (number(2) as usize, Random::new(number(3)));
    match &words[..] {
        [what, path, _, _, child @ ..] if what == "run" || what == "judge" => {
            let child = child.first().map(|program| Child::start(program)).transpose()?;
            run(path, more, random, what == "run", child)
        }
        [what, path, _, _, images @ ..] if what == "grow" => grow(path, more, random, images),
        [what, path] if what == "keep" => keep(path),
        _ => {
            eprintln!("twin run|judge|grow CORPUS CASES SEED, or keep CORPUS");
            Ok(ExitCode::from(2))
        }
    }
}
