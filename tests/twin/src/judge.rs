//! All calls over a case, and what is known of them if one of them never returns.

use crate::calls::{CALLS, RECORDS};
use crate::child::Child;
use crate::corpus::Case;
use crate::layout::lay;
use crate::memory::Memory;
use crate::random::Random;
use crate::twin::{SIDES, Twin};
use crate::values::Facts;
use std::sync::atomic::{AtomicU64, Ordering::Relaxed};

const SIGNALS: [i32; 6] = [4, 6, 7, 8, 11, 26]; // the last is that of the timer
const SECONDS: i64 = 30; // of the processor, for a case

/// What is being called: the call, the side, and the case.
static CALLED: [AtomicU64; 3] = [AtomicU64::new(0), AtomicU64::new(3), AtomicU64::new(0)];

unsafe extern "C" {
    fn signal(number: i32, handler: extern "C" fn(i32)) -> usize;
    fn setitimer(which: i32, new: &[i64; 4], old: usize) -> i32;
    fn _exit(status: i32) -> !;
}

extern "C" fn died(number: i32) {
    let [call, side, case] = [0, 1, 2].map(|i| CALLED[i].load(Relaxed));
    println!("signal {number} in {} in {}, case {case}", CALLS[call as usize].name, SIDES[side as usize]);
    unsafe { _exit(1) }
}

pub struct Judge {
    pub twin: Twin,
    memory: Memory,
    /// What was written last: tables, that may be read.
    pub written: Vec<Vec<u8>>,
}

impl Judge {
    pub fn new(mut child: Option<Child>) -> Judge {
        for number in SIGNALS {
            unsafe { signal(number, died) };
        }
        let memory = Memory::new(&mut child);
        Judge { twin: Twin::new(RECORDS, CALLS.len(), child), memory, written: Vec::new() }
    }

    /// Whether both sides do the same.
    pub fn judge(&mut self, case: &Case) -> Result<(), String> {
        self.written.clear();
        let laid = lay(&mut self.memory, case);
        let facts = Facts {
            source: laid.source,
            rsdp: &laid.rsdp,
            tables: &case.tables,
            addresses: &laid.addresses,
            is_huge: laid.is_huge,
        };
        let mut random = Random::new(case.arguments);
        CALLED[2].fetch_add(1, Relaxed);
        self.twin.begin();
        unsafe { setitimer(1, &[0, 0, SECONDS, 0], 0) };
        for (i, call) in CALLS.iter().enumerate() {
            let seed = random.next();
            // an address anywhere, so a table of any length; and searches, which take longest
            let is_long = laid.is_huge && call.name == "zacpi_list_entries";
            let is_of_search = matches!(call.name, "zacpi_list_missing_ranges" | "zacpi_get_rsdp");
            if is_long || laid.is_search && i > 5 && !is_of_search && !random.one_in(24) {
                continue;
            }
            CALLED[0].store(i as u64, Relaxed);
            let says = |side: usize| CALLED[1].store(side as u64, Relaxed);
            self.written.extend(self.twin.call(i, call, seed, &facts, &says)?);
        }
        if self.memory.changed() { Err("the memory changes".to_string()) } else { Ok(()) }
    }

    /// A case that still differs, in the same call, without what it can do without.
    pub fn shrunk(&mut self, case: &Case, said: &str) -> Case {
        let call = said.split(' ').next().unwrap_or("").to_string();
        let mut least = case.clone();
        let mut differs = |case: &Case| self.judge(case).is_err_and(|said| said.starts_with(&call));
        for size in [usize::MAX, 256, 64, 16, 4, 1] {
            for i in (0..least.tables.len()).rev() {
                let length = least.tables[i].len();
                for from in (0..length.max(1)).step_by(size.min(length.max(1))).rev() {
                    let to = from.saturating_add(size).min(least.tables[i].len());
                    for how in 0..2 {
                        let mut tried = least.clone();
                        match how {
                            _ if from >= to => continue,
                            0 if size == usize::MAX => drop(tried.tables.remove(i)),
                            0 => drop(tried.tables[i].drain(from..to)),
                            _ => tried.tables[i][from..to].fill(0),
                        }
                        if differs(&tried) {
                            least = tried;
                            break;
                        }
                    }
                    if i >= least.tables.len() {
                        break;
                    }
                }
            }
        }
        least
    }
}
