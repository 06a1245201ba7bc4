//! How far the reading is: on a terminal, from the first second on.

use std::io::{IsTerminal, Write, stderr};
use std::time::{Duration, Instant};

const WIDTH: usize = 30;

pub(super) struct Progress {
    count: usize,
    done: usize,
    is_shown: bool,
    next: Instant,
}

impl Progress {
    pub(super) fn new(count: usize) -> Progress {
        Progress { count, done: 0, is_shown: false, next: Instant::now() + Duration::from_secs(1) }
    }

    /// Counts a machine, and ten times a second shows how many there were.
    pub(super) fn step(&mut self) {
        self.done += 1;
        let now = Instant::now();
        if now < self.next || !stderr().is_terminal() {
            return;
        }
        self.is_shown = true;
        self.next = now + Duration::from_millis(100);
        let filled = WIDTH * self.done / self.count.max(1);
        let (full, rest) = ("#".repeat(filled), ".".repeat(WIDTH - filled));
        // What shows how far it is may fail.
        let _ = write!(stderr(), "\r[{full}{rest}] {} of {}", self.done, self.count);
    }

    pub(super) fn end(&self) {
        if self.is_shown {
            let _ = write!(stderr(), "\r\x1b[K");
        }
    }
}
