//! Another process that makes calls of a library of its own over the same memory (child.c): the C as it is for 32 bits,
//! or another archive.

use crate::memory::file;
use crate::words::Words;
use std::io::{Read, Write};
use std::process::{ChildStdin, ChildStdout, Command, Stdio};

const PROTECT: u64 = u64::MAX;

pub struct Child {
    to: ChildStdin,
    from: ChildStdout,
}

impl Child {
    pub fn start(program: &str) -> std::io::Result<Child> {
        let mut child = Command::new(program);
        let child = child.arg(file().to_string()).stdin(Stdio::piped()).stdout(Stdio::piped()).spawn()?;
        let (Some(to), Some(from)) = (child.stdin, child.stdout) else { return Err(std::io::ErrorKind::Other.into()) };
        Ok(Child { to, from })
    }

    /// The status of a call, or `None` if the process ends in it.
    fn asked(&mut self, what: u64, words: &Words) -> Option<u32> {
        let mut request = what.to_le_bytes().to_vec();
        words.iter().for_each(|word| request.extend((*word as u64).to_le_bytes()));
        let mut status = [0; 4];
        self.to.write_all(&request).and_then(|()| self.from.read_exact(&mut status)).ok()?;
        Some(u32::from_le_bytes(status))
    }

    pub fn protect(&mut self, at: u64, length: u64) {
        let mut words = [0; 12];
        (words[0], words[1]) = (at as usize, length as usize);
        assert!(self.asked(PROTECT, &words) == Some(0));
    }

    pub fn call(&mut self, index: usize, words: &Words) -> Option<u32> {
        self.asked(index as u64, words)
    }
}
