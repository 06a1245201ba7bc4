// Made by scripts/erase of crates/acpi/src/platform/script.rt, where it is proved.
//! A Multiprocessor Wakeup Mailbox whose reads come from a script, for tests and dry runs.

use super::mailbox::{Mailbox, MailboxCall, MailboxWrite};
use crate::base::AcpiResult;

/// A `Mailbox` (section 5.2.12.19) for tests and dry runs. It can be opened at every address, and its reads
/// return the numbers of its script, in order, and after these with 1 each time. It shows what was done to
/// it: the first 32 calls, the address opened last, the writes since then, and how many reads there were.
#[derive(Debug)]
pub struct ScriptedMailbox<'a> {
    answers: &'a [u16],
    opened: Option<u64>,
    writes: [MailboxWrite; 4],
    written: usize,
    reads: u64,
    calls: [MailboxCall; 32],
    called: usize,
}

impl<'a> ScriptedMailbox<'a> {
    /// A mailbox whose reads return these numbers, in order, and after these 1 each time. It
    /// isn't opened yet.
    pub fn new(answers: &'a [u16]) -> ScriptedMailbox<'a> {
        ScriptedMailbox {
            answers,
            opened: None,
            writes: [MailboxWrite::Command(0); 4],
            written: 0,
            reads: 0,
            calls: [MailboxCall::Read; 32],
            called: 0,
        }
    }

    /// The physical address that was opened last, or `None` if none was.
    pub fn opened(&self) -> Option<u64> {
        self.opened
    }

    /// The writes since the mailbox was opened last, in order.
    pub fn writes(&self) -> &[MailboxWrite] {
        &self.writes[..self.written]
    }

    /// The calls that were made of the mailbox, in order: all of them, or the first 32 if there were more.
    pub fn calls(&self) -> &[MailboxCall] {
        &self.calls[..self.called]
    }

    /// How many reads there were since the mailbox was made. At 2^64 - 1 the number stays.
    pub fn reads(&self) -> u64 {
        self.reads
    }

    /// Lists one more call, if there is room for it.
    fn list(&mut self, call: MailboxCall) {
        if self.called < self.calls.len() {
            self.calls[self.called] = call;
            self.called += 1;
        }
    }

    /// Keeps one more write.
    fn put(&mut self, write: MailboxWrite) {
        self.writes[self.written] = write;
        self.written += 1;
        self.list(MailboxCall::Wrote(write));
    }
}

impl<'a> Mailbox for ScriptedMailbox<'a> {
    fn open(&mut self, address: u64) -> AcpiResult<()> {
        self.opened = Some(address);
        self.written = 0;
        self.list(MailboxCall::Opened(address));
        Ok(())
    }

    fn write_command(&mut self, command: u16) {
        self.put(MailboxWrite::Command(command));
    }

    fn write_apic_id(&mut self, id: u32) {
        self.put(MailboxWrite::ApicId(id));
    }

    fn write_wakeup_vector(&mut self, vector: u64) {
        self.put(MailboxWrite::WakeupVector(vector));
    }

    fn read_command(&mut self) -> u16 {
        self.list(MailboxCall::Read);
        self.reads = self.reads.saturating_add(1);
        match self.answers {
            [] => 1,
            [first, rest @ ..] => {
                self.answers = rest;
                *first
            }
        }
    }
}
