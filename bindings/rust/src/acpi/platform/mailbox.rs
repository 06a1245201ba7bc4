// Made by scripts/erase of crates/acpi/src/platform/mailbox.rt, where it is proved.
//! The Multiprocessor Wakeup Mailbox, by which the firmware wakes processors (section 5.2.12.19).

use crate::base::AcpiResult;

/// One write to a field of a Multiprocessor Wakeup Mailbox (section 5.2.12.19).
#[derive(Clone, Copy, Debug, PartialEq, Eq)]
#[non_exhaustive]
pub enum MailboxWrite {
    /// Command: what the firmware is to do.
    Command(u16),
    /// ApicId: the id of the local APIC of the processor that the command is for.
    ApicId(u32),
    /// WakeupVector: the physical address that the processor begins to run at.
    WakeupVector(u64),
}

/// One call of a Multiprocessor Wakeup Mailbox (section 5.2.12.19): it is opened, written to, or read.
#[derive(Clone, Copy, Debug, PartialEq, Eq)]
#[non_exhaustive]
pub enum MailboxCall {
    /// The mailbox was opened at this physical address.
    Opened(u64),
    /// This field of the mailbox was written, with this value.
    Wrote(MailboxWrite),
    /// Command was read.
    Read,
}

/// A Multiprocessor Wakeup Mailbox (section 5.2.12.19), as a kernel or a test reaches it.
///
/// It means five things: for each address what `open` returns there, the address that was
/// opened, the writes since then, for each number i the result of the i-th read from now, and to
/// which state a call leads from which one. Only `open` can fail.
///
/// The values of reads are those that the mailbox is still going to return, whatever is written to it. Who
/// implements this over a real mailbox therefore states beforehand what the firmware is going to write.
/// No proof shows that a real mailbox does so, or reacts at all.
pub trait Mailbox {
    /// Opens the mailbox at a physical address, the MailBoxAddress of a Multiprocessor Wakeup entry
    /// (section 5.2.12.19). It then has no writes.
    ///
    /// Fails with any error that its implementor chooses, and then changes nothing.
    fn open(&mut self, address: u64) -> AcpiResult<()>;

    /// Writes Command, of two bytes (section 5.2.12.19).
    fn write_command(&mut self, command: u16);

    /// Writes ApicId: the id of the local APIC of the processor that the command is for (section
    /// 5.2.12.19).
    fn write_apic_id(&mut self, id: u32);

    /// Writes WakeupVector: the physical address that the processor begins to run at (section 5.2.12.19).
    fn write_wakeup_vector(&mut self, vector: u64);

    /// Reads Command (section 5.2.12.19). The firmware sets it to 0, Noop, when it has taken the command.
    fn read_command(&mut self) -> u16;
}
