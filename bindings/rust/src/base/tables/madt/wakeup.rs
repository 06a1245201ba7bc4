// Made by scripts/erase of crates/acpi_base/src/tables/madt/wakeup.rt, where it is proved.
//! The Multiprocessor Wakeup entry and its mailbox, by which processors are woken (section 5.2.12.19).

mod readings;

use super::entry::EntryHeader;

/// Multiprocessor Wakeup: the mailbox by which the firmware is requested to wake a processor (section
/// 5.2.12.19).
#[derive(Clone, Copy, Debug)]
#[repr(C)]
#[non_exhaustive]
pub struct MultiprocessorWakeupEntry {
    /// Type and Length: the entry's type, and its length in bytes.
    pub header: EntryHeader,
    /// MailBoxVersion: that of the mailbox.
    pub mailbox_version: u16,
    /// MailBoxAddress: the physical address of the mailbox.
    pub mailbox_address: u64,
}

/// Command: what the firmware is to do by the Multiprocessor Wakeup Mailbox (section 5.2.12.19).
#[derive(Clone, Copy, Debug, PartialEq, Eq)]
#[non_exhaustive]
pub enum MpProtectedModeWakeupCommand {
    /// Noop, 0: nothing is requested, and the firmware is ready for a command.
    Noop = 0,
    /// Wakeup, 1: wake the processor, which begins to run at WakeupVector.
    Wakeup = 1,
    /// Sleep, 2: put the processor to sleep.
    Sleep = 2,
    /// AcceptPages, 3: accept pages of memory.
    AcceptPages = 3,
}

impl TryFrom<u16> for MpProtectedModeWakeupCommand {
    type Error = u16;

    /// The command of a number, from 0 to 3 (section 5.2.12.19).
    ///
    /// Fails for every other number, with that number.
    fn try_from(number: u16) -> Result<MpProtectedModeWakeupCommand, u16> {
        match number {
            0 => Ok(MpProtectedModeWakeupCommand::Noop),
            1 => Ok(MpProtectedModeWakeupCommand::Wakeup),
            2 => Ok(MpProtectedModeWakeupCommand::Sleep),
            3 => Ok(MpProtectedModeWakeupCommand::AcceptPages),
            other => Err(other),
        }
    }
}

/// The fields of the Multiprocessor Wakeup Mailbox (section 5.2.12.19). No function of this crate reads or
/// writes one.
#[derive(Clone, Copy, Debug)]
#[non_exhaustive]
pub struct MultiprocessorWakeupMailbox {
    /// Command: what the firmware is to do, by its number.
    pub command: u16,
    /// ApicId: the id of the local APIC of the processor that the command is for.
    pub apic_id: u32,
    /// WakeupVector: the physical address that the processor begins to run at.
    pub wakeup_vector: u64,
    /// ReservedForOs: bytes that the operating system may use.
    pub reserved_for_os: [u64; 254],
}
