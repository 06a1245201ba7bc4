// Made by scripts/erase of crates/acpi/src/platform/wakeup.rt, where it is proved.
//! Waking a processor by the Multiprocessor Wakeup Mailbox (section 5.2.12.19).

use super::mailbox::Mailbox;
use crate::acpi::tables::AcpiTables;
use crate::base::madt::{Madt, MadtError, MpProtectedModeWakeupCommand};
use crate::base::{AcpiError, AcpiResult, Lender};

/// Wakes the processor with a local APIC id by the Multiprocessor Wakeup Mailbox (section 5.2.12.19): the
/// firmware is requested to let it run at the vector, a physical address. The mailbox is that of the first
/// Multiprocessor Wakeup entry of the first valid MADT. It gets Command 0 (Noop), ApicId, WakeupVector and
/// Command 1 (Wakeup), in this order; then Command is read until it is 0, at most `timeout_loops` times.
///
/// Fails, in this order, with `TableMissing` if no valid MADT is listed, with the error of
/// `get_mpwk_mailbox_addr`, with that of the mailbox's `open`, each without a write or
/// a read, and with `InvalidMadt(WakeupApsTimeout)` if no read is 0.
pub fn wakeup_aps<H: Lender, M: Mailbox>(
    tables: &AcpiTables<'_, H>,
    mailbox: &mut M,
    apic_id: u32,
    wakeup_vector: u64,
    timeout_loops: u64,
) -> AcpiResult<()> {
    let address = mailbox_address(tables)?;
    wake(mailbox, address, apic_id, wakeup_vector, timeout_loops)
}

/// The address of the mailbox of the first valid MADT.
///
/// Fails with `TableMissing` if no valid MADT is listed, and then with the error of
/// `get_mpwk_mailbox_addr`.
fn mailbox_address<H: Lender>(tables: &AcpiTables<'_, H>) -> AcpiResult<u64> {
    tables.find_table::<Madt>()?.get_mpwk_mailbox_addr()
}

/// Wakes a processor by the mailbox at an address.
fn wake<M: Mailbox>(
    mailbox: &mut M,
    address: u64,
    apic_id: u32,
    wakeup_vector: u64,
    timeout_loops: u64,
) -> AcpiResult<()> {
    mailbox.open(address)?;
    mailbox.write_command(MpProtectedModeWakeupCommand::Noop as u16);
    mailbox.write_apic_id(apic_id);
    mailbox.write_wakeup_vector(wakeup_vector);
    mailbox.write_command(MpProtectedModeWakeupCommand::Wakeup as u16);
    wait(mailbox, timeout_loops)
}

/// Reads the command until it is 0, at most `timeout_loops` times. Fails with
/// `InvalidMadt(WakeupApsTimeout)` if no read is 0.
fn wait<M: Mailbox>(mailbox: &mut M, timeout_loops: u64) -> AcpiResult<()> {
    for _read in 0..timeout_loops {
        if mailbox.read_command() == MpProtectedModeWakeupCommand::Noop as u16 {
            return Ok(());
        }
    }
    Err(AcpiError::InvalidMadt(MadtError::WakeupApsTimeout))
}
