//! A mailbox that can't be opened, where a processor is to be woken.
mod common;
use common::with;
use zacpi::platform::{Mailbox, ScriptedMailbox, wakeup_aps};
use zacpi::{AcpiError, AcpiResult};

/// A mailbox that can't be opened, and shows what else is done to it.
struct Closed<'a>(ScriptedMailbox<'a>);

impl Mailbox for Closed<'_> {
    fn open(&mut self, _address: u64) -> AcpiResult<()> {
        Err(AcpiError::MapFailed)
    }

    fn write_command(&mut self, command: u16) {
        self.0.write_command(command);
    }

    fn write_apic_id(&mut self, id: u32) {
        self.0.write_apic_id(id);
    }

    fn write_wakeup_vector(&mut self, vector: u64) {
        self.0.write_wakeup_vector(vector);
    }

    fn read_command(&mut self) -> u16 {
        self.0.read_command()
    }
}

/// A MADT with a Multiprocessor Wakeup entry (section 5.2.12.19): MailBoxAddress is at 8.
#[test]
fn nothing_is_done_to_a_mailbox_that_stays_closed() {
    let mut closed = Closed(ScriptedMailbox::new(&[0]));
    with("APIC", 5, 60, &[(44, 2, 0x1010), (52, 8, 0x5000)]).ask(|tables| {
        assert_eq!(wakeup_aps(tables, &mut closed, 7, 0x8000, 9), Err(AcpiError::MapFailed));
    });
    assert_eq!((closed.0.opened(), closed.0.calls().len(), closed.0.reads()), (None, 0, 0));
}
