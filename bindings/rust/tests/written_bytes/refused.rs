//! Errors of writing, for what C can't pass: `tests/c/rows_written.h` has all else, and with each call a byte less of
//! room, and names that aren't UTF-8. `writing.rs` has `TooLong`.
use super::tables::{FADT, GTDT, HARDWARE, IDS, PORT, SECURE, SPCR};
use zacpi::PowerProfile;
use zacpi::address::{AddressSpace, GenericAddress};
use zacpi::arm::gtdt::{GtFrame, TimerInterrupt};
use zacpi::platform::interrupt::{Polarity, TriggerMode};
use zacpi::spcr::SpcrInterfaceType;
use zacpi::write::fadt::FixedHardware;
use zacpi::write::*;

/// A byte that begins no text.
const BAD: TableIds = TableIds { creator_id: [b'Z', 0xff, b'G', b'Z'], ..IDS };

const NOWHERE: Option<GenericAddress> = Some(GenericAddress { address: 0, ..PORT });

#[rustfmt::skip]
const UNNAMED: Option<GenericAddress> = Some(GenericAddress { address_space: AddressSpace::OemDefined(0xbf), ..PORT });

const UNNAMED_NOWHERE: Option<GenericAddress> =
    Some(GenericAddress { address_space: AddressSpace::OemDefined(0xbf), address: 0, ..PORT });

/// A GTDT of one block with some frames.
#[rustfmt::skip]
macro_rules! frames {
    ($frames:expr) => {
        TableContents::Gtdt(GtdtContents {
            platform_timers: &[PlatformTimerContents::GtBlock(GtBlockContents {
                address: 0x2a810000, frames: $frames,
            })],
            ..GTDT
        })
    };
}

/// What is written with which ids into eight bytes, and the error: contents come before names, and names before room.
#[rustfmt::skip]
static REFUSED: [(&TableIds, TableContents<'static>, WriterError); 13] = [
    // a FACS at 0, a reserved profile that has a name, and registers without an address or a space, in order
    (&BAD, TableContents::Fadt(FadtContents {
        facs: Some(0), power_profile: PowerProfile::Reserved(8), sleep_status: NOWHERE, ..FADT
    }), WriterError::NoAddress),
    (&BAD, TableContents::Fadt(FadtContents {
        power_profile: PowerProfile::Reserved(8), sleep_status: NOWHERE, ..FADT
    }), WriterError::BadProfile),
    (&BAD, TableContents::Fadt(FadtContents { sleep_status: NOWHERE, ..FADT }), WriterError::BadRegister),
    (&BAD, TableContents::Fadt(FadtContents { reset_register: UNNAMED, ..FADT }), WriterError::BadRegister),
    (&BAD, TableContents::Fadt(FadtContents {
        hardware: FadtHardware::Fixed(FixedHardware { pm_timer: NOWHERE, ..HARDWARE }), ..FADT
    }), WriterError::BadRegister),
    (&BAD, TableContents::Fadt(FadtContents {
        hardware: FadtHardware::Fixed(FixedHardware {
            pm1a_event: GenericAddress { bit_width: 7, ..PORT }, ..HARDWARE
        }),
        ..FADT
    }), WriterError::BadRegister),
    // an interface and a space without a name, and then an address
    (&BAD, TableContents::Spcr(SpcrContents {
        interface_type: SpcrInterfaceType::Unknown(0x15), base_address: NOWHERE, ..SPCR
    }), WriterError::BadCode),
    (&BAD, TableContents::Spcr(SpcrContents { base_address: UNNAMED_NOWHERE, ..SPCR }), WriterError::BadCode),
    (&BAD, TableContents::Spcr(SpcrContents { base_address: NOWHERE, ..SPCR }), WriterError::NoAddress),
    // the second frame has the base that means none, or a timer that is as its bus has it
    (&BAD, frames!(&[SECURE, GtFrame { el0_base: Some(u64::MAX), ..SECURE }]), WriterError::NoAddress),
    (&BAD, frames!(&[SECURE, GtFrame {
        virtual_timer: TimerInterrupt {
            interrupt: 572, trigger_mode: TriggerMode::Level, polarity: Polarity::SameAsBus,
        },
        ..SECURE
    }]), WriterError::SameAsBus),
    // a block has less than 64 KiB
    (&BAD, frames!(&[SECURE; 1638]), WriterError::TooManyFrames),
    (&IDS, frames!(&[SECURE; 1637]), WriterError::NoRoom),
];

/// Writes a table by the function of its name. Only tables of these kinds are written so.
fn write(out: &mut [u8], ids: &TableIds, contents: &TableContents<'_>) -> Result<usize, WriterError> {
    match contents {
        TableContents::Fadt(contents) => write_fadt(out, ids, contents),
        TableContents::Spcr(contents) => write_spcr(out, ids, contents),
        TableContents::Gtdt(contents) => write_gtdt(out, ids, contents),
        _ => panic!("no table of this kind"),
    }
}

#[test]
fn bad_contents_are_refused() {
    for (row, (ids, contents, error)) in REFUSED.iter().enumerate() {
        let mut out = [7; 8];
        assert_eq!(write(&mut out, ids, contents), Err(*error), "row {row}");
        assert_eq!(out, [7; 8], "row {row}");
    }
}
