//! Codes and names: each byte of firmware has a value, and each error a text.
use zacpi::address::{AccessSize, AddressSpace};
use zacpi::flags::Flags;
use zacpi::lists::refusal::Refusal;
use zacpi::madt::MpProtectedModeWakeupCommand;
use zacpi::platform::interrupt::{LocalInterruptLine, NmiProcessor, Polarity, TriggerMode};
use zacpi::sdt::Signature;
use zacpi::sleep::{AmlError, PlanError, SleepError};
use zacpi::spcr::{SpcrFlowControl, SpcrInterfaceType, SpcrInterruptType, SpcrTerminalType};
use zacpi::write::WriterError;
use zacpi::{AcpiError, MadtError, PowerProfile, hpet::PageProtection};

#[test]
fn every_code_has_a_value() {
    for code in 0..=u8::MAX {
        assert_eq!(PowerProfile::from(code).code(), code);
        assert_eq!(matches!(PowerProfile::from(code), PowerProfile::Reserved(n) if n == code), code > 8);
        let reserved = matches!(code, 0x0b..=0x7e | 0x80..=0xbf);
        let refusal = Err(AcpiError::InvalidGenericAddress);
        assert_eq!(AddressSpace::try_from(code).map(AddressSpace::code), if reserved { refusal } else { Ok(code) });
        assert_eq!(AddressSpace::try_from(code) == Ok(AddressSpace::OemDefined(code)), code >= 0xc0);
        assert_eq!(AccessSize::try_from(code).map(AccessSize::code), if code > 4 { refusal } else { Ok(code) });
        let unknown = code == 7 || code > 0x15;
        assert_eq!(SpcrInterfaceType::from(code) == SpcrInterfaceType::Unknown(code), unknown);
        assert_eq!(SpcrInterfaceType::from(code).code(), code);
        let mode = |refusal| if matches!(code, 0 | 1 | 3) { Ok(code) } else { Err(refusal) };
        assert_eq!(Polarity::try_from(code).map(Polarity::code), mode(MadtError::MpsIntiInvalidPolarity));
        assert_eq!(TriggerMode::try_from(code).map(TriggerMode::code), mode(MadtError::MpsIntiInvalidTriggerMode));
        let line = if code < 2 { Ok(code) } else { Err(MadtError::InvalidLocalNmiLine) };
        assert_eq!(LocalInterruptLine::try_from(code).map(LocalInterruptLine::code), line);
        assert_eq!(PageProtection::from(code).code(), code.min(3));
        let command = MpProtectedModeWakeupCommand::try_from(u16::from(code)).map(|it| it as u8);
        assert_eq!(command, if code < 4 { Ok(code) } else { Err(u16::from(code)) });
    }
    use AddressSpace::*;
    let spaces = [
        SystemMemory,
        SystemIo,
        PciConfigSpace,
        EmbeddedController,
        SMBus,
        SystemCmos,
        PciBarTarget,
        Ipmi,
        GeneralIo,
        GenericSerialBus,
        PlatformCommunicationsChannel,
    ];
    assert!((0..).zip(spaces).all(|(code, space)| AddressSpace::try_from(code) == Ok(space)));
    assert_eq!(AddressSpace::try_from(0x7f), Ok(FunctionalFixedHardware));
    use PowerProfile::*;
    let profiles = [
        Unspecified,
        Desktop,
        Mobile,
        Workstation,
        EnterpriseServer,
        SohoServer,
        AppliancePc,
        PerformanceServer,
        Tablet,
    ];
    assert!((0..).zip(profiles).all(|(code, profile)| PowerProfile::from(code) == profile));
    let (all, one) = (NmiProcessor::All, NmiProcessor::ProcessorUid(5));
    for of_all in [NmiProcessor::ALL_APICS, NmiProcessor::ALL_X2APICS] {
        assert_eq!([all.uid(of_all), one.uid(of_all)], [of_all, 5]);
        assert_eq!([of_all, 5].map(|uid| NmiProcessor::from_uid(uid, of_all)), [all, one]);
    }
}

/// The codes of Microsoft's table of Interface Type, of which 7 is reserved.
#[test]
fn interface_types_are_their_codes() {
    use SpcrInterfaceType::*;
    #[rustfmt::skip]
    let types = [
        (0, Full16550), (1, Full16450), (2, MAX311xE), (3, ArmPL011), (4, MSM8x60), (5, Nvidia16550), (6, TiOmap),
        (8, APM88xxxx), (9, Msm8974), (10, Sam5250), (11, IntelUSIF), (12, Imx6), (13, ArmSBSAGeneric32bit),
        (14, ArmSBSAGeneric), (15, ArmDCC), (16, Bcm2835), (17, Sdm845_18432), (18, Generic16550), (19, Sdm845_7372),
        (20, IntelLPSS), (21, RiscVSbi),
    ];
    assert!(types.iter().all(|(code, interface)| SpcrInterfaceType::from(*code) == *interface));
}

/// Each flag is its bit, which is its place here.
#[test]
fn flags_are_sets() {
    let interrupt = ["DUAL_8259", "IO_APIC", "IO_SAPIC", "ARMH_GIC", "RISCV_PLIC"];
    let terminal = ["VT1000", "EXTENDED_VT1000", "VT_UTF8", "ANSI"];
    let names = |flags: Vec<(&'static str, u8)>| {
        assert!((0..).zip(&flags).all(|(bit, flag)| flag.1 == 1 << bit));
        flags.into_iter().map(|flag| flag.0).collect::<Vec<_>>()
    };
    let of = |name, bits| (name, bits);
    assert_eq!(names(SpcrInterruptType::flags().iter().map(|it| of(it.name, it.value.bits())).collect()), interrupt);
    assert_eq!(names(SpcrTerminalType::flags().iter().map(|it| of(it.name, it.value.bits())).collect()), terminal);
    let flow = ["DCD", "RTS_CTS", "XON_XOFF"];
    assert_eq!(names(SpcrFlowControl::flags().iter().map(|it| of(it.name, it.value.bits())).collect()), flow);
    type Set = SpcrFlowControl;
    let (a, b) = (Set::DCD, Set::XON_XOFF);
    let bits = [(a | b), (a | b) & b, (a | b) ^ b, (a | b) - a, !a, Set::empty(), Set::all()].map(|set| set.bits());
    assert_eq!(bits, [5, 4, 1, 4, 6, 0, 7]);
    assert_eq!(Set::from_bits_truncate(0xfd).bits(), 5);
    assert_eq!([0xfd, 5].map(|bits| Set::from_bits(bits).map(|set| set.bits())), [None, Some(5)]);
    assert_eq!(["DCD", "dcd"].map(|name| Set::from_name(name).map(|set| set.bits())), [Some(1), None]);
    let (kept, both) = (Set::from_bits_retain(0xfd), a | b);
    assert_eq!((kept.bits(), kept.contains(both), kept.contains(Set::RTS_CTS)), (0xfd, true, false));
    assert_eq!(
        (both.intersects(a), a.intersects(b), a.is_empty(), Set::empty().is_empty()),
        (true, false, false, true)
    );
}

#[test]
fn names_are_shown() {
    assert_eq!((Signature::MADT.to_bytes(), Signature::MADT.as_str()), (*b"APIC", Some("APIC")));
    let odd = Signature::from_bytes([0xff, 0, 1, 0x41]);
    assert_eq!((odd.as_str(), odd.to_string(), format!("{odd:?}")), (None, "ff000141".into(), "\"ff000141\"".into()));
    let madt = AcpiError::InvalidMadt(MadtError::UnexpectedEntry);
    #[rustfmt::skip]
    let texts: [(&dyn core::error::Error, &str); 13] = [
        (&AcpiError::TableMissing(Signature::HPET), "TableMissing HPET"),
        (&AcpiError::SdtInvalidChecksum(odd), "SdtInvalidChecksum ff000141"),
        (&madt, "InvalidMadt UnexpectedEntry"),
        (&AcpiError::NoValidRsdp, "NoValidRsdp"),
        (&MadtError::InvalidLocalNmiLine, "InvalidLocalNmiLine"),
        (&Refusal::AmlInvalid(Signature::DSDT), "AmlInvalid DSDT"),
        (&Refusal::Acpi(madt), "InvalidMadt UnexpectedEntry"),
        (&Refusal::Writer(WriterError::TooManyFrames), "TooManyFrames"),
        (&Refusal::NoSuchFunction, "NoSuchFunction"),
        (&SleepError::NoSuchState, "NoSuchState"),
        (&SleepError::Aml(Signature::SSDT, AmlError::PastEnd(7)), "SSDT PastEnd 7"),
        (&PlanError::NoReset, "NoReset"),
        (&PlanError::BadRegister(AcpiError::InvalidGenericAddress), "InvalidGenericAddress"),
    ];
    for (error, text) in texts {
        assert_eq!((error.to_string(), error.source().is_none()), (text.to_string(), true));
    }
}

/// The numbers of `enum zacpi_status_code` in include/zacpi.h.
#[test]
fn a_status_is_an_error() {
    let of = |status| Refusal::of_status(status, Signature::FADT).map(|error| error.to_string());
    #[rustfmt::skip]
    let some = [
        (1, "RegionsNotAscending"), (10, "MapFailed"), (20, "SdtInvalidSignature FACP"), (25, "TableMissing FACP"),
        (30, "InvalidDsdtAddress"), (37, "AmlInvalid FACP"), (44, "InvalidMadt UnexpectedEntry"), (51, "InvalidMemoryRange"),
        (57, "InvalidTimerLength"), (59, "ShortRiscvEntry"), (73, "BadTable"),
    ];
    for (status, text) in some {
        assert_eq!(of(status).as_deref(), Some(text));
    }
    assert_eq!([0, 8, 26, 99].map(of), [const { None }; 4]);
    assert_eq!((0..100).filter(|status| of(*status).is_some()).count(), 29 + 13 + 6 + 1);
}
