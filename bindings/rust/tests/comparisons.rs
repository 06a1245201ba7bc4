//! The derived comparisons, orders, hashes and clones of public types tell apart what differs. The programs' own types
//! are in `bindings/programs/tests`.
use std::cmp::Ordering;
use std::fmt::Debug;
use std::hash::{DefaultHasher, Hash, Hasher};
use zacpi::address::{AccessSize, AddressSpace, GenericAddress};
use zacpi::bgrt::ImageType;
use zacpi::handler::RegionError;
use zacpi::hpet::PageProtection;
use zacpi::iommu::IommuError;
use zacpi::madt::MpProtectedModeWakeupCommand;
use zacpi::numa::NumaError;
use zacpi::platform::interrupt::{LocalInterruptLine, NmiProcessor, Polarity, TriggerMode};
use zacpi::platform::{MailboxCall, MailboxWrite, PmTimer, Processor, ProcessorState};
use zacpi::sdt::Signature;
use zacpi::sleep::{AmlError, Plan, PlanError, PlanStep, SleepAnswer, SleepError, SleepTypes, StepKind};
use zacpi::spcr::SpcrInterfaceType;
use zacpi::write::WriterError;
use zacpi::{AcpiError, AddressRange, AmlTable, MadtError, PowerProfile, Sdt};

/// Checks that each value equals itself and its clone, and no other.
fn check_apart<T: Copy + Debug + PartialEq>(name: &str, values: &[T]) {
    for (row, value) in values.iter().enumerate() {
        assert_eq!(T::clone(value), *value, "{name} {row}");
        for (column, other) in values.iter().enumerate() {
            assert_eq!(value == other, row == column, "{name} {row} {column}");
        }
    }
}

/// Checks values of an enum: each variant, and of one that has fields two for each field, which differ there alone. Or
/// checks a struct of the first value of each field, and for each field that struct with the field's second value.
#[rustfmt::skip]
macro_rules! apart {
    ($type:ident: $($variant:ident$(($($held:expr),+))?),+) => {
        check_apart(stringify!($type), &[$($type::$variant$(($($held),+))?),+])
    };
    ($type:ident { $($field:ident: $value:expr => $other:expr),+ }) => {{
        let first = $type { $($field: $value),+ };
        check_apart(stringify!($type), &[first, $($type { $field: $other, ..first }),+])
    }};
}

#[test]
#[rustfmt::skip]
fn codes_are_apart() {
    apart!(AddressSpace: SystemMemory, SystemIo, PciConfigSpace, EmbeddedController, SMBus, SystemCmos,
        PciBarTarget, Ipmi, GeneralIo, GenericSerialBus, PlatformCommunicationsChannel, FunctionalFixedHardware,
        OemDefined(0xc0), OemDefined(0xc1));
    apart!(PowerProfile: Unspecified, Desktop, Mobile, Workstation, EnterpriseServer, SohoServer, AppliancePc,
        PerformanceServer, Tablet, Reserved(9), Reserved(10));
    apart!(SpcrInterfaceType: Full16550, Full16450, MAX311xE, ArmPL011, MSM8x60, Nvidia16550, TiOmap, APM88xxxx,
        Msm8974, Sam5250, IntelUSIF, Imx6, ArmSBSAGeneric32bit, ArmSBSAGeneric, ArmDCC, Bcm2835, Sdm845_18432,
        Generic16550, Sdm845_7372, IntelLPSS, RiscVSbi, Unknown(0x20), Unknown(0x21));
    apart!(AccessSize: Undefined, ByteAccess, WordAccess, DWordAccess, QWordAccess);
    apart!(PageProtection: None, Protected4K, Protected64K, Other);
    apart!(MpProtectedModeWakeupCommand: Noop, Wakeup, Sleep, AcceptPages);
    apart!(Polarity: SameAsBus, ActiveHigh, ActiveLow);
    apart!(TriggerMode: SameAsBus, Edge, Level);
    apart!(LocalInterruptLine: Lint0, Lint1);
    apart!(NmiProcessor: All, ProcessorUid(1), ProcessorUid(2));
    apart!(ProcessorState: Disabled, WaitingForSipi, Running);
    apart!(StepKind: Write, Wait);
    apart!(ImageType: Bitmap, Reserved);
}

#[test]
#[rustfmt::skip]
fn errors_are_apart() {
    const A: Signature = Signature::FADT;
    const B: Signature = Signature::MADT;
    apart!(AcpiError: NoValidRsdp, RsdpIncorrectSignature, RsdpInvalidOemId, RsdpInvalidChecksum,
        SdtInvalidSignature(A), SdtInvalidSignature(B), SdtInvalidOemId(A), SdtInvalidOemId(B), SdtInvalidTableId(A),
        SdtInvalidTableId(B), SdtInvalidChecksum(A), SdtInvalidChecksum(B), SdtInvalidLength(A), SdtInvalidLength(B),
        TableMissing(A), TableMissing(B), InvalidMadt(MadtError::UnexpectedEntry),
        InvalidMadt(MadtError::InvalidEntryLength), InvalidFacsAddress, InvalidDsdtAddress, InvalidGenericAddress,
        AllocError, MapFailed, InvalidNamespaceString);
    apart!(MadtError: UnexpectedEntry, InterruptOverrideEntryHasInvalidBus, InvalidLocalNmiLine,
        MpsIntiInvalidPolarity, MpsIntiInvalidTriggerMode, WakeupApsTimeout, InvalidEntryLength);
    apart!(RegionError: EndTooLarge, NotAscending, Overlap);
    apart!(NumaError: Acpi(AcpiError::MapFailed), Acpi(AcpiError::AllocError), InvalidEntryLength,
        InvalidMemoryRange);
    apart!(IommuError: InvalidStructureLength, InvalidMemoryRange);
    apart!(AmlError: PastEnd(1), PastEnd(2), InvalidLength(1), InvalidLength(2), InvalidName(1), InvalidName(2),
        UnknownTerm(1), UnknownTerm(2), NotRead(1), NotRead(2));
    apart!(SleepError: NoSuchState, Aml(A, AmlError::PastEnd(1)), Aml(B, AmlError::PastEnd(1)),
        Aml(A, AmlError::PastEnd(2)), Acpi(AcpiError::MapFailed), Acpi(AcpiError::AllocError));
    apart!(PlanError: NoRegister, NoReset, SleepTypeTooHigh, BadRegister(AcpiError::MapFailed),
        BadRegister(AcpiError::InvalidGenericAddress));
    apart!(WriterError: NoProcessor, IdOfAll, UidOfAll, BadMatrix, NoAddress, BadProfile, BadRegister, BadName,
        HasHeader, NoRoom, TooLong, BadRange, BadCode, LongName, SameAsBus, TooManyFrames);
}

#[rustfmt::skip]
const PORT: GenericAddress = GenericAddress {
    address_space: AddressSpace::SystemIo, bit_width: 16, bit_offset: 0, access_size: AccessSize::WordAccess,
    address: 0x604,
};

const OTHER: GenericAddress = GenericAddress { address: 0x608, ..PORT };

#[rustfmt::skip]
const STEP: PlanStep = PlanStep {
    register: PORT, width: 16, mask: 0x3c00, value: 0x2000, kind: StepKind::Write,
};

#[test]
#[rustfmt::skip]
fn records_are_apart() {
    apart!(Processor {
        processor_uid: 1 => 3, local_apic_id: 2 => 3, state: ProcessorState::Running => ProcessorState::Disabled,
        is_ap: false => true
    });
    apart!(AddressRange { address: 1 => 3, length: 2 => 3 });
    apart!(AmlTable { address: 1 => 3, length: 2 => 3 });
    apart!(Sdt { physical_address: 1 => 3, length: 2 => 3, validated: false => true });
    apart!(GenericAddress {
        address_space: AddressSpace::SystemIo => AddressSpace::SystemMemory, bit_width: 16 => 8, bit_offset: 0 => 1,
        access_size: AccessSize::WordAccess => AccessSize::Undefined, address: 0x604 => 0x608
    });
    apart!(PmTimer { base: PORT => OTHER, supports_32bit: false => true });
    apart!(PlanStep {
        register: PORT => OTHER, width: 16 => 8, mask: 0x3c00 => 0x2000, value: 0x2000 => 0,
        kind: StepKind::Write => StepKind::Wait
    });
    apart!(Plan { first: None => Some(STEP), second: None => Some(STEP) });
    apart!(SleepTypes { a: 5 => 3, b: 5 => 3 });
    apart!(SleepAnswer: Types(SleepTypes { a: 5, b: 5 }), Types(SleepTypes { a: 3, b: 3 }), Absent, NotSeen(1),
        NotSeen(2));
    apart!(MailboxWrite: Command(1), Command(2), ApicId(1), ApicId(2), WakeupVector(1), WakeupVector(2));
    apart!(MailboxCall: Opened(1), Opened(2), Wrote(MailboxWrite::Command(1)), Wrote(MailboxWrite::ApicId(1)),
        Read);
}

/// The hash of a type of image, by the hasher that the standard library takes by itself.
fn hash_of(kind: ImageType) -> u64 {
    let mut hasher = DefaultHasher::new();
    kind.hash(&mut hasher);
    hasher.finish()
}

#[test]
fn image_types_are_ordered_and_hashed_by_their_variants() {
    let (less, more) = (ImageType::Bitmap, ImageType::Reserved);
    let found = [less.cmp(&more), more.cmp(&less), more.cmp(&more)];
    assert_eq!(found, [Ordering::Less, Ordering::Greater, Ordering::Equal]);
    assert_eq!(less.partial_cmp(&more), Some(Ordering::Less));
    assert_eq!(hash_of(less), hash_of(ImageType::Bitmap));
    assert_ne!(hash_of(less), hash_of(more));
}
