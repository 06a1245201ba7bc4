//! Sleep types and plans: what a machine is to be written so that it sleeps, is off, is reset, or has ACPI.
mod common;
use common::{Field, Memory, ROOT, generic, plain};
use zacpi::AcpiError;
use zacpi::lists::power_records::Plan;
use zacpi::lists::{power, refusal::Refusal};
use zacpi::sdt::Signature;
use zacpi::sleep::block::block_at;
use zacpi::sleep::name::name_at;
use zacpi::sleep::opcode::opcode_at;
use zacpi::sleep::tables::{block_answer, or_after};
use zacpi::sleep::term::{parts_end, parts_of};
use zacpi::sleep::{
    self, AmlError, PlanError, PlanStep, SleepAnswer, SleepError, SleepTables, SleepTypes, StepKind, enable_plan,
    pm_timer_ticks, reset_plan, sleep_plan,
};

const FADT: u64 = ROOT + 0x1000;
const DSDT: u64 = ROOT + 0x2000;
const SSDT: u64 = ROOT + 0x3000;

/// Name (_S5, Package {5, 7}), and Name (\_S3, Package {1, 1, 0, 0}).
const S5: &[u8] = b"\x08_S5_\x12\x06\x02\x0a\x05\x0a\x07";
const S3: &[u8] = b"\x08\\_S3_\x12\x06\x04\x01\x01\0\0";

fn aml(memory: &mut Memory, address: u64, signature: &str, aml: &[u8]) {
    let fields: Vec<Field> = aml.iter().enumerate().map(|(n, byte)| (36 + n, 1, u64::from(*byte))).collect();
    memory.table(address, signature, 2, 36 + aml.len(), &fields);
}

/// A machine of a FADT of revision 3 (section 5.2.9), with a DSDT and an SSDT of this AML. Of the FADT, DSDT is at 40,
/// SMI_CMD at 48, ACPI_ENABLE at 52, PM1a_CNT_BLK at 64, PM1b_CNT_BLK at 68, PM1_CNT_LEN at 89, Flags at 112, RESET_REG
/// at 116 and RESET_VALUE at 128.
fn machine(fields: &[Field], dsdt: &[u8], ssdt: &[u8]) -> Memory {
    let mut memory = Memory::rsdt(&[FADT, SSDT]);
    let mut all = vec![(40, 4, DSDT), (48, 4, 0xb2), (52, 1, 0xa0), (64, 4, 0x604), (89, 1, 2)];
    all.extend(fields);
    memory.table(FADT, "FACP", 3, 268, &all);
    aml(&mut memory, DSDT, "DSDT", dsdt);
    aml(&mut memory, SSDT, "SSDT", ssdt);
    memory
}

/// A step as numbers: space, address, width, mask, value, and whether it waits.
type Numbers = (u8, u64, u8, u32, u32, bool);

/// The steps of a plan, which both calls have.
fn steps(listed: Result<Plan, Refusal>, plan: Result<sleep::Plan, PlanError>) -> Result<Vec<Numbers>, Refusal> {
    let numbers = |step: PlanStep| {
        let at = step.register;
        (at.address_space.code(), at.address, step.width, step.mask, step.value, step.kind == StepKind::Wait)
    };
    let plan = plan.map(|it| it.first.into_iter().chain(it.second).map(numbers).collect::<Vec<_>>());
    let listed = listed.map(|plan| {
        let steps = plan.steps[..plan.count as usize].iter();
        let at = steps.map(|it| (it.at.at.space, it.at.at.address, it.width, it.mask, it.value, it.kind == 1));
        at.collect::<Vec<_>>()
    });
    assert_eq!(listed, plan.map_err(Refusal::from));
    listed
}

#[test]
fn sleep_types_are_constants_of_aml() {
    let types = |dsdt: &[u8], ssdt: &[u8], state| {
        let memory = machine(&[], dsdt, ssdt);
        let found = memory.list(|source| power::sleep_types(source, state).map(|it| (it.a.into(), it.b.into())));
        let answer = match memory.ask(|tables| tables.sleep_types(state as u8)) {
            Ok(SleepAnswer::Types(types)) if types.a.max(types.b) > 255 => Err(Refusal::SleepTypeTooHigh),
            Ok(SleepAnswer::Types(types)) => Ok((types.a, types.b)),
            Ok(SleepAnswer::Absent) => Err(Refusal::SleepStateAbsent),
            Ok(_) => Err(Refusal::SleepStateNotSeen),
            Err(error) => Err(Refusal::from(error)),
        };
        assert_eq!(found, answer);
        found
    };
    assert_eq!(types(S5, &[], 5), Ok((5, 7)));
    assert_eq!(types(S5, S3, 3), Ok((1, 1)));
    assert_eq!(types(S5, S3, 4), Err(Refusal::SleepStateAbsent));
    assert_eq!(types(S5, S3, 6), Err(Refusal::NoSuchState));
    // If (One) {..}: IfOp, PkgLength, the predicate.
    let branch = [&[0xa0, 2 + S5.len() as u8, 1], S5].concat();
    assert_eq!(types(&branch, &[], 5), Err(Refusal::SleepStateNotSeen));
    assert_eq!(types(&branch, S5, 5), Ok((5, 7)));
    // ScopeOp, PkgLength, _SB_; and two of \, one in the other.
    let other = [&[0x10, 5 + S5.len() as u8], &b"_SB_"[..], S5].concat();
    assert_eq!(types(&other, &[], 5), Err(Refusal::SleepStateNotSeen));
    assert_eq!(types(&other, &[], 4), Err(Refusal::SleepStateAbsent));
    let root = [&[0x10, 7 + S5.len() as u8], &b"\\\0"[..], &[0x10, 3 + S5.len() as u8], b"\\\0", S5].concat();
    assert_eq!(types(&root, &[], 5), Ok((5, 7)));
    // StoreOp.
    assert_eq!(types(b"\x70\x01\x60", &[], 5), Err(Refusal::SleepStateNotSeen));
    // WordPrefix: the first of two, 0x105, is above 255, and an only one has the second in its high byte.
    assert_eq!(types(b"\x08_S5_\x12\x06\x02\x0b\x05\x01\0", &[], 5), Err(Refusal::SleepTypeTooHigh));
    assert_eq!(types(b"\x08_S5_\x12\x05\x01\x0b\x05\x07", &[], 5), Ok((5, 7)));
    // The package ends after the block.
    assert_eq!(types(&S5[..S5.len() - 1], &[], 5), Err(Refusal::AmlInvalid(Signature::DSDT)));
    assert_eq!(sleep::sleep_types(S5, 5), Ok(SleepAnswer::Types(SleepTypes { a: 5, b: 7 })));
    let missing = Memory::rsdt(&[]).ask(|tables| tables.sleep_types(5));
    assert_eq!(missing, Err(SleepError::Acpi(AcpiError::TableMissing(Signature::FADT))));
}

/// SLP_TYPx of PM1 control is at bits 10 to 12, SLP_EN at 13 (section 4.8.3.2.1).
#[test]
fn powers_off_by_pm1_control() {
    let with_types = |fields: &[Field], dsdt: &[u8], types| {
        let memory = machine(fields, dsdt, S3);
        memory.ask(|tables| {
            let plan = sleep_plan(&tables.find_fadt().ok().unwrap(), types);
            steps(memory.list(power::power_off_plan), plan)
        })
    };
    let off = |fields: &[Field]| with_types(fields, S5, SleepTypes { a: 5, b: 7 });
    let a = (1, 0x604, 16, 0x3c00, 0x3400, false);
    assert_eq!(off(&[]), Ok(vec![a]));
    assert_eq!(off(&[(68, 4, 0x614)]), Ok(vec![a, (1, 0x614, 16, 0x3c00, 0x3c00, false)]));
    assert_eq!(off(&[(64, 4, 0)]), Err(Refusal::NoRegister));
    // Name (_S5, Package {7, 8}): the second is written to PM1b_CNT alone.
    let high =
        |fields: &[Field]| with_types(fields, b"\x08_S5_\x12\x06\x02\x0a\x07\x0a\x08", SleepTypes { a: 7, b: 8 });
    assert_eq!(high(&[]), Ok(vec![(1, 0x604, 16, 0x3c00, 0x3c00, false)]));
    assert_eq!(high(&[(68, 4, 0x614)]), Err(Refusal::SleepTypeTooHigh));
    let sleep =
        |state| machine(&[], S5, S3).list(|source| power::sleep_plan(source, state).map(|it| it.steps[0].value));
    assert_eq!([3, 2, 7].map(sleep), [Ok(0x2400), Err(Refusal::SleepStateAbsent), Err(Refusal::NoSuchState)]);
    let missing = Memory::rsdt(&[]).list(power::power_off_plan);
    assert_eq!(missing, Err(Refusal::Acpi(AcpiError::TableMissing(Signature::FADT))));
}

fn enabled(fields: &[Field]) -> Result<Vec<Numbers>, Refusal> {
    let memory = machine(fields, S5, S3);
    memory.ask(|tables| steps(memory.list(power::enable_plan), enable_plan(&tables.find_fadt().ok().unwrap())))
}

/// HW_REDUCED_ACPI is bit 20 of Flags. SLP_TYPx of SLEEP_CONTROL_REG, at 244, is at bits 2 to 4, SLP_EN at 5.
#[test]
fn reduced_hardware_has_a_register_of_its_own() {
    let mut fields = generic(244, 0, 8, 0, 1, 0xfea0_0200).to_vec();
    fields.push((112, 4, 1 << 20));
    let off = |fields: &[Field]| machine(fields, S5, S3).list(power::power_off_plan).map(|it| plain(it.steps[0]));
    assert_eq!((off(&fields), enabled(&fields)), (Ok("Step fea00200 0 8 0 1 1 3c 34 8 0".into()), Ok(vec![])));
    assert_eq!((off(&fields[5..]), enabled(&fields[5..])), (Err(Refusal::NoRegister), Ok(vec![])));
}

/// SCI_EN is bit 0 of PM1 control (section 4.8.3.2.1).
#[test]
fn acpi_is_enabled_by_a_port() {
    let wait = (1, 0x604, 16, 1, 1, true);
    assert_eq!(enabled(&[]), Ok(vec![(1, 0xb2, 8, 0xff, 0xa0, false), wait]));
    assert_eq!(enabled(&[(48, 4, 0)]), Ok(vec![]));
    // ACPI_DISABLE is at 53.
    assert_eq!(enabled(&[(52, 1, 0)]), Ok(vec![]));
    assert_eq!(enabled(&[(52, 1, 0), (53, 1, 0xa1)]), Ok(vec![(1, 0xb2, 8, 0xff, 0, false), wait]));
    assert_eq!(enabled(&[(64, 4, 0)]), Err(Refusal::NoRegister));
}

/// RESET_REG_SUP is bit 10 of Flags.
#[test]
fn a_register_resets_the_machine() {
    let mut fields = generic(116, 1, 8, 0, 1, 0xcf9).to_vec();
    fields.extend([(112, 4, 1 << 10), (128, 1, 6)]);
    let reset = |fields: &[Field]| {
        let memory = machine(fields, S5, S3);
        memory.ask(|tables| steps(memory.list(power::reset_plan), reset_plan(&tables.find_fadt().ok().unwrap())))
    };
    assert_eq!(reset(&fields), Ok(vec![(1, 0xcf9, 8, 0xff, 6, false)]));
    assert_eq!(reset(&fields[..5]), Err(Refusal::NoReset));
    fields[0] = (116, 1, 0x0b); // a reserved code of Address Space ID
    assert_eq!(reset(&fields), Err(Refusal::Acpi(AcpiError::InvalidGenericAddress)));
}

/// TMR_VAL has 24 bits, or 32 (section 4.8.3.3).
#[test]
fn the_timer_goes_around() {
    let [short, long] = [false, true].map(|is_32_bit| move |before, after| pm_timer_ticks(before, after, is_32_bit));
    assert_eq!([short(5, 12), short(0xff_fff0, 0x10), short(7, 7)], [7, 0x20, 0]);
    assert_eq!([long(5, 12), long(0xff_fff0, 0x10), long(u32::MAX, 1)], [7, 0xff00_0020, 2]);
}

/// Of S5: NameOp, a name of one segment, PackageOp, and a PkgLength of 6 bytes with its own.
#[test]
fn parts_of_aml_are_read() {
    let opcode = |aml: &[u8]| opcode_at(aml, 0).map(|it| (it.code, it.end));
    assert_eq!(
        (opcode(S5), opcode(b"\x5b\x80"), opcode(&[])),
        (Ok((8, 1)), Ok((0x5b80, 2)), Err(AmlError::PastEnd(0)))
    );
    let name = |at| name_at(S5, at).map(|it| (it.ups, it.first, it.segments, it.end));
    assert_eq!((name(1), name(0)), (Ok((0, 1, 1, 5)), Err(AmlError::InvalidName(0))));
    let block = |aml: &[u8], at| block_at(aml, at).map(|it| (it.start, it.end));
    assert_eq!((block(S5, 6), block(&S5[..11], 6)), (Ok((7, 12)), Err(AmlError::InvalidLength(6))));
    // External: a name, a type and a number of arguments.
    assert_eq!(parts_end(parts_of(0x15).unwrap(), b"\x15ABCD\x08\x02", 1), Ok(7));
    let types = Ok(SleepAnswer::Types(SleepTypes { a: 5, b: 7 }));
    assert_eq!(block_answer(Signature::DSDT, 5, &[&[0; 36], S5].concat()), types);
    assert_eq!(or_after(Ok(SleepAnswer::Absent), types), types);
}
