//! Sample images of the repository, whose contents tools/acpi_dump/data/README.md describes.
#![cfg(feature = "alloc")]
use std::fs;
use std::path::Path;
use zacpi::bgrt::Bgrt;
use zacpi::fadt::Fadt;
use zacpi::handler::{MappedRegion, MappedRegions};
use zacpi::platform::interrupt::InterruptModel;
use zacpi::sdt::Signature;
use zacpi::sleep::{Plan, SleepAnswer, SleepTables, SleepTypes, enable_plan, reset_plan, sleep_plan};
use zacpi::{AcpiHandler, AcpiTables, PowerProfile};

/// A sample, unless the package is elsewhere than in the repository.
fn sample(name: &str) -> Option<Vec<u8>> {
    let path = Path::new(env!("CARGO_MANIFEST_DIR")).join("../..").join(name);
    if !path.exists() {
        println!("skipped: {} isn't there", path.display());
        return None;
    }
    Some(fs::read(path).unwrap())
}

/// The records of an image: a start and a length of eight bytes each, and so many bytes.
fn regions(mut image: &[u8]) -> Vec<MappedRegion<'_>> {
    let number = |bytes: &[u8]| u64::from_le_bytes(bytes.try_into().unwrap());
    let mut records = Vec::new();
    while !image.is_empty() {
        let (start, length) = (number(&image[..8]), number(&image[8..16]) as usize);
        records.push((start, &image[16..16 + length]));
        image = &image[16 + length..];
    }
    records.sort();
    records.into_iter().map(|(start, bytes)| MappedRegion::new(start, bytes).unwrap()).collect()
}

#[test]
fn ten_tables() {
    let Some(image) = sample("examples/c/data/ten_tables.image") else { return };
    let regions = regions(&image);
    let memory = MappedRegions::new(&regions).unwrap();
    let tables = AcpiTables::from_rsdp(&memory, 0x7000_0000).unwrap();
    assert_eq!((tables.revision(), tables.root_address()), (2, 0x7000_2be0));
    let names: Vec<String> = tables.headers().map(|header| header.signature.to_string()).collect();
    assert_eq!(names, ["SSDT", "FACP", "APIC", "MCFG", "HPET", "WSMT", "BGRT", "SPCR", "SSDT", "TPM2"]);
    assert_eq!(tables.dsdt().map(|aml| (aml.address, aml.length)), Ok((0x7000_1024, 5000)));
    assert_eq!(tables.find_sdt(Signature::WSMT).ok().unwrap().bytes()[36..], [0; 4]);
    assert_eq!(tables.find_table::<Fadt>().ok().unwrap().dsdt_address(), Ok(0x7000_1000));
    let platform = tables.platform_info().ok().unwrap();
    assert_eq!(platform.power_profile, PowerProfile::Desktop);
    let InterruptModel::Apic(apic) = platform.interrupt_model else { panic!("the model is known") };
    let counts = |apic: &zacpi::platform::interrupt::Apic<_>| {
        (apic.io_apics.len(), apic.interrupt_source_overrides.len(), apic.nmi_sources.len())
    };
    assert_eq!((counts(&apic), apic.local_apic_nmi_lines.len()), ((2, 2, 0), 1));
}

/// QEMU's q35: its DSDT has Name (_S3, Package {1, 1, 0, 0}) and Name (_S5, Package {0, 0, 0, 0}).
#[test]
fn the_machine_of_qemu() {
    let Some(image) = sample("tools/acpi_dump/data/q35.image") else { return };
    let regions = regions(&image);
    let memory = MappedRegions::new(&regions).unwrap();
    let tables = AcpiTables::from_rsdp(&memory, 0xf_59e0).unwrap();
    let fadt = tables.find_fadt().ok().unwrap();
    let written = |plan: Plan| {
        let steps = plan.first.into_iter().chain(plan.second);
        steps.map(|it| (it.register.address, it.mask, it.value)).collect::<Vec<_>>()
    };
    let types = |a, b| SleepTypes { a, b };
    assert_eq!(tables.sleep_types(3), Ok(SleepAnswer::Types(types(1, 1))));
    assert_eq!(tables.sleep_types(5), Ok(SleepAnswer::Types(types(0, 0))));
    assert_eq!(written(sleep_plan(&fadt, types(0, 0)).unwrap()), [(0x604, 0x3c00, 0x2000)]);
    assert_eq!(written(sleep_plan(&fadt, types(1, 1)).unwrap()), [(0x604, 0x3c00, 0x2400)]);
    assert_eq!(written(enable_plan(&fadt).unwrap()), [(0xb2, 0xff, 2), (0x604, 1, 1)]);
    assert_eq!(written(reset_plan(&fadt).unwrap()), [(0xcf9, 0xff, 0xf)]);
}

/// The table at 0x4180 has a signature that isn't UTF-8 or isn't printable; the root table lists nine tables.
#[test]
fn the_machine() {
    let Some(image) = sample("tools/acpi_dump/data/machine.image") else { return };
    let regions = regions(&image);
    let memory = MappedRegions::new(&regions).unwrap();
    let tables = AcpiTables::from_rsdp(&memory, 0x500).unwrap();
    assert_eq!((tables.root_address(), tables.root_length()), (0x1000, 108));
    let graphics: Vec<u64> = tables.find_tables::<Bgrt>().map(|table| table.physical_start()).collect();
    assert_eq!(graphics, [0x40c0, 0x4280]);
    let ssdt = tables.ssdts().next().unwrap();
    let bytes = memory.map_physical_region(ssdt.address, ssdt.length as usize).unwrap();
    assert_eq!(bytes[..ssdt.length as usize], [0xa5; 60]);
}
