//! A kernel for x86-64 PCs, without a heap: it prints the machine's processors and controllers, and powers it off.
#![no_std]
#![no_main]

mod machine;

use core::fmt::{Debug, Write};
use machine::{Memory, Serial, StartInfo};
use zacpi::madt::{Madt, MadtEntry};
use zacpi::sleep::{SleepAnswer, SleepTables, sleep_plan};
use zacpi::{AcpiResult, AcpiTables};

macro_rules! say {
    ($($words:tt)*) => {
        let _ = writeln!(Serial, $($words)*);
    };
}

fn run(info: &StartInfo) {
    let memory = Memory::new(info);
    match AcpiTables::from_rsdp(&memory, info.rsdp) {
        Err(error) => failed("open", error),
        Ok(tables) => {
            show(&tables).unwrap_or_else(|error| failed("read", error));
            power_off(&tables);
        }
    }
}

/// Prints the tables, and the processors and I/O APICs of the MADT.
fn show(tables: &AcpiTables<'_, Memory<'_>>) -> AcpiResult<()> {
    for header in tables.headers() {
        say!("table {} of {} bytes", header.signature.as_str().unwrap_or("????"), header.length);
    }
    for entry in tables.find_table::<Madt>()?.entries() {
        match entry {
            MadtEntry::LocalApic(apic) if apic.is_enabled() => {
                say!("processor {} with APIC ID {}", apic.processor_id, apic.apic_id);
            }
            MadtEntry::IoApic(apic) => {
                say!("I/O APIC {} at {:#x}", apic.io_apic_id, apic.io_apic_address);
            }
            _ => {}
        }
    }
    Ok(())
}

/// Powers the machine off, which doesn't return where it works.
fn power_off(tables: &AcpiTables<'_, Memory<'_>>) {
    let plan = match (tables.sleep_types(5), tables.find_fadt()) {
        (Ok(SleepAnswer::Types(types)), Ok(fadt)) => sleep_plan(&fadt, types),
        (answer, _) => return failed("find S5", answer),
    };
    match plan {
        Ok(plan) => {
            say!("power off");
            machine::take(&plan);
        }
        Err(error) => failed("power off", error),
    }
}

fn failed(what: &str, error: impl Debug) {
    say!("can't {what}: {error:?}");
}

#[panic_handler]
fn panicked(info: &core::panic::PanicInfo<'_>) -> ! {
    say!("{info}");
    machine::halt()
}
