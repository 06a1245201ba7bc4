// Made by scripts/erase of crates/acpi_c/src/made/interrupts.rt, where it is proved.
//! Made by scripts/exports of include/zacpi.h, which has what each call does.

use crate::c_interrupts::apics::local_apic::local_apic;
use crate::c_interrupts::apics::model::model;
use crate::c_interrupts::apics::platform::platform;
use crate::c_interrupts::apics::records::{
    Interrupt, InterruptModel, InterruptSourceOverride, IoApic, IoApicPin, IsaInterrupts, LocalApic, NmiLine,
    NmiSource, PlatformLists, Processor,
};
use crate::c_interrupts::apics::{entries, mailbox, processors, processors_from};
use crate::c_interrupts::madt_faults::madt_faults;
use crate::c_interrupts::routes::isa_list::isa_interrupts;
use crate::c_interrupts::routes::{isa, pin, sci};
use crate::c_lib::answer::answer;
use crate::c_lib::entry_faults::EntryFault;
use crate::c_lib::records::{Signature, Source};

/// Returns which controllers interrupts come to, and how many items the lists of zacpi_get_platform have.
#[unsafe(no_mangle)]
pub extern "C" fn zacpi_1_get_interrupt_model(
    source: &Source<'_>,
    out: &mut InterruptModel,
    named: &mut Signature,
) -> u32 {
    answer(model(source), out, named)
}

/// Returns the address of each processor's local APIC from only the MADT, whatever is wrong with other entries: the
/// address that zacpi_get_interrupt_model returns, if it returns one.
#[unsafe(no_mangle)]
pub extern "C" fn zacpi_1_get_local_apic(source: &Source<'_>, out: &mut LocalApic, named: &mut Signature) -> u32 {
    answer(local_apic(source), out, named)
}

/// Lists the I/O APICs.
#[unsafe(no_mangle)]
pub extern "C" fn zacpi_1_list_io_apics(
    source: &Source<'_>,
    out: *mut IoApic,
    out_length: usize,
    count: &mut usize,
    named: &mut Signature,
) -> u32 {
    let out = unsafe { core::slice::from_raw_parts_mut(out, out_length) };
    answer(entries(source, out), count, named)
}

/// Lists the Interrupt Source Overrides, also of other buses than ISA.
#[unsafe(no_mangle)]
pub extern "C" fn zacpi_1_list_overrides(
    source: &Source<'_>,
    out: *mut InterruptSourceOverride,
    out_length: usize,
    count: &mut usize,
    named: &mut Signature,
) -> u32 {
    let out = unsafe { core::slice::from_raw_parts_mut(out, out_length) };
    answer(entries(source, out), count, named)
}

/// Lists the NMI Sources: the I/O APIC pins that are non-maskable.
#[unsafe(no_mangle)]
pub extern "C" fn zacpi_1_list_nmi_sources(
    source: &Source<'_>,
    out: *mut NmiSource,
    out_length: usize,
    count: &mut usize,
    named: &mut Signature,
) -> u32 {
    let out = unsafe { core::slice::from_raw_parts_mut(out, out_length) };
    answer(entries(source, out), count, named)
}

/// Lists the Local APIC NMIs and Local x2APIC NMIs: the LINT pins that NMIs come to.
#[unsafe(no_mangle)]
pub extern "C" fn zacpi_1_list_nmi_lines(
    source: &Source<'_>,
    out: *mut NmiLine,
    out_length: usize,
    count: &mut usize,
    named: &mut Signature,
) -> u32 {
    let out = unsafe { core::slice::from_raw_parts_mut(out, out_length) };
    answer(entries(source, out), count, named)
}

/// Lists the Processor Local APICs and Processor Local x2APICs.
#[unsafe(no_mangle)]
pub extern "C" fn zacpi_1_list_processors(
    source: &Source<'_>,
    out: *mut Processor,
    out_length: usize,
    count: &mut usize,
    named: &mut Signature,
) -> u32 {
    let out = unsafe { core::slice::from_raw_parts_mut(out, out_length) };
    answer(processors(source, out), count, named)
}

/// Lists the items of zacpi_list_processors from the `from`-th on, from 0 on; `count` is of all.
#[unsafe(no_mangle)]
pub extern "C" fn zacpi_1_list_processors_from(
    source: &Source<'_>,
    from: usize,
    out: *mut Processor,
    out_length: usize,
    count: &mut usize,
    named: &mut Signature,
) -> u32 {
    let out = unsafe { core::slice::from_raw_parts_mut(out, out_length) };
    answer(processors_from(source, from, out), count, named)
}

/// Returns MailBoxAddress of the first Multiprocessor Wakeup: the address of the mailbox by which processors are woken
/// (section 5.2.12.19).
#[unsafe(no_mangle)]
pub extern "C" fn zacpi_1_get_mailbox_address(source: &Source<'_>, out: &mut u64, named: &mut Signature) -> u32 {
    answer(mailbox(source), out, named)
}

/// Lists the entries with a ZACPI_MADT_ error (of several the least) or ZACPI_SHORT_RISCV_ENTRY, and last, if bytes are
/// left, where none begins, with ZACPI_MADT_INVALID_ENTRY_LENGTH.
#[unsafe(no_mangle)]
pub extern "C" fn zacpi_1_list_madt_faults(
    source: &Source<'_>,
    out: *mut EntryFault,
    out_length: usize,
    count: &mut usize,
    named: &mut Signature,
) -> u32 {
    let out = unsafe { core::slice::from_raw_parts_mut(out, out_length) };
    answer(madt_faults(source, out), count, named)
}

/// Returns what zacpi_get_interrupt_model returns, and writes the first items of the five lists above.
#[unsafe(no_mangle)]
pub extern "C" fn zacpi_1_get_platform(
    source: &Source<'_>,
    out: &mut InterruptModel,
    lists: &mut PlatformLists<'_>,
    named: &mut Signature,
) -> u32 {
    answer(platform(source, lists), out, named)
}

/// Returns how one of the 16 ISA interrupts comes to the I/O APICs: by its last override of bus 0, or else as the
/// interrupt of the same number; active high and by edge unless the override states otherwise (section 5.2.12.5).
#[unsafe(no_mangle)]
pub extern "C" fn zacpi_1_get_isa_interrupt(
    source: &Source<'_>,
    irq: u8,
    out: &mut Interrupt,
    named: &mut Signature,
) -> u32 {
    answer(isa(source, irq), out, named)
}

/// Returns how the System Control Interrupt (SCI), SCI_INT of the FADT, comes to the I/O APICs: by its last override of
/// bus 0 if it is below 16, or else as the interrupt of the same number; active low and by level unless the override
/// states otherwise (sections 5.2.9 and 5.2.12.5).
#[unsafe(no_mangle)]
pub extern "C" fn zacpi_1_get_sci_interrupt(source: &Source<'_>, out: &mut Interrupt, named: &mut Signature) -> u32 {
    answer(sci(source), out, named)
}

/// Returns the I/O APIC that a global system interrupt comes to, and the pin there: the first one with the greatest
/// Global System Interrupt Base that is at most the interrupt (section 5.2.13).
#[unsafe(no_mangle)]
pub extern "C" fn zacpi_1_get_io_apic_pin(
    source: &Source<'_>,
    interrupt: u32,
    out: &mut IoApicPin,
    named: &mut Signature,
) -> u32 {
    answer(pin(source, interrupt), out, named)
}

/// Returns all 16 ISA interrupts, each with its pin.
#[unsafe(no_mangle)]
pub extern "C" fn zacpi_1_get_isa_interrupts(
    source: &Source<'_>,
    out: &mut IsaInterrupts,
    named: &mut Signature,
) -> u32 {
    isa_interrupts(source, out, named)
}
