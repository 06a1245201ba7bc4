// Made by scripts/erase of crates/acpi_c/src/made/writing.rt, where it is proved.
//! Made by scripts/exports of include/zacpi.h, which has what each call does.

use crate::c_devices::fixed::records::FixedHardware;
use crate::c_devices::records::{BootGraphic, HpetInfo, PciRegion};
use crate::c_devices::written_records::{FacsContents, SpcrContents, SratContents};
use crate::c_interrupts::written_records::{GicContents, GtdtContents, MadtContents};
use crate::c_lib::answer::answer_plain;
use crate::c_lib::records::Signature;
use crate::c_machine::machine::{
    Contents, dsdt_place, facs_place, tables_size, write_contents, write_hardware, write_tables,
    write_tables_without_rsdp,
};
use crate::c_machine::writing::{
    write_dsdt, write_facs, write_rhct, write_riscv_madt, write_rsdp, write_rsdt, write_slit, write_ssdt, write_table,
    write_xsdt, written,
};
use crate::c_machine::written_records::{AmlContents, Machine, RhctContents, RiscvContents, TableIds};

/// Writes an RSDP of revision 2 that points to an XSDT (section 5.2.5.3): 36 bytes.
#[unsafe(no_mangle)]
pub extern "C" fn zacpi_1_write_rsdp(
    ids: &TableIds,
    xsdt: u64,
    out: *mut u8,
    out_length: usize,
    count: &mut usize,
) -> u32 {
    let out = unsafe { core::slice::from_raw_parts_mut(out, out_length) };
    written(write_rsdp(out, ids, xsdt), count)
}

/// Write an RSDT, and an XSDT, of these addresses, in order, also of 0 (sections 5.2.7 and 5.2.8).
#[unsafe(no_mangle)]
pub extern "C" fn zacpi_1_write_rsdt(
    ids: &TableIds,
    addresses: *const u32,
    addresses_length: usize,
    out: *mut u8,
    out_length: usize,
    count: &mut usize,
) -> u32 {
    let addresses = unsafe { core::slice::from_raw_parts(addresses, addresses_length) };
    let out = unsafe { core::slice::from_raw_parts_mut(out, out_length) };
    written(write_rsdt(out, ids, addresses), count)
}

/// Write an RSDT, and an XSDT, of these addresses, in order, also of 0 (sections 5.2.7 and 5.2.8).
#[unsafe(no_mangle)]
pub extern "C" fn zacpi_1_write_xsdt(
    ids: &TableIds,
    addresses: *const u64,
    addresses_length: usize,
    out: *mut u8,
    out_length: usize,
    count: &mut usize,
) -> u32 {
    let addresses = unsafe { core::slice::from_raw_parts(addresses, addresses_length) };
    let out = unsafe { core::slice::from_raw_parts_mut(out, out_length) };
    written(write_xsdt(out, ids, addresses), count)
}

/// Write a DSDT, and an SSDT, of these bytes of AML, whose integers have 32 bits with a revision of 1, 64 with 2
/// (section 5.2.11).
#[unsafe(no_mangle)]
pub extern "C" fn zacpi_1_write_dsdt(
    ids: &TableIds,
    revision: u8,
    aml: *const u8,
    aml_length: usize,
    out: *mut u8,
    out_length: usize,
    count: &mut usize,
) -> u32 {
    let aml = unsafe { core::slice::from_raw_parts(aml, aml_length) };
    let out = unsafe { core::slice::from_raw_parts_mut(out, out_length) };
    written(write_dsdt(out, ids, revision, aml), count)
}

/// Write a DSDT, and an SSDT, of these bytes of AML, whose integers have 32 bits with a revision of 1, 64 with 2
/// (section 5.2.11).
#[unsafe(no_mangle)]
pub extern "C" fn zacpi_1_write_ssdt(
    ids: &TableIds,
    revision: u8,
    aml: *const u8,
    aml_length: usize,
    out: *mut u8,
    out_length: usize,
    count: &mut usize,
) -> u32 {
    let aml = unsafe { core::slice::from_raw_parts(aml, aml_length) };
    let out = unsafe { core::slice::from_raw_parts_mut(out, out_length) };
    written(write_ssdt(out, ids, revision, aml), count)
}

/// Writes a table of any signature and revision: a header (section 5.2.6) and these bytes.
#[unsafe(no_mangle)]
pub extern "C" fn zacpi_1_write_table(
    ids: &TableIds,
    signature: Signature,
    revision: u8,
    body: *const u8,
    body_length: usize,
    out: *mut u8,
    out_length: usize,
    count: &mut usize,
) -> u32 {
    let body = unsafe { core::slice::from_raw_parts(body, body_length) };
    let out = unsafe { core::slice::from_raw_parts_mut(out, out_length) };
    written(write_table(out, ids, signature, revision, body), count)
}

/// Writes a MADT of revision 5 (section 5.2.12): its entries kind by kind in the order of the lists, the mailbox last.
#[unsafe(no_mangle)]
pub extern "C" fn zacpi_1_write_madt(
    ids: &TableIds,
    contents: &MadtContents<'_>,
    out: *mut u8,
    out_length: usize,
    count: &mut usize,
) -> u32 {
    let out = unsafe { core::slice::from_raw_parts_mut(out, out_length) };
    answer_plain(write_contents(out, ids, &Contents::Madt(*contents)), count)
}

/// Writes a MADT of revision 6 of an Arm machine (sections 5.2.12.14 to 5.2.12.18): the distributor, and the lists in
/// their order.
#[unsafe(no_mangle)]
pub extern "C" fn zacpi_1_write_gic_madt(
    ids: &TableIds,
    contents: &GicContents<'_>,
    out: *mut u8,
    out_length: usize,
    count: &mut usize,
) -> u32 {
    let out = unsafe { core::slice::from_raw_parts_mut(out, out_length) };
    answer_plain(write_contents(out, ids, &Contents::Gic(*contents)), count)
}

/// Writes a MADT of revision 7 of a RISC-V machine (ACPI 6.6, section 5.2.12): the lists in their order, a RINTC with
/// 36 bytes.
#[unsafe(no_mangle)]
pub extern "C" fn zacpi_1_write_riscv_madt(
    ids: &TableIds,
    contents: &RiscvContents<'_>,
    out: *mut u8,
    out_length: usize,
    count: &mut usize,
) -> u32 {
    let out = unsafe { core::slice::from_raw_parts_mut(out, out_length) };
    written(write_riscv_madt(out, ids, contents), count)
}

/// Writes an RHCT of revision 1 (ACPI 6.6): an ISA String Node, whose string is filled up with one or two zeros to an
/// even length, and for each hart a Hart Info Node of it.
#[unsafe(no_mangle)]
pub extern "C" fn zacpi_1_write_rhct(
    ids: &TableIds,
    contents: &RhctContents<'_>,
    out: *mut u8,
    out_length: usize,
    count: &mut usize,
) -> u32 {
    let out = unsafe { core::slice::from_raw_parts_mut(out, out_length) };
    written(write_rhct(out, ids, contents), count)
}

/// Writes an MCFG of these regions, in order (PCI Firmware Specification, section 4.1.2).
#[unsafe(no_mangle)]
pub extern "C" fn zacpi_1_write_mcfg(
    ids: &TableIds,
    regions: *const PciRegion,
    regions_length: usize,
    out: *mut u8,
    out_length: usize,
    count: &mut usize,
) -> u32 {
    let regions = unsafe { core::slice::from_raw_parts(regions, regions_length) };
    let out = unsafe { core::slice::from_raw_parts_mut(out, out_length) };
    answer_plain(write_contents(out, ids, &Contents::Mcfg(regions)), count)
}

/// Writes an HPET of revision 1 (IA-PC HPET Specification), with registers in memory of a Register Bit Width of 0.
#[unsafe(no_mangle)]
pub extern "C" fn zacpi_1_write_hpet(
    ids: &TableIds,
    info: &HpetInfo,
    out: *mut u8,
    out_length: usize,
    count: &mut usize,
) -> u32 {
    let out = unsafe { core::slice::from_raw_parts_mut(out, out_length) };
    answer_plain(write_contents(out, ids, &Contents::Hpet(*info)), count)
}

/// Writes a SLIT (section 5.2.17) of `localities` times `localities` distances, those from locality 0 first.
#[unsafe(no_mangle)]
pub extern "C" fn zacpi_1_write_slit(
    ids: &TableIds,
    localities: u64,
    distances: *const u8,
    distances_length: usize,
    out: *mut u8,
    out_length: usize,
    count: &mut usize,
) -> u32 {
    let distances = unsafe { core::slice::from_raw_parts(distances, distances_length) };
    let out = unsafe { core::slice::from_raw_parts_mut(out, out_length) };
    written(write_slit(out, ids, localities, distances), count)
}

/// Writes an SRAT of revision 3 (section 5.2.16): its entries kind by kind, all enabled, with a Clock Domain of 0.
#[unsafe(no_mangle)]
pub extern "C" fn zacpi_1_write_srat(
    ids: &TableIds,
    contents: &SratContents<'_>,
    out: *mut u8,
    out_length: usize,
    count: &mut usize,
) -> u32 {
    let out = unsafe { core::slice::from_raw_parts_mut(out, out_length) };
    answer_plain(write_contents(out, ids, &Contents::Srat(*contents)), count)
}

/// Writes a BGRT of revision 1, 56 bytes (section 5.2.22).
#[unsafe(no_mangle)]
pub extern "C" fn zacpi_1_write_bgrt(
    ids: &TableIds,
    graphic: &BootGraphic,
    out: *mut u8,
    out_length: usize,
    count: &mut usize,
) -> u32 {
    let out = unsafe { core::slice::from_raw_parts_mut(out, out_length) };
    answer_plain(write_contents(out, ids, &Contents::Bgrt(*graphic)), count)
}

/// Writes an SPCR of revision 4, 90 bytes, with a Language of 0, the NamespaceString "." of a port with no object, and
/// in Configured Baud Rate the rate's code, or 0 if it has none.
#[unsafe(no_mangle)]
pub extern "C" fn zacpi_1_write_spcr(
    ids: &TableIds,
    contents: &SpcrContents,
    out: *mut u8,
    out_length: usize,
    count: &mut usize,
) -> u32 {
    let out = unsafe { core::slice::from_raw_parts_mut(out, out_length) };
    answer_plain(write_contents(out, ids, &Contents::Spcr(*contents)), count)
}

/// Writes a GTDT of revision 3 (section 5.2.24): 104 bytes, 28 for each watchdog, 20 for each GT Block, and 40 for each
/// frame, in order, with a Platform Timer Offset of 104.
#[unsafe(no_mangle)]
pub extern "C" fn zacpi_1_write_gtdt(
    ids: &TableIds,
    contents: &GtdtContents<'_>,
    out: *mut u8,
    out_length: usize,
    count: &mut usize,
) -> u32 {
    let out = unsafe { core::slice::from_raw_parts_mut(out, out_length) };
    answer_plain(write_contents(out, ids, &Contents::Gtdt(*contents)), count)
}

/// Writes a FADT of version 6.4, 276 bytes (section 5.2.9).
#[unsafe(no_mangle)]
pub extern "C" fn zacpi_1_write_fadt(
    ids: &TableIds,
    hardware: &FixedHardware,
    out: *mut u8,
    out_length: usize,
    count: &mut usize,
) -> u32 {
    let out = unsafe { core::slice::from_raw_parts_mut(out, out_length) };
    answer_plain(write_hardware(out, ids, hardware), count)
}

/// Writes a FACS of version 2, 64 bytes, with a Global Lock of 0 (section 5.2.10).
#[unsafe(no_mangle)]
pub extern "C" fn zacpi_1_write_facs(
    contents: &FacsContents,
    out: *mut u8,
    out_length: usize,
    count: &mut usize,
) -> u32 {
    let out = unsafe { core::slice::from_raw_parts_mut(out, out_length) };
    written(write_facs(out, contents), count)
}

/// Writes all tables of a machine, for memory from `address` on: the RSDP, after 48 bytes the XSDT, the DSDT, 128 bytes
/// with the FACS at their first multiple of 64, and the listed tables in order, each table at a multiple of 16 and
/// filled up with zeros to the next.
#[unsafe(no_mangle)]
pub extern "C" fn zacpi_1_write_tables(
    machine: &Machine<'_>,
    address: u64,
    out: *mut u8,
    out_length: usize,
    count: &mut usize,
) -> u32 {
    let out = unsafe { core::slice::from_raw_parts_mut(out, out_length) };
    answer_plain(write_tables(out, address, machine), count)
}

/// Writes what zacpi_write_tables writes after the RSDP's 48 bytes, with the XSDT at `address`.
#[unsafe(no_mangle)]
pub extern "C" fn zacpi_1_write_tables_without_rsdp(
    machine: &Machine<'_>,
    address: u64,
    out: *mut u8,
    out_length: usize,
    count: &mut usize,
) -> u32 {
    let out = unsafe { core::slice::from_raw_parts_mut(out, out_length) };
    answer_plain(write_tables_without_rsdp(out, address, machine), count)
}

/// Returns how many bytes zacpi_write_tables writes.
#[unsafe(no_mangle)]
pub extern "C" fn zacpi_1_tables_size(machine: &Machine<'_>, count: &mut usize) -> u32 {
    answer_plain(tables_size(machine), count)
}

/// Returns the address of the DSDT that zacpi_write_tables writes for this address and this number of listed tables.
#[unsafe(no_mangle)]
pub extern "C" fn zacpi_1_dsdt_address(address: u64, tables: usize, out: &mut u64) -> u32 {
    answer_plain(dsdt_place(address, tables), out)
}

/// Returns the address of the FACS that zacpi_write_tables writes for this address, this number of listed tables, and
/// the length of the first of `dsdts`, the DSDT, if there is one.
#[unsafe(no_mangle)]
pub extern "C" fn zacpi_1_facs_address(
    address: u64,
    tables: usize,
    dsdts: *const AmlContents<'_>,
    dsdts_length: usize,
    out: &mut u64,
) -> u32 {
    let dsdts = unsafe { core::slice::from_raw_parts(dsdts, dsdts_length) };
    answer_plain(facs_place(address, tables, dsdts), out)
}
