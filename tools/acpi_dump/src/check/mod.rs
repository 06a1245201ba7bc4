//! The judgement of an input's tables by rules: what firmware has wrong, by the specifications that define the tables.
//!
//! A rule is an item of its subject (`rules::rules`), and code of the subject that adds a finding by it, or rows of
//! `fields.rs` that name a field. It has the section that it rests on, what it finds, the message of a finding, in which
//! `#` and `%` are replaced by its numbers, and what to do about that. A rule without a message has several, or one with
//! a value.

mod affinities;
mod aml;
mod devices;
mod facs;
mod fadt;
mod field_rows;
mod fields;
mod findings;
mod headers;
mod iommu;
mod machine;
mod machines;
mod madt;
mod numbers;
mod pieces;
mod roots;
mod rows;
pub mod rules;
mod spans;

use crate::prelude::*;
use findings::Findings;
pub use machine::Machine;
use machine::table_of;

fn subjects() -> [&'static [&'static rules::Rule]; 11] {
    [
        roots::RULES,
        headers::RULES,
        fadt::RULES,
        facs::RULES,
        madt::RULES,
        affinities::RULES,
        devices::RULES,
        iommu::RULES,
        machines::RULES,
        aml::RULES,
        fields::RULES,
    ]
}

/// What the rules find in the tables of a machine, in the order of the tables, and in a table by offset.
pub fn findings_of(machine: &Machine<'_>) -> Vec<rules::Finding> {
    let mut findings = Findings::new();
    roots::check_roots(machine, &mut findings);
    for (index, entry) in machine.entries.iter().enumerate() {
        findings.table = index;
        headers::check_header(entry, &mut findings);
        facs::check_facs(machine, entry, &mut findings);
        if let Some(table) = table_of(entry) {
            check_table(table, &mut findings);
        }
    }
    affinities::check_affinities(machine, &mut findings);
    devices::check_console(machine, &mut findings);
    fadt::check_arm(machine, &mut findings);
    machines::check_processors(machine, &mut findings);
    aml::check_aml(machine, &mut findings);
    findings.in_order(machine.entries)
}

fn check_table(table: &[u8], findings: &mut Findings) {
    match own_signature(table).as_str().unwrap_or("") {
        "APIC" => madt::check_madt(table, findings),
        "DMAR" => iommu::check_dmar(table, findings),
        "FACP" => fadt::check_fadt(table, findings),
        "IORT" => iommu::check_iort(table, findings),
        "IVRS" => iommu::check_ivrs(table, findings),
        "MCFG" => devices::check_regions(table, findings),
        "PPTT" => machines::check_cycles(table, findings),
        "SLIT" => affinities::check_distances(table, findings),
        "SRAT" => affinities::check_ranges(table, findings),
        _ => {}
    }
    rows::check_rows(table, findings);
}
