// Made by scripts/erase of crates/acpi_dump_walk/src/layouts.rt, where it is proved.
//! The layouts of tables, in the language that `language.rt` describes, with the names of their
//! specifications.

mod boot;
mod devices;
mod errors;
mod interrupts;
mod iommu;
mod localities;
mod management;
mod memory;
mod processors;
mod processors_arm_riscv;
mod remapping;
mod roots;
mod sharing;
mod trust;

use crate::walk::language::{Block, Blocks};
pub(crate) use roots::HEADER;
use zacpi::sdt::Signature;

/// The texts of layouts. A function returns them, so that a proof that goes over them doesn't go over their letters.
fn texts() -> [&'static str; 21] {
    [
        roots::ROOTS,
        interrupts::MADT,
        interrupts::GTDT,
        localities::LOCALITIES,
        devices::PORTS,
        devices::TIMERS,
        boot::BOOT,
        errors::ERRORS,
        iommu::DMAR,
        iommu::IVRS,
        iommu::IORT,
        memory::MEMORY,
        memory::NFIT,
        trust::TRUST,
        processors::PROCESSORS,
        processors_arm_riscv::MACHINES,
        management::MANAGEMENT,
        remapping::REMAPPING,
        remapping::NETWORK,
        sharing::SHARING,
        sharing::VENDORS,
    ]
}

/// What tables without a layout are called.
const TITLES: [(&str, &str); 3] = [
    ("DSDT", "Differentiated System Description Table"),
    ("SSDT", "Secondary System Description Table"),
    ("PSDT", "Persistent System Description Table"),
];

/// What a table with this signature is called, or no letters if that isn't known.
pub fn title_of(signature: Signature) -> &'static str {
    match TITLES.iter().find(|row| signature.as_str() == Some(row.0)) {
        Some((_, title)) => *title,
        None => layout_of(signature).1.title,
    }
}

/// The blocks among which the layout of a table with this signature is, and the one that it is, with its lines after
/// the header: none if no text has it. A FACS and an RSDP have no header: these are then all of its lines.
pub(crate) fn layout_of(signature: Signature) -> (Blocks, Block) {
    let name = signature.as_str().unwrap_or("").trim_ascii_end();
    // No text has a table of AML, which is walked more often than others.
    if TITLES.iter().any(|row| row.0 == name) {
        return (Blocks::read(""), Block::NONE);
    }
    for text in &texts() {
        // Reading a text takes far longer than looking for a name in it.
        if !text.contains(name) {
            continue;
        }
        let blocks = Blocks::read(*text);
        if let Some(block) = blocks.find(name, None) {
            return (blocks, block);
        }
    }
    (Blocks::read(""), Block::NONE)
}
