// Made by scripts/erase of crates/acpi_cli/src/root.rt, where it is proved.
//! The way to the root table that arguments name, and the tables to which it leads.

use crate::cli::{parse_address, parse_revision};
use zacpi::{AcpiHandler, AcpiResult, AcpiTables};

/// The way to the root table.
#[derive(Clone, Copy, PartialEq, Eq)]
pub enum Root {
    /// The root table at an address: the RSDT (section 5.2.7) for revision 0, otherwise the XSDT (section
    /// 5.2.8).
    Rsdt {
        /// The revision that the tables are opened with.
        revision: u8,
        /// The physical address of the root table's first byte.
        address: u64,
    },
    /// The RSDP at an address (section 5.2.5.3).
    Rsdp {
        /// The physical address of the RSDP's first byte.
        address: u64,
    },
    /// The RSDP that is found in the BIOS areas (section 5.2.5.1).
    Bios,
}

impl Root {
    /// The tables below the root table that this way leads to.
    ///
    /// Fails as `AcpiTables::from_rsdt`, `from_rsdp` or `search_for_rsdp_bios` does.
    pub fn open<H: AcpiHandler>(self, handler: &H) -> AcpiResult<AcpiTables<'_, H>> {
        match self {
            Root::Rsdt { revision, address } => AcpiTables::from_rsdt(handler, revision, address),
            Root::Rsdp { address } => AcpiTables::from_rsdp(handler, address),
            Root::Bios => AcpiTables::search_for_rsdp_bios(handler),
        }
    }
}

/// The way that the arguments after `rsdt` name: REVISION, then ADDRESS.
fn parse_rsdt(words: &[&str]) -> Option<Root> {
    let [revision, address] = words else {
        return None;
    };
    let revision = parse_revision(revision)?;
    let address = parse_address(address)?;
    Some(Root::Rsdt { revision, address })
}

/// The way that the arguments after `rsdp` name: ADDRESS.
fn parse_rsdp(words: &[&str]) -> Option<Root> {
    let [address] = words else {
        return None;
    };
    let address = parse_address(address)?;
    Some(Root::Rsdp { address })
}

/// The way that `bios` names, after which there are no arguments.
fn parse_bios(words: &[&str]) -> Option<Root> {
    if words.is_empty() { Some(Root::Bios) } else { None }
}

/// The way that a form means, `rsdt`, `rsdp` or `bios`, with the arguments after it.
fn parse_form(form: &str, words: &[&str]) -> Option<Root> {
    match form {
        "rsdt" => parse_rsdt(words),
        "rsdp" => parse_rsdp(words),
        "bios" => parse_bios(words),
        _ => None,
    }
}

/// The way to the root table that the arguments `rsdt REVISION ADDRESS`, `rsdp ADDRESS` or `bios` name, or
/// `None` if they are none of these.
pub fn parse_root(words: &[&str]) -> Option<Root> {
    let [form, rest @ ..] = words else {
        return None;
    };
    parse_form(form, rest)
}
