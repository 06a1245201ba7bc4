//! The RSDPs of a memory, valid or not.

use crate::document::{self, Document, Rsdp, wide};
use crate::dump::run::Run;
use crate::prelude::*;
use acpi_programs::input::candidates::{Candidate, candidates};
use acpi_programs::input::gather::Input;

/// The line of an RSDP: its address, what it points to, and what the checks say.
fn line_of(candidate: &Candidate) -> String {
    let mut line = format!("RSDP at {:016x}", candidate.address);
    if let Some(fields) = candidate.fields {
        line += &format!(" revision {} RSDT {:#x}", fields.revision, fields.rsdt);
        line += &fields.xsdt.map(|xsdt| format!(" XSDT {xsdt:#x}")).unwrap_or_default();
    }
    format!("{line}: {}\n", status_of(candidate))
}

fn status_of(candidate: &Candidate) -> String {
    candidate.refusal.map_or("ok".to_string(), |refusal| refusal.to_string())
}

fn rsdp_of(candidate: &Candidate) -> Rsdp {
    let fields = candidate.fields;
    Rsdp {
        address: wide(candidate.address),
        revision: fields.map(|fields| fields.revision),
        rsdt: fields.map(|fields| wide(fields.rsdt.into())),
        status: status_of(candidate),
        valid: candidate.refusal.is_none(),
        xsdt: fields.and_then(|fields| fields.xsdt).map(wide),
    }
}

impl Run<'_> {
    pub(super) fn print_found(&mut self, input: &Input) -> Result<u8, Stop> {
        let Input::Memory(image) = input else {
            return Err(self.fail("tables, not memory: there is no RSDP to find"));
        };
        let found = &candidates(Global, &self.memory_of(self.name(), image)?)?;
        if self.is_json() {
            let rsdps = found.iter().map(rsdp_of).collect();
            document::print(&Document::of_rsdps(&self.request.inputs, rsdps), self.out);
        } else {
            found.iter().for_each(|candidate| self.out.text(&line_of(candidate)));
        }
        if found.is_empty() { Err(self.fail("no RSDP")) } else { Ok(0) }
    }
}
