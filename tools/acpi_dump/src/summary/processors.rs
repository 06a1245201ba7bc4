//! Processors that have local APICs: a line for those whose numbers follow each other, and which are else alike.

use super::facts::{Fact, Facts};
use crate::prelude::*;
use acpi_programs::walk::share::{Share, shares_of};
use zacpi::platform::{Processor, ProcessorState};

/// A processor, and its domain if it is known.
struct Placed<'p> {
    processor: &'p Processor,
    domain: Option<u32>,
}

/// The domain of a local APIC by what an SRAT has, the local APICs last, in the order of their IDs: of the last entry
/// of this ID, as `Domains::domain_of_apic` returns it.
fn domain_in(shares: &[Share], id: u32) -> Option<u32> {
    let end = shares.partition_point(|share| !share.is_apic || share.number <= u64::from(id));
    let last = shares[..end].last()?;
    (last.is_apic && last.number == u64::from(id)).then_some(last.domain)
}

impl Placed<'_> {
    fn is_before(&self, next: &Placed<'_>) -> bool {
        let (own, other) = (self.processor, next.processor);
        other.state == own.state
            && next.domain == self.domain
            && other.processor_uid == own.processor_uid.wrapping_add(1)
            && other.local_apic_id == own.local_apic_id.wrapping_add(1)
    }
}

fn add_alike(facts: &mut Facts, first: &Placed<'_>, last: &Placed<'_>) {
    let range = |of: fn(&Processor) -> u32| (u64::from(of(first.processor)), u64::from(of(last.processor)));
    let ((uid, last_uid), (id, last_id)) = (range(|it| it.processor_uid), range(|it| it.local_apic_id));
    facts.next("processors").member("uids", Fact::Range { first: uid, last: last_uid });
    facts.member("apic_ids", Fact::Range { first: id, last: last_id });
    if uid == last_uid {
        facts.text(format_args!("processor {uid}\tlocal APIC {id}, "));
    } else {
        facts.text(format_args!("processors {uid} to {last_uid}\tlocal APICs {id} to {last_id}, "));
    }
    facts.shown(
        "state",
        match first.processor.state {
            ProcessorState::Disabled => "disabled",
            ProcessorState::WaitingForSipi => "waiting",
            ProcessorState::Running => "running",
        },
    );
    if let Some(domain) = first.domain {
        facts.text(", domain ").number("domain", domain);
    }
}

/// Adds processors, the boot processor first, with their domains by an SRAT's bytes.
pub(super) fn add_rows(facts: &mut Facts, boot: &Processor, others: &[Processor], srat: &[u8]) {
    let mut shares = granted(shares_of(Global, srat)).to_vec();
    shares.sort_by_key(|share| (share.is_apic, share.number));
    let place = |processor| Placed { processor, domain: domain_in(&shares, processor.local_apic_id) };
    let placed: Vec<_> = [boot].into_iter().chain(others).map(place).collect();
    for alike in placed.chunk_by(Placed::is_before) {
        add_alike(facts, &alike[0], &alike[alike.len() - 1]);
    }
}
