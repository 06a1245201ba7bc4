//! The interrupts and the processors of an Arm machine.

use super::facts::{Fact, Facts};
use crate::prelude::*;
use zacpi::arm::gic::GicModel;

pub(super) fn add_gic(facts: &mut Facts, gic: &GicModel<Global>) {
    let processors = gic.cpu_interfaces.as_slice();
    facts.one("processor_counts").text("processors\t").number("total", processors.len() as u64);
    for processor in processors {
        let uid = processor.processor_uid.into();
        let state = match (processor.is_enabled, processor.is_online_capable) {
            (true, _) => "enabled",
            (false, true) => "can be enabled",
            (false, false) => "disabled",
        };
        facts.next("processors").member("uids", Fact::Range { first: uid, last: uid });
        facts.text(format_args!("processor {uid}\tMPIDR ")).hex("mpidr", processor.mpidr);
        facts.text(", ").shown("state", state);
    }
    let distributor = gic.distributor;
    facts.one("gic").text("interrupts\tGIC distributor at ").hex("address", distributor.address);
    if distributor.version != 0 {
        facts.text(", version ").number("version", distributor.version);
    }
    for range in gic.redistributors.as_slice() {
        facts.next("redistributors").text("redistributors\tat ").hex("address", range.address);
        facts.text(", ").hex("length", range.length).text(" bytes");
    }
    for service in gic.translation_services.as_slice() {
        facts.next("translation_services").text("ITS ").number("id", service.id);
        facts.text("\tat ").hex("address", service.address);
    }
    for frame in gic.msi_frames.as_slice() {
        facts.next("msi_frames").text("MSI frame ").number("id", frame.id).text("\tat ").hex("address", frame.address);
        if let Some(spis) = frame.spis {
            facts.text(", ").number("count", spis.count).text(" interrupts from ").number("base", spis.base);
            facts.text(" on");
        }
    }
}
