use acpi::fadt::Fadt;
use acpi::platform::interrupt::{InterruptModel, Polarity, TriggerMode};
use acpi::platform::ProcessorState;
use acpi::{AcpiError, AcpiHandler, AcpiResult, AcpiTables, HpetInfo, PciConfigRegions};
use core::slice::from_raw_parts;

#[derive(Clone)]
struct Handler;

impl AcpiHandler for Handler {
    fn map_physical_region(&self, address: u64, size: usize) -> AcpiResult<&[u8]> {
        let at = is_memory(address, size).then(|| (PHYSICAL_MEMORY + address) as *const u8);
        at.map(|at| unsafe { from_raw_parts(at, size) }).ok_or(AcpiError::MapFailed)
    }
    fn unmap_physical_region(&self, _: u64, _: usize, _: usize) {}
}

pub fn start(kernel: &mut Kernel, rsdp: usize) -> Result<(), AcpiError> {
    let tables = AcpiTables::from_rsdp(&Handler, rsdp as u64)?;
    let platform = tables.platform_info()?;
    if let InterruptModel::Apic(apic) = &platform.interrupt_model {
        kernel.local_apic(apic.local_apic_address);
        for io_apic in apic.io_apics.iter() {
            kernel.io_apic(io_apic.id, io_apic.address, io_apic.global_system_interrupt_base);
        }
        for over in apic.interrupt_source_overrides.iter() {
            let is_low = over.polarity == Polarity::ActiveLow;
            let is_level = over.trigger_mode == TriggerMode::Level;
            kernel.route(over.isa_source, over.global_system_interrupt, is_low, is_level);
        }
    }
    if let Some(info) = &platform.processor_info {
        for processor in info.application_processors.iter() {
            if processor.state == ProcessorState::WaitingForSipi {
                kernel.start_processor(processor.local_apic_id);
            }
        }
    }
    if let Ok(hpet) = HpetInfo::new(&tables) {
        kernel.hpet(hpet.base_address as u64, hpet.main_counter_is_64bits());
    }
    if let Some(at) = PciConfigRegions::new(&tables)?.physical_address(0, 0, 0, 0) {
        kernel.pci(at);
    }
    let fadt = tables.find_table::<Fadt>()?;
    kernel.fixed_hardware(fadt.smi_cmd_port, fadt.pm1a_control_block()?.address);
    for ssdt in tables.ssdts() {
        kernel.aml(ssdt.address as u64, ssdt.length);
    }
    Ok(())
}
