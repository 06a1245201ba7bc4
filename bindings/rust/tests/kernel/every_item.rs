// Every public item of `acpi` 5.2 once. Its lines are those after `//- `, and all that don't end in `//+`.
use acpi::address::{AccessSize, AddressSpace, GenericAddress};
use acpi::bgrt::{Bgrt, ImageType};
use acpi::fadt::{ArmBootArchFlags, Fadt, FixedFeatureFlags, IaPcBootArchFlags};
use acpi::hpet::{HpetTable, PageProtection};
use acpi::madt::{
    EntryHeader, GicInterruptTranslationServiceEntry, GicMsiFrameEntry, GicRedistributorEntry, GiccEntry, GicdEntry,
    InterruptSourceOverrideEntry, IoApicEntry, IoSapicEntry, LocalApicAddressOverrideEntry, LocalApicEntry,
    LocalApicNmiEntry, LocalSapicEntry, LocalX2ApicEntry, Madt, MadtEntry, MadtEntryIter, MpProtectedModeWakeupCommand,
    MultiprocessorWakeupEntry, MultiprocessorWakeupMailbox, NmiSourceEntry, PlatformInterruptSourceEntry,
    X2ApicNmiEntry,
};
use acpi::mcfg::{Mcfg, McfgEntry, PciConfigEntry, PciConfigEntryIterator};
use acpi::platform::interrupt::{
    Apic, InterruptSourceOverride, IoApic, LocalInterruptLine, NmiLine, NmiProcessor, NmiSource, Polarity, TriggerMode,
};
use acpi::platform::{PmTimer, Processor, ProcessorInfo, ProcessorState, wakeup_aps};
use acpi::rsdp::Rsdp;
use acpi::sdt::{ExtendedField, SdtHeader, Signature};
use acpi::spcr::{Spcr, SpcrFlowControl, SpcrInterfaceType, SpcrInterruptType, SpcrTerminalType};
use acpi::{AcpiError, AcpiHandler, AcpiResult, AcpiTable, AcpiTables, AmlTable, HpetInfo, InterruptModel, MadtError};
use acpi::{PhysicalRecord, SdtTable, platform::Mailbox}; //+
use acpi::{ManagedSlice, PciConfigRegions, PhysicalMapping, PlatformInfo, PowerProfile, Sdt, SdtHeaderIterator};
use acpi::SsdtIterator;
//- use std::alloc::Global;
use acpi::alloc::Global; //+

//- #[repr(C, packed)]
pub struct Own {
    header: SdtHeader,
}
//- unsafe impl AcpiTable for Own {
//-     const SIGNATURE: Signature = Signature::UEFI;
//-     fn header(&self) -> &SdtHeader {
//-         &self.header
//-     }
//- }
impl PhysicalRecord for Own { //+
    const MIN_LENGTH: usize = 36; //+
    fn read(bytes: &[u8]) -> Self { //+
        Own { header: SdtHeader::read(bytes) } //+
    } //+
} //+
impl SdtTable for Own { //+
    const NAME: Signature = Signature::UEFI; //+
    fn sdt_header(&self) -> &SdtHeader { //+
        &self.header //+
    } //+
} //+

//- pub fn mapping<H: AcpiHandler>(m: PhysicalMapping<H, Own>, at: NonNull<Own>, handler: H) -> (usize, usize, usize) {
//-     let _ = unsafe { PhysicalMapping::new(0x1000, at, 36, 36, handler) };
//-     let _ = (m.virtual_start(), m.handler(), m.get());
pub fn mapping<H: AcpiHandler>(m: PhysicalMapping<H, Own>, at: &[u8], handler: &H) -> (u64, usize, usize) { //+
    let _ = PhysicalMapping::<H, Own>::new(0x1000, at, 36, handler); //+
    let _ = (m.bytes().as_ptr(), m.handler(), m.get()); //+
    (m.physical_start(), m.region_length(), m.mapped_length())
}

//- pub unsafe fn open<H: AcpiHandler>(handler: H) -> AcpiResult<[AcpiTables<H>; 4]> {
//-     let rsdp = Rsdp::search_for_on_bios(handler.clone())?;
//-     rsdp.validate()?;
//-     let _: (&str, u32, u64, u8) = (rsdp.oem_id(), rsdp.length(), rsdp.xsdt_address(), rsdp.ext_checksum());
pub fn open<H: AcpiHandler>(handler: &H) -> AcpiResult<[AcpiTables<'_, H>; 4]> { //+
    let rsdp = Rsdp::search_for_on_bios(handler)?; //+
    rsdp.validate(rsdp.bytes())?; //+
    let _ = (rsdp.oem_id(), rsdp.length(), rsdp.xsdt_address(), rsdp.ext_checksum()); //+
    let _ = (rsdp.signature(), rsdp.checksum(), rsdp.revision(), rsdp.rsdt_address());
//-     let bios = AcpiTables::search_for_rsdp_bios(handler.clone())?;
//-     let at = AcpiTables::from_rsdp(handler.clone(), 0xe0000)?;
//-     let root = AcpiTables::from_rsdt(handler.clone(), 0, 0x1000)?;
    let bios = AcpiTables::search_for_rsdp_bios(handler)?; //+
    let at = AcpiTables::from_rsdp(handler, 0xe0000)?; //+
    let root = AcpiTables::from_rsdt(handler, 0, 0x1000)?; //+
    Ok([bios, at, root, AcpiTables::from_validated_rsdp(handler, rsdp)?])
}

pub fn lists<H: AcpiHandler>(tables: &AcpiTables<H>) -> AcpiResult<(u8, usize, u64)> {
    let headers: SdtHeaderIterator<H> = tables.headers();
    let ssdts: SsdtIterator<H> = tables.ssdts();
    let AmlTable { address, length } = tables.dsdt()?;
    let own = tables.find_table::<Own>()?;
    let h = own.header();
//-     h.validate(Signature::UEFI)?;
//-     let _: (&str, &str, &str) = (h.oem_id(), h.oem_table_id(), h.signature.as_str());
    h.validate(Signature::UEFI, own.bytes())?; //+
    let _: [Option<&str>; 3] = [h.oem_id(), h.oem_table_id(), h.signature.as_str()]; //+
    let _ = (h.length, h.checksum, h.oem_id, h.oem_table_id, h.oem_revision, h.creator_id, h.creator_revision);
    let sdt = Sdt { physical_address: address, length, validated: true };
    let _ = (sdt.physical_address, sdt.length, sdt.validated);
    Ok((tables.revision(), headers.count() + ssdts.count(), address as u64))
}

pub fn platform<H: AcpiHandler>(tables: &AcpiTables<H>) -> AcpiResult<()> {
    let _ = (tables.platform_info()?, PlatformInfo::new(tables)?, PlatformInfo::new_in(tables, Global)?);
    let PlatformInfo { power_profile, interrupt_model, processor_info, pm_timer } = tables.platform_info_in(Global)?;
    let _: (PowerProfile, Option<PmTimer>) = (power_profile, pm_timer);
    let _ = pm_timer.map(|timer| (timer.base, timer.supports_32bit));
    if let Some(ProcessorInfo { boot_processor, application_processors }) = &processor_info {
        let Processor { processor_uid: _, local_apic_id: _, state, is_ap } = boot_processor;
        let _ = (*state == ProcessorState::Running, is_ap, application_processors.len());
    }
    let InterruptModel::Apic(apic) = &interrupt_model else { return Err(AcpiError::InvalidGenericAddress) };
    apics(apic);
//-     let mut slice = ManagedSlice::new_in(2, Global)?;
//-     let _: (ManagedSlice<u8, Global>, ManagedSlice<u8, Global>) = (ManagedSlice::new(1)?, slice.clone());
    let mut slice = ManagedSlice::new_in(2, 0, Global)?; //+
    let _: (ManagedSlice<u8, Global>, ManagedSlice<u8, Global>) = (ManagedSlice::new(1, 0)?, slice.try_clone()?); //+
    slice[0] = 1;
    Ok(())
}

fn apics(apic: &Apic<Global>) {
    let _ = (apic.local_apic_address, apic.also_has_legacy_pics);
    for IoApic { id, address, global_system_interrupt_base } in apic.io_apics.iter() {
        let _ = (id, address, global_system_interrupt_base);
    }
    for NmiLine { processor, line } in apic.local_apic_nmi_lines.iter() {
        let _ = (*processor == NmiProcessor::All, *line == LocalInterruptLine::Lint0);
    }
    for InterruptSourceOverride { isa_source, polarity, trigger_mode, .. } in apic.interrupt_source_overrides.iter() {
        let _ = (isa_source, *polarity == Polarity::ActiveLow, *trigger_mode == TriggerMode::Level);
    }
    for NmiSource { global_system_interrupt, polarity: _, trigger_mode: _ } in apic.nmi_sources.iter() {
        let _ = global_system_interrupt;
    }
}

//- pub fn entries<H: AcpiHandler>(madt: &PhysicalMapping<H, Madt>, handler: H, tables: &AcpiTables<H>)
//-     let _ = (madt.get().get_mpwk_mailbox_addr()?, madt.get().parse_interrupt_model_in(Global)?);
//-     let entries: MadtEntryIter = madt.get().entries();
pub fn entries<H: AcpiHandler, M: Mailbox>(madt: &PhysicalMapping<H, Madt>, mut mailbox: M, tables: &AcpiTables<H>) //+
-> AcpiResult<()> {
    let _ = (madt.get_mpwk_mailbox_addr()?, madt.parse_interrupt_model_in(Global)?); //+
    let entries: MadtEntryIter = madt.entries(); //+
    let _ = (madt.header.length, madt.local_apic_address, madt.flags, madt.supports_8259());
    for entry in entries {
        let _ = match entry {
            MadtEntry::LocalApic(LocalApicEntry { header, .. }) => (header.entry_type, header.length),
            MadtEntry::IoApic(e @ IoApicEntry { .. }) => (e.io_apic_id, (e.io_apic_address, e.header).0 as u8),
            MadtEntry::InterruptSourceOverride(e @ InterruptSourceOverrideEntry { .. }) => (e.bus, e.irq),
            MadtEntry::NmiSource(e @ NmiSourceEntry { .. }) => (e.flags as u8, e.global_system_interrupt as u8),
            MadtEntry::LocalApicNmi(e @ LocalApicNmiEntry { .. }) => (e.processor_id, e.nmi_line),
            MadtEntry::LocalApicAddressOverride(e @ LocalApicAddressOverrideEntry { .. }) => {
                (e.local_apic_address as u8, 0)
            }
            MadtEntry::IoSapic(e @ IoSapicEntry { .. }) => {
                (e.io_sapic_address as u8, e.global_system_interrupt_base as u8)
            }
            MadtEntry::LocalSapic(e @ LocalSapicEntry { .. }) => (e.local_sapic_id, e.local_sapic_eid),
            MadtEntry::PlatformInterruptSource(e @ PlatformInterruptSourceEntry { .. }) => {
                let _ = (e.interrupt_type, e.platform_interrupt_source_flags);
                (e.processor_eid, e.io_sapic_vector)
            }
            MadtEntry::LocalX2Apic(e @ LocalX2ApicEntry { .. }) => (e.x2apic_id as u8, e.processor_uid as u8),
            MadtEntry::X2ApicNmi(e @ X2ApicNmiEntry { .. }) => (e.nmi_line, e.processor_uid as u8),
            MadtEntry::Gicc(e @ GiccEntry { .. }) => {
                let _ = (e.cpu_interface_number, e.parking_protocol_version);
                let _ = (e.performance_interrupt_gsiv, e.parked_address);
                let _ = (e.gic_registers_address, e.gic_virtual_registers_address, e.gic_hypervisor_registers_address);
                let _ = (e.vgic_maintenance_interrupt, e.gicr_base_address, e.mpidr, e.trbe_interrupt);
                (e.processor_power_efficiency_class, e.spe_overflow_interrupt as u8)
            }
            MadtEntry::Gicd(e @ GicdEntry { .. }) => (e.gic_version, (e.gic_id + e.system_vector_base) as u8),
            MadtEntry::GicMsiFrame(e @ GicMsiFrameEntry { .. }) => (e.frame_id as u8, (e.spi_count + e.spi_base) as u8),
            MadtEntry::GicRedistributor(e @ GicRedistributorEntry { .. }) => {
                (e.discovery_range_base_address as u8, e.discovery_range_length as u8)
            }
            MadtEntry::GicInterruptTranslationService(e @ GicInterruptTranslationServiceEntry { .. }) => {
                (e.id as u8, e.physical_base_address as u8)
            }
            MadtEntry::MultiprocessorWakeup(e @ MultiprocessorWakeupEntry { .. }) => {
                (e.mailbox_version as u8, e.mailbox_address as u8)
            }
        };
        let _: Option<EntryHeader> = None;
    }
//-     wakeup_aps(tables, handler, 1, 0x8000, 1000)
    wakeup_aps(tables, &mut mailbox, 1, 0x8000, 1000) //+
}

//- pub fn fields(field: ExtendedField<u16, 6>, number: u16, it: MultiprocessorWakeupMailbox) -> (Option<u16>, bool) {
//-     let command = MpProtectedModeWakeupCommand::from(number);
pub fn fields(field: ExtendedField<u16, 6>, number: u16, it: MultiprocessorWakeupMailbox) -> (Option<u16>, bool) { //+
    let command = MpProtectedModeWakeupCommand::try_from(number).unwrap_or(MpProtectedModeWakeupCommand::Noop); //+
    let _ = (it.command, it.apic_id, it.wakeup_vector, it.reserved_for_os);
//-     (unsafe { field.access(6) }, matches!(command, MpProtectedModeWakeupCommand::Wakeup))
    (field.access(6), matches!(command, MpProtectedModeWakeupCommand::Wakeup)) //+
}

pub fn fixed<H: AcpiHandler>(f: &PhysicalMapping<H, Fadt>) -> AcpiResult<u64> {
//-     f.validate()?;
    f.validate(f.bytes())?; //+
    let _ = (f.sci_interrupt, f.smi_cmd_port, f.acpi_enable, f.acpi_disable);
    let _ = (f.s4bios_req, f.pstate_control, f.gpe1_base);
    let _ = (f.c_state_control, f.worst_c2_latency, f.worst_c3_latency, f.flush_size, f.flush_stride, f.duty_offset);
    let _ = (f.duty_width, f.day_alarm, f.month_alarm, f.century, f.reset_value, f.power_profile(), PmTimer::new(f)?);
    let _ = (f.facs_address()?, f.dsdt_address()?, f.pm1a_event_block()?);
    let _ = (f.pm1b_event_block()?, f.pm2_control_block()?);
    let _ = (f.pm1b_control_block()?, f.pm_timer_block()?, f.gpe0_block()?, f.gpe1_block()?, f.reset_register()?);
    let _ = (f.sleep_control_register()?, f.sleep_status_register()?);
    let (x, pc): (FixedFeatureFlags, IaPcBootArchFlags) = (f.flags, f.iapc_boot_arch);
    let arm: ArmBootArchFlags = f.arm_boot_arch;
    let _ = (x.supports_equivalent_to_wbinvd(), x.wbinvd_flushes_all_caches(), x.all_procs_support_c1_power_state());
    let _ = (x.c2_configured_for_mp_system(), x.power_button_is_control_method(), x.sleep_button_is_control_method());
    let _ = (x.no_rtc_wake_in_fixed_register_space(), x.rtc_wakes_system_from_s4(), x.pm_timer_is_32_bit());
    let _ = (x.supports_docking(), x.supports_system_reset_via_fadt(), x.case_is_sealed(), x.system_is_headless());
    let _ = (x.use_instr_after_write_to_slp_typx(), x.supports_pciexp_wake_in_pm1(), x.system_is_hw_reduced_acpi());
    let _ = (x.use_pm_or_hpet_for_monotonically_decreasing_timers(), x.rtc_sts_is_valid_after_wakeup_from_s4());
    let _ = (x.ospm_may_leave_gpe_wake_events_armed_before_s5(), x.lapics_must_use_cluster_model_for_logical_mode());
    let _ = (x.local_xapics_must_use_physical_destination_mode(), x.no_benefit_to_s3());
    let _ = (pc.legacy_devices_are_accessible(), pc.motherboard_implements_8042());
    let _ = (pc.dont_probe_vga(), pc.dont_enable_msi());
    let _ = (pc.dont_enable_pcie_aspm(), pc.use_time_and_alarm_namespace_for_rtc());
    let _ = (arm.implements_psci(), arm.use_hvc_as_psci_conduit());
    let GenericAddress { address_space, bit_width, bit_offset, access_size, address } = f.pm1a_control_block()?;
    let _ = (address_space == AddressSpace::SystemIo, bit_width, bit_offset, access_size == AccessSize::Undefined);
    Ok(address)
}

pub fn devices<H: AcpiHandler>(tables: &AcpiTables<H>) -> AcpiResult<u64> {
    let hpet = HpetInfo::new(tables)?;
    let _ = (hpet.hardware_rev(), hpet.num_comparators(), hpet.main_counter_is_64bits(), hpet.legacy_irq_capable());
    let _ = (hpet.pci_vendor_id(), hpet.event_timer_block_id, hpet.hpet_number, hpet.clock_tick_unit);
    let _ = (hpet.page_protection == PageProtection::None, tables.find_table::<HpetTable>()?);
    let _ = tables.find_table::<Mcfg>()?;
    let bgrt = tables.find_table::<Bgrt>()?;
    let _ = (bgrt.image_type() == ImageType::Bitmap, bgrt.orientation_offset());
    let _ = (bgrt.was_displayed(), bgrt.image_offset());
    let _ = (bgrt.version, bgrt.image_address);
    for e @ McfgEntry { base_address: _, .. } in tables.find_table::<Mcfg>()?.entries() {
        let _ = (e.pci_segment_group, e.bus_number_start, e.bus_number_end);
    }
    let (pci, other) = (PciConfigRegions::new(tables)?, PciConfigRegions::new_in(tables, Global)?);
    let regions: PciConfigEntryIterator = pci.iter();
    for PciConfigEntry { segment_group, bus_range, physical_address } in regions {
        let _ = (segment_group, bus_range, other.physical_address(segment_group, 0, 0, 0), physical_address as u64);
    }
    Ok(hpet.base_address as u64)
}

//- pub fn console(it: &Spcr) -> Option<NonZeroU32> {
pub fn console<H: AcpiHandler>(it: &PhysicalMapping<H, Spcr>) -> Option<u32> { //+
    let _ = (it.parity, it.stop_bits, it.language, it.pci_flags, it.pci_segment, it.header.revision);
    let _ = (it.interface_type() == SpcrInterfaceType::Full16550, it.base_address());
    let _ = (it.irq(), it.global_system_interrupt());
    let _ = it.interrupt_type().contains(SpcrInterruptType::DUAL_8259 | SpcrInterruptType::IO_APIC);
    let _ = it.terminal_type().contains(SpcrTerminalType::ANSI | SpcrTerminalType::VT1000);
    let _ = it.flow_control().contains(SpcrFlowControl::RTS_CTS | SpcrFlowControl::XON_XOFF);
    let _ = (it.pci_device_id(), it.pci_vendor_id(), it.pci_bus_number());
    let _ = (it.pci_device_number(), it.pci_function_number());
    let _ = (it.uart_clock_frequency(), it.namespace_string().is_ok());
    it.baud_rate()
}

pub fn variants() {
    type A = AddressSpace;
    let _ = [A::SystemMemory, A::SystemIo, A::PciConfigSpace, A::EmbeddedController];
    let _ = [A::SMBus, A::SystemCmos, A::PciBarTarget];
    let _ = [A::Ipmi, A::GeneralIo, A::GenericSerialBus, A::PlatformCommunicationsChannel, A::FunctionalFixedHardware];
    let _ = [A::OemDefined(0xc0)];
    type S = AccessSize;
    let _ = [S::Undefined, S::ByteAccess, S::WordAccess, S::DWordAccess, S::QWordAccess];
    type P = PowerProfile;
    let _ = [P::Unspecified, P::Desktop, P::Mobile, P::Workstation, P::EnterpriseServer, P::SohoServer, P::AppliancePc];
    let _ = [P::PerformanceServer, P::Tablet, P::Reserved(9)];
    type I = SpcrInterfaceType;
    let _ = [I::Full16550, I::Full16450, I::MAX311xE, I::ArmPL011, I::MSM8x60, I::Nvidia16550, I::TiOmap, I::APM88xxxx];
    let _ = [I::Msm8974, I::Sam5250, I::IntelUSIF, I::Imx6];
    let _ = [I::ArmSBSAGeneric32bit, I::ArmSBSAGeneric, I::ArmDCC, I::Bcm2835];
    let _ = [I::Sdm845_18432, I::Generic16550, I::Sdm845_7372, I::IntelLPSS, I::RiscVSbi, I::Unknown(7)];
    let _ = [PageProtection::None, PageProtection::Protected4K, PageProtection::Protected64K, PageProtection::Other];
    let _ = [Polarity::SameAsBus, Polarity::ActiveHigh, Polarity::ActiveLow];
    let _ = [TriggerMode::SameAsBus, TriggerMode::Edge, TriggerMode::Level];
    let _ = [ProcessorState::Disabled, ProcessorState::WaitingForSipi, ProcessorState::Running];
    let _ = (ImageType::Reserved, LocalInterruptLine::Lint1, NmiProcessor::ProcessorUid(1));
    let _ = (SpcrTerminalType::EXTENDED_VT1000, SpcrTerminalType::VT_UTF8);
    let _ = (SpcrFlowControl::DCD, SpcrInterruptType::IO_SAPIC);
    let _ = (SpcrInterruptType::ARMH_GIC, SpcrInterruptType::RISCV_PLIC, InterruptModel::<Global>::Unknown);
    let _ = (MpProtectedModeWakeupCommand::Sleep, MpProtectedModeWakeupCommand::AcceptPages);
}

pub fn is_known(error: AcpiError) -> bool {
    match error {
        AcpiError::NoValidRsdp | AcpiError::RsdpIncorrectSignature | AcpiError::RsdpInvalidOemId => true,
        AcpiError::RsdpInvalidChecksum | AcpiError::SdtInvalidSignature(_) | AcpiError::SdtInvalidOemId(_) => true,
        AcpiError::SdtInvalidTableId(_) | AcpiError::SdtInvalidChecksum(_) | AcpiError::TableMissing(_) => true,
        AcpiError::InvalidFacsAddress | AcpiError::InvalidDsdtAddress | AcpiError::InvalidGenericAddress => true,
        AcpiError::AllocError => true,
        AcpiError::InvalidMadt(error) => match error {
            MadtError::UnexpectedEntry | MadtError::InterruptOverrideEntryHasInvalidBus => true,
            MadtError::InvalidLocalNmiLine | MadtError::MpsIntiInvalidPolarity => true,
            MadtError::MpsIntiInvalidTriggerMode | MadtError::WakeupApsTimeout => true,
            _ => false, //+
        },
        _ => false, //+
    }
}

pub fn signatures() -> [Signature; 65] {
    type S = Signature;
    [
        S::RSDT, S::XSDT, S::FADT, S::HPET, S::MADT, S::MCFG, S::SSDT, S::BERT, S::BGRT, S::CPEP, S::DSDT, S::ECDT,
        S::EINJ, S::ERST, S::FACS, S::FPDT, S::GTDT, S::HEST, S::MSCT, S::MPST, S::NFIT, S::PCCT, S::PHAT, S::PMTT,
        S::PSDT, S::RASF, S::SBST, S::SDEV, S::SLIT, S::SRAT, S::AEST, S::BDAT, S::CDIT, S::CEDT, S::CRAT, S::CSRT,
        S::DBGP, S::DBG2, S::DMAR, S::DRTM, S::ETDT, S::IBFT, S::IORT, S::IVRS, S::LPIT, S::MCHI, S::MPAM, S::MSDM,
        S::PRMT, S::RGRT, S::SDEI, S::SLIC, S::SPCR, S::SPMI, S::STAO, S::SVKL, S::TCPA, S::TPM2, S::UEFI, S::WAET,
        S::WDAT, S::WDRT, S::WPBT, S::WSMT, S::XENV,
    ]
}
