//! The tables about processors that are written are read back, by the types and by the records of `lists`, and each
//! error has its name.
#![cfg(feature = "alloc")]
mod common;
use common::writing::{again, fails, written};
use common::{IDS, all, plain, plains};
use zacpi::alloc::Global;
use zacpi::arm::gic::SpiRange;
use zacpi::arm::gic::{
    GicCpuInterface, GicDistributor, GicModel, GicMsiFrame, GicRedistributors, GicTranslationService,
};
use zacpi::arm::gtdt::{ArmTimer, GtFrame, Gtdt, PlatformTimer, PlatformTimerIter, SbsaWatchdog, TimerInterrupt};
use zacpi::lists::refusal::Refusal;
use zacpi::lists::writing::{self, Contents};
use zacpi::lists::{self, written_records as records};
use zacpi::numa::{Distances, Domains, MemoryAffinities, MemoryRange, Slit, Srat};
use zacpi::platform::interrupt::{
    InterruptModel, InterruptSourceOverride, IoApic, LocalInterruptLine, NmiProcessor, NmiSource, Polarity, TriggerMode,
};
use zacpi::sdt::Signature;
use zacpi::write::*;

#[test]
fn writes_a_gic() {
    let interface = |n: u32| GicCpuInterface {
        number: n,
        processor_uid: n,
        mpidr: n.into(),
        is_enabled: true,
        is_online_capable: false,
        performance_interrupt: 23,
        performance_trigger: TriggerMode::Level,
        parking_protocol_version: 0,
        parked_address: 0,
        address: 0,
        virtual_address: 0,
        hypervisor_address: 0x0803_0000,
        maintenance_interrupt: 25,
        maintenance_trigger: TriggerMode::Edge,
        redistributor_address: 0,
        efficiency_class: 5,
        spe_overflow_interrupt: 21,
        trace_buffer_interrupt: (n == 1).then_some(22),
    };
    let frame = |id, spis| GicMsiFrame { id, address: 0x0802_0000, spis };
    let contents = GicContents {
        distributor: GicDistributor { id: 1, address: 0x0800_0000, version: 3, system_vector_base: 0 },
        cpu_interfaces: &[interface(0), interface(1)],
        redistributors: &[GicRedistributors { address: 0x080a_0000, length: 0x10_0000 }],
        translation_services: &[GicTranslationService { id: 4, address: 0x0808_0000 }],
        msi_frames: &[frame(2, Some(SpiRange { base: 64, count: 32 })), frame(3, None)],
    };
    // The MADT's 44 bytes, a GICD of 24, GICCs of 80 and 82, a GICR of 16, an ITS of 20, MSI frames of 24.
    written(44 + 24 + 80 + 82 + 16 + 20 + 48, |out| write_gic_madt(out, &IDS, &contents)).ask(|tables, source| {
        let gic = GicModel::new(tables).ok().unwrap().unwrap();
        assert_eq!(plain(gic.distributor), plain(contents.distributor));
        assert_eq!(plains(&gic.cpu_interfaces), plains(contents.cpu_interfaces));
        assert_eq!(plains(&gic.redistributors), plains(contents.redistributors));
        assert_eq!(plains(&gic.translation_services), plains(contents.translation_services));
        assert_eq!(plains(&gic.msi_frames), plains(contents.msi_frames));
        let parts = records::GicContents {
            distributor: lists::gic::distributor(source).unwrap(),
            cpu_interfaces: &all(|out| lists::gic::parts(source, out)).unwrap(),
            redistributors: &all(|out| lists::gic::parts(source, out)).unwrap(),
            translation_services: &all(|out| lists::gic::parts(source, out)).unwrap(),
            msi_frames: &all(|out| lists::gic::parts(source, out)).unwrap(),
        };
        again(tables, Signature::MADT, Contents::Gic(parts));
        let long = lists::records::Range { address: 0, length: 1 << 32 };
        let parts = records::GicContents { redistributors: &[long], ..parts };
        let refused = fails(|out| writing::write_contents(out, &IDS, &Contents::Gic(parts)), 1000);
        assert_eq!(refused, Refusal::Writer(WriterError::BadRange));
    });
    let none = GicContents { cpu_interfaces: &[], ..contents };
    assert_eq!(fails(|out| write_gic_madt(out, &IDS, &none), 1000), WriterError::NoProcessor);
}

#[test]
fn writes_timers() {
    let (polarity, trigger_mode) = (Polarity::ActiveLow, TriggerMode::Level);
    let timer = |interrupt, always_on| ArmTimer { interrupt, polarity, trigger_mode, always_on };
    let none = ArmTimer { polarity: Polarity::ActiveHigh, trigger_mode: TriggerMode::Level, ..timer(0, false) };
    let level = |interrupt| TimerInterrupt { interrupt, polarity, trigger_mode };
    let frame = |number: u8| GtFrame {
        number,
        base: 0x2000 + u64::from(number),
        el0_base: (number == 1).then_some(0x3000),
        physical_timer: level(40),
        virtual_timer: level(41),
        is_secure: false,
        is_always_on: true,
    };
    let frames = [frame(0), frame(1)];
    let (interrupt, is_secure) = (42, true);
    let (refresh_frame, control_frame) = (0x5000, 0x6000);
    let watchdog = SbsaWatchdog { refresh_frame, control_frame, interrupt, trigger_mode, polarity, is_secure };
    let contents = GtdtContents {
        counter_control_base: Some(0x7000),
        secure_el1_timer: none,
        non_secure_el1_timer: timer(30, true),
        virtual_el1_timer: timer(27, true),
        el2_timer: none,
        counter_read_base: None,
        virtual_el2_timer: none,
        platform_timers: &[
            PlatformTimerContents::GtBlock(GtBlockContents { address: 0x1000, frames: &frames }),
            PlatformTimerContents::SbsaWatchdog(watchdog),
        ],
    };
    written(104 + 20 + 2 * 40 + 28, |out| write_gtdt(out, &IDS, &contents)).ask(|tables, source| {
        let read = tables.find_table::<Gtdt>().ok().unwrap();
        assert_eq!((read.counter_control_base(), read.counter_read_base()), (Some(0x7000), None));
        assert_eq!(plains([read.secure_el1_timer, read.el2_timer]), plains([none, none]));
        assert_eq!(
            plains([read.non_secure_el1_timer, read.virtual_el1_timer]),
            plains([timer(30, true), timer(27, true)])
        );
        let mut timers = PlatformTimerIter::over(read.bytes());
        let Some(PlatformTimer::GtBlock(block)) = timers.next() else { panic!("a block") };
        assert_eq!((block.address, plains(block.frames)), (0x1000, plains(frames)));
        let Some(PlatformTimer::SbsaWatchdog(it)) = timers.next() else { panic!("a watchdog") };
        assert_eq!((plain(it), timers.next().is_none()), (plain(watchdog), true));
        let frames: Vec<_> = all(|out| lists::arm_timers::frames(source, out)).unwrap();
        let watchdogs: Vec<_> = all(|out| lists::arm_timers::watchdogs(source, out)).unwrap();
        let platform_timers = [
            records::PlatformTimer { kind: 0, block_address: 0x1000, frames: &frames, ..Default::default() },
            records::PlatformTimer { kind: 1, watchdog: watchdogs[0], ..Default::default() },
        ];
        let timers = lists::arm_timers::arm_timers(source).unwrap();
        again(
            tables,
            Signature::GTDT,
            Contents::Gtdt(records::GtdtContents { timers, platform_timers: &platform_timers }),
        );
    });
    let many = [PlatformTimerContents::GtBlock(GtBlockContents { address: 0x1000, frames: &[frame(0); 1638] })];
    let many = GtdtContents { platform_timers: &many, ..contents };
    assert_eq!(fails(|out| write_gtdt(out, &IDS, &many), 100_000), WriterError::TooManyFrames);
    let bus = GtdtContents { el2_timer: ArmTimer { polarity: Polarity::SameAsBus, ..none }, ..contents };
    assert_eq!(fails(|out| write_gtdt(out, &IDS, &bus), 1000), WriterError::SameAsBus);
}

fn range(base: u64, length: u64, domain: u32) -> MemoryRange {
    MemoryRange { domain, base, length, is_hot_pluggable: false, is_non_volatile: true }
}

#[test]
fn writes_domains() {
    let apic = |local_apic_id, domain| ApicDomain { local_apic_id, domain };
    let ranges = [range(0x1000, u64::MAX - 0x1000, 0x1234_5678)];
    let (apics, giccs) = ([apic(254, 1), apic(255, 2)], [GiccDomain { processor_uid: 9, domain: 3 }]);
    let contents = SratContents { apics: &apics, giccs: &giccs, ranges: &ranges };
    written(48 + 16 + 24 + 18 + 40, |out| write_srat(out, &IDS, &contents)).ask(|tables, source| {
        let srat = tables.find_table::<Srat>().ok().unwrap();
        let domains = Domains::over(srat.bytes());
        assert_eq!([254, 255].map(|id| domains.domain_of_apic(id)), [Some(1), Some(2)]);
        assert_eq!(domains.domain_of_processor(9), Some(3));
        assert_eq!(plains(MemoryAffinities::new(tables).ok().unwrap().ranges()), plains(ranges));
        let ranges: Vec<_> = all(|out| lists::affinities::srat_entries(source, out)).unwrap();
        let contents = records::SratContents { apics: &apics, giccs: &giccs, ranges: &ranges };
        again(tables, Signature::SRAT, Contents::Srat(contents));
    });
    let error = |contents: SratContents<'_>| fails(|out| write_srat(out, &IDS, &contents), 1000);
    assert_eq!(error(SratContents { apics: &[apic(u32::MAX, 1)], ..contents }), WriterError::IdOfAll);
    assert_eq!(error(SratContents { ranges: &[range(0x1000, 0, 1)], ..contents }), WriterError::BadRange);
    let distances = [10, 20, 255, 10];
    written(48, |out| write_slit(out, &IDS, 2, &distances)).ask(|tables, _| {
        let slit = tables.find_table::<Slit>().ok().unwrap();
        assert_eq!((slit.localities, Distances::over(slit.bytes()).distance(1, 0)), (2, Some(255)));
    });
    assert_eq!(fails(|out| write_slit(out, &IDS, 3, &distances), 1000), WriterError::BadMatrix);
}

fn processor(id: u32) -> MadtProcessor {
    let (is_enabled, is_online_capable) = (id % 3 != 2, id % 5 == 2);
    MadtProcessor { processor_uid: id, local_apic_id: 2 * id, is_enabled, is_online_capable, is_x2apic: id % 7 == 1 }
}

fn line(processor: NmiProcessor) -> MadtNmiLine {
    MadtNmiLine {
        processor,
        line: LocalInterruptLine::Lint1,
        polarity: Polarity::ActiveHigh,
        trigger_mode: TriggerMode::Edge,
    }
}

/// What one processor takes: a Local APIC of 8 bytes, or an x2APIC of 16 if an id is 255 or above or it is to be one.
fn entry_size(it: &MadtProcessor) -> usize {
    if it.is_x2apic || it.processor_uid >= 255 || it.local_apic_id >= 255 { 16 } else { 8 }
}

/// MADTs of so many processors are read back as they were written.
#[test]
fn writes_processors() {
    for count in [1, 4, 255, 4096] {
        let processors: Vec<_> = (0..count).map(processor).collect();
        let io_apics = [IoApic { id: 7, address: 0xfec0_0000, global_system_interrupt_base: 0 }];
        let (polarity, trigger_mode) = (Polarity::ActiveLow, TriggerMode::Level);
        let overrides =
            [InterruptSourceOverride { isa_source: 9, global_system_interrupt: 20, polarity, trigger_mode }];
        let nmi_sources = [NmiSource { global_system_interrupt: 2, polarity, trigger_mode }];
        let lines = [NmiProcessor::All, NmiProcessor::ProcessorUid(3), NmiProcessor::ProcessorUid(300)].map(line);
        let contents = MadtContents {
            local_apic_address: 1 << 32,
            also_has_legacy_pics: true,
            processors: &processors,
            io_apics: &io_apics,
            interrupt_source_overrides: &overrides,
            nmi_sources: &nmi_sources,
            local_apic_nmi_lines: &lines,
            wakeup_mailbox: Some(0x1000),
        };
        // An address override of 12 bytes, an I/O APIC of 12, 10, 8, two lines of 6 and one of 12, a mailbox of 16.
        let size = 44 + processors.iter().map(entry_size).sum::<usize>() + 12 + 12 + 10 + 8 + 24 + 16;
        written(size, |out| write_madt(out, &IDS, &contents)).ask(|tables, source| {
            assert_eq!(lists::apics::mailbox(source), Ok(0x1000));
            let madt = tables.find_table::<zacpi::madt::Madt>().ok().unwrap();
            let (model, info) = madt.parse_interrupt_model_in(Global).ok().unwrap();
            let InterruptModel::Apic(apic) = model else { panic!("the model is known") };
            assert_eq!((apic.local_apic_address, apic.also_has_legacy_pics), (1 << 32, true));
            assert_eq!(plains(&apic.io_apics), plains(io_apics));
            assert_eq!(plains(&apic.interrupt_source_overrides), plains(overrides));
            assert_eq!(plains(&apic.nmi_sources), plains(nmi_sources));
            let read = apic.local_apic_nmi_lines.iter().map(|it| (it.processor, it.line));
            assert!(read.eq(lines.iter().map(|it| (it.processor, it.line))));
            assert_eq!(info.unwrap().application_processors.len() + 1, processors.len());
            let mut list = vec![Default::default(); processors.len()];
            assert_eq!(lists::apics::processors(source, &mut list), Ok(processors.len()));
            let read = list.iter().map(|it| (it.uid, it.local_apic_id, it.state != 0, it.is_online_capable == 1));
            let written =
                processors.iter().map(|it| (it.processor_uid, it.local_apic_id, it.is_enabled, it.is_online_capable));
            assert!(read.eq(written));
            let contents = records::MadtContents {
                processors: &list,
                io_apics: &all(|out| lists::apics::entries(source, out)).unwrap(),
                overrides: &all(|out| lists::apics::entries(source, out)).unwrap(),
                nmi_sources: &all(|out| lists::apics::entries(source, out)).unwrap(),
                nmi_lines: &all(|out| lists::apics::entries(source, out)).unwrap(),
                local_apic_address: 1 << 32,
                wakeup_mailbox: 0x1000,
                also_has_8259: 1,
                has_wakeup_mailbox: 1,
            };
            again(tables, Signature::MADT, Contents::Madt(contents));
            // What only a list of entries at fault has isn't written.
            let mut bad = contents.nmi_lines.to_vec();
            (bad[0].lint, bad[1].polarity) = (2, 2);
            let bus =
                contents.overrides.iter().map(|it| lists::interrupt_records::InterruptSourceOverride { bus: 1, ..*it });
            let refused = [
                records::MadtContents { nmi_lines: &bad[..1], ..contents },
                records::MadtContents { nmi_lines: &bad[1..2], ..contents },
                records::MadtContents { overrides: &bus.collect::<Vec<_>>(), ..contents },
            ];
            for contents in refused.map(Contents::Madt) {
                let error = fails(|out| writing::write_contents(out, &IDS, &contents), size);
                assert_eq!(error, Refusal::UnknownCode);
            }
        });
        let error = |contents: MadtContents<'_>| fails(|out| write_madt(out, &IDS, &contents), size);
        assert_eq!(error(MadtContents { processors: &[], ..contents }), WriterError::NoProcessor);
        let one = MadtProcessor { local_apic_id: u32::MAX, ..processors[0] };
        assert_eq!(error(MadtContents { processors: &[one], ..contents }), WriterError::IdOfAll);
        let lines = [line(NmiProcessor::ProcessorUid(u32::MAX))];
        assert_eq!(error(MadtContents { local_apic_nmi_lines: &lines, ..contents }), WriterError::UidOfAll);
    }
}
