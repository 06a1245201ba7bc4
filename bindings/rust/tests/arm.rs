//! The GIC and the generic timers.
#![cfg(feature = "alloc")]
mod common;
use common::{Memory, TABLE, all, filled, plain, plains, with};
use zacpi::alloc::Global;
use zacpi::arm::gic::{GicModel, distributor_of};
use zacpi::arm::gtdt::{Gtdt, PlatformTimer, PlatformTimerIter, TimerStructureIter, timer_count, timers_offset};
use zacpi::lists::arm_records::{GicCpuInterface, GicMsiFrame, GicTranslationService, GtFrame, Watchdog};
use zacpi::lists::{arm_timers, gic, gtdt_faults, records::Range, refusal::Refusal};
use zacpi::madt::Madt;
use zacpi::sdt::Signature;
use zacpi::{AcpiError, MadtError};

#[test]
fn reads_a_gic() {
    #[rustfmt::skip]
    let fields = [
        // GICD (section 5.2.12.15): GIC ID at 4, Physical Base Address at 8, System Vector Base at 16, GIC version at
        // 20.
        (44, 2, 0x180c), (48, 4, 1), (52, 8, 0x800_0000), (60, 4, 2), (64, 1, 3),
        // GICC of 82 bytes (section 5.2.12.14), with Flags 0xb (enabled, performance by edge, online capable).
        (68, 2, 0x520b), (72, 4, 1), (76, 4, 2), (80, 4, 0xb), (84, 4, 3), (88, 4, 23), (92, 8, 0x4000_0000),
        (100, 8, 0x801_0000), (108, 8, 0x802_0000), (116, 8, 0x803_0000), (124, 4, 25), (128, 8, 0x80a_0000),
        (136, 8, 0x101), (144, 1, 4), (146, 2, 21), (148, 2, 22),
        // GICC of 76 bytes and zeros but for its flag 8, which is Online Capable.
        (150, 2, 0x4c0b), (162, 4, 8),
        // GICR: Discovery Range Base Address at 4, Discovery Range Length at 12.
        (226, 2, 0x100e), (230, 8, 0x80a_0000), (238, 4, 0x4_0000),
        // ITS: GIC ITS ID at 4, Physical Base Address at 8.
        (242, 2, 0x140f), (246, 4, 5), (250, 8, 0x808_0000),
        // MSI frames: ID at 4, Physical Base Address at 8, Flags at 16, SPI Count at 20, SPI Base at 22.
        (262, 2, 0x180d), (266, 4, 6), (270, 8, 0x802_0000), (278, 4, 1), (282, 2, 64), (284, 2, 80),
        (286, 2, 0x180d), (290, 4, 7), (294, 8, 0x803_0000), (302, 4, 0), (306, 2, 64), (308, 2, 80),
    ];
    let memory = with("APIC", 6, 310, &fields);
    memory.ask(|tables| {
        let gic = GicModel::new(tables).ok().unwrap().unwrap();
        assert_eq!(plain(gic.distributor), "GicDistributor 1 8000000 3 2");
        let interfaces = [
            "1 2 101 true true 17 Edge 3 40000000 8010000 8020000 8030000 19 Level 80a0000 4 15 16",
            "0 0 0 false true 0 Level 0 0 0 0 0 0 Level 0 0 0 None",
        ];
        assert_eq!(plains(&gic.cpu_interfaces), interfaces.map(|it| format!("GicCpuInterface {it}")));
        assert_eq!(plains(&gic.redistributors), ["GicRedistributors 80a0000 40000"]);
        assert_eq!(plains(&gic.translation_services), ["GicTranslationService 5 8080000"]);
        assert_eq!(plains(&gic.msi_frames), ["GicMsiFrame 6 8020000 50 40", "GicMsiFrame 7 8030000 None"]);
        let other = GicModel::new_in(tables, Global).ok().unwrap().unwrap();
        assert_eq!(plains(&other.cpu_interfaces), plains(&gic.cpu_interfaces));
    });
    memory.bytes_of::<Madt, _>(|table| {
        assert_eq!(distributor_of(table).map(plain), Ok("Some 1 8000000 3 2".into()));
        assert_eq!(GicModel::of(table, Global).ok().unwrap().unwrap().msi_frames.len(), 2);
    });
    memory.list(|source| {
        assert_eq!(gic::distributor(source).map(plain), Ok("GicDistributor 8000000 1 2 3".into()));
        let list: Vec<GicCpuInterface> = all(|out| gic::parts(source, out)).unwrap();
        assert_eq!(filled(1, |out| gic::parts_from(source, 1, out)), Ok((vec![list[1]], 2)));
        let first = "101 40000000 8010000 8020000 8030000 80a0000 1 2 17 19 3 15 16 1 1 1 3 4";
        assert_eq!((list.len(), plain(list[0])), (2, format!("GicCpuInterface {first}")));
        let list: Vec<Range> = all(|out| gic::parts(source, out)).unwrap();
        assert_eq!(list, [Range { address: 0x80a_0000, length: 0x4_0000 }]);
        let list: Vec<GicTranslationService> = all(|out| gic::parts(source, out)).unwrap();
        assert_eq!(plains(&list), ["GicTranslationService 8080000 5"]);
        let list: Vec<GicMsiFrame> = all(|out| gic::parts(source, out)).unwrap();
        assert_eq!(plains(&list), ["GicMsiFrame 8020000 6 50 40 1", "GicMsiFrame 8030000 7 0 0 0"]);
    });
}

/// Two bytes after a GICD in which no entry begins, and before one; no GICD at all; no MADT.
#[test]
fn needs_a_distributor() {
    let model =
        |memory: &Memory| memory.ask(|tables| GicModel::new(tables).map(|it| it.map(|gic| gic.cpu_interfaces.len())));
    let distributor = |memory: &Memory| memory.list(gic::distributor).map(|it| it.address);
    let after = with("APIC", 6, 70, &[(44, 2, 0x180c)]);
    let refusal = AcpiError::InvalidMadt(MadtError::InvalidEntryLength);
    assert_eq!((model(&after), distributor(&after)), (Err(refusal), Ok(0)));
    let before = with("APIC", 6, 70, &[(46, 2, 0x180c)]);
    assert_eq!((model(&before), distributor(&before)), (Err(refusal), Err(Refusal::Acpi(refusal))));
    let none = with("APIC", 6, 44, &[]);
    assert_eq!((model(&none), distributor(&none)), (Ok(None), Err(Refusal::NoGic)));
    let missing = AcpiError::TableMissing(Signature::MADT);
    assert_eq!(model(&Memory::rsdt(&[])), Err(missing));
}

#[test]
fn reads_generic_timers() {
    #[rustfmt::skip]
    let fields = [
        // CntControlBase at 36, Secure EL1 GSIV and flags at 48 and 52, Non-Secure EL1 at 56 and 60, Virtual EL1 at 64
        // and 68, EL2 at 72 and 76, CntReadBase at 80, Platform Timer Count at 88, Platform Timer Offset at 92, Virtual
        // EL2 at 96 and 100. In flags bit 0 is edge, bit 1 active low, bit 2 always on.
        (36, 8, u64::MAX), (48, 4, 29), (52, 4, 2), (56, 4, 30), (60, 4, 5), (64, 4, 27), (68, 4, 0), (72, 4, 0),
        (76, 4, 4), (80, 8, 0x2a80_0000), (88, 4, 2), (92, 4, 104), (96, 4, 28), (100, 4, 3),
        // A GT Block of 60 bytes (section 5.2.24.1): Type 0, Length at 1, GT Block Physical Address at 4, GT Block
        // Timer Count at 12, GT Block Timer Offset at 16. Its frame: GT Frame Number at 0, GTx Physical Address at 4,
        // CntEL0BaseX at 12, physical GSIV and flags at 20 and 24, virtual GSIV and flags at 28 and 32, GTx Common
        // Flags at 36.
        (104, 1, 0), (105, 2, 60), (108, 8, 0x2a81_0000), (116, 4, 1), (120, 4, 20),
        (124, 1, 1), (128, 8, 0x2a82_0000), (136, 8, u64::MAX), (144, 4, 57), (148, 4, 1), (152, 4, 0), (156, 4, 0),
        (160, 4, 2),
        // A watchdog of 28 bytes: Type 1, RefreshFrame at 4, WatchdogControlFrame at 12, GSIV at 20, flags at 24.
        (164, 1, 1), (165, 2, 28), (168, 8, 0x2a45_0000), (176, 8, 0x2a44_0000), (184, 4, 59), (188, 4, 6),
    ];
    let memory = with("GTDT", 3, 192, &fields);
    memory.ask(|tables| {
        let gtdt = tables.find_table::<Gtdt>().ok().unwrap();
        assert_eq!((gtdt.counter_control_base(), gtdt.counter_read_base()), (None, Some(0x2a80_0000)));
        let timers = [gtdt.secure_el1_timer, gtdt.non_secure_el1_timer, gtdt.virtual_el1_timer, gtdt.el2_timer];
        let expected = ["1d Level ActiveLow false", "1e Edge ActiveHigh true", "1b Level ActiveHigh false"];
        assert_eq!(plains(&timers[..3]), expected.map(|it| format!("ArmTimer {it}")));
        assert_eq!((timers[3].interrupt, timers[3].always_on), (0, true));
        assert_eq!(plain(gtdt.virtual_el2_timer()), "Some 1c Edge ActiveLow false");
        let table = gtdt.bytes();
        assert_eq!((timer_count(table), timers_offset(table)), (2, 104));
        let mut timers = PlatformTimerIter::over(table);
        let Some(PlatformTimer::GtBlock(block)) = timers.next() else { panic!("a block") };
        assert_eq!(block.address, 0x2a81_0000);
        let frame = "GtFrame 1 2a820000 None 39 Edge ActiveHigh 0 Level ActiveHigh false true";
        assert_eq!(plains(block.frames), [frame]);
        let Some(PlatformTimer::SbsaWatchdog(watchdog)) = timers.next() else { panic!("a watchdog") };
        assert_eq!(plain(watchdog), "SbsaWatchdog 2a450000 2a440000 3b Level ActiveLow true");
        assert!(timers.next().is_none() && !timers.ended_malformed());
        assert_eq!(TimerStructureIter::over(table).count(), 2);
    });
    memory.list(|source| {
        let timers = arm_timers::arm_timers(source).unwrap();
        assert_eq!((timers.control_base, timers.read_base), (u64::MAX, 0x2a80_0000));
        let all_timers = [timers.secure_el1, timers.non_secure_el1, timers.el2, timers.virtual_el2];
        let expected = ["1d 3 3 0 1", "1e 1 1 1 1", "0 1 3 1 1", "1c 3 1 0 1"];
        assert_eq!(plains(all_timers), expected.map(|it| format!("ArmTimer {it}")));
        let frames: Vec<GtFrame> = all(|out| arm_timers::frames(source, out)).unwrap();
        let frame = "GtFrame 2a810000 2a820000 ffffffffffffffff 39 0 1 1 1 1 3 0 1";
        assert_eq!(plains(&frames), [frame]);
        let watchdogs: Vec<Watchdog> = all(|out| arm_timers::watchdogs(source, out)).unwrap();
        assert_eq!(plains(&watchdogs), ["Watchdog 2a450000 2a440000 3b 3 3 1"]);
    });
}

#[test]
fn timers_may_end_malformed() {
    // Revision 2: no virtual timer of EL2; one structure at the table's end.
    let memory = with("GTDT", 2, 96, &[(88, 4, 1), (92, 4, 96)]);
    memory.ask(|tables| {
        let gtdt = tables.find_table::<Gtdt>().ok().unwrap();
        let bases = (gtdt.counter_control_base(), gtdt.counter_read_base());
        assert_eq!((bases, gtdt.virtual_el2_timer().is_none()), ((Some(0), Some(0)), true));
        let mut timers = PlatformTimerIter::over(gtdt.bytes());
        assert!(timers.next().is_none() && timers.ended_malformed());
    });
    // A block of 60 bytes whose frame of 40 begins at its byte 21, and structures from 95 on, in the table's fixed bytes.
    let block = |offset| [(88, 4, 1), (92, 4, offset), (97, 2, 60), (108, 4, 1), (112, 4, 21)];
    let cases = [(with("GTDT", 2, 156, &block(96)), 117), (with("GTDT", 2, 156, &block(95)), 95), (memory, 96)];
    for (memory, at) in cases {
        let faults = memory.list(|source| all(|out| gtdt_faults::gtdt_faults(source, out))).unwrap();
        assert_eq!(plains(&faults), [format!("EntryFault {:x} 39 0", TABLE + at)]);
    }
    let missing = AcpiError::TableMissing(Signature::GTDT);
    Memory::rsdt(&[]).ask(|tables| assert_eq!(tables.find_table::<Gtdt>().err(), Some(missing)));
}
