//! Made by scripts/tables_rust of the layouts of acpi_dump: see there for the rule of the names.
use super::{Entries, Register, View, kinds, length, number, view};

view! {
    /// The header of tables: The header that every table begins with (section 5.2.6, table 5.4). An S3PT and an FBPT have
    /// only its first two fields: after their records, fields at lower offsets aren't shown.
    Header 0 of 36 {
        signature: 4 @ 0, length: u32 @ 4, revision: u8 @ 8, checksum: u8 @ 9, oem_id: 6 @ 10, oem_table_id: 8 @ 16,
        oem_revision: u32 @ 24, creator_id: 4 @ 28, creator_revision: u32 @ 32,
    }
}

view! {
    /// Boot Graphics Resource Table (BGRT; ACPI 6.5, section 5.2.23).
    Bgrt 36 of 56 {
        version: u16 @ 36, status: u8 @ 38, image_type: u8 @ 39, image_address: u64 @ 40, image_offset_x: u32 @ 48,
        image_offset_y: u32 @ 52,
    }
    constants {
        STATUS_DISPLAYED: u8 = 0x1, STATUS_TURNED_BY_90_DEGREES: u8 = 0x2, STATUS_TURNED_BY_180_DEGREES: u8 = 0x4,
    }
}

view! {
    /// Firmware Performance Data Table (FPDT; ACPI 6.5, section 5.2.24).
    Fpdt 36 of 36 { }
    lists {
        records: FpdtRecord = (|_| 36, |_| usize::MAX, |b| length(number(b, 2, 1))),
    }
}

view! {
    /// What each record begins with (FPDT; ACPI 6.5, section 5.2.24).
    FpdtRecordHead 0 of 4 {
        performance_record_type: u16 @ 0, record_length: u8 @ 2, revision: u8 @ 3,
    }
}

view! {
    /// Firmware Basic Boot Performance Pointer Record (FPDT; ACPI 6.5, section 5.2.24).
    FpdtRecordFirmwareBasicBootPerformancePointerRecord 0 of 16 {
        performance_record_type: u16 @ 0, record_length: u8 @ 2, revision: u8 @ 3, reserved: u32 @ 4,
        fbpt_pointer: u64 @ 8,
    }
}

view! {
    /// S3 Performance Table Pointer Record (FPDT; ACPI 6.5, section 5.2.24).
    FpdtRecordS3PerformanceTablePointerRecord 0 of 16 {
        performance_record_type: u16 @ 0, record_length: u8 @ 2, revision: u8 @ 3, reserved: u32 @ 4,
        s3pt_pointer: u64 @ 8,
    }
}

view! {
    /// What each record begins with (S3PT; ACPI 6.5, section 5.2.24).
    S3ptRecordHead 0 of 4 {
        runtime_performance_record_type: u16 @ 0, record_length: u8 @ 2, revision: u8 @ 3,
    }
}

view! {
    /// Basic S3 Resume Performance Record (S3PT; ACPI 6.5, section 5.2.24).
    S3ptRecordBasicS3ResumePerformanceRecord 0 of 24 {
        runtime_performance_record_type: u16 @ 0, record_length: u8 @ 2, revision: u8 @ 3, resume_count: u32 @ 4,
        fullresume: u64 @ 8, averageresume: u64 @ 16,
    }
}

view! {
    /// Basic S3 Suspend Performance Record (S3PT; ACPI 6.5, section 5.2.24).
    S3ptRecordBasicS3SuspendPerformanceRecord 0 of 20 {
        runtime_performance_record_type: u16 @ 0, record_length: u8 @ 2, revision: u8 @ 3, suspendstart: u64 @ 4,
        suspendend: u64 @ 12,
    }
}

view! {
    /// What each record begins with (FBPT; ACPI 6.5, section 5.2.24).
    FbptRecordHead 0 of 4 {
        performance_record_type: u16 @ 0, record_length: u8 @ 2, revision: u8 @ 3,
    }
}

view! {
    /// Firmware Basic Boot Performance Data Record (FBPT; ACPI 6.5, section 5.2.24).
    FbptRecordFirmwareBasicBootPerformanceDataRecord 0 of 48 {
        performance_record_type: u16 @ 0, record_length: u8 @ 2, revision: u8 @ 3, reserved: u32 @ 4,
        reset_end: u64 @ 8, os_loader_loadimage_start: u64 @ 16, os_loader_startimage_start: u64 @ 24,
        exitbootservices_entry: u64 @ 32, exitbootservices_exit: u64 @ 40,
    }
}

view! {
    /// Regulatory Graphics Resource Table (RGRT; ACPI 6.5, section 5.2.35).
    Rgrt 36 of 40 {
        version: u16 @ 36, image_type: u8 @ 38, reserved: u8 @ 39,
    }
}

view! {
    /// UEFI ACPI Data Table (UEFI; UEFI 2.10, appendix O).
    Uefi 36 of 54 {
        identifier: 16 @ 36, dataoffset: u16 @ 52,
    }
}

view! {
    /// Simple Boot Flag Table (BOOT; Microsoft: Simple Boot Flag Specification 2.1).
    Boot 36 of 40 {
        cmos_index: u8 @ 36, reserved: 3 @ 37,
    }
}

view! {
    /// Microsoft Data Management Table (MSDM; Microsoft: Software Licensing Tables).
    Msdm 36 of 36 { }
}

view! {
    /// Software Licensing Description Table (SLIC; Microsoft: Software Licensing Tables).
    Slic 36 of 36 { }
}

view! {
    /// Windows Platform Binary Table (WPBT; Microsoft: Windows Platform Binary Table).
    Wpbt 36 of 52 {
        handoff_memory_size: u32 @ 36, handoff_memory_location: u64 @ 40, content_layout: u8 @ 48,
        content_type: u8 @ 49, command_line_arguments_length: u16 @ 50,
    }
    constants {
        CONTENT_LAYOUT_A_SINGLE_PORTABLE_EXECUTABLE_IMAGE: u8 = 0x1,
    }
}

view! {
    /// Windows SMM Security Mitigations Table (WSMT; Microsoft: Windows SMM Security Mitigations Table).
    Wsmt 36 of 40 {
        protection_flags: u32 @ 36,
    }
    constants {
        PROTECTION_FLAGS_FIXED_COMM_BUFFERS: u32 = 0x1, PROTECTION_FLAGS_COMM_BUFFER_NESTED_PTR_PROTECTION: u32 = 0x2,
        PROTECTION_FLAGS_SYSTEM_RESOURCE_PROTECTION: u32 = 0x4,
    }
}

view! {
    /// Status Override Table (STAO; Xen Project).
    Stao 36 of 37 {
        uart: u8 @ 36,
    }
    constants {
        UART_IGNORED: u8 = 0x1,
    }
}

view! {
    /// Xen Environment Table (XENV; Xen Project).
    Xenv 36 of 57 {
        grant_table_address: u64 @ 36, grant_table_size: u64 @ 44, event_channel_interrupt: u32 @ 52,
        event_channel_flags: u8 @ 56,
    }
}

view! {
    /// Platform Health Assessment Table (PHAT; ACPI 6.5, section 5.2.32).
    Phat 36 of 36 { }
    lists {
        records: PhatRecord = (|_| 36, |_| usize::MAX, |b| length(number(b, 2, 2))),
    }
}

view! {
    /// What each record begins with (PHAT; ACPI 6.5, section 5.2.32).
    PhatRecordHead 0 of 5 {
        platform_health_assessment_record_type: u16 @ 0, record_length: u16 @ 2, revision: u8 @ 4,
    }
}

view! {
    /// Firmware Version Data Record (PHAT; ACPI 6.5, section 5.2.32).
    PhatRecordFirmwareVersionDataRecord 0 of 12 {
        platform_health_assessment_record_type: u16 @ 0, record_length: u16 @ 2, revision: u8 @ 4, reserved: 3 @ 5,
        record_count: u32 @ 8,
    }
    lists {
        versions: PhatVersion = (|_| 12, |b| length(number(b, 8, 4)), |_| 28),
    }
}

view! {
    /// Version Element (PHAT; ACPI 6.5, section 5.2.32).
    PhatVersion 0 of 28 {
        component_id: 16 @ 0, version_value: u64 @ 16, producer_id: 4 @ 24,
    }
}

view! {
    /// Firmware Health Data Record (PHAT; ACPI 6.5, section 5.2.32).
    PhatRecordFirmwareHealthDataRecord 0 of 28 {
        platform_health_assessment_record_type: u16 @ 0, record_length: u16 @ 2, revision: u8 @ 4, reserved: u16 @ 5,
        amhealthy: u8 @ 7, device_signature: 16 @ 8, device_specific_data_offset: u32 @ 24,
    }
    constants {
        AMHEALTHY_ERRORS_FOUND: u8 = 0x0, AMHEALTHY_NO_ERRORS_FOUND: u8 = 0x1, AMHEALTHY_UNKNOWN: u8 = 0x2,
        AMHEALTHY_ADVISORY: u8 = 0x3,
    }
}

view! {
    /// Platform Runtime Mechanism Table (PRMT; Platform Runtime Mechanism 1.0).
    Prmt 36 of 60 {
        prm_platform_guid: 16 @ 36, prm_module_info_offset: u32 @ 52, prm_module_info_count: u32 @ 56,
    }
    lists {
        modules: PrmtModule = (|b| length(number(b, 52, 4)), |b| length(number(b, 56, 4)), |b| length(number(b, 2, 2))),
    }
}

view! {
    /// PRM Module Information Structure (PRMT; Platform Runtime Mechanism 1.0).
    PrmtModule 0 of 38 {
        structure_revision: u16 @ 0, structure_length: u16 @ 2, identifier: 16 @ 4, major_revision: u16 @ 20,
        minor_revision: u16 @ 22, handler_count: u16 @ 24, handler_info_offset: u32 @ 26,
        module_mmio_runtime_ranges_pointer: u64 @ 30,
    }
    lists {
        handlers: PrmtHandler = (|b| length(number(b, 26, 4)), |b| length(number(b, 24, 2)), |b| length(number(b, 2,
            2))),
    }
}

view! {
    /// PRM Handler Information Structure (PRMT; Platform Runtime Mechanism 1.0).
    PrmtHandler 0 of 44 {
        structure_revision: u16 @ 0, structure_length: u16 @ 2, identifier: 16 @ 4, physical_address: u64 @ 20,
        static_data_buffer: u64 @ 28, acpi_parameter_buffer: u64 @ 36,
    }
}

view! {
    /// PCI Express memory mapped configuration space base address description table (MCFG; PCI Firmware Specification
    /// 3.3, tables 4-2 and 4-3).
    Mcfg 36 of 44 {
        reserved: u64 @ 36,
    }
    lists {
        entries: McfgEntry = (|_| 44, |_| usize::MAX, |_| 16),
    }
}

view! {
    /// Configuration space (MCFG; PCI Firmware Specification 3.3, tables 4-2 and 4-3).
    McfgEntry 0 of 16 {
        base_address: u64 @ 0, pci_segment_group_number: u16 @ 8, start_bus_number: u8 @ 10, end_bus_number: u8 @ 11,
        reserved: u32 @ 12,
    }
}

view! {
    /// Serial Port Console Redirection Table (SPCR; Microsoft: Serial Port Console Redirection Table).
    Spcr 36 of 88 {
        interface_type: u8 @ 36, reserved: 3 @ 37, base_address: register @ 40, interrupt_type: u8 @ 52, irq: u8 @ 53,
        global_system_interrupt: u32 @ 54, configured_baud_rate: u8 @ 58, parity: u8 @ 59, stop_bits: u8 @ 60,
        flow_control: u8 @ 61, terminal_type: u8 @ 62, language: u8 @ 63, pci_device_id: u16 @ 64,
        pci_vendor_id: u16 @ 66, pci_bus_number: u8 @ 68, pci_device_number: u8 @ 69, pci_function_number: u8 @ 70,
        pci_flags: u32 @ 71, pci_segment: u8 @ 75, uart_clock_frequency: u32 @ 76, precise_baud_rate: u32 @ 80,
        namespacestringlength: u16 @ 84, namespacestringoffset: u16 @ 86,
    }
    constants {
        CONFIGURED_BAUD_RATE_AS_IT_IS: u8 = 0x0, CONFIGURED_BAUD_RATE_9600: u8 = 0x3,
        CONFIGURED_BAUD_RATE_19200: u8 = 0x4, CONFIGURED_BAUD_RATE_57600: u8 = 0x6,
        CONFIGURED_BAUD_RATE_115200: u8 = 0x7, PARITY_NO_PARITY: u8 = 0x0, STOP_BITS_1_STOP_BIT: u8 = 0x1,
        FLOW_CONTROL_DCD: u8 = 0x1, FLOW_CONTROL_RTS_CTS: u8 = 0x2, FLOW_CONTROL_XON_XOFF: u8 = 0x4,
        PCI_FLAGS_DO_NOT_SUPPRESS_PNP_DEVICE_ENUMERATION_OR_DISABLE_POWER_MANAGEMENT: u32 = 0x1,
    }
}

view! {
    /// Debug Port Table 2 (DBG2; Microsoft Debug Port Table 2).
    Dbg2 36 of 44 {
        offsetdbgdeviceinfo: u32 @ 36, numberdbgdeviceinfo: u32 @ 40,
    }
    lists {
        devices: Dbg2Device = (|b| length(number(b, 36, 4)), |b| length(number(b, 40, 4)), |b| length(number(b, 1, 2))),
    }
}

view! {
    /// Debug Device Information (DBG2; Microsoft Debug Port Table 2).
    Dbg2Device 0 of 22 {
        revision: u8 @ 0, length: u16 @ 1, numberofgenericaddressregisters: u8 @ 3, namespacestringlength: u16 @ 4,
        namespacestringoffset: u16 @ 6, oemdatalength: u16 @ 8, oemdataoffset: u16 @ 10, port_type: u16 @ 12,
        reserved: u16 @ 16, baseaddressregisteroffset: u16 @ 18, addresssizeoffset: u16 @ 20,
    }
}

view! {
    /// Debug Device Information, with the fields of dbg2 serial (DBG2; Microsoft Debug Port Table 2).
    Dbg2DeviceDbg2Serial 0 of 22 {
        revision: u8 @ 0, length: u16 @ 1, numberofgenericaddressregisters: u8 @ 3, namespacestringlength: u16 @ 4,
        namespacestringoffset: u16 @ 6, oemdatalength: u16 @ 8, oemdataoffset: u16 @ 10, port_type: u16 @ 12,
        port_subtype: u16 @ 14, reserved: u16 @ 16, baseaddressregisteroffset: u16 @ 18, addresssizeoffset: u16 @ 20,
    }
}

view! {
    /// Debug Device Information, with the fields of dbg2 1394 (DBG2; Microsoft Debug Port Table 2).
    Dbg2DeviceDbg21394 0 of 22 {
        revision: u8 @ 0, length: u16 @ 1, numberofgenericaddressregisters: u8 @ 3, namespacestringlength: u16 @ 4,
        namespacestringoffset: u16 @ 6, oemdatalength: u16 @ 8, oemdataoffset: u16 @ 10, port_type: u16 @ 12,
        port_subtype: u16 @ 14, reserved: u16 @ 16, baseaddressregisteroffset: u16 @ 18, addresssizeoffset: u16 @ 20,
    }
    constants {
        PORT_SUBTYPE_IEEE1394_STANDARD_HOST_CONTROLLER_INTERFACE: u16 = 0x0,
    }
}

view! {
    /// Debug Device Information, with the fields of dbg2 usb (DBG2; Microsoft Debug Port Table 2).
    Dbg2DeviceDbg2Usb 0 of 22 {
        revision: u8 @ 0, length: u16 @ 1, numberofgenericaddressregisters: u8 @ 3, namespacestringlength: u16 @ 4,
        namespacestringoffset: u16 @ 6, oemdatalength: u16 @ 8, oemdataoffset: u16 @ 10, port_type: u16 @ 12,
        port_subtype: u16 @ 14, reserved: u16 @ 16, baseaddressregisteroffset: u16 @ 18, addresssizeoffset: u16 @ 20,
    }
    constants {
        PORT_SUBTYPE_XHCI_COMPLIANT_CONTROLLER_WITH_DEBUG_INTERFACE: u16 = 0x0,
        PORT_SUBTYPE_EHCI_COMPLIANT_CONTROLLER_WITH_DEBUG_INTERFACE: u16 = 0x1,
    }
}

view! {
    /// Debug Device Information, with the fields of dbg2 other (DBG2; Microsoft Debug Port Table 2).
    Dbg2DeviceDbg2Other 0 of 22 {
        revision: u8 @ 0, length: u16 @ 1, numberofgenericaddressregisters: u8 @ 3, namespacestringlength: u16 @ 4,
        namespacestringoffset: u16 @ 6, oemdatalength: u16 @ 8, oemdataoffset: u16 @ 10, port_type: u16 @ 12,
        port_subtype: u16 @ 14, reserved: u16 @ 16, baseaddressregisteroffset: u16 @ 18, addresssizeoffset: u16 @ 20,
    }
}

view! {
    /// Debug Port Table (DBGP; Microsoft: Debug Port Specification).
    Dbgp 36 of 52 {
        interface_type: u8 @ 36, reserved: 3 @ 37, base_address: register @ 40,
    }
}

view! {
    /// IA-PC High Precision Event Timer Table (HPET; IA-PC HPET Specification 1.0a, section 3.2.4).
    Hpet 36 of 56 {
        event_timer_block_id: u32 @ 36, base_address: register @ 40, hpet_number: u8 @ 52,
        main_counter_minimum_clock_tick: u16 @ 53, page_protection_and_oem_attribute: u8 @ 55,
    }
    constants {
        EVENT_TIMER_BLOCK_ID_VENDOR_ID_MASK: u32 = 0xffff0000, EVENT_TIMER_BLOCK_ID_VENDOR_ID_SHIFT: u32 = 16,
        EVENT_TIMER_BLOCK_ID_LEG_RT_CAP: u32 = 0x8000, EVENT_TIMER_BLOCK_ID_COUNT_SIZE_CAP: u32 = 0x2000,
        EVENT_TIMER_BLOCK_ID_NUM_TIM_CAP_MASK: u32 = 0x1f00, EVENT_TIMER_BLOCK_ID_NUM_TIM_CAP_SHIFT: u32 = 8,
        EVENT_TIMER_BLOCK_ID_REV_ID_MASK: u32 = 0xff, EVENT_TIMER_BLOCK_ID_REV_ID_SHIFT: u32 = 0,
        PAGE_PROTECTION_AND_OEM_ATTRIBUTE_4_KB_PAGE_PROTECTION: u8 = 0x1,
        PAGE_PROTECTION_AND_OEM_ATTRIBUTE_64_KB_PAGE_PROTECTION: u8 = 0x2,
        PAGE_PROTECTION_AND_OEM_ATTRIBUTE_OEM_ATTRIBUTE_MASK: u8 = 0xf0,
        PAGE_PROTECTION_AND_OEM_ATTRIBUTE_OEM_ATTRIBUTE_SHIFT: u32 = 4,
    }
}

view! {
    /// Windows ACPI Emulated Devices Table (WAET; Microsoft: Windows ACPI Emulated Devices Table).
    Waet 36 of 40 {
        emulated_device_flags: u32 @ 36,
    }
    constants {
        EMULATED_DEVICE_FLAGS_RTC_GOOD: u32 = 0x1, EMULATED_DEVICE_FLAGS_ACPI_PM_TIMER_GOOD: u32 = 0x2,
    }
}

view! {
    /// Watchdog Action Table (WDAT; Microsoft: Hardware Watchdog Timers Design Specification).
    Wdat 36 of 68 {
        watchdog_header_length: u32 @ 36, pci_segment: u16 @ 40, pci_bus_number: u8 @ 42, pci_device_number: u8 @ 43,
        pci_function_number: u8 @ 44, reserved: 3 @ 45, timer_period: u32 @ 48, maximum_count: u32 @ 52,
        minimum_count: u32 @ 56, watchdog_flags: u8 @ 60, reserved_2: 3 @ 61,
        number_of_watchdog_instruction_entries: u32 @ 64,
    }
    lists {
        entries: WdatEntry = (|_| 68, |b| length(number(b, 64, 4)), |_| 24),
    }
    constants {
        WATCHDOG_FLAGS_WATCHDOG_ENABLED: u8 = 0x1, WATCHDOG_FLAGS_STOPPED_IN_SLEEP_STATE: u8 = 0x80,
    }
}

view! {
    /// Watchdog Instruction Entry (WDAT; Microsoft: Hardware Watchdog Timers Design Specification).
    WdatEntry 0 of 24 {
        watchdog_action: u8 @ 0, instruction_flags: u8 @ 1, reserved: u16 @ 2, register_region: register @ 4,
        value: u32 @ 16, mask: u32 @ 20,
    }
    constants {
        INSTRUCTION_FLAGS_READ_VALUE: u8 = 0x0, INSTRUCTION_FLAGS_READ_COUNTDOWN: u8 = 0x1,
        INSTRUCTION_FLAGS_WRITE_VALUE: u8 = 0x2, INSTRUCTION_FLAGS_WRITE_COUNTDOWN: u8 = 0x3,
        INSTRUCTION_FLAGS_PRESERVE_REGISTER: u8 = 0x80,
    }
}

view! {
    /// Watchdog Resource Table (WDRT; Microsoft: Watchdog Timer Hardware Requirements).
    Wdrt 36 of 71 {
        control_register_address: register @ 36, count_register_address: register @ 48, pci_device_id: u16 @ 60,
        pci_vendor_id: u16 @ 62, pci_bus_number: u8 @ 64, pci_device_number: u8 @ 65, pci_function_number: u8 @ 66,
        pci_segment: u8 @ 67, maximum_count: u16 @ 68, units: u8 @ 70,
    }
    constants {
        UNITS_1_SECOND: u8 = 0x0, UNITS_100_MILLISECONDS: u8 = 0x1, UNITS_10_MILLISECONDS: u8 = 0x2,
    }
}

view! {
    /// Watchdog Descriptor Table (WDDT; Intel: Watchdog Descriptor Table).
    Wddt 36 of 64 {
        specification_version: u16 @ 36, description_table_version: u16 @ 38, pci_vendor_id: u16 @ 40,
        watchdog_timer_base_address: register @ 42, timer_maximum_count: u16 @ 54, timer_minimum_count: u16 @ 56,
        timer_count_period: u16 @ 58, watchdog_status: u16 @ 60, watchdog_capability: u16 @ 62,
    }
    constants {
        WATCHDOG_STATUS_AVAILABLE: u16 = 0x1, WATCHDOG_STATUS_ACTIVE: u16 = 0x2,
        WATCHDOG_STATUS_OWNED_BY_THE_OS: u16 = 0x4, WATCHDOG_STATUS_USER_RESET: u16 = 0x800,
        WATCHDOG_STATUS_WATCHDOG_RESET: u16 = 0x1000, WATCHDOG_STATUS_POWER_FAILURE: u16 = 0x2000,
        WATCHDOG_STATUS_UNKNOWN_RESET: u16 = 0x4000, WATCHDOG_CAPABILITY_AUTOMATIC_RESET: u16 = 0x1,
        WATCHDOG_CAPABILITY_ALERT_SUPPORT: u16 = 0x2,
    }
}

view! {
    /// Virtual Real Time Clock Table (VRTC; Intel: Simple Firmware Interface's tables under ACPI).
    Vrtc 36 of 36 { }
    lists {
        entries: VrtcEntry = (|_| 36, |_| usize::MAX, |_| 16),
    }
}

view! {
    /// Real Time Clock (VRTC; Intel: Simple Firmware Interface's tables under ACPI).
    VrtcEntry 0 of 16 {
        physical_address: register @ 0, irq: u32 @ 12,
    }
}

view! {
    /// MID Timer Table (MTMR; Intel: Simple Firmware Interface's tables under ACPI).
    Mtmr 36 of 36 { }
    lists {
        entries: MtmrEntry = (|_| 36, |_| usize::MAX, |_| 20),
    }
}

view! {
    /// Timer (MTMR; Intel: Simple Firmware Interface's tables under ACPI).
    MtmrEntry 0 of 20 {
        physical_address: register @ 0, frequency: u32 @ 12, irq: u32 @ 16,
    }
}

view! {
    /// Boot Error Record Table (BERT; ACPI 6.5, table 18.16).
    Bert 36 of 48 {
        boot_error_region_length: u32 @ 36, boot_error_region: u64 @ 40,
    }
}

view! {
    /// Corrected Platform Error Polling Table (CPEP; ACPI 6.5, section 5.2.18).
    Cpep 36 of 44 {
        reserved: u64 @ 36,
    }
    lists {
        entries: CpepEntry = (|_| 44, |_| usize::MAX, |b| length(number(b, 1, 1))),
    }
}

view! {
    /// What each structure begins with (CPEP; ACPI 6.5, section 5.2.18).
    CpepEntryHead 0 of 2 {
        type_: u8 @ 0, length: u8 @ 1,
    }
}

view! {
    /// Corrected Platform Error Polling Processor Structure (CPEP; ACPI 6.5, section 5.2.18).
    CpepEntryCorrectedPlatformErrorPollingProcessorStructure 0 of 8 {
        type_: u8 @ 0, length: u8 @ 1, processor_id: u8 @ 2, processor_eid: u8 @ 3, polling_interval: u32 @ 4,
    }
}

view! {
    /// Error Injection Table (EINJ; ACPI 6.5, table 18.25).
    Einj 36 of 48 {
        injection_header_size: u32 @ 36, injection_flags: u8 @ 40, reserved: 3 @ 41, injection_entry_count: u32 @ 44,
    }
    lists {
        entries: EinjEntry = (|_| 48, |b| length(number(b, 44, 4)), |_| 32),
    }
}

view! {
    /// Injection Instruction Entry (EINJ; ACPI 6.5, table 18.25).
    EinjEntry 0 of 32 {
        injection_action: u8 @ 0, instruction: u8 @ 1, flags: u8 @ 2, reserved: u8 @ 3, register_region: register @ 4,
        value: u64 @ 16, mask: u64 @ 24,
    }
    constants {
        FLAGS_PRESERVE_REGISTER: u8 = 0x1,
    }
}

view! {
    /// Error Record Serialization Table (ERST; ACPI 6.5, table 18.17).
    Erst 36 of 48 {
        serialization_header_size: u32 @ 36, reserved: u32 @ 40, instruction_entry_count: u32 @ 44,
    }
    lists {
        entries: ErstEntry = (|_| 48, |b| length(number(b, 44, 4)), |_| 32),
    }
}

view! {
    /// Serialization Instruction Entry (ERST; ACPI 6.5, table 18.17).
    ErstEntry 0 of 32 {
        serialization_action: u8 @ 0, instruction: u8 @ 1, flags: u8 @ 2, reserved: u8 @ 3,
        register_region: register @ 4, value: u64 @ 16, mask: u64 @ 24,
    }
    constants {
        FLAGS_PRESERVE_REGISTER: u8 = 0x1,
    }
}

view! {
    /// Hardware Error Source Table (HEST; ACPI 6.5, table 18.3).
    Hest 36 of 40 {
        error_source_count: u32 @ 36,
    }
    lists {
        sources: HestSource = (|_| 40, |_| usize::MAX, |b| match length(number(b, 0, 2)) { 0 =>
            40usize.saturating_add(28usize.saturating_mul(length(number(b, 32, 1)))), 1 =>
            48usize.saturating_add(28usize.saturating_mul(length(number(b, 44, 1)))), 2 => 20usize, 6 => 48usize, 7 =>
            44usize, 8 => 56usize, 9 => 64usize, 10 => 92usize, 11 =>
            48usize.saturating_add(28usize.saturating_mul(length(number(b, 44, 1)))), _ => 0 }),
    }
}

view! {
    /// What each structure begins with (HEST; ACPI 6.5, table 18.3).
    HestSourceHead 0 of 4 {
        type_: u16 @ 0, source_id: u16 @ 2,
    }
}

view! {
    /// IA-32 Architecture Machine Check Exception (HEST; ACPI 6.5, table 18.3).
    HestSourceIa32ArchitectureMachineCheckException 0 of 40 {
        type_: u16 @ 0, source_id: u16 @ 2, reserved: u16 @ 4, flags: u8 @ 6, enabled: u8 @ 7,
        number_of_records_to_pre_allocate: u32 @ 8, max_sections_per_record: u32 @ 12,
        global_capability_init_data: u64 @ 16, global_control_init_data: u64 @ 24, number_of_hardware_banks: u8 @ 32,
        reserved_2: 7 @ 33,
    }
    lists {
        banks: HestBank = (|_| 40, |b| length(number(b, 32, 1)), |_| 28),
    }
    constants {
        FLAGS_FIRMWARE_FIRST: u8 = 0x1, FLAGS_GHES_ASSIST: u8 = 0x4, ENABLED_ENABLED: u8 = 0x1,
    }
}

view! {
    /// IA-32 Architecture Machine Check Bank Structure (HEST; ACPI 6.5, table 18.3).
    HestBank 0 of 28 {
        bank_number: u8 @ 0, clear_status_on_initialization: u8 @ 1, status_data_format: u8 @ 2, reserved: u8 @ 3,
        control_register_msr_address: u32 @ 4, control_init_data: u64 @ 8, status_register_msr_address: u32 @ 16,
        address_register_msr_address: u32 @ 20, misc_register_msr_address: u32 @ 24,
    }
    constants {
        CLEAR_STATUS_ON_INITIALIZATION_CLEARED: u8 = 0x0, CLEAR_STATUS_ON_INITIALIZATION_NOT_CLEARED: u8 = 0x1,
        STATUS_DATA_FORMAT_IA_32_MCA: u8 = 0x0, STATUS_DATA_FORMAT_INTEL_64_MCA: u8 = 0x1,
        STATUS_DATA_FORMAT_AMD64MCA: u8 = 0x2,
    }
}

view! {
    /// IA-32 Architecture Corrected Machine Check (HEST; ACPI 6.5, table 18.3).
    HestSourceIa32ArchitectureCorrectedMachineCheck 0 of 48 {
        type_: u16 @ 0, source_id: u16 @ 2, reserved: u16 @ 4, flags: u8 @ 6, enabled: u8 @ 7,
        number_of_records_to_pre_allocate: u32 @ 8, max_sections_per_record: u32 @ 12, type_2: u8 @ 16,
        length: u8 @ 17, configuration_write_enable: u16 @ 18, poll_interval: u32 @ 20, vector: u32 @ 24,
        switch_to_polling_threshold_value: u32 @ 28, switch_to_polling_threshold_window: u32 @ 32,
        error_threshold_value: u32 @ 36, error_threshold_window: u32 @ 40, number_of_hardware_banks: u8 @ 44,
        reserved_2: 3 @ 45,
    }
    lists {
        banks: HestBank = (|_| 48, |b| length(number(b, 44, 1)), |_| 28),
    }
    constants {
        FLAGS_FIRMWARE_FIRST: u8 = 0x1, FLAGS_GHES_ASSIST: u8 = 0x4, ENABLED_ENABLED: u8 = 0x1,
        CONFIGURATION_WRITE_ENABLE_TYPE: u16 = 0x1, CONFIGURATION_WRITE_ENABLE_POLL_INTERVAL: u16 = 0x2,
        CONFIGURATION_WRITE_ENABLE_SWITCH_TO_POLLING_THRESHOLD_VALUE: u16 = 0x4,
        CONFIGURATION_WRITE_ENABLE_SWITCH_TO_POLLING_THRESHOLD_WINDOW: u16 = 0x8,
        CONFIGURATION_WRITE_ENABLE_ERROR_THRESHOLD_VALUE: u16 = 0x10,
        CONFIGURATION_WRITE_ENABLE_ERROR_THRESHOLD_WINDOW: u16 = 0x20,
    }
}

view! {
    /// IA-32 Architecture Non-Maskable Interrupt (HEST; ACPI 6.5, table 18.3).
    HestSourceIa32ArchitectureNonMaskableInterrupt 0 of 20 {
        type_: u16 @ 0, source_id: u16 @ 2, reserved: u32 @ 4, number_of_records_to_pre_allocate: u32 @ 8,
        max_sections_per_record: u32 @ 12, max_raw_data_length: u32 @ 16,
    }
}

view! {
    /// PCI Express Root Port AER Structure (HEST; ACPI 6.5, table 18.3).
    HestSourcePciExpressRootPortAerStructure 0 of 48 {
        type_: u16 @ 0, source_id: u16 @ 2, reserved: u16 @ 4, flags: u8 @ 6, enabled: u8 @ 7,
        number_of_records_to_pre_allocate: u32 @ 8, max_sections_per_record: u32 @ 12, bus: u32 @ 16,
        device: u16 @ 20, function: u16 @ 22, device_control: u16 @ 24, reserved_2: u16 @ 26,
        uncorrectable_error_mask: u32 @ 28, uncorrectable_error_severity: u32 @ 32, correctable_error_mask: u32 @ 36,
        advanced_error_capabilities_and_control: u32 @ 40, root_error_command: u32 @ 44,
    }
    constants {
        FLAGS_FIRMWARE_FIRST: u8 = 0x1, FLAGS_GLOBAL: u8 = 0x2, ENABLED_ENABLED: u8 = 0x1, BUS_BUS_MASK: u32 = 0xff,
        BUS_BUS_SHIFT: u32 = 0, BUS_SEGMENT_MASK: u32 = 0xffff00, BUS_SEGMENT_SHIFT: u32 = 8,
    }
}

view! {
    /// PCI Express Device AER Structure (HEST; ACPI 6.5, table 18.3).
    HestSourcePciExpressDeviceAerStructure 0 of 44 {
        type_: u16 @ 0, source_id: u16 @ 2, reserved: u16 @ 4, flags: u8 @ 6, enabled: u8 @ 7,
        number_of_records_to_pre_allocate: u32 @ 8, max_sections_per_record: u32 @ 12, bus: u32 @ 16,
        device: u16 @ 20, function: u16 @ 22, device_control: u16 @ 24, reserved_2: u16 @ 26,
        uncorrectable_error_mask: u32 @ 28, uncorrectable_error_severity: u32 @ 32, correctable_error_mask: u32 @ 36,
        advanced_error_capabilities_and_control: u32 @ 40,
    }
    constants {
        FLAGS_FIRMWARE_FIRST: u8 = 0x1, FLAGS_GLOBAL: u8 = 0x2, ENABLED_ENABLED: u8 = 0x1, BUS_BUS_MASK: u32 = 0xff,
        BUS_BUS_SHIFT: u32 = 0, BUS_SEGMENT_MASK: u32 = 0xffff00, BUS_SEGMENT_SHIFT: u32 = 8,
    }
}

view! {
    /// PCI Express Bridge AER Structure (HEST; ACPI 6.5, table 18.3).
    HestSourcePciExpressBridgeAerStructure 0 of 56 {
        type_: u16 @ 0, source_id: u16 @ 2, reserved: u16 @ 4, flags: u8 @ 6, enabled: u8 @ 7,
        number_of_records_to_pre_allocate: u32 @ 8, max_sections_per_record: u32 @ 12, bus: u32 @ 16,
        device: u16 @ 20, function: u16 @ 22, device_control: u16 @ 24, reserved_2: u16 @ 26,
        uncorrectable_error_mask: u32 @ 28, uncorrectable_error_severity: u32 @ 32, correctable_error_mask: u32 @ 36,
        advanced_error_capabilities_and_control: u32 @ 40, secondary_uncorrectable_error_mask: u32 @ 44,
        secondary_uncorrectable_error_severity: u32 @ 48, secondary_advanced_error_capabilities_and_control: u32 @ 52,
    }
    constants {
        FLAGS_FIRMWARE_FIRST: u8 = 0x1, FLAGS_GLOBAL: u8 = 0x2, ENABLED_ENABLED: u8 = 0x1, BUS_BUS_MASK: u32 = 0xff,
        BUS_BUS_SHIFT: u32 = 0, BUS_SEGMENT_MASK: u32 = 0xffff00, BUS_SEGMENT_SHIFT: u32 = 8,
    }
}

view! {
    /// Generic Hardware Error Source Structure (HEST; ACPI 6.5, table 18.3).
    HestSourceGenericHardwareErrorSourceStructure 0 of 64 {
        type_: u16 @ 0, source_id: u16 @ 2, related_source_id: u16 @ 4, flags: u8 @ 6, enabled: u8 @ 7,
        number_of_records_to_pre_allocate: u32 @ 8, max_sections_per_record: u32 @ 12, max_raw_data_length: u32 @ 16,
        error_status_address: register @ 20, type_2: u8 @ 32, length: u8 @ 33, configuration_write_enable: u16 @ 34,
        poll_interval: u32 @ 36, vector: u32 @ 40, switch_to_polling_threshold_value: u32 @ 44,
        switch_to_polling_threshold_window: u32 @ 48, error_threshold_value: u32 @ 52,
        error_threshold_window: u32 @ 56, error_status_block_length: u32 @ 60,
    }
    constants {
        ENABLED_ENABLED: u8 = 0x1, CONFIGURATION_WRITE_ENABLE_TYPE: u16 = 0x1,
        CONFIGURATION_WRITE_ENABLE_POLL_INTERVAL: u16 = 0x2,
        CONFIGURATION_WRITE_ENABLE_SWITCH_TO_POLLING_THRESHOLD_VALUE: u16 = 0x4,
        CONFIGURATION_WRITE_ENABLE_SWITCH_TO_POLLING_THRESHOLD_WINDOW: u16 = 0x8,
        CONFIGURATION_WRITE_ENABLE_ERROR_THRESHOLD_VALUE: u16 = 0x10,
        CONFIGURATION_WRITE_ENABLE_ERROR_THRESHOLD_WINDOW: u16 = 0x20,
    }
}

view! {
    /// Generic Hardware Error Source version 2 (GHESv2) Structure (HEST; ACPI 6.5, table 18.3).
    HestSourceGenericHardwareErrorSourceVersion2Ghesv2Structure 0 of 92 {
        type_: u16 @ 0, source_id: u16 @ 2, related_source_id: u16 @ 4, flags: u8 @ 6, enabled: u8 @ 7,
        number_of_records_to_pre_allocate: u32 @ 8, max_sections_per_record: u32 @ 12, max_raw_data_length: u32 @ 16,
        error_status_address: register @ 20, type_2: u8 @ 32, length: u8 @ 33, configuration_write_enable: u16 @ 34,
        poll_interval: u32 @ 36, vector: u32 @ 40, switch_to_polling_threshold_value: u32 @ 44,
        switch_to_polling_threshold_window: u32 @ 48, error_threshold_value: u32 @ 52,
        error_threshold_window: u32 @ 56, error_status_block_length: u32 @ 60, read_ack_register: register @ 64,
        read_ack_preserve: u64 @ 76, read_ack_write: u64 @ 84,
    }
    constants {
        ENABLED_ENABLED: u8 = 0x1, CONFIGURATION_WRITE_ENABLE_TYPE: u16 = 0x1,
        CONFIGURATION_WRITE_ENABLE_POLL_INTERVAL: u16 = 0x2,
        CONFIGURATION_WRITE_ENABLE_SWITCH_TO_POLLING_THRESHOLD_VALUE: u16 = 0x4,
        CONFIGURATION_WRITE_ENABLE_SWITCH_TO_POLLING_THRESHOLD_WINDOW: u16 = 0x8,
        CONFIGURATION_WRITE_ENABLE_ERROR_THRESHOLD_VALUE: u16 = 0x10,
        CONFIGURATION_WRITE_ENABLE_ERROR_THRESHOLD_WINDOW: u16 = 0x20,
    }
}

view! {
    /// IA-32 Architecture Deferred Machine Check (HEST; ACPI 6.5, table 18.3).
    HestSourceIa32ArchitectureDeferredMachineCheck 0 of 48 {
        type_: u16 @ 0, source_id: u16 @ 2, reserved: u16 @ 4, flags: u8 @ 6, enabled: u8 @ 7,
        number_of_records_to_pre_allocate: u32 @ 8, max_sections_per_record: u32 @ 12, type_2: u8 @ 16,
        length: u8 @ 17, configuration_write_enable: u16 @ 18, poll_interval: u32 @ 20, vector: u32 @ 24,
        switch_to_polling_threshold_value: u32 @ 28, switch_to_polling_threshold_window: u32 @ 32,
        error_threshold_value: u32 @ 36, error_threshold_window: u32 @ 40, number_of_hardware_banks: u8 @ 44,
        reserved_2: 3 @ 45,
    }
    lists {
        banks: HestBank = (|_| 48, |b| length(number(b, 44, 1)), |_| 28),
    }
    constants {
        FLAGS_FIRMWARE_FIRST: u8 = 0x1, FLAGS_GHES_ASSIST: u8 = 0x4, ENABLED_ENABLED: u8 = 0x1,
        CONFIGURATION_WRITE_ENABLE_TYPE: u16 = 0x1, CONFIGURATION_WRITE_ENABLE_POLL_INTERVAL: u16 = 0x2,
        CONFIGURATION_WRITE_ENABLE_SWITCH_TO_POLLING_THRESHOLD_VALUE: u16 = 0x4,
        CONFIGURATION_WRITE_ENABLE_SWITCH_TO_POLLING_THRESHOLD_WINDOW: u16 = 0x8,
        CONFIGURATION_WRITE_ENABLE_ERROR_THRESHOLD_VALUE: u16 = 0x10,
        CONFIGURATION_WRITE_ENABLE_ERROR_THRESHOLD_WINDOW: u16 = 0x20,
    }
}

view! {
    /// Multiple APIC Description Table (APIC; ACPI 6.5, section 5.2.12, table 5.19).
    Apic 36 of 44 {
        local_interrupt_controller_address: u32 @ 36, flags: u32 @ 40,
    }
    lists {
        entries: MadtEntry = (|_| 44, |_| usize::MAX, |b| length(number(b, 1, 1))),
    }
    constants {
        FLAGS_PCAT_COMPAT: u32 = 0x1,
    }
}

view! {
    /// What each entry begins with (APIC; ACPI 6.5, section 5.2.12, table 5.19).
    MadtEntryHead 0 of 2 {
        type_: u8 @ 0, length: u8 @ 1,
    }
}

view! {
    /// Processor Local APIC (APIC; ACPI 6.5, section 5.2.12, table 5.19).
    MadtEntryProcessorLocalApic 0 of 8 {
        type_: u8 @ 0, length: u8 @ 1, acpi_processor_uid: u8 @ 2, apic_id: u8 @ 3, flags: u32 @ 4,
    }
}

view! {
    /// I/O APIC (APIC; ACPI 6.5, section 5.2.12, table 5.19).
    MadtEntryIOApic 0 of 12 {
        type_: u8 @ 0, length: u8 @ 1, i_o_apic_id: u8 @ 2, reserved: u8 @ 3, i_o_apic_address: u32 @ 4,
        global_system_interrupt_base: u32 @ 8,
    }
}

view! {
    /// Interrupt Source Override (APIC; ACPI 6.5, section 5.2.12, table 5.19).
    MadtEntryInterruptSourceOverride 0 of 10 {
        type_: u8 @ 0, length: u8 @ 1, bus: u8 @ 2, source: u8 @ 3, global_system_interrupt: u32 @ 4, flags: u16 @ 8,
    }
}

view! {
    /// NMI Source (APIC; ACPI 6.5, section 5.2.12, table 5.19).
    MadtEntryNmiSource 0 of 8 {
        type_: u8 @ 0, length: u8 @ 1, flags: u16 @ 2, global_system_interrupt: u32 @ 4,
    }
}

view! {
    /// Local APIC NMI (APIC; ACPI 6.5, section 5.2.12, table 5.19).
    MadtEntryLocalApicNmi 0 of 6 {
        type_: u8 @ 0, length: u8 @ 1, acpi_processor_uid: u8 @ 2, flags: u16 @ 3, local_apic_lint: u8 @ 5,
    }
    constants {
        ACPI_PROCESSOR_UID_ALL_PROCESSORS: u8 = 0xff,
    }
}

view! {
    /// Local APIC Address Override (APIC; ACPI 6.5, section 5.2.12, table 5.19).
    MadtEntryLocalApicAddressOverride 0 of 12 {
        type_: u8 @ 0, length: u8 @ 1, reserved: u16 @ 2, local_apic_address: u64 @ 4,
    }
}

view! {
    /// I/O SAPIC (APIC; ACPI 6.5, section 5.2.12, table 5.19).
    MadtEntryIOSapic 0 of 16 {
        type_: u8 @ 0, length: u8 @ 1, i_o_apic_id: u8 @ 2, reserved: u8 @ 3, global_system_interrupt_base: u32 @ 4,
        i_o_sapic_address: u64 @ 8,
    }
}

view! {
    /// Local SAPIC (APIC; ACPI 6.5, section 5.2.12, table 5.19).
    MadtEntryLocalSapic 0 of 16 {
        type_: u8 @ 0, length: u8 @ 1, acpi_processor_id: u8 @ 2, local_sapic_id: u8 @ 3, local_sapic_eid: u8 @ 4,
        reserved: 3 @ 5, flags: u32 @ 8, acpi_processor_uid_value: u32 @ 12,
    }
}

view! {
    /// Platform Interrupt Sources (APIC; ACPI 6.5, section 5.2.12, table 5.19).
    MadtEntryPlatformInterruptSources 0 of 16 {
        type_: u8 @ 0, length: u8 @ 1, flags: u16 @ 2, interrupt_type: u8 @ 4, processor_id: u8 @ 5,
        processor_eid: u8 @ 6, i_o_sapic_vector: u8 @ 7, global_system_interrupt: u32 @ 8,
        platform_interrupt_source_flags: u32 @ 12,
    }
    constants {
        PLATFORM_INTERRUPT_SOURCE_FLAGS_CPEI_PROCESSOR_OVERRIDE: u32 = 0x1,
    }
}

view! {
    /// Processor Local x2APIC (APIC; ACPI 6.5, section 5.2.12, table 5.19).
    MadtEntryProcessorLocalX2apic 0 of 16 {
        type_: u8 @ 0, length: u8 @ 1, reserved: u16 @ 2, x2apic_id: u32 @ 4, flags: u32 @ 8,
        acpi_processor_uid: u32 @ 12,
    }
}

view! {
    /// Local x2APIC NMI (APIC; ACPI 6.5, section 5.2.12, table 5.19).
    MadtEntryLocalX2apicNmi 0 of 12 {
        type_: u8 @ 0, length: u8 @ 1, flags: u16 @ 2, acpi_processor_uid: u32 @ 4, local_x2apic_lint: u8 @ 8,
        reserved: 3 @ 9,
    }
    constants {
        ACPI_PROCESSOR_UID_ALL_PROCESSORS: u32 = 0xffffffff,
    }
}

view! {
    /// GIC CPU Interface (GICC) (APIC; ACPI 6.5, section 5.2.12, table 5.19).
    MadtEntryGicCpuInterfaceGicc 0 of 82 {
        type_: u8 @ 0, length: u8 @ 1, reserved: u16 @ 2, cpu_interface_number: u32 @ 4, acpi_processor_uid: u32 @ 8,
        flags: u32 @ 12, parking_protocol_version: u32 @ 16, performance_interrupt_gsiv: u32 @ 20,
        parked_address: u64 @ 24, physical_base_address: u64 @ 32, gicv: u64 @ 40, gich: u64 @ 48,
        vgic_maintenance_interrupt: u32 @ 56, gicr_base_address: u64 @ 60, mpidr: u64 @ 68,
        processor_power_efficiency_class: u8 @ 76, reserved_2: u8 @ 77, spe_overflow_interrupt: u16 @ 78,
        trbe_interrupt: u16 @ 80,
    }
    constants {
        FLAGS_ENABLED: u32 = 0x1, FLAGS_PERFORMANCE_INTERRUPT_MODE: u32 = 0x2,
        FLAGS_VGIC_MAINTENANCE_INTERRUPT_MODE_FLAGS: u32 = 0x4, FLAGS_ONLINE_CAPABLE: u32 = 0x8,
    }
}

view! {
    /// GIC Distributor (GICD) (APIC; ACPI 6.5, section 5.2.12, table 5.19).
    MadtEntryGicDistributorGicd 0 of 24 {
        type_: u8 @ 0, length: u8 @ 1, reserved: u16 @ 2, gic_id: u32 @ 4, physical_base_address: u64 @ 8,
        system_vector_base: u32 @ 16, gic_version: u8 @ 20, reserved_2: 3 @ 21,
    }
    constants {
        GIC_VERSION_AS_THE_HARDWARE_TELLS: u8 = 0x0, GIC_VERSION_GICV1: u8 = 0x1, GIC_VERSION_GICV2: u8 = 0x2,
        GIC_VERSION_GICV3: u8 = 0x3, GIC_VERSION_GICV4: u8 = 0x4,
    }
}

view! {
    /// GIC MSI Frame (APIC; ACPI 6.5, section 5.2.12, table 5.19).
    MadtEntryGicMsiFrame 0 of 24 {
        type_: u8 @ 0, length: u8 @ 1, reserved: u16 @ 2, gic_msi_frame_id: u32 @ 4, physical_base_address: u64 @ 8,
        flags: u32 @ 16, spi_count: u16 @ 20, spi_base: u16 @ 22,
    }
    constants {
        FLAGS_SPI_COUNT_BASE_SELECT: u32 = 0x1,
    }
}

view! {
    /// GIC Redistributor (GICR) (APIC; ACPI 6.5, section 5.2.12, table 5.19).
    MadtEntryGicRedistributorGicr 0 of 16 {
        type_: u8 @ 0, length: u8 @ 1, reserved: u16 @ 2, discovery_range_base_address: u64 @ 4,
        discovery_range_length: u32 @ 12,
    }
}

view! {
    /// GIC Interrupt Translation Service (ITS) (APIC; ACPI 6.5, section 5.2.12, table 5.19).
    MadtEntryGicInterruptTranslationServiceIts 0 of 20 {
        type_: u8 @ 0, length: u8 @ 1, reserved: u16 @ 2, gic_its_id: u32 @ 4, physical_base_address: u64 @ 8,
        reserved_2: u32 @ 16,
    }
}

view! {
    /// Multiprocessor Wakeup (APIC; ACPI 6.5, section 5.2.12, table 5.19).
    MadtEntryMultiprocessorWakeup 0 of 16 {
        type_: u8 @ 0, length: u8 @ 1, mailboxversion: u16 @ 2, reserved: u32 @ 4, mailboxaddress: u64 @ 8,
    }
}

view! {
    /// Core Programmable Interrupt Controller (CORE PIC) (APIC; ACPI 6.5, section 5.2.12, table 5.19).
    MadtEntryCoreProgrammableInterruptControllerCorePic 0 of 15 {
        type_: u8 @ 0, length: u8 @ 1, version: u8 @ 2, acpi_processor_id: u32 @ 3, physical_processor_id: u32 @ 7,
        flags: u32 @ 11,
    }
    constants {
        FLAGS_ENABLED: u32 = 0x1,
    }
}

view! {
    /// Legacy I/O Programmable Interrupt Controller (LIO PIC) (APIC; ACPI 6.5, section 5.2.12, table 5.19).
    MadtEntryLegacyIOProgrammableInterruptControllerLioPic 0 of 23 {
        type_: u8 @ 0, length: u8 @ 1, version: u8 @ 2, base_address: u64 @ 3, size: u16 @ 11,
        cascade_vector: u16 @ 13, cascade_vector_mapping: u64 @ 15,
    }
}

view! {
    /// HyperTransport Programmable Interrupt Controller (HT PIC) (APIC; ACPI 6.5, section 5.2.12, table 5.19).
    MadtEntryHypertransportProgrammableInterruptControllerHtPic 0 of 21 {
        type_: u8 @ 0, length: u8 @ 1, version: u8 @ 2, base_address: u64 @ 3, size: u16 @ 11,
        cascade_vector: u64 @ 13,
    }
}

view! {
    /// Extend I/O Programmable Interrupt Controller (EIO PIC) (APIC; ACPI 6.5, section 5.2.12, table 5.19).
    MadtEntryExtendIOProgrammableInterruptControllerEioPic 0 of 13 {
        type_: u8 @ 0, length: u8 @ 1, version: u8 @ 2, cascade_vector: u8 @ 3, node: u8 @ 4, node_map: u64 @ 5,
    }
}

view! {
    /// MSI Programmable Interrupt Controller (MSI PIC) (APIC; ACPI 6.5, section 5.2.12, table 5.19).
    MadtEntryMsiProgrammableInterruptControllerMsiPic 0 of 19 {
        type_: u8 @ 0, length: u8 @ 1, version: u8 @ 2, message_address: u64 @ 3, start: u32 @ 11, count: u32 @ 15,
    }
}

view! {
    /// Bridge I/O Programmable Interrupt Controller (BIO PIC) (APIC; ACPI 6.5, section 5.2.12, table 5.19).
    MadtEntryBridgeIOProgrammableInterruptControllerBioPic 0 of 17 {
        type_: u8 @ 0, length: u8 @ 1, version: u8 @ 2, base_address: u64 @ 3, size: u16 @ 11, hardware_id: u16 @ 13,
        gsi_base: u16 @ 15,
    }
}

view! {
    /// Low Pin Count Programmable Interrupt Controller (LPC PIC) (APIC; ACPI 6.5, section 5.2.12, table 5.19).
    MadtEntryLowPinCountProgrammableInterruptControllerLpcPic 0 of 13 {
        type_: u8 @ 0, length: u8 @ 1, version: u8 @ 2, base_address: u64 @ 3, size: u16 @ 11,
    }
}

view! {
    /// RISC-V Interrupt Controller (RINTC) (APIC; ACPI 6.5, section 5.2.12, table 5.19).
    MadtEntryRiscVInterruptControllerRintc 0 of 36 {
        type_: u8 @ 0, length: u8 @ 1, version: u8 @ 2, reserved: u8 @ 3, flags: u32 @ 4, hart_id: u64 @ 8,
        acpi_processor_uid: u32 @ 16, external_interrupt_controller_id: u32 @ 20, imsic_base_address: u64 @ 24,
        imsic_size: u32 @ 32,
    }
}

view! {
    /// RISC-V Incoming MSI Controller (IMSIC) (APIC; ACPI 6.5, section 5.2.12, table 5.19).
    MadtEntryRiscVIncomingMsiControllerImsic 0 of 16 {
        type_: u8 @ 0, length: u8 @ 1, version: u8 @ 2, reserved: u8 @ 3, flags: u32 @ 4,
        number_of_supervisor_mode_interrupt_identities: u16 @ 8, number_of_guest_mode_interrupt_identities: u16 @ 10,
        guest_index_bits: u8 @ 12, hart_index_bits: u8 @ 13, group_index_bits: u8 @ 14, group_index_shift: u8 @ 15,
    }
}

view! {
    /// RISC-V Advanced Platform Level Interrupt Controller (APLIC) (APIC; ACPI 6.5, section 5.2.12, table 5.19).
    MadtEntryRiscVAdvancedPlatformLevelInterruptControllerAplic 0 of 36 {
        type_: u8 @ 0, length: u8 @ 1, version: u8 @ 2, aplic_id: u8 @ 3, flags: u32 @ 4, hardware_id: 8 @ 8,
        number_of_idcs: u16 @ 16, total_external_interrupt_sources_supported: u16 @ 18,
        global_system_interrupt_base: u32 @ 20, aplic_address: u64 @ 24, aplic_size: u32 @ 32,
    }
}

view! {
    /// RISC-V Platform Level Interrupt Controller (PLIC) (APIC; ACPI 6.5, section 5.2.12, table 5.19).
    MadtEntryRiscVPlatformLevelInterruptControllerPlic 0 of 36 {
        type_: u8 @ 0, length: u8 @ 1, version: u8 @ 2, plic_id: u8 @ 3, hardware_id: 8 @ 4,
        total_external_interrupt_sources_supported: u16 @ 12, max_priority: u16 @ 14, flags: u32 @ 16,
        plic_size: u32 @ 20, plic_address: u64 @ 24, global_system_interrupt_base: u32 @ 32,
    }
}

view! {
    /// Generic Timer Description Table (GTDT; ACPI 6.5, section 5.2.25, table 5.122).
    Gtdt 36 of 80 {
        cntcontrolbase_physical_address: u64 @ 36, reserved: u32 @ 44, secure_el1_timer_gsiv: u32 @ 48,
        secure_el1_timer_flags: u32 @ 52, non_secure_el1_timer_gsiv: u32 @ 56, non_secure_el1_timer_flags: u32 @ 60,
        virtual_el1_timer_gsiv: u32 @ 64, virtual_el1_timer_flags: u32 @ 68, el2_timer_gsiv: u32 @ 72,
        el2_timer_flags: u32 @ 76,
    }
}

view! {
    /// Generic Timer Description Table, with the fields of platform timers (GTDT; ACPI 6.5, section 5.2.25, table 5.122).
    GtdtPlatformTimers 36 of 96 {
        cntcontrolbase_physical_address: u64 @ 36, reserved: u32 @ 44, secure_el1_timer_gsiv: u32 @ 48,
        secure_el1_timer_flags: u32 @ 52, non_secure_el1_timer_gsiv: u32 @ 56, non_secure_el1_timer_flags: u32 @ 60,
        virtual_el1_timer_gsiv: u32 @ 64, virtual_el1_timer_flags: u32 @ 68, el2_timer_gsiv: u32 @ 72,
        el2_timer_flags: u32 @ 76, cntreadbase_physical_address: u64 @ 80, platform_timer_count: u32 @ 88,
        platform_timer_offset: u32 @ 92,
    }
    lists {
        structures: GtdtStructure = (|b| length(number(b, 92, 4)), |b| length(number(b, 88, 4)), |b| length(number(b,
            1, 2))),
    }
}

view! {
    /// Generic Timer Description Table, with the fields of platform timers, with the fields of revision 3, with the
    /// fields of virtual el2 (GTDT; ACPI 6.5, section 5.2.25, table 5.122).
    GtdtPlatformTimersRevision3VirtualEl2 36 of 104 {
        cntcontrolbase_physical_address: u64 @ 36, reserved: u32 @ 44, secure_el1_timer_gsiv: u32 @ 48,
        secure_el1_timer_flags: u32 @ 52, non_secure_el1_timer_gsiv: u32 @ 56, non_secure_el1_timer_flags: u32 @ 60,
        virtual_el1_timer_gsiv: u32 @ 64, virtual_el1_timer_flags: u32 @ 68, el2_timer_gsiv: u32 @ 72,
        el2_timer_flags: u32 @ 76, cntreadbase_physical_address: u64 @ 80, platform_timer_count: u32 @ 88,
        platform_timer_offset: u32 @ 92, virtual_el2_timer_gsiv: u32 @ 96, virtual_el2_timer_flags: u32 @ 100,
    }
}

view! {
    /// Generic Timer Description Table, with the fields of platform timers, with the fields of revision 3, with the
    /// fields of virtual el2 before, with the fields of virtual el2 (GTDT; ACPI 6.5, section 5.2.25, table 5.122).
    GtdtPlatformTimersRevision3VirtualEl2BeforeVirtualEl2 36 of 104 {
        cntcontrolbase_physical_address: u64 @ 36, reserved: u32 @ 44, secure_el1_timer_gsiv: u32 @ 48,
        secure_el1_timer_flags: u32 @ 52, non_secure_el1_timer_gsiv: u32 @ 56, non_secure_el1_timer_flags: u32 @ 60,
        virtual_el1_timer_gsiv: u32 @ 64, virtual_el1_timer_flags: u32 @ 68, el2_timer_gsiv: u32 @ 72,
        el2_timer_flags: u32 @ 76, cntreadbase_physical_address: u64 @ 80, platform_timer_count: u32 @ 88,
        platform_timer_offset: u32 @ 92, virtual_el2_timer_gsiv: u32 @ 96, virtual_el2_timer_flags: u32 @ 100,
    }
}

view! {
    /// Platform Timer Type Structures (table 5.124) (GTDT; ACPI 6.5, section 5.2.25, table 5.122).
    GtdtStructureHead 0 of 4 {
        type_: u8 @ 0, length: u16 @ 1, reserved: u8 @ 3,
    }
}

view! {
    /// GT Block (GTDT; ACPI 6.5, section 5.2.25, table 5.122).
    GtdtStructureGtBlock 0 of 20 {
        type_: u8 @ 0, length: u16 @ 1, reserved: u8 @ 3, gt_block_physical_address: u64 @ 4,
        gt_block_timer_count: u32 @ 12, gt_block_timer_offset: u32 @ 16,
    }
    lists {
        frames: GtFrame = (|b| length(number(b, 16, 4)), |b| length(number(b, 12, 4)), |_| 40),
    }
}

view! {
    /// GT Block Timer (GTDT; ACPI 6.5, section 5.2.25, table 5.122).
    GtFrame 0 of 40 {
        gt_frame_number: u8 @ 0, reserved: 3 @ 1, gtx_physical_address_cntbasex: u64 @ 4,
        gtx_physical_address_cntel0basex: u64 @ 12, gtx_physical_timer_gsiv: u32 @ 20,
        gtx_physical_timer_flags: u32 @ 24, gtx_virtual_timer_gsiv: u32 @ 28, gtx_virtual_timer_flags: u32 @ 32,
        gtx_common_flags: u32 @ 36,
    }
    constants {
        GTX_COMMON_FLAGS_SECURE_TIMER: u32 = 0x1, GTX_COMMON_FLAGS_ALWAYS_ON_CAPABILITY: u32 = 0x2,
    }
}

view! {
    /// Arm Generic Watchdog (GTDT; ACPI 6.5, section 5.2.25, table 5.122).
    GtdtStructureArmGenericWatchdog 0 of 28 {
        type_: u8 @ 0, length: u16 @ 1, reserved: u8 @ 3, refreshframe_physical_address: u64 @ 4,
        watchdogcontrolframe_physical_address: u64 @ 12, watchdog_timer_gsiv: u32 @ 20,
        watchdog_timer_flags: u32 @ 24,
    }
}

view! {
    /// DMA Remapping Reporting Structure (DMAR; Intel Virtualization Technology for Directed I/O 4.0, chapter 8).
    Dmar 36 of 48 {
        host_address_width: u8 @ 36, flags: u8 @ 37, reserved: 10 @ 38,
    }
    lists {
        structures: DmarStructure = (|_| 48, |_| usize::MAX, |b| length(number(b, 2, 2))),
    }
    constants {
        FLAGS_INTR_REMAP: u8 = 0x1, FLAGS_X2APIC_OPT_OUT: u8 = 0x2, FLAGS_DMA_CTRL_PLATFORM_OPT_IN_FLAG: u8 = 0x4,
    }
}

view! {
    /// What each structure begins with (DMAR; Intel Virtualization Technology for Directed I/O 4.0, chapter 8).
    DmarStructureHead 0 of 4 {
        type_: u16 @ 0, length: u16 @ 2,
    }
}

view! {
    /// DMA Remapping Hardware Unit Definition (DRHD) (DMAR; Intel Virtualization Technology for Directed I/O 4.0, chapter
    /// 8).
    DmarStructureDmaRemappingHardwareUnitDefinitionDrhd 0 of 16 {
        type_: u16 @ 0, length: u16 @ 2, flags: u8 @ 4, size: u8 @ 5, segment_number: u16 @ 6,
        register_base_address: u64 @ 8,
    }
    lists {
        scopes: DmarScope = (|_| 16, |_| usize::MAX, |b| length(number(b, 1, 1))),
    }
    constants {
        FLAGS_INCLUDE_PCI_ALL: u8 = 0x1,
    }
}

view! {
    /// Reserved Memory Region Reporting (RMRR) (DMAR; Intel Virtualization Technology for Directed I/O 4.0, chapter 8).
    DmarStructureReservedMemoryRegionReportingRmrr 0 of 24 {
        type_: u16 @ 0, length: u16 @ 2, reserved: u16 @ 4, segment_number: u16 @ 6,
        reserved_memory_region_base_address: u64 @ 8, reserved_memory_region_limit_address: u64 @ 16,
    }
    lists {
        scopes: DmarScope = (|_| 24, |_| usize::MAX, |b| length(number(b, 1, 1))),
    }
}

view! {
    /// Root Port ATS Capability Reporting (ATSR) (DMAR; Intel Virtualization Technology for Directed I/O 4.0, chapter 8).
    DmarStructureRootPortAtsCapabilityReportingAtsr 0 of 8 {
        type_: u16 @ 0, length: u16 @ 2, flags: u8 @ 4, reserved: u8 @ 5, segment_number: u16 @ 6,
    }
    lists {
        scopes: DmarScope = (|_| 8, |_| usize::MAX, |b| length(number(b, 1, 1))),
    }
    constants {
        FLAGS_ALL_PORTS: u8 = 0x1,
    }
}

view! {
    /// Remapping Hardware Static Affinity (RHSA) (DMAR; Intel Virtualization Technology for Directed I/O 4.0, chapter 8).
    DmarStructureRemappingHardwareStaticAffinityRhsa 0 of 20 {
        type_: u16 @ 0, length: u16 @ 2, reserved: u32 @ 4, register_base_address: u64 @ 8,
        proximity_domain: u32 @ 16,
    }
}

view! {
    /// ACPI Name-space Device Declaration (ANDD) (DMAR; Intel Virtualization Technology for Directed I/O 4.0, chapter 8).
    DmarStructureAcpiNameSpaceDeviceDeclarationAndd 0 of 8 {
        type_: u16 @ 0, length: u16 @ 2, reserved: 3 @ 4, acpi_device_number: u8 @ 7,
    }
}

view! {
    /// SoC Integrated Address Translation Cache (SATC) (DMAR; Intel Virtualization Technology for Directed I/O 4.0,
    /// chapter 8).
    DmarStructureSocIntegratedAddressTranslationCacheSatc 0 of 8 {
        type_: u16 @ 0, length: u16 @ 2, flags: u8 @ 4, reserved: u8 @ 5, segment_number: u16 @ 6,
    }
    lists {
        scopes: DmarScope = (|_| 8, |_| usize::MAX, |b| length(number(b, 1, 1))),
    }
    constants {
        FLAGS_ATC_REQUIRED: u8 = 0x1,
    }
}

view! {
    /// SoC Integrated Device Property (SIDP) (DMAR; Intel Virtualization Technology for Directed I/O 4.0, chapter 8).
    DmarStructureSocIntegratedDevicePropertySidp 0 of 8 {
        type_: u16 @ 0, length: u16 @ 2, reserved: u16 @ 4, segment_number: u16 @ 6,
    }
    lists {
        scopes: DmarScope = (|_| 8, |_| usize::MAX, |b| length(number(b, 1, 1))),
    }
}

view! {
    /// What each structure begins with (DMAR; Intel Virtualization Technology for Directed I/O 4.0, chapter 8).
    DmarScopeHead 0 of 6 {
        type_: u8 @ 0, length: u8 @ 1, reserved: u16 @ 2, enumeration_id: u8 @ 4, start_bus_number: u8 @ 5,
    }
}

view! {
    /// PCI Endpoint Device (DMAR; Intel Virtualization Technology for Directed I/O 4.0, chapter 8).
    DmarScopePciEndpointDevice 0 of 6 {
        type_: u8 @ 0, length: u8 @ 1, reserved: u16 @ 2, enumeration_id: u8 @ 4, start_bus_number: u8 @ 5,
    }
}

view! {
    /// PCI Sub-hierarchy (DMAR; Intel Virtualization Technology for Directed I/O 4.0, chapter 8).
    DmarScopePciSubHierarchy 0 of 6 {
        type_: u8 @ 0, length: u8 @ 1, reserved: u16 @ 2, enumeration_id: u8 @ 4, start_bus_number: u8 @ 5,
    }
}

view! {
    /// IOAPIC (DMAR; Intel Virtualization Technology for Directed I/O 4.0, chapter 8).
    DmarScopeIoapic 0 of 6 {
        type_: u8 @ 0, length: u8 @ 1, reserved: u16 @ 2, enumeration_id: u8 @ 4, start_bus_number: u8 @ 5,
    }
}

view! {
    /// MSI_CAPABLE_HPET (DMAR; Intel Virtualization Technology for Directed I/O 4.0, chapter 8).
    DmarScopeMsiCapableHpet 0 of 6 {
        type_: u8 @ 0, length: u8 @ 1, reserved: u16 @ 2, enumeration_id: u8 @ 4, start_bus_number: u8 @ 5,
    }
}

view! {
    /// ACPI_NAMESPACE_DEVICE (DMAR; Intel Virtualization Technology for Directed I/O 4.0, chapter 8).
    DmarScopeAcpiNamespaceDevice 0 of 6 {
        type_: u8 @ 0, length: u8 @ 1, reserved: u16 @ 2, enumeration_id: u8 @ 4, start_bus_number: u8 @ 5,
    }
}

view! {
    /// I/O Virtualization Reporting Structure (IVRS; AMD I/O Virtualization Technology (IOMMU) Specification 3.08,
    /// section 5.2).
    Ivrs 36 of 48 {
        ivinfo: u32 @ 36, reserved: u64 @ 40,
    }
    lists {
        blocks: IvrsBlock = (|_| 48, |_| usize::MAX, |b| length(number(b, 2, 2))),
    }
    constants {
        IVINFO_EFRSUP: u32 = 0x1, IVINFO_DMAREMAPSUP: u32 = 0x2, IVINFO_GVASIZE_MASK: u32 = 0xe0,
        IVINFO_GVASIZE_SHIFT: u32 = 5, IVINFO_PASIZE_MASK: u32 = 0x7f00, IVINFO_PASIZE_SHIFT: u32 = 8,
        IVINFO_VASIZE_MASK: u32 = 0x3f8000, IVINFO_VASIZE_SHIFT: u32 = 15, IVINFO_HTATSRESV: u32 = 0x400000,
    }
}

view! {
    /// What each block begins with (IVRS; AMD I/O Virtualization Technology (IOMMU) Specification 3.08, section 5.2).
    IvrsBlockHead 0 of 1 {
        type_: u8 @ 0,
    }
}

view! {
    /// I/O Virtualization Hardware Definition (IVHD) (IVRS; AMD I/O Virtualization Technology (IOMMU) Specification 3.08,
    /// section 5.2).
    IvrsBlockIOVirtualizationHardwareDefinitionIvhd0x10 0 of 24 {
        type_: u8 @ 0, flags: u8 @ 1, length: u16 @ 2, deviceid: u16 @ 4, capability_offset: u16 @ 6,
        iommu_base_address: u64 @ 8, pci_segment_group: u16 @ 16, iommu_info: u16 @ 18,
        iommu_feature_reporting: u32 @ 20,
    }
    lists {
        entries: IvhdEntry = (|_| 24, |_| usize::MAX, |b| match length(number(b, 0, 1)) { 0x00 => 4usize, 0x01 =>
            4usize, 0x02 => 4usize, 0x03 => 4usize, 0x04 => 4usize, 0x40 => 8usize, 0x42 => 8usize, 0x43 => 8usize,
            0x46 => 8usize, 0x47 => 8usize, 0x48 => 8usize, 0xf0 => 22usize.saturating_add(length(number(b, 21, 1))),
            0x05..=0x3f => 4usize, 0x41..=0x7f => 8usize, 0x80..=0xbf => 16usize, 0xc0..=0xef => 32usize, _ => 0 }),
    }
    constants {
        FLAGS_HTTUNEN: u8 = 0x1, FLAGS_PASSPW: u8 = 0x2, FLAGS_RESPASSPW: u8 = 0x4, FLAGS_ISOC: u8 = 0x8,
        FLAGS_IOTLBSUP: u8 = 0x10, FLAGS_COHERENT: u8 = 0x20, FLAGS_PREFSUP: u8 = 0x40, FLAGS_PPRSUP: u8 = 0x80,
        IOMMU_INFO_MSINUM_MASK: u16 = 0x1f, IOMMU_INFO_MSINUM_SHIFT: u32 = 0, IOMMU_INFO_UNITID_MASK: u16 = 0x1f00,
        IOMMU_INFO_UNITID_SHIFT: u32 = 8, IOMMU_FEATURE_REPORTING_XTSUP: u32 = 0x1,
        IOMMU_FEATURE_REPORTING_NXSUP: u32 = 0x2, IOMMU_FEATURE_REPORTING_GTSUP: u32 = 0x4,
        IOMMU_FEATURE_REPORTING_GLXSUP_MASK: u32 = 0x18, IOMMU_FEATURE_REPORTING_GLXSUP_SHIFT: u32 = 3,
        IOMMU_FEATURE_REPORTING_IASUP: u32 = 0x20, IOMMU_FEATURE_REPORTING_GASUP: u32 = 0x40,
        IOMMU_FEATURE_REPORTING_HESUP: u32 = 0x80, IOMMU_FEATURE_REPORTING_PASMAX_MASK: u32 = 0x1f00,
        IOMMU_FEATURE_REPORTING_PASMAX_SHIFT: u32 = 8, IOMMU_FEATURE_REPORTING_PNCOUNTERS_MASK: u32 = 0x1e000,
        IOMMU_FEATURE_REPORTING_PNCOUNTERS_SHIFT: u32 = 13, IOMMU_FEATURE_REPORTING_PNBANKS_MASK: u32 = 0x7e0000,
        IOMMU_FEATURE_REPORTING_PNBANKS_SHIFT: u32 = 17, IOMMU_FEATURE_REPORTING_MSINUMPPR_MASK: u32 = 0xf800000,
        IOMMU_FEATURE_REPORTING_MSINUMPPR_SHIFT: u32 = 23, IOMMU_FEATURE_REPORTING_GATS_MASK: u32 = 0x30000000,
        IOMMU_FEATURE_REPORTING_GATS_SHIFT: u32 = 28, IOMMU_FEATURE_REPORTING_HATS_MASK: u32 = 0xc0000000,
        IOMMU_FEATURE_REPORTING_HATS_SHIFT: u32 = 30,
    }
}

view! {
    /// I/O Virtualization Hardware Definition (IVHD) (IVRS; AMD I/O Virtualization Technology (IOMMU) Specification 3.08,
    /// section 5.2).
    IvrsBlockIOVirtualizationHardwareDefinitionIvhd0x11 0 of 40 {
        type_: u8 @ 0, flags: u8 @ 1, length: u16 @ 2, deviceid: u16 @ 4, capability_offset: u16 @ 6,
        iommu_base_address: u64 @ 8, pci_segment_group: u16 @ 16, iommu_info: u16 @ 18, iommu_attributes: u32 @ 20,
        efr_register_image: u64 @ 24, efr_register_image_2: u64 @ 32,
    }
    lists {
        entries: IvhdEntry = (|_| 40, |_| usize::MAX, |b| match length(number(b, 0, 1)) { 0x00 => 4usize, 0x01 =>
            4usize, 0x02 => 4usize, 0x03 => 4usize, 0x04 => 4usize, 0x40 => 8usize, 0x42 => 8usize, 0x43 => 8usize,
            0x46 => 8usize, 0x47 => 8usize, 0x48 => 8usize, 0xf0 => 22usize.saturating_add(length(number(b, 21, 1))),
            0x05..=0x3f => 4usize, 0x41..=0x7f => 8usize, 0x80..=0xbf => 16usize, 0xc0..=0xef => 32usize, _ => 0 }),
    }
    constants {
        FLAGS_HTTUNEN: u8 = 0x1, FLAGS_PASSPW: u8 = 0x2, FLAGS_RESPASSPW: u8 = 0x4, FLAGS_ISOC: u8 = 0x8,
        FLAGS_IOTLBSUP: u8 = 0x10, FLAGS_COHERENT: u8 = 0x20, IOMMU_INFO_MSINUM_MASK: u16 = 0x1f,
        IOMMU_INFO_MSINUM_SHIFT: u32 = 0, IOMMU_INFO_UNITID_MASK: u16 = 0x1f00, IOMMU_INFO_UNITID_SHIFT: u32 = 8,
        IOMMU_ATTRIBUTES_PNCOUNTERS_MASK: u32 = 0x1e000, IOMMU_ATTRIBUTES_PNCOUNTERS_SHIFT: u32 = 13,
        IOMMU_ATTRIBUTES_PNBANKS_MASK: u32 = 0x7e0000, IOMMU_ATTRIBUTES_PNBANKS_SHIFT: u32 = 17,
        IOMMU_ATTRIBUTES_MSINUMPPR_MASK: u32 = 0xf800000, IOMMU_ATTRIBUTES_MSINUMPPR_SHIFT: u32 = 23,
    }
}

view! {
    /// I/O Virtualization Hardware Definition (IVHD) (IVRS; AMD I/O Virtualization Technology (IOMMU) Specification 3.08,
    /// section 5.2).
    IvrsBlockIOVirtualizationHardwareDefinitionIvhd0x40 0 of 40 {
        type_: u8 @ 0, flags: u8 @ 1, length: u16 @ 2, deviceid: u16 @ 4, capability_offset: u16 @ 6,
        iommu_base_address: u64 @ 8, pci_segment_group: u16 @ 16, iommu_info: u16 @ 18, iommu_attributes: u32 @ 20,
        efr_register_image: u64 @ 24, efr_register_image_2: u64 @ 32,
    }
    lists {
        entries: IvhdEntry = (|_| 40, |_| usize::MAX, |b| match length(number(b, 0, 1)) { 0x00 => 4usize, 0x01 =>
            4usize, 0x02 => 4usize, 0x03 => 4usize, 0x04 => 4usize, 0x40 => 8usize, 0x42 => 8usize, 0x43 => 8usize,
            0x46 => 8usize, 0x47 => 8usize, 0x48 => 8usize, 0xf0 => 22usize.saturating_add(length(number(b, 21, 1))),
            0x05..=0x3f => 4usize, 0x41..=0x7f => 8usize, 0x80..=0xbf => 16usize, 0xc0..=0xef => 32usize, _ => 0 }),
    }
    constants {
        FLAGS_HTTUNEN: u8 = 0x1, FLAGS_PASSPW: u8 = 0x2, FLAGS_RESPASSPW: u8 = 0x4, FLAGS_ISOC: u8 = 0x8,
        FLAGS_IOTLBSUP: u8 = 0x10, FLAGS_COHERENT: u8 = 0x20, IOMMU_INFO_MSINUM_MASK: u16 = 0x1f,
        IOMMU_INFO_MSINUM_SHIFT: u32 = 0, IOMMU_INFO_UNITID_MASK: u16 = 0x1f00, IOMMU_INFO_UNITID_SHIFT: u32 = 8,
        IOMMU_ATTRIBUTES_PNCOUNTERS_MASK: u32 = 0x1e000, IOMMU_ATTRIBUTES_PNCOUNTERS_SHIFT: u32 = 13,
        IOMMU_ATTRIBUTES_PNBANKS_MASK: u32 = 0x7e0000, IOMMU_ATTRIBUTES_PNBANKS_SHIFT: u32 = 17,
        IOMMU_ATTRIBUTES_MSINUMPPR_MASK: u32 = 0xf800000, IOMMU_ATTRIBUTES_MSINUMPPR_SHIFT: u32 = 23,
    }
}

view! {
    /// What each device entry begins with (IVRS; AMD I/O Virtualization Technology (IOMMU) Specification 3.08, section
    /// 5.2).
    IvhdEntryHead 0 of 1 {
        type_: u8 @ 0,
    }
}

view! {
    /// Padding (IVRS; AMD I/O Virtualization Technology (IOMMU) Specification 3.08, section 5.2).
    IvhdEntryPadding0x00 0 of 4 {
        type_: u8 @ 0, reserved: 3 @ 1,
    }
}

view! {
    /// All (IVRS; AMD I/O Virtualization Technology (IOMMU) Specification 3.08, section 5.2).
    IvhdEntryAll 0 of 4 {
        type_: u8 @ 0, reserved: u16 @ 1, dte_setting: u8 @ 3,
    }
}

view! {
    /// Select (IVRS; AMD I/O Virtualization Technology (IOMMU) Specification 3.08, section 5.2).
    IvhdEntrySelect 0 of 4 {
        type_: u8 @ 0, deviceid: u16 @ 1, dte_setting: u8 @ 3,
    }
}

view! {
    /// Start of Range (IVRS; AMD I/O Virtualization Technology (IOMMU) Specification 3.08, section 5.2).
    IvhdEntryStartOfRange 0 of 4 {
        type_: u8 @ 0, deviceid: u16 @ 1, dte_setting: u8 @ 3,
    }
}

view! {
    /// End of Range (IVRS; AMD I/O Virtualization Technology (IOMMU) Specification 3.08, section 5.2).
    IvhdEntryEndOfRange 0 of 4 {
        type_: u8 @ 0, deviceid: u16 @ 1, reserved: u8 @ 3,
    }
}

view! {
    /// Padding (IVRS; AMD I/O Virtualization Technology (IOMMU) Specification 3.08, section 5.2).
    IvhdEntryPadding0x40 0 of 8 {
        type_: u8 @ 0, reserved: 7 @ 1,
    }
}

view! {
    /// Alias Select (IVRS; AMD I/O Virtualization Technology (IOMMU) Specification 3.08, section 5.2).
    IvhdEntryAliasSelect 0 of 8 {
        type_: u8 @ 0, deviceid: u16 @ 1, dte_setting: u8 @ 3, reserved: u8 @ 4, source_deviceid: u16 @ 5,
        reserved_2: u8 @ 7,
    }
}

view! {
    /// Alias Start of Range (IVRS; AMD I/O Virtualization Technology (IOMMU) Specification 3.08, section 5.2).
    IvhdEntryAliasStartOfRange 0 of 8 {
        type_: u8 @ 0, deviceid: u16 @ 1, dte_setting: u8 @ 3, reserved: u8 @ 4, source_deviceid: u16 @ 5,
        reserved_2: u8 @ 7,
    }
}

view! {
    /// Extended Select (IVRS; AMD I/O Virtualization Technology (IOMMU) Specification 3.08, section 5.2).
    IvhdEntryExtendedSelect 0 of 8 {
        type_: u8 @ 0, deviceid: u16 @ 1, dte_setting: u8 @ 3, extended_dte_setting: u32 @ 4,
    }
    constants {
        EXTENDED_DTE_SETTING_ATSDISABLED: u32 = 0x80000000,
    }
}

view! {
    /// Extended Start of Range (IVRS; AMD I/O Virtualization Technology (IOMMU) Specification 3.08, section 5.2).
    IvhdEntryExtendedStartOfRange 0 of 8 {
        type_: u8 @ 0, deviceid: u16 @ 1, dte_setting: u8 @ 3, extended_dte_setting: u32 @ 4,
    }
    constants {
        EXTENDED_DTE_SETTING_ATSDISABLED: u32 = 0x80000000,
    }
}

view! {
    /// Special Device (IVRS; AMD I/O Virtualization Technology (IOMMU) Specification 3.08, section 5.2).
    IvhdEntrySpecialDevice 0 of 8 {
        type_: u8 @ 0, reserved: u16 @ 1, dte_setting: u8 @ 3, handle: u8 @ 4, source_deviceid: u16 @ 5,
        variety: u8 @ 7,
    }
    constants {
        VARIETY_IOAPIC: u8 = 0x1, VARIETY_HPET: u8 = 0x2,
    }
}

view! {
    /// ACPI HID Device (IVRS; AMD I/O Virtualization Technology (IOMMU) Specification 3.08, section 5.2).
    IvhdEntryAcpiHidDevice 0 of 22 {
        type_: u8 @ 0, deviceid: u16 @ 1, dte_setting: u8 @ 3, hardware_id: 8 @ 4, compatible_id: 8 @ 12,
        unique_id_format: u8 @ 20, unique_id_length: u8 @ 21,
    }
    constants {
        UNIQUE_ID_FORMAT_NONE: u8 = 0x0, UNIQUE_ID_FORMAT_NUMBER: u8 = 0x1, UNIQUE_ID_FORMAT_TEXT: u8 = 0x2,
    }
}

view! {
    /// Reserved, of 4 bytes (IVRS; AMD I/O Virtualization Technology (IOMMU) Specification 3.08, section 5.2).
    IvhdEntryReservedOf4Bytes 0 of 1 {
        type_: u8 @ 0,
    }
}

view! {
    /// Reserved, of 8 bytes (IVRS; AMD I/O Virtualization Technology (IOMMU) Specification 3.08, section 5.2).
    IvhdEntryReservedOf8Bytes 0 of 1 {
        type_: u8 @ 0,
    }
}

view! {
    /// Reserved, of 16 bytes (IVRS; AMD I/O Virtualization Technology (IOMMU) Specification 3.08, section 5.2).
    IvhdEntryReservedOf16Bytes 0 of 1 {
        type_: u8 @ 0,
    }
}

view! {
    /// Reserved, of 32 bytes (IVRS; AMD I/O Virtualization Technology (IOMMU) Specification 3.08, section 5.2).
    IvhdEntryReservedOf32Bytes 0 of 1 {
        type_: u8 @ 0,
    }
}

view! {
    /// I/O Virtualization Memory Definition (IVMD), all peripherals (IVRS; AMD I/O Virtualization Technology (IOMMU)
    /// Specification 3.08, section 5.2).
    IvrsBlockIOVirtualizationMemoryDefinitionIvmdAllPeripherals 0 of 32 {
        type_: u8 @ 0, flags: u8 @ 1, length: u16 @ 2, deviceid: u16 @ 4, auxiliary_data: u16 @ 6, reserved: u64 @ 8,
        ivmd_start_address: u64 @ 16, ivmd_memory_block_length: u64 @ 24,
    }
    constants {
        FLAGS_UNITY: u8 = 0x1, FLAGS_IR: u8 = 0x2, FLAGS_IW: u8 = 0x4, FLAGS_EXCLUSION_RANGE: u8 = 0x8,
    }
}

view! {
    /// I/O Virtualization Memory Definition (IVMD), specified peripheral (IVRS; AMD I/O Virtualization Technology (IOMMU)
    /// Specification 3.08, section 5.2).
    IvrsBlockIOVirtualizationMemoryDefinitionIvmdSpecifiedPeripheral 0 of 32 {
        type_: u8 @ 0, flags: u8 @ 1, length: u16 @ 2, deviceid: u16 @ 4, auxiliary_data: u16 @ 6, reserved: u64 @ 8,
        ivmd_start_address: u64 @ 16, ivmd_memory_block_length: u64 @ 24,
    }
    constants {
        FLAGS_UNITY: u8 = 0x1, FLAGS_IR: u8 = 0x2, FLAGS_IW: u8 = 0x4, FLAGS_EXCLUSION_RANGE: u8 = 0x8,
    }
}

view! {
    /// I/O Virtualization Memory Definition (IVMD), peripheral range (IVRS; AMD I/O Virtualization Technology (IOMMU)
    /// Specification 3.08, section 5.2).
    IvrsBlockIOVirtualizationMemoryDefinitionIvmdPeripheralRange 0 of 32 {
        type_: u8 @ 0, flags: u8 @ 1, length: u16 @ 2, deviceid: u16 @ 4, auxiliary_data: u16 @ 6, reserved: u64 @ 8,
        ivmd_start_address: u64 @ 16, ivmd_memory_block_length: u64 @ 24,
    }
    constants {
        FLAGS_UNITY: u8 = 0x1, FLAGS_IR: u8 = 0x2, FLAGS_IW: u8 = 0x4, FLAGS_EXCLUSION_RANGE: u8 = 0x8,
    }
}

view! {
    /// I/O Remapping Table (IORT; Arm DEN0049, E.f).
    Iort 36 of 48 {
        number_of_iort_nodes: u32 @ 36, offset_to_array_of_iort_nodes: u32 @ 40, reserved: u32 @ 44,
    }
    lists {
        nodes: IortNode = (|b| length(number(b, 40, 4)), |b| length(number(b, 36, 4)), |b| length(number(b, 1, 2))),
    }
}

view! {
    /// What each node begins with (IORT; Arm DEN0049, E.f).
    IortNodeHead 0 of 16 {
        type_: u8 @ 0, length: u16 @ 1, revision: u8 @ 3, identifier: u32 @ 4, number_of_id_mappings: u32 @ 8,
        reference_to_id_array: u32 @ 12,
    }
}

view! {
    /// ID mapping (IORT; Arm DEN0049, E.f).
    IortMapping 0 of 20 {
        input_base: u32 @ 0, number_of_ids: u32 @ 4, output_base: u32 @ 8, output_reference: u32 @ 12,
        flags: u32 @ 16,
    }
    constants {
        FLAGS_SINGLE_MAPPING: u32 = 0x1,
    }
}

view! {
    /// ITS Group (IORT; Arm DEN0049, E.f).
    IortNodeItsGroup 0 of 20 {
        type_: u8 @ 0, length: u16 @ 1, revision: u8 @ 3, identifier: u32 @ 4, number_of_id_mappings: u32 @ 8,
        reference_to_id_array: u32 @ 12, number_of_itss: u32 @ 16,
    }
    lists {
        mappings: IortMapping = (|b| length(number(b, 12, 4)), |b| length(number(b, 8, 4)), |_| 20),
    }
}

view! {
    /// Named component (IORT; Arm DEN0049, E.f).
    IortNodeNamedComponent 0 of 29 {
        type_: u8 @ 0, length: u16 @ 1, revision: u8 @ 3, identifier: u32 @ 4, number_of_id_mappings: u32 @ 8,
        reference_to_id_array: u32 @ 12, node_flags: u32 @ 16, cca_cache_coherent_attribute: u32 @ 20,
        ah_allocation_hints: u8 @ 24, reserved: u16 @ 25, maf_memory_access_flags: u8 @ 27,
        device_memory_address_size_limit: u8 @ 28,
    }
    lists {
        mappings: IortMapping = (|b| length(number(b, 12, 4)), |b| length(number(b, 8, 4)), |_| 20),
    }
    constants {
        NODE_FLAGS_STALL_SUPPORTED: u32 = 0x1, NODE_FLAGS_SUBSTREAMID_WIDTH_MASK: u32 = 0x3e,
        NODE_FLAGS_SUBSTREAMID_WIDTH_SHIFT: u32 = 1, CCA_CACHE_COHERENT_ATTRIBUTE_NOT_COHERENT: u32 = 0x0,
        CCA_CACHE_COHERENT_ATTRIBUTE_FULLY_COHERENT: u32 = 0x1, AH_ALLOCATION_HINTS_TR_TRANSIENT: u8 = 0x1,
        AH_ALLOCATION_HINTS_WA_WRITE_ALLOCATE: u8 = 0x2, AH_ALLOCATION_HINTS_RA_READ_ALLOCATE: u8 = 0x4,
        AH_ALLOCATION_HINTS_AHO_ALLOCATION_HINTS_OVERRIDE: u8 = 0x8,
        MAF_MEMORY_ACCESS_FLAGS_CPM_COHERENT_PATH_TO_MEMORY: u8 = 0x1,
        MAF_MEMORY_ACCESS_FLAGS_DACS_DEVICE_ATTRIBUTES_ARE_CACHEABLE_AND_INNER_SHAREABLE: u8 = 0x2,
        MAF_MEMORY_ACCESS_FLAGS_CANWBS: u8 = 0x4,
    }
}

view! {
    /// Root complex (IORT; Arm DEN0049, E.f).
    IortNodeRootComplex 0 of 33 {
        type_: u8 @ 0, length: u16 @ 1, revision: u8 @ 3, identifier: u32 @ 4, number_of_id_mappings: u32 @ 8,
        reference_to_id_array: u32 @ 12, cca_cache_coherent_attribute: u32 @ 16, ah_allocation_hints: u8 @ 20,
        reserved: u16 @ 21, maf_memory_access_flags: u8 @ 23, ats_attribute: u32 @ 24, pci_segment_number: u32 @ 28,
        memory_address_size_limit: u8 @ 32,
    }
    lists {
        mappings: IortMapping = (|b| length(number(b, 12, 4)), |b| length(number(b, 8, 4)), |_| 20),
    }
    constants {
        CCA_CACHE_COHERENT_ATTRIBUTE_NOT_COHERENT: u32 = 0x0, CCA_CACHE_COHERENT_ATTRIBUTE_FULLY_COHERENT: u32 = 0x1,
        AH_ALLOCATION_HINTS_TR_TRANSIENT: u8 = 0x1, AH_ALLOCATION_HINTS_WA_WRITE_ALLOCATE: u8 = 0x2,
        AH_ALLOCATION_HINTS_RA_READ_ALLOCATE: u8 = 0x4, AH_ALLOCATION_HINTS_AHO_ALLOCATION_HINTS_OVERRIDE: u8 = 0x8,
        MAF_MEMORY_ACCESS_FLAGS_CPM_COHERENT_PATH_TO_MEMORY: u8 = 0x1,
        MAF_MEMORY_ACCESS_FLAGS_DACS_DEVICE_ATTRIBUTES_ARE_CACHEABLE_AND_INNER_SHAREABLE: u8 = 0x2,
        MAF_MEMORY_ACCESS_FLAGS_CANWBS: u8 = 0x4, ATS_ATTRIBUTE_ATS_SUPPORTED: u32 = 0x1,
        ATS_ATTRIBUTE_PRI_SUPPORTED: u32 = 0x2, ATS_ATTRIBUTE_PASID_FORWARDING_SUPPORTED: u32 = 0x4,
    }
}

view! {
    /// Root complex, with the fields of iort root complex 2 (IORT; Arm DEN0049, E.f).
    IortNodeRootComplexIortRootComplex2 0 of 36 {
        type_: u8 @ 0, length: u16 @ 1, revision: u8 @ 3, identifier: u32 @ 4, number_of_id_mappings: u32 @ 8,
        reference_to_id_array: u32 @ 12, cca_cache_coherent_attribute: u32 @ 16, ah_allocation_hints: u8 @ 20,
        reserved: u16 @ 21, maf_memory_access_flags: u8 @ 23, ats_attribute: u32 @ 24, pci_segment_number: u32 @ 28,
        memory_address_size_limit: u8 @ 32, reserved_2: 3 @ 33,
    }
    constants {
        CCA_CACHE_COHERENT_ATTRIBUTE_NOT_COHERENT: u32 = 0x0, CCA_CACHE_COHERENT_ATTRIBUTE_FULLY_COHERENT: u32 = 0x1,
        AH_ALLOCATION_HINTS_TR_TRANSIENT: u8 = 0x1, AH_ALLOCATION_HINTS_WA_WRITE_ALLOCATE: u8 = 0x2,
        AH_ALLOCATION_HINTS_RA_READ_ALLOCATE: u8 = 0x4, AH_ALLOCATION_HINTS_AHO_ALLOCATION_HINTS_OVERRIDE: u8 = 0x8,
        MAF_MEMORY_ACCESS_FLAGS_CPM_COHERENT_PATH_TO_MEMORY: u8 = 0x1,
        MAF_MEMORY_ACCESS_FLAGS_DACS_DEVICE_ATTRIBUTES_ARE_CACHEABLE_AND_INNER_SHAREABLE: u8 = 0x2,
        MAF_MEMORY_ACCESS_FLAGS_CANWBS: u8 = 0x4, ATS_ATTRIBUTE_ATS_SUPPORTED: u32 = 0x1,
        ATS_ATTRIBUTE_PRI_SUPPORTED: u32 = 0x2, ATS_ATTRIBUTE_PASID_FORWARDING_SUPPORTED: u32 = 0x4,
    }
}

view! {
    /// Root complex, with the fields of iort root complex 3 (IORT; Arm DEN0049, E.f).
    IortNodeRootComplexIortRootComplex3 0 of 36 {
        type_: u8 @ 0, length: u16 @ 1, revision: u8 @ 3, identifier: u32 @ 4, number_of_id_mappings: u32 @ 8,
        reference_to_id_array: u32 @ 12, cca_cache_coherent_attribute: u32 @ 16, ah_allocation_hints: u8 @ 20,
        reserved: u16 @ 21, maf_memory_access_flags: u8 @ 23, ats_attribute: u32 @ 24, pci_segment_number: u32 @ 28,
        memory_address_size_limit: u8 @ 32, pasid_capabilities: u16 @ 33, reserved_2: u8 @ 35,
    }
    constants {
        CCA_CACHE_COHERENT_ATTRIBUTE_NOT_COHERENT: u32 = 0x0, CCA_CACHE_COHERENT_ATTRIBUTE_FULLY_COHERENT: u32 = 0x1,
        AH_ALLOCATION_HINTS_TR_TRANSIENT: u8 = 0x1, AH_ALLOCATION_HINTS_WA_WRITE_ALLOCATE: u8 = 0x2,
        AH_ALLOCATION_HINTS_RA_READ_ALLOCATE: u8 = 0x4, AH_ALLOCATION_HINTS_AHO_ALLOCATION_HINTS_OVERRIDE: u8 = 0x8,
        MAF_MEMORY_ACCESS_FLAGS_CPM_COHERENT_PATH_TO_MEMORY: u8 = 0x1,
        MAF_MEMORY_ACCESS_FLAGS_DACS_DEVICE_ATTRIBUTES_ARE_CACHEABLE_AND_INNER_SHAREABLE: u8 = 0x2,
        MAF_MEMORY_ACCESS_FLAGS_CANWBS: u8 = 0x4, ATS_ATTRIBUTE_ATS_SUPPORTED: u32 = 0x1,
        ATS_ATTRIBUTE_PRI_SUPPORTED: u32 = 0x2, ATS_ATTRIBUTE_PASID_FORWARDING_SUPPORTED: u32 = 0x4,
        PASID_CAPABILITIES_MAX_PASID_WIDTH_MASK: u16 = 0x1f, PASID_CAPABILITIES_MAX_PASID_WIDTH_SHIFT: u32 = 0,
    }
}

view! {
    /// Root complex, with the fields of iort root complex 4 (IORT; Arm DEN0049, E.f).
    IortNodeRootComplexIortRootComplex4 0 of 40 {
        type_: u8 @ 0, length: u16 @ 1, revision: u8 @ 3, identifier: u32 @ 4, number_of_id_mappings: u32 @ 8,
        reference_to_id_array: u32 @ 12, cca_cache_coherent_attribute: u32 @ 16, ah_allocation_hints: u8 @ 20,
        reserved: u16 @ 21, maf_memory_access_flags: u8 @ 23, ats_attribute: u32 @ 24, pci_segment_number: u32 @ 28,
        memory_address_size_limit: u8 @ 32, flags: u32 @ 36,
    }
    constants {
        CCA_CACHE_COHERENT_ATTRIBUTE_NOT_COHERENT: u32 = 0x0, CCA_CACHE_COHERENT_ATTRIBUTE_FULLY_COHERENT: u32 = 0x1,
        AH_ALLOCATION_HINTS_TR_TRANSIENT: u8 = 0x1, AH_ALLOCATION_HINTS_WA_WRITE_ALLOCATE: u8 = 0x2,
        AH_ALLOCATION_HINTS_RA_READ_ALLOCATE: u8 = 0x4, AH_ALLOCATION_HINTS_AHO_ALLOCATION_HINTS_OVERRIDE: u8 = 0x8,
        MAF_MEMORY_ACCESS_FLAGS_CPM_COHERENT_PATH_TO_MEMORY: u8 = 0x1,
        MAF_MEMORY_ACCESS_FLAGS_DACS_DEVICE_ATTRIBUTES_ARE_CACHEABLE_AND_INNER_SHAREABLE: u8 = 0x2,
        MAF_MEMORY_ACCESS_FLAGS_CANWBS: u8 = 0x4, ATS_ATTRIBUTE_ATS_SUPPORTED: u32 = 0x1,
        ATS_ATTRIBUTE_PRI_SUPPORTED: u32 = 0x2, ATS_ATTRIBUTE_PASID_FORWARDING_SUPPORTED: u32 = 0x4,
    }
}

view! {
    /// SMMUv1 or SMMUv2 (IORT; Arm DEN0049, E.f).
    IortNodeSmmuv1OrSmmuv2 0 of 60 {
        type_: u8 @ 0, length: u16 @ 1, revision: u8 @ 3, identifier: u32 @ 4, number_of_id_mappings: u32 @ 8,
        reference_to_id_array: u32 @ 12, base_address: u64 @ 16, span: u64 @ 24, model: u32 @ 32, flags: u32 @ 36,
        reference_to_global_interrupt_array: u32 @ 40, number_of_context_interrupts: u32 @ 44,
        reference_to_context_interrupt_array: u32 @ 48, number_of_pmu_interrupts: u32 @ 52,
        reference_to_pmu_interrupt_array: u32 @ 56,
    }
    lists {
        global_interruptss: IortGlobalInterrupts = (|b| length(number(b, 40, 4)), |_| 1, |_| 16),
        mappings: IortMapping = (|b| length(number(b, 12, 4)), |b| length(number(b, 8, 4)), |_| 20),
    }
    constants {
        MODEL_GENERIC_SMMUV1: u32 = 0x0, MODEL_GENERIC_SMMUV2: u32 = 0x1, MODEL_ARM_CORELINK_MMU_400: u32 = 0x2,
        MODEL_ARM_CORELINK_MMU_500: u32 = 0x3, MODEL_ARM_CORELINK_MMU_401: u32 = 0x4,
        MODEL_CAVIUM_THUNDERX_SMMUV2: u32 = 0x5, FLAGS_DVM_SUPPORTED: u32 = 0x1,
        FLAGS_COHERENT_PAGE_TABLE_WALK_SUPPORTED: u32 = 0x2,
    }
}

view! {
    /// Global interrupt array (IORT; Arm DEN0049, E.f).
    IortGlobalInterrupts 0 of 16 {
        smmu_nsgirpt: u32 @ 0, smmu_nsgirpt_interrupt_flags: u32 @ 4, smmu_nsgcfgirpt: u32 @ 8,
        smmu_nsgcfgirpt_interrupt_flags: u32 @ 12,
    }
    constants {
        SMMU_NSGIRPT_INTERRUPT_FLAGS_LEVEL_TRIGGERED: u32 = 0x0,
        SMMU_NSGIRPT_INTERRUPT_FLAGS_EDGE_TRIGGERED: u32 = 0x1,
        SMMU_NSGCFGIRPT_INTERRUPT_FLAGS_LEVEL_TRIGGERED: u32 = 0x0,
        SMMU_NSGCFGIRPT_INTERRUPT_FLAGS_EDGE_TRIGGERED: u32 = 0x1,
    }
}

view! {
    /// SMMUv3 (IORT; Arm DEN0049, E.f).
    IortNodeSmmuv3 0 of 68 {
        type_: u8 @ 0, length: u16 @ 1, revision: u8 @ 3, identifier: u32 @ 4, number_of_id_mappings: u32 @ 8,
        reference_to_id_array: u32 @ 12, base_address: u64 @ 16, flags: u32 @ 24, reserved: u32 @ 28,
        vatos_address: u64 @ 32, model: u32 @ 40, event: u32 @ 44, pri: u32 @ 48, gerr: u32 @ 52, sync: u32 @ 56,
        proximity_domain: u32 @ 60, deviceid_mapping_index: u32 @ 64,
    }
    lists {
        mappings: IortMapping = (|b| length(number(b, 12, 4)), |b| length(number(b, 8, 4)), |_| 20),
    }
    constants {
        FLAGS_COHACC_OVERRIDE: u32 = 0x1, FLAGS_HTTU_OVERRIDE_MASK: u32 = 0x6, FLAGS_HTTU_OVERRIDE_SHIFT: u32 = 1,
        FLAGS_PROXIMITY_DOMAIN_VALID: u32 = 0x8, FLAGS_DEVICEID_MAPPING_INDEX_VALID: u32 = 0x10,
        MODEL_GENERIC_SMMUV3: u32 = 0x0, MODEL_HISILICON_HI161X_SMMUV3: u32 = 0x1,
        MODEL_CAVIUM_CN99XX_SMMUV3: u32 = 0x2,
    }
}

view! {
    /// PMCG (IORT; Arm DEN0049, E.f).
    IortNodePmcg 0 of 40 {
        type_: u8 @ 0, length: u16 @ 1, revision: u8 @ 3, identifier: u32 @ 4, number_of_id_mappings: u32 @ 8,
        reference_to_id_array: u32 @ 12, page_0_base_address: u64 @ 16, overflow_interrupt_gsiv: u32 @ 24,
        node_reference: u32 @ 28, page_1_base_address: u64 @ 32,
    }
    lists {
        mappings: IortMapping = (|b| length(number(b, 12, 4)), |b| length(number(b, 8, 4)), |_| 20),
    }
}

view! {
    /// Reserved Memory Range (RMR) (IORT; Arm DEN0049, E.f).
    IortNodeReservedMemoryRangeRmr 0 of 28 {
        type_: u8 @ 0, length: u16 @ 1, revision: u8 @ 3, identifier: u32 @ 4, number_of_id_mappings: u32 @ 8,
        reference_to_id_array: u32 @ 12, flags: u32 @ 16, number_of_memory_range_descriptors: u32 @ 20,
        reference_to_memory_range_descriptor_array: u32 @ 24,
    }
    lists {
        mappings: IortMapping = (|b| length(number(b, 12, 4)), |b| length(number(b, 8, 4)), |_| 20),
        ranges: IortRange = (|b| length(number(b, 24, 4)), |b| length(number(b, 20, 4)), |_| 20),
    }
    constants {
        FLAGS_REMAPPING_PERMITTED: u32 = 0x1, FLAGS_ACCESS_PRIVILEGED: u32 = 0x2,
        FLAGS_ACCESS_ATTRIBUTES_MASK: u32 = 0x3fc, FLAGS_ACCESS_ATTRIBUTES_SHIFT: u32 = 2,
    }
}

view! {
    /// Memory Range Descriptor (IORT; Arm DEN0049, E.f).
    IortRange 0 of 20 {
        physical_range_offset: u64 @ 0, physical_range_length: u64 @ 8, reserved: u32 @ 16,
    }
}

view! {
    /// Virtual I/O Translation Table (VIOT; Virtual I/O Translation Table, version 0).
    Viot 36 of 48 {
        node_count: u16 @ 36, node_offset: u16 @ 38, reserved: u64 @ 40,
    }
    lists {
        nodes: ViotNode = (|b| length(number(b, 38, 2)), |b| length(number(b, 36, 2)), |b| length(number(b, 2, 2))),
    }
}

view! {
    /// What each node begins with (VIOT; Virtual I/O Translation Table, version 0).
    ViotNodeHead 0 of 4 {
        type_: u8 @ 0, reserved: u8 @ 1, length: u16 @ 2,
    }
}

view! {
    /// PCI Range (VIOT; Virtual I/O Translation Table, version 0).
    ViotNodePciRange 0 of 24 {
        type_: u8 @ 0, reserved: u8 @ 1, length: u16 @ 2, endpoint_start: u32 @ 4, pci_segment_start: u16 @ 8,
        pci_segment_end: u16 @ 10, pci_bdf_start: u16 @ 12, pci_bdf_end: u16 @ 14, output_node: u16 @ 16,
        reserved_2: 6 @ 18,
    }
}

view! {
    /// Single MMIO endpoint (VIOT; Virtual I/O Translation Table, version 0).
    ViotNodeSingleMmioEndpoint 0 of 24 {
        type_: u8 @ 0, reserved: u8 @ 1, length: u16 @ 2, endpoint_id: u32 @ 4, base_address: u64 @ 8,
        output_node: u16 @ 16, reserved_2: 6 @ 18,
    }
}

view! {
    /// Virtio-iommu based on virtio-pci (VIOT; Virtual I/O Translation Table, version 0).
    ViotNodeVirtioIommuBasedOnVirtioPci 0 of 16 {
        type_: u8 @ 0, reserved: u8 @ 1, length: u16 @ 2, pci_segment: u16 @ 4, pci_bdf_number: u16 @ 6,
        reserved_2: u64 @ 8,
    }
}

view! {
    /// Virtio-iommu based on virtio-mmio (VIOT; Virtual I/O Translation Table, version 0).
    ViotNodeVirtioIommuBasedOnVirtioMmio 0 of 16 {
        type_: u8 @ 0, reserved: u8 @ 1, length: u16 @ 2, reserved_2: u32 @ 4, base_address: u64 @ 8,
    }
}

view! {
    /// System Resource Affinity Table (SRAT; ACPI 6.5, section 5.2.16).
    Srat 36 of 48 {
        reserved: u32 @ 36, reserved_2: u64 @ 40,
    }
    lists {
        entries: SratEntry = (|_| 48, |_| usize::MAX, |b| length(number(b, 1, 1))),
    }
}

view! {
    /// What each structure begins with (SRAT; ACPI 6.5, section 5.2.16).
    SratEntryHead 0 of 2 {
        type_: u8 @ 0, length: u8 @ 1,
    }
}

view! {
    /// Processor Local APIC/SAPIC Affinity (SRAT; ACPI 6.5, section 5.2.16).
    SratEntryProcessorLocalApicSapicAffinity 0 of 16 {
        type_: u8 @ 0, length: u8 @ 1, proximity_domain_7_0: u8 @ 2, apic_id: u8 @ 3, flags: u32 @ 4,
        local_sapic_eid: u8 @ 8, proximity_domain_31_8: 3 @ 9, clock_domain: u32 @ 12,
    }
    constants {
        FLAGS_ENABLED: u32 = 0x1,
    }
}

view! {
    /// Memory Affinity (SRAT; ACPI 6.5, section 5.2.16).
    SratEntryMemoryAffinity 0 of 40 {
        type_: u8 @ 0, length: u8 @ 1, proximity_domain: u32 @ 2, reserved: u16 @ 6, base_address: u64 @ 8,
        length_2: u64 @ 16, reserved_2: u32 @ 24, flags: u32 @ 28, reserved_3: u64 @ 32,
    }
    constants {
        FLAGS_ENABLED: u32 = 0x1, FLAGS_HOT_PLUGGABLE: u32 = 0x2, FLAGS_NONVOLATILE: u32 = 0x4,
    }
}

view! {
    /// Processor Local x2APIC Affinity (SRAT; ACPI 6.5, section 5.2.16).
    SratEntryProcessorLocalX2apicAffinity 0 of 24 {
        type_: u8 @ 0, length: u8 @ 1, reserved: u16 @ 2, proximity_domain: u32 @ 4, x2apic_id: u32 @ 8,
        flags: u32 @ 12, clock_domain: u32 @ 16, reserved_2: u32 @ 20,
    }
    constants {
        FLAGS_ENABLED: u32 = 0x1,
    }
}

view! {
    /// GICC Affinity (SRAT; ACPI 6.5, section 5.2.16).
    SratEntryGiccAffinity 0 of 18 {
        type_: u8 @ 0, length: u8 @ 1, proximity_domain: u32 @ 2, acpi_processor_uid: u32 @ 6, flags: u32 @ 10,
        clock_domain: u32 @ 14,
    }
    constants {
        FLAGS_ENABLED: u32 = 0x1,
    }
}

view! {
    /// GIC Interrupt Translation Service (ITS) Affinity (SRAT; ACPI 6.5, section 5.2.16).
    SratEntryGicInterruptTranslationServiceItsAffinity 0 of 12 {
        type_: u8 @ 0, length: u8 @ 1, proximity_domain: u32 @ 2, reserved: u16 @ 6, its_id: u32 @ 8,
    }
}

view! {
    /// Generic Initiator Affinity (SRAT; ACPI 6.5, section 5.2.16).
    SratEntryGenericInitiatorAffinity 0 of 32 {
        type_: u8 @ 0, length: u8 @ 1, reserved: u8 @ 2, device_handle_type: u8 @ 3, proximity_domain: u32 @ 4,
        device_handle: 16 @ 8, flags: u32 @ 24, reserved_2: u32 @ 28,
    }
    constants {
        FLAGS_ENABLED: u32 = 0x1, FLAGS_ARCHITECTURAL_TRANSACTIONS: u32 = 0x2,
    }
}

view! {
    /// Generic Port Affinity (SRAT; ACPI 6.5, section 5.2.16).
    SratEntryGenericPortAffinity 0 of 32 {
        type_: u8 @ 0, length: u8 @ 1, reserved: u8 @ 2, device_handle_type: u8 @ 3, proximity_domain: u32 @ 4,
        device_handle: 16 @ 8, flags: u32 @ 24, reserved_2: u32 @ 28,
    }
    constants {
        FLAGS_ENABLED: u32 = 0x1, FLAGS_ARCHITECTURAL_TRANSACTIONS: u32 = 0x2,
    }
}

view! {
    /// RINTC Affinity (SRAT; ACPI 6.5, section 5.2.16).
    SratEntryRintcAffinity 0 of 20 {
        type_: u8 @ 0, length: u8 @ 1, reserved: u16 @ 2, proximity_domain: u32 @ 4, acpi_processor_uid: u32 @ 8,
        flags: u32 @ 12, clock_domain: u32 @ 16,
    }
    constants {
        FLAGS_ENABLED: u32 = 0x1,
    }
}

view! {
    /// System Locality Information Table (SLIT; ACPI 6.5, section 5.2.17).
    Slit 36 of 44 {
        number_of_system_localities: u64 @ 36,
    }
}

view! {
    /// Maximum System Characteristics Table (MSCT; ACPI 6.5, section 5.2.19).
    Msct 36 of 56 {
        offset_to_proximity_domain_information_structure: u32 @ 36, maximum_number_of_proximity_domains: u32 @ 40,
        maximum_number_of_clock_domains: u32 @ 44, maximum_physical_address: u64 @ 48,
    }
    lists {
        domains: MsctDomain = (|b| length(number(b, 36, 4)), |_| usize::MAX, |b| length(number(b, 1, 1))),
    }
}

view! {
    /// Maximum Proximity Domain Information Structure (MSCT; ACPI 6.5, section 5.2.19).
    MsctDomain 0 of 22 {
        revision: u8 @ 0, length: u8 @ 1, proximity_domain_range_low: u32 @ 2, proximity_domain_range_high: u32 @ 6,
        maximum_processor_capacity: u32 @ 10, maximum_memory_capacity: u64 @ 14,
    }
}

view! {
    /// Heterogeneous Memory Attribute Table (HMAT; ACPI 6.5, section 5.2.29, whose revision 1 is that of ACPI 6.2).
    Hmat 36 of 40 {
        reserved: u32 @ 36,
    }
}

view! {
    /// What each structure begins with (HMAT; ACPI 6.5, section 5.2.29, whose revision 1 is that of ACPI 6.2).
    HmatEntryHead 0 of 8 {
        type_: u16 @ 0, reserved: u16 @ 2, length: u32 @ 4,
    }
}

view! {
    /// What each structure begins with (HMAT; ACPI 6.5, section 5.2.29, whose revision 1 is that of ACPI 6.2).
    HmatEntry1Head 0 of 8 {
        type_: u16 @ 0, reserved: u16 @ 2, length: u32 @ 4,
    }
}

view! {
    /// Memory Subsystem Address Range Structure (HMAT; ACPI 6.5, section 5.2.29, whose revision 1 is that of ACPI 6.2).
    HmatEntry1MemorySubsystemAddressRangeStructure 0 of 40 {
        type_: u16 @ 0, reserved: u16 @ 2, length: u32 @ 4, flags: u16 @ 8, reserved_2: u16 @ 10,
        processor_proximity_domain: u32 @ 12, memory_proximity_domain: u32 @ 16, reserved_3: u32 @ 20,
        system_physical_address_range_base: u64 @ 24, system_physical_address_range_length: u64 @ 32,
    }
    constants {
        FLAGS_PROCESSOR_PROXIMITY_DOMAIN_FIELD_ISN_T_VALID: u16 = 0x0,
        FLAGS_PROCESSOR_PROXIMITY_DOMAIN_FIELD_IS_VALID: u16 = 0x1,
        FLAGS_MEMORY_PROXIMITY_DOMAIN_FIELD_ISN_T_VALID: u16 = 0x0,
        FLAGS_MEMORY_PROXIMITY_DOMAIN_FIELD_IS_VALID: u16 = 0x2, FLAGS_RESERVATION_HINT: u16 = 0x4,
    }
}

view! {
    /// System Locality Latency and Bandwidth Information Structure (HMAT; ACPI 6.5, section 5.2.29, whose revision 1 is
    /// that of ACPI 6.2).
    HmatEntry1SystemLocalityLatencyAndBandwidthInformationStructure 0 of 32 {
        type_: u16 @ 0, reserved: u16 @ 2, length: u32 @ 4, flags: u8 @ 8, data_type: u8 @ 9, reserved_2: u16 @ 10,
        number_of_initiator_proximity_domains: u32 @ 12, number_of_target_proximity_domains: u32 @ 16,
        reserved_3: u32 @ 20, entry_base_unit: u64 @ 24,
    }
}

view! {
    /// Memory Side Cache Information Structure (HMAT; ACPI 6.5, section 5.2.29, whose revision 1 is that of ACPI 6.2).
    HmatEntry1MemorySideCacheInformationStructure 0 of 32 {
        type_: u16 @ 0, reserved: u16 @ 2, length: u32 @ 4, memory_proximity_domain: u32 @ 8, reserved_2: u32 @ 12,
        memory_side_cache_size: u64 @ 16, cache_attributes: u32 @ 24, reserved_3: u16 @ 28,
        number_of_smbios_handles: u16 @ 30,
    }
}

view! {
    /// Memory Proximity Domain Attributes Structure (HMAT; ACPI 6.5, section 5.2.29, whose revision 1 is that of ACPI
    /// 6.2).
    HmatEntryMemoryProximityDomainAttributesStructure 0 of 40 {
        type_: u16 @ 0, reserved: u16 @ 2, length: u32 @ 4, flags: u16 @ 8, reserved_2: u16 @ 10,
        proximity_domain_for_the_attached_initiator: u32 @ 12, proximity_domain_for_the_memory: u32 @ 16,
        reserved_3: u32 @ 20, reserved_4: u64 @ 24, reserved_5: u64 @ 32,
    }
    constants {
        FLAGS_PROXIMITY_DOMAIN_FOR_THE_ATTACHED_INITIATOR_ISN_T_VALID: u16 = 0x0,
        FLAGS_PROXIMITY_DOMAIN_FOR_THE_ATTACHED_INITIATOR_IS_VALID: u16 = 0x1,
    }
}

view! {
    /// System Locality Latency and Bandwidth Information Structure (HMAT; ACPI 6.5, section 5.2.29, whose revision 1 is
    /// that of ACPI 6.2).
    HmatEntrySystemLocalityLatencyAndBandwidthInformationStructure 0 of 32 {
        type_: u16 @ 0, reserved: u16 @ 2, length: u32 @ 4, flags: u8 @ 8, data_type: u8 @ 9,
        mintransfersize: u8 @ 10, reserved_2: u8 @ 11, number_of_initiator_proximity_domains: u32 @ 12,
        number_of_target_proximity_domains: u32 @ 16, reserved_3: u32 @ 20, entry_base_unit: u64 @ 24,
    }
}

view! {
    /// Memory Side Cache Information Structure (HMAT; ACPI 6.5, section 5.2.29, whose revision 1 is that of ACPI 6.2).
    HmatEntryMemorySideCacheInformationStructure 0 of 32 {
        type_: u16 @ 0, reserved: u16 @ 2, length: u32 @ 4, memory_proximity_domain: u32 @ 8, reserved_2: u32 @ 12,
        memory_side_cache_size: u64 @ 16, cache_attributes: u32 @ 24, address_mode: u16 @ 28,
        number_of_smbios_handles: u16 @ 30,
    }
    constants {
        ADDRESS_MODE_NOT_SPECIFIED: u16 = 0x0, ADDRESS_MODE_EXTENDED_LINEAR: u16 = 0x1,
    }
}

view! {
    /// Alert Standard Format Table (ASF!; DMTF DSP0136, Alert Standard Format 2.0).
    Asf 36 of 36 { }
    lists {
        records: AsfRecord = (|_| 36, |_| usize::MAX, |b| length(number(b, 2, 2))),
    }
}

view! {
    /// What each record begins with (ASF!; DMTF DSP0136, Alert Standard Format 2.0).
    AsfRecordHead 0 of 4 {
        type_: u8 @ 0, reserved: u8 @ 1, record_length: u16 @ 2,
    }
}

view! {
    /// ASF_INFO (ASF!; DMTF DSP0136, Alert Standard Format 2.0).
    AsfRecordAsfInfo0x00 0 of 16 {
        type_: u8 @ 0, reserved: u8 @ 1, record_length: u16 @ 2, minimum_watchdog_reset_value: u8 @ 4,
        minimum_asf_sensor_inter_poll_wait_time: u8 @ 5, system_id: u16 @ 6, iana_manufacturer_id: u32 @ 8,
        feature_flags: u8 @ 12, reserved_2: 3 @ 13,
    }
}

view! {
    /// ASF_INFO (ASF!; DMTF DSP0136, Alert Standard Format 2.0).
    AsfRecordAsfInfo0x80 0 of 16 {
        type_: u8 @ 0, reserved: u8 @ 1, record_length: u16 @ 2, minimum_watchdog_reset_value: u8 @ 4,
        minimum_asf_sensor_inter_poll_wait_time: u8 @ 5, system_id: u16 @ 6, iana_manufacturer_id: u32 @ 8,
        feature_flags: u8 @ 12, reserved_2: 3 @ 13,
    }
}

view! {
    /// ASF_ALRT (ASF!; DMTF DSP0136, Alert Standard Format 2.0).
    AsfRecordAsfAlrt0x01 0 of 8 {
        type_: u8 @ 0, reserved: u8 @ 1, record_length: u16 @ 2, assertion_event_bit_mask: u8 @ 4,
        deassertion_event_bit_mask: u8 @ 5, number_of_alerts: u8 @ 6, array_element_length: u8 @ 7,
    }
}

view! {
    /// ASF_ALRT (ASF!; DMTF DSP0136, Alert Standard Format 2.0).
    AsfRecordAsfAlrt0x81 0 of 8 {
        type_: u8 @ 0, reserved: u8 @ 1, record_length: u16 @ 2, assertion_event_bit_mask: u8 @ 4,
        deassertion_event_bit_mask: u8 @ 5, number_of_alerts: u8 @ 6, array_element_length: u8 @ 7,
    }
}

view! {
    /// Alert (ASF!; DMTF DSP0136, Alert Standard Format 2.0).
    AsfAlert 0 of 12 {
        device_address: u8 @ 0, command: u8 @ 1, data_mask: u8 @ 2, compare_value: u8 @ 3, event_sensor_type: u8 @ 4,
        event_type: u8 @ 5, event_offset: u8 @ 6, event_source_type: u8 @ 7, event_severity: u8 @ 8,
        sensor_number: u8 @ 9, entity: u8 @ 10, entity_instance: u8 @ 11,
    }
}

view! {
    /// ASF_RCTL (ASF!; DMTF DSP0136, Alert Standard Format 2.0).
    AsfRecordAsfRctl0x02 0 of 8 {
        type_: u8 @ 0, reserved: u8 @ 1, record_length: u16 @ 2, number_of_controls: u8 @ 4,
        array_element_length: u8 @ 5, reserved_2: u16 @ 6,
    }
}

view! {
    /// ASF_RCTL (ASF!; DMTF DSP0136, Alert Standard Format 2.0).
    AsfRecordAsfRctl0x82 0 of 8 {
        type_: u8 @ 0, reserved: u8 @ 1, record_length: u16 @ 2, number_of_controls: u8 @ 4,
        array_element_length: u8 @ 5, reserved_2: u16 @ 6,
    }
}

view! {
    /// Control (ASF!; DMTF DSP0136, Alert Standard Format 2.0).
    AsfControl 0 of 4 {
        control_function: u8 @ 0, control_device_address: u8 @ 1, control_command: u8 @ 2, control_value: u8 @ 3,
    }
    constants {
        CONTROL_FUNCTION_RESET: u8 = 0x0, CONTROL_FUNCTION_POWER_OFF: u8 = 0x1, CONTROL_FUNCTION_POWER_ON: u8 = 0x2,
        CONTROL_FUNCTION_POWER_CYCLE_RESET: u8 = 0x3,
    }
}

view! {
    /// ASF_RMCP (ASF!; DMTF DSP0136, Alert Standard Format 2.0).
    AsfRecordAsfRmcp0x03 0 of 23 {
        type_: u8 @ 0, reserved: u8 @ 1, record_length: u16 @ 2, remote_control_capabilities: 7 @ 4,
        rmcp_boot_options_completion_code: u8 @ 11, rmcp_iana_enterprise_id: u32 @ 12, rmcp_special_command: u8 @ 16,
        rmcp_special_command_parameter: u16 @ 17, rmcp_boot_options: u16 @ 19, rmcp_oem_parameters: u16 @ 21,
    }
}

view! {
    /// ASF_RMCP (ASF!; DMTF DSP0136, Alert Standard Format 2.0).
    AsfRecordAsfRmcp0x83 0 of 23 {
        type_: u8 @ 0, reserved: u8 @ 1, record_length: u16 @ 2, remote_control_capabilities: 7 @ 4,
        rmcp_boot_options_completion_code: u8 @ 11, rmcp_iana_enterprise_id: u32 @ 12, rmcp_special_command: u8 @ 16,
        rmcp_special_command_parameter: u16 @ 17, rmcp_boot_options: u16 @ 19, rmcp_oem_parameters: u16 @ 21,
    }
}

view! {
    /// ASF_ADDR (ASF!; DMTF DSP0136, Alert Standard Format 2.0).
    AsfRecordAsfAddr0x04 0 of 6 {
        type_: u8 @ 0, reserved: u8 @ 1, record_length: u16 @ 2, seeprom_address: u8 @ 4, number_of_devices: u8 @ 5,
    }
}

view! {
    /// ASF_ADDR (ASF!; DMTF DSP0136, Alert Standard Format 2.0).
    AsfRecordAsfAddr0x84 0 of 6 {
        type_: u8 @ 0, reserved: u8 @ 1, record_length: u16 @ 2, seeprom_address: u8 @ 4, number_of_devices: u8 @ 5,
    }
}

view! {
    /// Management Controller Host Interface Table (MCHI; DMTF DSP0256, Management Component Transport Protocol).
    Mchi 36 of 69 {
        interface_type: u8 @ 36, protocol_identifier: u8 @ 37, protocol_data: u64 @ 38, interrupt_type: u8 @ 46,
        gpe: u8 @ 47, pci_device_flag: u8 @ 48, global_system_interrupt: u32 @ 49, base_address: register @ 53,
        pci_segment_group_number: u8 @ 65, pci_bus_number: u8 @ 66, pci_device_number: u8 @ 67,
        pci_function_number: u8 @ 68,
    }
    constants {
        PCI_DEVICE_FLAG_PCI_DEVICE: u8 = 0x1,
    }
}

view! {
    /// Service Processor Management Interface Description Table (SPMI; IPMI 2.0, appendix C).
    Spmi 36 of 65 {
        interface_type: u8 @ 36, reserved: u8 @ 37, specification_revision: u16 @ 38, interrupt_type: u8 @ 40,
        gpe: u8 @ 41, reserved_2: u8 @ 42, pci_device_flag: u8 @ 43, global_system_interrupt: u32 @ 44,
        base_address: register @ 48, reserved_3: u8 @ 64,
    }
    constants {
        PCI_DEVICE_FLAG_PCI_DEVICE: u8 = 0x1,
    }
}

view! {
    /// Service Processor Management Interface Description Table, with the fields of uid (SPMI; IPMI 2.0, appendix C).
    SpmiUid 36 of 65 {
        interface_type: u8 @ 36, reserved: u8 @ 37, specification_revision: u16 @ 38, interrupt_type: u8 @ 40,
        gpe: u8 @ 41, reserved_2: u8 @ 42, pci_device_flag: u8 @ 43, global_system_interrupt: u32 @ 44,
        base_address: register @ 48, uid: u32 @ 60, reserved_3: u8 @ 64,
    }
    constants {
        PCI_DEVICE_FLAG_PCI_DEVICE: u8 = 0x1,
    }
}

view! {
    /// Service Processor Management Interface Description Table, with the fields of pci (SPMI; IPMI 2.0, appendix C).
    SpmiPci 36 of 65 {
        interface_type: u8 @ 36, reserved: u8 @ 37, specification_revision: u16 @ 38, interrupt_type: u8 @ 40,
        gpe: u8 @ 41, reserved_2: u8 @ 42, pci_device_flag: u8 @ 43, global_system_interrupt: u32 @ 44,
        base_address: register @ 48, pci_segment_group_number: u8 @ 60, pci_bus_number: u8 @ 61,
        pci_device_number: u8 @ 62, pci_function_number: u8 @ 63, reserved_3: u8 @ 64,
    }
    constants {
        PCI_DEVICE_FLAG_PCI_DEVICE: u8 = 0x1,
    }
}

view! {
    /// Smart Battery Specification Table (SBST; ACPI 6.5, section 5.2.14).
    Sbst 36 of 48 {
        warning_energy_level: u32 @ 36, low_energy_level: u32 @ 40, critical_energy_level: u32 @ 44,
    }
}

view! {
    /// Embedded Controller Boot Resources Table (ECDT; ACPI 6.5, section 5.2.15).
    Ecdt 36 of 65 {
        ec_control: register @ 36, ec_data: register @ 48, uid: u32 @ 60, gpe_bit: u8 @ 64,
    }
}

view! {
    /// Non HD Audio Link Table (NHLT; Intel: Non HD Audio ACPI Specification 0.8). Compared with no other reader: a hint.
    Nhlt 36 of 37 {
        endpoint_count: u8 @ 36,
    }
    lists {
        endpoints: NhltEndpoint = (|_| 37, |b| length(number(b, 36, 1)), |b| length(number(b, 0, 4))),
    }
}

view! {
    /// Endpoint Descriptor (NHLT; Intel: Non HD Audio ACPI Specification 0.8). Compared with no other reader: a hint.
    NhltEndpoint 0 of 23 {
        endpoint_descriptor_length: u32 @ 0, link_type: u8 @ 4, instance_id: u8 @ 5, vendor_id: u16 @ 6,
        device_id: u16 @ 8, revision_id: u16 @ 10, subsystem_id: u32 @ 12, device_type: u8 @ 16, direction: u8 @ 17,
        virtual_bus_id: u8 @ 18, capabilities_size: u32 @ 19,
    }
    lists {
        formats: NhltFormat = (|_| 1, |b| length(number(b, 0, 1)), |b| 44usize.saturating_add(length(number(b, 40,
            4)))),
    }
    constants {
        DIRECTION_RENDER: u8 = 0x0, DIRECTION_CAPTURE: u8 = 0x1,
    }
}

view! {
    /// Format Config (NHLT; Intel: Non HD Audio ACPI Specification 0.8). Compared with no other reader: a hint.
    NhltFormat 0 of 44 {
        wformattag: u16 @ 0, nchannels: u16 @ 2, nsamplespersec: u32 @ 4, navgbytespersec: u32 @ 8,
        nblockalign: u16 @ 12, wbitspersample: u16 @ 14, cbsize: u16 @ 16, wvalidbitspersample: u16 @ 18,
        dwchannelmask: u32 @ 20, subformat: 16 @ 24, capabilities_size: u32 @ 40,
    }
}

view! {
    /// Memory Power State Table (MPST; ACPI 6.5, section 5.2.22).
    Mpst 36 of 44 {
        memory_pcc_identifier: u8 @ 36, reserved: 3 @ 37, memory_power_node_count: u16 @ 40, reserved_2: u16 @ 42,
    }
    lists {
        nodes: MpstNode = (|_| 44, |b| length(number(b, 40, 2)), |b|
            32usize.saturating_add(2usize.saturating_mul(length(number(b, 24,
            4)))).saturating_add(2usize.saturating_mul(length(number(b, 28, 4))))),
        characteristics: MpstCharacteristic = (|_| 4, |b| length(number(b, 0, 2)), |_| 28),
    }
}

view! {
    /// Memory Power Node (MPST; ACPI 6.5, section 5.2.22).
    MpstNode 0 of 32 {
        flag: u8 @ 0, reserved: u8 @ 1, memory_power_node_id: u16 @ 2, length: u32 @ 4, base_address: u64 @ 8,
        memory_power_node_length: u64 @ 16, number_of_power_states: u32 @ 24, number_of_physical_components: u32 @ 28,
    }
    lists {
        states: MpstState = (|_| 32, |b| length(number(b, 24, 4)), |_| 2),
    }
    constants {
        FLAG_ENABLED: u8 = 0x1, FLAG_POWER_MANAGED: u8 = 0x2, FLAG_HOT_PLUGGABLE: u8 = 0x4,
    }
}

view! {
    /// Memory Power State (MPST; ACPI 6.5, section 5.2.22).
    MpstState 0 of 2 {
        power_state_value: u8 @ 0, power_state_information_index: u8 @ 1,
    }
}

view! {
    /// Memory Power State Characteristics Structure (MPST; ACPI 6.5, section 5.2.22).
    MpstCharacteristic 0 of 28 {
        power_state_structure_id: u8 @ 0, flags: u8 @ 1, reserved: u16 @ 2, average_power_consumed_in_mps0: u32 @ 4,
        relative_power_saving_to_mps0: u32 @ 8, exit_latency: u64 @ 12, reserved_2: u64 @ 20,
    }
    constants {
        FLAGS_MEMORY_CONTENTS_PRESERVED: u8 = 0x1, FLAGS_AUTONOMOUS_POWER_STATE_ENTRY: u8 = 0x2,
        FLAGS_AUTONOMOUS_POWER_STATE_EXIT: u8 = 0x4,
    }
}

view! {
    /// Platform Memory Topology Table (PMTT; ACPI 6.5, section 5.2.21.12; up to revision 1 that of ACPI 6.3).
    Pmtt 36 of 36 { }
}

view! {
    /// Platform Memory Topology Table, with the fields of 1 (PMTT; ACPI 6.5, section 5.2.21.12; up to revision 1 that of
    /// ACPI 6.3).
    Pmtt1 36 of 40 {
        reserved: u32 @ 36,
    }
    lists {
        device_1s: PmttDevice1 = (|_| 40, |_| usize::MAX, |b| length(number(b, 2, 2))),
    }
}

view! {
    /// Platform Memory Topology Table, with the fields of 2 (PMTT; ACPI 6.5, section 5.2.21.12; up to revision 1 that of
    /// ACPI 6.3).
    Pmtt2 36 of 40 {
        number_of_memory_devices: u32 @ 36,
    }
    lists {
        devices: PmttDevice = (|_| 40, |_| usize::MAX, |b| length(number(b, 2, 2))),
    }
}

view! {
    /// What each structure begins with (PMTT; ACPI 6.5, section 5.2.21.12; up to revision 1 that of ACPI 6.3).
    PmttDevice1Head 0 of 8 {
        type_: u8 @ 0, reserved: u8 @ 1, length: u16 @ 2, flags: u16 @ 4, reserved_2: u16 @ 6,
    }
}

view! {
    /// Socket (PMTT; ACPI 6.5, section 5.2.21.12; up to revision 1 that of ACPI 6.3).
    PmttDevice1Socket 0 of 12 {
        type_: u8 @ 0, reserved: u8 @ 1, length: u16 @ 2, flags: u16 @ 4, reserved_2: u16 @ 6,
        socket_identifier: u16 @ 8, reserved_3: u16 @ 10,
    }
    lists {
        device_1s: PmttDevice1 = (|_| 12, |_| usize::MAX, |b| length(number(b, 2, 2))),
    }
}

view! {
    /// Memory Controller (PMTT; ACPI 6.5, section 5.2.21.12; up to revision 1 that of ACPI 6.3).
    PmttDevice1MemoryController 0 of 32 {
        type_: u8 @ 0, reserved: u8 @ 1, length: u16 @ 2, flags: u16 @ 4, reserved_2: u16 @ 6, read_latency: u32 @ 8,
        write_latency: u32 @ 12, read_bandwidth: u32 @ 16, write_bandwidth: u32 @ 20, optimal_access_unit: u16 @ 24,
        optimal_access_alignment: u16 @ 26, reserved_3: u16 @ 28, number_of_proximity_domains: u16 @ 30,
    }
}

view! {
    /// DIMM (PMTT; ACPI 6.5, section 5.2.21.12; up to revision 1 that of ACPI 6.3).
    PmttDevice1Dimm 0 of 20 {
        type_: u8 @ 0, reserved: u8 @ 1, length: u16 @ 2, flags: u16 @ 4, reserved_2: u16 @ 6,
        physical_component_identifier: u16 @ 8, reserved_3: u16 @ 10, size_of_dimm: u32 @ 12, smbios_handle: u32 @ 16,
    }
}

view! {
    /// What each structure begins with (PMTT; ACPI 6.5, section 5.2.21.12; up to revision 1 that of ACPI 6.3).
    PmttDeviceHead 0 of 12 {
        type_: u8 @ 0, reserved: u8 @ 1, length: u16 @ 2, flags: u16 @ 4, reserved_2: u16 @ 6,
        number_of_memory_devices: u32 @ 8,
    }
}

view! {
    /// Socket (PMTT; ACPI 6.5, section 5.2.21.12; up to revision 1 that of ACPI 6.3).
    PmttDeviceSocket 0 of 16 {
        type_: u8 @ 0, reserved: u8 @ 1, length: u16 @ 2, flags: u16 @ 4, reserved_2: u16 @ 6,
        number_of_memory_devices: u32 @ 8, socket_identifier: u16 @ 12, reserved_3: u16 @ 14,
    }
    lists {
        devices: PmttDevice = (|_| 16, |_| usize::MAX, |b| length(number(b, 2, 2))),
    }
}

view! {
    /// Memory Controller (PMTT; ACPI 6.5, section 5.2.21.12; up to revision 1 that of ACPI 6.3).
    PmttDeviceMemoryController 0 of 16 {
        type_: u8 @ 0, reserved: u8 @ 1, length: u16 @ 2, flags: u16 @ 4, reserved_2: u16 @ 6,
        number_of_memory_devices: u32 @ 8, memory_controller_identifier: u16 @ 12, reserved_3: u16 @ 14,
    }
    lists {
        devices: PmttDevice = (|_| 16, |_| usize::MAX, |b| length(number(b, 2, 2))),
    }
}

view! {
    /// DIMM (PMTT; ACPI 6.5, section 5.2.21.12; up to revision 1 that of ACPI 6.3).
    PmttDeviceDimm 0 of 16 {
        type_: u8 @ 0, reserved: u8 @ 1, length: u16 @ 2, flags: u16 @ 4, reserved_2: u16 @ 6,
        number_of_memory_devices: u32 @ 8, smbios_handle: u32 @ 12,
    }
}

view! {
    /// Vendor Specific (PMTT; ACPI 6.5, section 5.2.21.12; up to revision 1 that of ACPI 6.3).
    PmttDeviceVendorSpecific 0 of 28 {
        type_: u8 @ 0, reserved: u8 @ 1, length: u16 @ 2, flags: u16 @ 4, reserved_2: u16 @ 6,
        number_of_memory_devices: u32 @ 8, type_uuid: 16 @ 12,
    }
}

view! {
    /// ACPI RAS Feature Table (RASF; ACPI 6.5, section 5.2.20).
    Rasf 36 of 48 {
        rasf_platform_communication_channel_identifier: 12 @ 36,
    }
}

view! {
    /// ACPI RAS2 Feature Table (RAS2; ACPI 6.5, section 5.2.21).
    Ras2 36 of 40 {
        reserved: u16 @ 36, number_of_pcc_descriptors: u16 @ 38,
    }
    lists {
        descriptors: Ras2Descriptor = (|_| 40, |b| length(number(b, 38, 2)), |_| 8),
    }
}

view! {
    /// RAS2 Platform Communication Channel Descriptor (RAS2; ACPI 6.5, section 5.2.21).
    Ras2Descriptor 0 of 8 {
        pcc_identifier: u8 @ 0, reserved: u16 @ 1, feature_type: u8 @ 3, instance: u32 @ 4,
    }
}

view! {
    /// BIOS Data ACPI Table (BDAT; ACPI 6.5, section 5.2.34).
    Bdat 36 of 48 {
        bdat_generic_address_structure: register @ 36,
    }
}

view! {
    /// Miscellaneous GUIDed Table Entries (MISC; ACPI 6.5, section 5.2.34). Compared with no other reader: a hint.
    Misc 36 of 36 { }
    lists {
        entries: MiscEntry = (|_| 36, |_| usize::MAX, |b| length(number(b, 16, 4))),
    }
}

view! {
    /// GUIDed entry (MISC; ACPI 6.5, section 5.2.34). Compared with no other reader: a hint.
    MiscEntry 0 of 20 {
        entry_guid_id: 16 @ 0, entry_length: u32 @ 16,
    }
}

view! {
    /// NVDIMM Firmware Interface Table (NFIT; ACPI 6.5, section 5.2.26).
    Nfit 36 of 40 {
        reserved: u32 @ 36,
    }
    lists {
        structures: NfitStructure = (|_| 40, |_| usize::MAX, |b| length(number(b, 2, 2))),
    }
}

view! {
    /// What each structure begins with (NFIT; ACPI 6.5, section 5.2.26).
    NfitStructureHead 0 of 4 {
        type_: u16 @ 0, length: u16 @ 2,
    }
}

view! {
    /// System Physical Address (SPA) Range Structure (NFIT; ACPI 6.5, section 5.2.26).
    NfitStructureSystemPhysicalAddressSpaRangeStructure 0 of 64 {
        type_: u16 @ 0, length: u16 @ 2, spa_range_structure_index: u16 @ 4, flags: u16 @ 6, reserved: u32 @ 8,
        proximity_domain: u32 @ 12, address_range_type_guid: 16 @ 16, system_physical_address_range_base: u64 @ 32,
        system_physical_address_range_length: u64 @ 40, address_range_memory_mapping_attribute: u64 @ 48,
        spalocationcookie: u64 @ 56,
    }
    constants {
        FLAGS_CONTROL_REGION_ONLY_FOR_MANAGEMENT_DURING_HOT_ADD_OR_ONLINE_OPERATION: u16 = 0x1,
        FLAGS_PROXIMITY_DOMAIN_IS_VALID: u16 = 0x2, FLAGS_SPALOCATIONCOOKIE_IS_VALID: u16 = 0x4,
    }
}

view! {
    /// NVDIMM Region Mapping Structure (NFIT; ACPI 6.5, section 5.2.26).
    NfitStructureNvdimmRegionMappingStructure 0 of 48 {
        type_: u16 @ 0, length: u16 @ 2, nfit_device_handle: u32 @ 4, nvdimm_physical_id: u16 @ 8,
        nvdimm_region_id: u16 @ 10, spa_range_structure_index: u16 @ 12,
        nvdimm_control_region_structure_index: u16 @ 14, nvdimm_region_size: u64 @ 16, region_offset: u64 @ 24,
        nvdimm_physical_address_region_base: u64 @ 32, interleave_structure_index: u16 @ 40,
        interleave_ways: u16 @ 42, nvdimm_state_flags: u16 @ 44, reserved: u16 @ 46,
    }
    constants {
        NVDIMM_STATE_FLAGS_SAVE_TO_DEVICE_FAILED: u16 = 0x1, NVDIMM_STATE_FLAGS_RESTORE_FROM_DEVICE_FAILED: u16 = 0x2,
        NVDIMM_STATE_FLAGS_PLATFORM_FLUSH_FAILED: u16 = 0x4, NVDIMM_STATE_FLAGS_NOT_ARMED: u16 = 0x8,
        NVDIMM_STATE_FLAGS_SMART_HEALTH_EVENTS_OBSERVED: u16 = 0x10,
        NVDIMM_STATE_FLAGS_HEALTH_EVENTS_ENABLED: u16 = 0x20, NVDIMM_STATE_FLAGS_NOT_MAPPED: u16 = 0x40,
    }
}

view! {
    /// Interleave Structure (NFIT; ACPI 6.5, section 5.2.26).
    NfitStructureInterleaveStructure 0 of 16 {
        type_: u16 @ 0, length: u16 @ 2, interleave_structure_index: u16 @ 4, reserved: u16 @ 6,
        number_of_lines_described: u32 @ 8, line_size: u32 @ 12,
    }
}

view! {
    /// SMBIOS Management Information Structure (NFIT; ACPI 6.5, section 5.2.26).
    NfitStructureSmbiosManagementInformationStructure 0 of 8 {
        type_: u16 @ 0, length: u16 @ 2, reserved: u32 @ 4,
    }
}

view! {
    /// NVDIMM Control Region Structure (NFIT; ACPI 6.5, section 5.2.26).
    NfitStructureNvdimmControlRegionStructure 0 of 80 {
        type_: u16 @ 0, length: u16 @ 2, nvdimm_control_region_structure_index: u16 @ 4, vendor_id: u16 @ 6,
        device_id: u16 @ 8, revision_id: u16 @ 10, subsystem_vendor_id: u16 @ 12, subsystem_device_id: u16 @ 14,
        subsystem_revision_id: u16 @ 16, valid_fields: u8 @ 18, manufacturing_location: u8 @ 19,
        manufacturing_date: u16 @ 20, reserved: u16 @ 22, serial_number: u32 @ 24,
        region_format_interface_code: u16 @ 28, number_of_block_control_windows: u16 @ 30,
        size_of_block_control_window: u64 @ 32, command_register_offset_in_block_control_window: u64 @ 40,
        size_of_command_register_in_block_control_windows: u64 @ 48,
        status_register_offset_in_block_control_window: u64 @ 56,
        size_of_status_register_in_block_control_windows: u64 @ 64, nvdimm_control_region_flag: u16 @ 72,
        reserved_2: 6 @ 74,
    }
    constants {
        VALID_FIELDS_MANUFACTURING_LOCATION_AND_DATE_ARE_VALID: u8 = 0x1,
        NVDIMM_CONTROL_REGION_FLAG_BLOCK_DATA_WINDOWS_IMPLEMENTATION_IS_BUFFERED: u16 = 0x1,
    }
}

view! {
    /// NVDIMM Block Data Window Region Structure (NFIT; ACPI 6.5, section 5.2.26).
    NfitStructureNvdimmBlockDataWindowRegionStructure 0 of 40 {
        type_: u16 @ 0, length: u16 @ 2, nvdimm_control_region_structure_index: u16 @ 4,
        number_of_block_data_windows: u16 @ 6, block_data_window_start_offset: u64 @ 8,
        size_of_block_data_window: u64 @ 16, block_accessible_memory_capacity: u64 @ 24,
        beginning_address_of_first_block_in_block_accessible_memory: u64 @ 32,
    }
}

view! {
    /// Flush Hint Address Structure (NFIT; ACPI 6.5, section 5.2.26).
    NfitStructureFlushHintAddressStructure 0 of 16 {
        type_: u16 @ 0, length: u16 @ 2, nfit_device_handle: u32 @ 4, number_of_flush_hint_addresses: u16 @ 8,
        reserved: 6 @ 10,
    }
}

view! {
    /// Platform Capabilities Structure (NFIT; ACPI 6.5, section 5.2.26).
    NfitStructurePlatformCapabilitiesStructure 0 of 16 {
        type_: u16 @ 0, length: u16 @ 2, highest_valid_capability: u8 @ 4, reserved: 3 @ 5, capabilities: u32 @ 8,
        reserved_2: u32 @ 12,
    }
    constants {
        CAPABILITIES_CPU_CACHE_FLUSH_TO_NVDIMM_DURABILITY_ON_POWER_LOSS_CAPABLE: u32 = 0x1,
        CAPABILITIES_MEMORY_CONTROLLER_FLUSH_TO_NVDIMM_DURABILITY_ON_POWER_LOSS_CAPABLE: u32 = 0x2,
        CAPABILITIES_BYTE_ADDRESSABLE_PERSISTENT_MEMORY_HARDWARE_MIRRORING_CAPABLE: u32 = 0x4,
    }
}

view! {
    /// CXL Early Discovery Table (CEDT; CXL 3.0, section 9.17.1).
    Cedt 36 of 36 { }
    lists {
        structures: CedtStructure = (|_| 36, |_| usize::MAX, |b| length(number(b, 2, 2))),
    }
}

view! {
    /// What each structure begins with (CEDT; CXL 3.0, section 9.17.1).
    CedtStructureHead 0 of 4 {
        type_: u8 @ 0, reserved: u8 @ 1, record_length: u16 @ 2,
    }
}

view! {
    /// CXL Host Bridge Structure (CHBS) (CEDT; CXL 3.0, section 9.17.1).
    CedtStructureCxlHostBridgeStructureChbs 0 of 32 {
        type_: u8 @ 0, reserved: u8 @ 1, record_length: u16 @ 2, uid: u32 @ 4, cxl_version: u32 @ 8,
        reserved_2: u32 @ 12, base: u64 @ 16, length: u64 @ 24,
    }
    constants {
        CXL_VERSION_RCH_ACCORDING_TO_CXL_1_1: u32 = 0x0,
        CXL_VERSION_HOST_BRIDGE_ASSOCIATED_WITH_ONE_OR_MORE_CXL_ROOT_PORTS: u32 = 0x1,
    }
}

view! {
    /// CXL Fixed Memory Window Structure (CFMWS) (CEDT; CXL 3.0, section 9.17.1).
    CedtStructureCxlFixedMemoryWindowStructureCfmws 0 of 36 {
        type_: u8 @ 0, reserved: u8 @ 1, record_length: u16 @ 2, reserved_2: u32 @ 4, base_hpa: u64 @ 8,
        window_size: u64 @ 16, encoded_number_of_interleave_ways_eniw: u8 @ 24, interleave_arithmetic: u8 @ 25,
        reserved_3: u16 @ 26, host_bridge_interleave_granularity_hbig: u32 @ 28, window_restrictions: u16 @ 32,
        qtg_id: u16 @ 34,
    }
    constants {
        ENCODED_NUMBER_OF_INTERLEAVE_WAYS_ENIW_1_WAY: u8 = 0x0,
        ENCODED_NUMBER_OF_INTERLEAVE_WAYS_ENIW_2_WAYS: u8 = 0x1,
        ENCODED_NUMBER_OF_INTERLEAVE_WAYS_ENIW_4_WAYS: u8 = 0x2,
        ENCODED_NUMBER_OF_INTERLEAVE_WAYS_ENIW_8_WAYS: u8 = 0x3,
        ENCODED_NUMBER_OF_INTERLEAVE_WAYS_ENIW_16_WAYS: u8 = 0x4,
        ENCODED_NUMBER_OF_INTERLEAVE_WAYS_ENIW_3_WAYS: u8 = 0x8,
        ENCODED_NUMBER_OF_INTERLEAVE_WAYS_ENIW_6_WAYS: u8 = 0x9,
        ENCODED_NUMBER_OF_INTERLEAVE_WAYS_ENIW_12_WAYS: u8 = 0xa, INTERLEAVE_ARITHMETIC_STANDARD_MODULO: u8 = 0x0,
        INTERLEAVE_ARITHMETIC_MODULO_WITH_XOR: u8 = 0x1, WINDOW_RESTRICTIONS_VOLATILE: u16 = 0x4,
        WINDOW_RESTRICTIONS_PERSISTENT: u16 = 0x8, WINDOW_RESTRICTIONS_FIXED_DEVICE_CONFIGURATION: u16 = 0x10,
    }
}

view! {
    /// CXL XOR Interleave Math Structure (CXIMS) (CEDT; CXL 3.0, section 9.17.1).
    CedtStructureCxlXorInterleaveMathStructureCxims 0 of 8 {
        type_: u8 @ 0, reserved: u8 @ 1, record_length: u16 @ 2, reserved_2: u16 @ 4,
        host_bridge_interleave_granularity_hbig: u8 @ 6, number_of_bitmap_entries_nib: u8 @ 7,
    }
}

view! {
    /// RCEC Downstream Port Association Structure (RDPAS) (CEDT; CXL 3.0, section 9.17.1).
    CedtStructureRcecDownstreamPortAssociationStructureRdpas 0 of 17 {
        type_: u8 @ 0, reserved: u8 @ 1, record_length: u16 @ 2, rcec_segment_number: u16 @ 4, rcec_bdf: u16 @ 6,
        protocol_type: u8 @ 8, base_address: u64 @ 9,
    }
}

view! {
    /// Processor Properties Topology Table (PPTT; ACPI 6.5, section 5.2.30).
    Pptt 36 of 36 { }
    lists {
        nodes: PpttNode = (|_| 36, |_| usize::MAX, |b| length(number(b, 1, 1))),
    }
}

view! {
    /// What each structure begins with (PPTT; ACPI 6.5, section 5.2.30).
    PpttNodeHead 0 of 4 {
        type_: u8 @ 0, length: u8 @ 1, reserved: u16 @ 2,
    }
}

view! {
    /// Processor hierarchy node structure (PPTT; ACPI 6.5, section 5.2.30).
    PpttNodeProcessorHierarchyNodeStructure 0 of 20 {
        type_: u8 @ 0, length: u8 @ 1, reserved: u16 @ 2, flags: u32 @ 4, parent: u32 @ 8,
        acpi_processor_id: u32 @ 12, number_of_private_resources: u32 @ 16,
    }
    constants {
        FLAGS_PHYSICAL_PACKAGE: u32 = 0x1, FLAGS_ACPI_PROCESSOR_ID_VALID: u32 = 0x2,
        FLAGS_PROCESSOR_IS_A_THREAD: u32 = 0x4, FLAGS_NODE_IS_A_LEAF: u32 = 0x8,
        FLAGS_IDENTICAL_IMPLEMENTATION: u32 = 0x10,
    }
}

view! {
    /// Cache Type Structure (PPTT; ACPI 6.5, section 5.2.30).
    PpttNodeCacheTypeStructure 0 of 28 {
        type_: u8 @ 0, length: u8 @ 1, reserved: u16 @ 2, flags: u32 @ 4, next_level_of_cache: u32 @ 8,
        size: u32 @ 12, number_of_sets: u32 @ 16, associativity: u8 @ 20, attributes: u8 @ 21, line_size: u16 @ 22,
        cache_id: u32 @ 24,
    }
}

view! {
    /// ID structure (PPTT; ACPI 6.5, section 5.2.30).
    PpttNodeIdStructure 0 of 30 {
        type_: u8 @ 0, length: u8 @ 1, reserved: u16 @ 2, vendor_id: 4 @ 4, level_1_id: u64 @ 8, level_2_id: u64 @ 16,
        major_rev: u16 @ 24, minor_rev: u16 @ 26, spin_rev: u16 @ 28,
    }
}

view! {
    /// Low Power Idle Table (LPIT; Intel Low Power S0 Idle).
    Lpit 36 of 36 { }
    lists {
        states: LpitState = (|_| 36, |_| usize::MAX, |b| length(number(b, 4, 4))),
    }
}

view! {
    /// What each structure begins with (LPIT; Intel Low Power S0 Idle).
    LpitStateHead 0 of 8 {
        type_: u32 @ 0, length: u32 @ 4,
    }
}

view! {
    /// Native C-state Instruction based LPI structure (LPIT; Intel Low Power S0 Idle).
    LpitStateNativeCStateInstructionBasedLpiStructure 0 of 56 {
        type_: u32 @ 0, length: u32 @ 4, unique_id: u16 @ 8, reserved: u16 @ 10, flags: u32 @ 12,
        entry_trigger: register @ 16, residency: u32 @ 28, latency: u32 @ 32, residency_counter: register @ 36,
        residency_counter_frequency: u64 @ 48,
    }
    constants {
        FLAGS_DISABLED: u32 = 0x1, FLAGS_COUNTER_NOT_AVAILABLE: u32 = 0x2,
    }
}

view! {
    /// Platform Communications Channel Table (PCCT; ACPI 6.5, chapter 14).
    Pcct 36 of 48 {
        flags: u32 @ 36, reserved: u64 @ 40,
    }
    lists {
        subspaces: PcctSubspace = (|_| 48, |_| usize::MAX, |b| length(number(b, 1, 1))),
    }
    constants {
        FLAGS_PLATFORM_INTERRUPT: u32 = 0x1,
    }
}

view! {
    /// What each structure begins with (PCCT; ACPI 6.5, chapter 14).
    PcctSubspaceHead 0 of 2 {
        type_: u8 @ 0, length: u8 @ 1,
    }
}

view! {
    /// Generic Communications Subspace (PCCT; ACPI 6.5, chapter 14).
    PcctSubspaceGenericCommunicationsSubspace 0 of 62 {
        type_: u8 @ 0, length: u8 @ 1, reserved: 6 @ 2, base_address: u64 @ 8, length_2: u64 @ 16,
        doorbell_register: register @ 24, doorbell_preserve: u64 @ 36, doorbell_write: u64 @ 44,
        nominal_latency: u32 @ 52, maximum_periodic_access_rate: u32 @ 56, minimum_request_turnaround_time: u16 @ 60,
    }
}

view! {
    /// HW-Reduced Communications Subspace (PCCT; ACPI 6.5, chapter 14).
    PcctSubspaceHwReducedCommunicationsSubspace 0 of 62 {
        type_: u8 @ 0, length: u8 @ 1, platform_interrupt: u32 @ 2, platform_interrupt_flags: u8 @ 6,
        reserved: u8 @ 7, base_address: u64 @ 8, length_2: u64 @ 16, doorbell_register: register @ 24,
        doorbell_preserve: u64 @ 36, doorbell_write: u64 @ 44, nominal_latency: u32 @ 52,
        maximum_periodic_access_rate: u32 @ 56, minimum_request_turnaround_time: u16 @ 60,
    }
    constants {
        PLATFORM_INTERRUPT_FLAGS_ACTIVE_LOW: u8 = 0x1, PLATFORM_INTERRUPT_FLAGS_EDGE_TRIGGERED: u8 = 0x2,
    }
}

view! {
    /// HW-Reduced Communications Subspace Type 2 (PCCT; ACPI 6.5, chapter 14).
    PcctSubspaceHwReducedCommunicationsSubspaceType2 0 of 90 {
        type_: u8 @ 0, length: u8 @ 1, platform_interrupt: u32 @ 2, platform_interrupt_flags: u8 @ 6,
        reserved: u8 @ 7, base_address: u64 @ 8, length_2: u64 @ 16, doorbell_register: register @ 24,
        doorbell_preserve: u64 @ 36, doorbell_write: u64 @ 44, nominal_latency: u32 @ 52,
        maximum_periodic_access_rate: u32 @ 56, minimum_request_turnaround_time: u16 @ 60,
        platform_interrupt_ack_register: register @ 62, platform_interrupt_ack_preserve: u64 @ 74,
        platform_interrupt_ack_write: u64 @ 82,
    }
}

view! {
    /// Extended PCC Subspace, initiator (PCCT; ACPI 6.5, chapter 14).
    PcctSubspaceExtendedPccSubspaceInitiator 0 of 164 {
        type_: u8 @ 0, length: u8 @ 1, platform_interrupt: u32 @ 2, platform_interrupt_flags: u8 @ 6,
        reserved: u8 @ 7, base_address: u64 @ 8, memory_range_length: u32 @ 16, doorbell_register: register @ 20,
        doorbell_preserve: u64 @ 32, doorbell_write: u64 @ 40, nominal_latency: u32 @ 48,
        maximum_periodic_access_rate: u32 @ 52, minimum_request_turnaround_time: u32 @ 56,
        platform_interrupt_ack_register: register @ 60, platform_interrupt_ack_preserve: u64 @ 72,
        platform_interrupt_ack_set_mask: u64 @ 80, reserved_2: u64 @ 88,
        command_complete_check_register_address: register @ 96, command_complete_check_mask: u64 @ 108,
        command_update_register_address: register @ 116, command_update_preserve_mask: u64 @ 128,
        command_update_set_mask: u64 @ 136, error_status_register: register @ 144, error_status_mask: u64 @ 156,
    }
    constants {
        PLATFORM_INTERRUPT_FLAGS_ACTIVE_LOW: u8 = 0x1, PLATFORM_INTERRUPT_FLAGS_EDGE_TRIGGERED: u8 = 0x2,
    }
}

view! {
    /// Extended PCC Subspace, responder (PCCT; ACPI 6.5, chapter 14).
    PcctSubspaceExtendedPccSubspaceResponder 0 of 164 {
        type_: u8 @ 0, length: u8 @ 1, platform_interrupt: u32 @ 2, platform_interrupt_flags: u8 @ 6,
        reserved: u8 @ 7, base_address: u64 @ 8, memory_range_length: u32 @ 16, doorbell_register: register @ 20,
        doorbell_preserve: u64 @ 32, doorbell_write: u64 @ 40, nominal_latency: u32 @ 48,
        maximum_periodic_access_rate: u32 @ 52, minimum_request_turnaround_time: u32 @ 56,
        platform_interrupt_ack_register: register @ 60, platform_interrupt_ack_preserve: u64 @ 72,
        platform_interrupt_ack_set_mask: u64 @ 80, reserved_2: u64 @ 88,
        command_complete_check_register_address: register @ 96, command_complete_check_mask: u64 @ 108,
        command_update_register_address: register @ 116, command_update_preserve_mask: u64 @ 128,
        command_update_set_mask: u64 @ 136, error_status_register: register @ 144, error_status_mask: u64 @ 156,
    }
    constants {
        PLATFORM_INTERRUPT_FLAGS_ACTIVE_LOW: u8 = 0x1, PLATFORM_INTERRUPT_FLAGS_EDGE_TRIGGERED: u8 = 0x2,
    }
}

view! {
    /// HW Registers based Communications Subspace (PCCT; ACPI 6.5, chapter 14).
    PcctSubspaceHwRegistersBasedCommunicationsSubspace 0 of 96 {
        type_: u8 @ 0, length: u8 @ 1, version: u16 @ 2, base_address: u64 @ 4, shared_memory_range_length: u64 @ 12,
        doorbell_register: register @ 20, doorbell_preserve: u64 @ 32, doorbell_write: u64 @ 40,
        command_complete_check_register: register @ 48, command_complete_check_mask: u64 @ 60,
        error_status_register: register @ 68, error_status_mask: u64 @ 80, nominal_latency: u32 @ 88,
        minimum_request_turnaround_time: u32 @ 92,
    }
}

view! {
    /// Platform Debug Trigger Table (PDTT; ACPI 6.5, section 5.2.29).
    Pdtt 36 of 44 {
        trigger_count: u8 @ 36, reserved: 3 @ 37, trigger_identifier_array_offset: u32 @ 40,
    }
    lists {
        triggers: PdttTrigger = (|b| length(number(b, 40, 4)), |b| length(number(b, 36, 1)), |_| 2),
    }
}

view! {
    /// PDTT Platform Communication Channel Identifier (PDTT; ACPI 6.5, section 5.2.29).
    PdttTrigger 0 of 2 {
        pdtt_pcc_sub_channel_identifier: u8 @ 0, flags: u8 @ 1,
    }
    constants {
        FLAGS_RUNTIME: u8 = 0x1, FLAGS_WAIT_FOR_COMPLETION: u8 = 0x2, FLAGS_TRIGGER_ORDER: u8 = 0x4,
    }
}

view! {
    /// Core System Resources Table (CSRT; Microsoft: Core System Resources Table).
    Csrt 36 of 36 { }
    lists {
        groups: CsrtGroup = (|_| 36, |_| usize::MAX, |b| length(number(b, 0, 4))),
    }
}

view! {
    /// Resource Group (CSRT; Microsoft: Core System Resources Table).
    CsrtGroup 0 of 24 {
        length: u32 @ 0, vendor_id: 4 @ 4, subvendor_id: u32 @ 8, device_id: u16 @ 12, subdevice_id: u16 @ 14,
        revision: u16 @ 16, reserved: u16 @ 18, shared_info_length: u32 @ 20,
    }
}

view! {
    /// Resource Group, with the fields of csrt dma (CSRT; Microsoft: Core System Resources Table).
    CsrtGroupCsrtDma 0 of 52 {
        length: u32 @ 0, vendor_id: 4 @ 4, subvendor_id: u32 @ 8, device_id: u16 @ 12, subdevice_id: u16 @ 14,
        revision: u16 @ 16, reserved: u16 @ 18, shared_info_length: u32 @ 20, major_version: u16 @ 24,
        minor_version: u16 @ 26, mmio_base_address_low: u32 @ 28, mmio_base_address_high: u32 @ 32,
        gsi_interrupt: u32 @ 36, interrupt_polarity: u8 @ 40, interrupt_mode: u8 @ 41, number_of_channels: u8 @ 42,
        dma_address_width: u8 @ 43, base_request_line: u16 @ 44, number_of_handshake_signals: u16 @ 46,
        maximum_block_transfer_size: u32 @ 48,
    }
}

view! {
    /// Resource Descriptor (CSRT; Microsoft: Core System Resources Table).
    CsrtDescriptor 0 of 12 {
        length: u32 @ 0, type_: u16 @ 4, subtype: u16 @ 6, uid: 4 @ 8,
    }
}

view! {
    /// Software Delegated Exceptions Interface Table (SDEI; Arm DEN0054, which has no fields).
    Sdei 36 of 36 { }
}

view! {
    /// Arm Error Source Table (AEST; Arm DEN0085, revision 1). Compared with no other reader: a hint.
    Aest 36 of 36 { }
    lists {
        nodes: AestNode = (|_| 36, |_| usize::MAX, |b| length(number(b, 1, 2))),
    }
}

view! {
    /// What each node begins with (AEST; Arm DEN0085, revision 1). Compared with no other reader: a hint.
    AestNodeHead 0 of 44 {
        type_: u8 @ 0, length: u16 @ 1, reserved: u8 @ 3, offset_to_node_specific_data: u32 @ 4,
        offset_to_node_interface: u32 @ 8, offset_to_node_interrupt_array: u32 @ 12,
        node_interrupt_array_size: u32 @ 16, timestamp_rate: u64 @ 20, reserved_2: u64 @ 28,
        error_injection_countdown_rate: u64 @ 36,
    }
}

view! {
    /// Processor error node (AEST; Arm DEN0085, revision 1). Compared with no other reader: a hint.
    AestNodeProcessorErrorNode 0 of 44 {
        type_: u8 @ 0, length: u16 @ 1, reserved: u8 @ 3, offset_to_node_specific_data: u32 @ 4,
        offset_to_node_interface: u32 @ 8, offset_to_node_interrupt_array: u32 @ 12,
        node_interrupt_array_size: u32 @ 16, timestamp_rate: u64 @ 20, reserved_2: u64 @ 28,
        error_injection_countdown_rate: u64 @ 36,
    }
    lists {
        processors: AestProcessor = (|b| length(number(b, 4, 4)), |_| 1, |_| 16),
        interfaces: AestInterface = (|b| length(number(b, 8, 4)), |_| 1, |_| 48),
        interrupts: AestInterrupt = (|b| length(number(b, 12, 4)), |b| length(number(b, 16, 4)), |_| 12),
    }
}

view! {
    /// Processor node data (AEST; Arm DEN0085, revision 1). Compared with no other reader: a hint.
    AestProcessor 0 of 16 {
        acpi_processor_id: u32 @ 0, resource_type: u8 @ 4, reserved: u8 @ 5, flags: u8 @ 6, revision: u8 @ 7,
        processor_affinity: u64 @ 8,
    }
    constants {
        FLAGS_GLOBAL: u8 = 0x1, FLAGS_SHARED: u8 = 0x2,
    }
}

view! {
    /// Memory error node (AEST; Arm DEN0085, revision 1). Compared with no other reader: a hint.
    AestNodeMemoryErrorNode 0 of 44 {
        type_: u8 @ 0, length: u16 @ 1, reserved: u8 @ 3, offset_to_node_specific_data: u32 @ 4,
        offset_to_node_interface: u32 @ 8, offset_to_node_interrupt_array: u32 @ 12,
        node_interrupt_array_size: u32 @ 16, timestamp_rate: u64 @ 20, reserved_2: u64 @ 28,
        error_injection_countdown_rate: u64 @ 36,
    }
    lists {
        memories: AestMemory = (|b| length(number(b, 4, 4)), |_| 1, |_| 4),
        interfaces: AestInterface = (|b| length(number(b, 8, 4)), |_| 1, |_| 48),
        interrupts: AestInterrupt = (|b| length(number(b, 12, 4)), |b| length(number(b, 16, 4)), |_| 12),
    }
}

view! {
    /// Memory controller node data (AEST; Arm DEN0085, revision 1). Compared with no other reader: a hint.
    AestMemory 0 of 4 {
        proximity_domain: u32 @ 0,
    }
}

view! {
    /// SMMU error node (AEST; Arm DEN0085, revision 1). Compared with no other reader: a hint.
    AestNodeSmmuErrorNode 0 of 44 {
        type_: u8 @ 0, length: u16 @ 1, reserved: u8 @ 3, offset_to_node_specific_data: u32 @ 4,
        offset_to_node_interface: u32 @ 8, offset_to_node_interrupt_array: u32 @ 12,
        node_interrupt_array_size: u32 @ 16, timestamp_rate: u64 @ 20, reserved_2: u64 @ 28,
        error_injection_countdown_rate: u64 @ 36,
    }
    lists {
        smmus: AestSmmu = (|b| length(number(b, 4, 4)), |_| 1, |_| 8),
        interfaces: AestInterface = (|b| length(number(b, 8, 4)), |_| 1, |_| 48),
        interrupts: AestInterrupt = (|b| length(number(b, 12, 4)), |b| length(number(b, 16, 4)), |_| 12),
    }
}

view! {
    /// SMMU node data (AEST; Arm DEN0085, revision 1). Compared with no other reader: a hint.
    AestSmmu 0 of 8 {
        iort_node_reference: u32 @ 0, subcomponent_reference: u32 @ 4,
    }
}

view! {
    /// Vendor-defined error node (AEST; Arm DEN0085, revision 1). Compared with no other reader: a hint.
    AestNodeVendorDefinedErrorNode 0 of 44 {
        type_: u8 @ 0, length: u16 @ 1, reserved: u8 @ 3, offset_to_node_specific_data: u32 @ 4,
        offset_to_node_interface: u32 @ 8, offset_to_node_interrupt_array: u32 @ 12,
        node_interrupt_array_size: u32 @ 16, timestamp_rate: u64 @ 20, reserved_2: u64 @ 28,
        error_injection_countdown_rate: u64 @ 36,
    }
    lists {
        vendors: AestVendor = (|b| length(number(b, 4, 4)), |_| 1, |_| 24),
        interfaces: AestInterface = (|b| length(number(b, 8, 4)), |_| 1, |_| 48),
        interrupts: AestInterrupt = (|b| length(number(b, 12, 4)), |b| length(number(b, 16, 4)), |_| 12),
    }
}

view! {
    /// Vendor-defined node data (AEST; Arm DEN0085, revision 1). Compared with no other reader: a hint.
    AestVendor 0 of 24 {
        hardware_id: u32 @ 0, unique_id: u32 @ 4, vendor_specific_data: 16 @ 8,
    }
}

view! {
    /// GIC error node (AEST; Arm DEN0085, revision 1). Compared with no other reader: a hint.
    AestNodeGicErrorNode 0 of 44 {
        type_: u8 @ 0, length: u16 @ 1, reserved: u8 @ 3, offset_to_node_specific_data: u32 @ 4,
        offset_to_node_interface: u32 @ 8, offset_to_node_interrupt_array: u32 @ 12,
        node_interrupt_array_size: u32 @ 16, timestamp_rate: u64 @ 20, reserved_2: u64 @ 28,
        error_injection_countdown_rate: u64 @ 36,
    }
    lists {
        gics: AestGic = (|b| length(number(b, 4, 4)), |_| 1, |_| 8),
        interfaces: AestInterface = (|b| length(number(b, 8, 4)), |_| 1, |_| 48),
        interrupts: AestInterrupt = (|b| length(number(b, 12, 4)), |b| length(number(b, 16, 4)), |_| 12),
    }
}

view! {
    /// GIC node data (AEST; Arm DEN0085, revision 1). Compared with no other reader: a hint.
    AestGic 0 of 8 {
        interface_type: u32 @ 0, instance_identifier: u32 @ 4,
    }
}

view! {
    /// Node interface (AEST; Arm DEN0085, revision 1). Compared with no other reader: a hint.
    AestInterface 0 of 48 {
        interface_type: u8 @ 0, reserved: 3 @ 1, flags: u32 @ 4, base_address: u64 @ 8,
        start_error_record_index: u32 @ 16, number_of_error_records: u32 @ 20, error_records_implemented: u64 @ 24,
        error_group_based_status_reporting_supported: u64 @ 32, addressing_mode: u64 @ 40,
    }
    constants {
        FLAGS_SHARED_INTERFACE: u32 = 0x1, FLAGS_CLEAR_MISCX_AFTER_AN_ERROR_IS_HANDLED: u32 = 0x2,
    }
}

view! {
    /// Node interrupt (AEST; Arm DEN0085, revision 1). Compared with no other reader: a hint.
    AestInterrupt 0 of 12 {
        interrupt_type: u8 @ 0, reserved: u16 @ 1, interrupt_flags: u8 @ 3, interrupt_gsiv: u32 @ 4, id: u8 @ 8,
        reserved_2: 3 @ 9,
    }
    constants {
        INTERRUPT_FLAGS_LEVEL_TRIGGERED: u8 = 0x1,
    }
}

view! {
    /// Arm Generic Diagnostic Dump and Reset Device Interface (AGDI; Arm DEN0093).
    Agdi 36 of 48 {
        flags: u8 @ 36, reserved: 3 @ 37, sdei_event_number: u32 @ 40, gsiv: u32 @ 44,
    }
    constants {
        FLAGS_SIGNALLED_BY_AN_INTERRUPT: u8 = 0x1,
    }
}

view! {
    /// Arm Performance Monitoring Unit Table (APMT; Arm DEN0117).
    Apmt 36 of 36 { }
    lists {
        nodes: ApmtNode = (|_| 36, |_| usize::MAX, |b| length(number(b, 0, 2))),
    }
}

view! {
    /// Performance Monitoring Unit node (APMT; Arm DEN0117).
    ApmtNode 0 of 56 {
        node_length: u16 @ 0, node_flags: u8 @ 2, node_type: u8 @ 3, identifier: u32 @ 4,
        node_instance_primary: u64 @ 8, node_instance_secondary: u32 @ 16, base_address_0: u64 @ 20,
        base_address_1: u64 @ 28, overflow_interrupt: u32 @ 36, reserved: u32 @ 40,
        overflow_interrupt_flags: u32 @ 44, processor_affinity: u32 @ 48, implementation_id: u32 @ 52,
    }
    constants {
        NODE_FLAGS_DUAL_PAGE_EXTENSION: u8 = 0x1, NODE_FLAGS_PROCESSOR_AFFINITY_IS_OF_A_CONTAINER: u8 = 0x2,
        NODE_FLAGS_64_BIT_SINGLE_COPY_ATOMIC: u8 = 0x4, OVERFLOW_INTERRUPT_FLAGS_EDGE_TRIGGERED: u32 = 0x1,
    }
}

view! {
    /// Memory System Resource Partitioning and Monitoring Table (MPAM; Arm DEN0065, 2.0).
    Mpam 36 of 36 { }
    lists {
        nodes: MpamNode = (|_| 36, |_| usize::MAX, |b| length(number(b, 0, 2))),
    }
}

view! {
    /// Memory System Component (MSC) node (MPAM; Arm DEN0065, 2.0).
    MpamNode 0 of 72 {
        length: u16 @ 0, interface_type: u8 @ 2, reserved: u8 @ 3, identifier: u32 @ 4, base_address: u64 @ 8,
        mmio_size: u32 @ 16, overflow_interrupt: u32 @ 20, overflow_interrupt_flags: u32 @ 24, reserved_2: u32 @ 28,
        overflow_interrupt_affinity: u32 @ 32, error_interrupt: u32 @ 36, error_interrupt_flags: u32 @ 40,
        reserved_3: u32 @ 44, error_interrupt_affinity: u32 @ 48, max_nrdy_usec: u32 @ 52,
        hardware_id_of_linked_device: 8 @ 56, instance_id_of_linked_device: u32 @ 64,
        number_of_resource_nodes: u32 @ 68,
    }
    lists {
        resources: MpamResource = (|_| 72, |b| length(number(b, 68, 4)), |b|
            24usize.saturating_add(8usize.saturating_mul(length(number(b, 20, 4))))),
    }
}

view! {
    /// Resource node (MPAM; Arm DEN0065, 2.0).
    MpamResource 0 of 24 {
        identifier: u32 @ 0, ris_index: u8 @ 4, reserved: u16 @ 5, locator_type: u8 @ 7,
        number_of_functional_dependencies: u32 @ 20,
    }
    lists {
        dependencies: MpamDependency = (|_| 24, |b| length(number(b, 20, 4)), |_| 8),
    }
}

view! {
    /// Resource node, with the fields of mpam cache (MPAM; Arm DEN0065, 2.0).
    MpamResourceMpamCache 0 of 24 {
        identifier: u32 @ 0, ris_index: u8 @ 4, reserved: u16 @ 5, locator_type: u8 @ 7, cache_reference: u64 @ 8,
        reserved_2: u32 @ 16, number_of_functional_dependencies: u32 @ 20,
    }
}

view! {
    /// Resource node, with the fields of mpam memory (MPAM; Arm DEN0065, 2.0).
    MpamResourceMpamMemory 0 of 24 {
        identifier: u32 @ 0, ris_index: u8 @ 4, reserved: u16 @ 5, locator_type: u8 @ 7, proximity_domain: u64 @ 8,
        reserved_2: u32 @ 16, number_of_functional_dependencies: u32 @ 20,
    }
}

view! {
    /// Resource node, with the fields of mpam smmu (MPAM; Arm DEN0065, 2.0).
    MpamResourceMpamSmmu 0 of 24 {
        identifier: u32 @ 0, ris_index: u8 @ 4, reserved: u16 @ 5, locator_type: u8 @ 7, smmu_interface: u64 @ 8,
        reserved_2: u32 @ 16, number_of_functional_dependencies: u32 @ 20,
    }
}

view! {
    /// Resource node, with the fields of mpam memory cache (MPAM; Arm DEN0065, 2.0).
    MpamResourceMpamMemoryCache 0 of 24 {
        identifier: u32 @ 0, ris_index: u8 @ 4, reserved: u16 @ 5, locator_type: u8 @ 7, reserved_2: 7 @ 8,
        level: u8 @ 15, reference: u32 @ 16, number_of_functional_dependencies: u32 @ 20,
    }
}

view! {
    /// Resource node, with the fields of mpam device (MPAM; Arm DEN0065, 2.0).
    MpamResourceMpamDevice 0 of 24 {
        identifier: u32 @ 0, ris_index: u8 @ 4, reserved: u16 @ 5, locator_type: u8 @ 7, acpi_hardware_id: 8 @ 8,
        acpi_unique_id: u32 @ 16, number_of_functional_dependencies: u32 @ 20,
    }
}

view! {
    /// Resource node, with the fields of mpam interconnect (MPAM; Arm DEN0065, 2.0).
    MpamResourceMpamInterconnect 0 of 24 {
        identifier: u32 @ 0, ris_index: u8 @ 4, reserved: u16 @ 5, locator_type: u8 @ 7,
        interconnect_descriptor_table_offset: u64 @ 8, reserved_2: u32 @ 16,
        number_of_functional_dependencies: u32 @ 20,
    }
}

view! {
    /// Resource node, with the fields of mpam unknown (MPAM; Arm DEN0065, 2.0).
    MpamResourceMpamUnknown 0 of 24 {
        identifier: u32 @ 0, ris_index: u8 @ 4, reserved: u16 @ 5, locator_type: u8 @ 7, locator: 12 @ 8,
        number_of_functional_dependencies: u32 @ 20,
    }
}

view! {
    /// Functional dependency (MPAM; Arm DEN0065, 2.0).
    MpamDependency 0 of 8 {
        producer: u32 @ 0, reserved: u32 @ 4,
    }
}

view! {
    /// RISC-V Hart Capabilities Table (RHCT; RISC-V Hart Capabilities Table, ACPI 6.6).
    Rhct 36 of 56 {
        flags: u32 @ 36, time_base_frequency: u64 @ 40, number_of_rhct_nodes: u32 @ 48,
        offset_to_the_rhct_node_array: u32 @ 52,
    }
    lists {
        nodes: RhctNode = (|b| length(number(b, 52, 4)), |b| length(number(b, 48, 4)), |b| length(number(b, 2, 2))),
    }
    constants {
        FLAGS_TIMER_CANNOT_WAKE_THE_PROCESSOR: u32 = 0x1,
    }
}

view! {
    /// What each node begins with (RHCT; RISC-V Hart Capabilities Table, ACPI 6.6).
    RhctNodeHead 0 of 6 {
        type_: u16 @ 0, length: u16 @ 2, revision: u16 @ 4,
    }
}

view! {
    /// ISA String Node (RHCT; RISC-V Hart Capabilities Table, ACPI 6.6).
    RhctNodeIsaStringNode 0 of 8 {
        type_: u16 @ 0, length: u16 @ 2, revision: u16 @ 4, isa_length: u16 @ 6,
    }
}

view! {
    /// Cache Management Operation (CMO) Extension Node (RHCT; RISC-V Hart Capabilities Table, ACPI 6.6).
    RhctNodeCacheManagementOperationCmoExtensionNode 0 of 10 {
        type_: u16 @ 0, length: u16 @ 2, revision: u16 @ 4, reserved: u8 @ 6, cbom_block_size: u8 @ 7,
        cbop_block_size: u8 @ 8, cboz_block_size: u8 @ 9,
    }
}

view! {
    /// MMU Node (RHCT; RISC-V Hart Capabilities Table, ACPI 6.6).
    RhctNodeMmuNode 0 of 8 {
        type_: u16 @ 0, length: u16 @ 2, revision: u16 @ 4, reserved: u8 @ 6, mmu_type: u8 @ 7,
    }
}

view! {
    /// Hart Info Node (RHCT; RISC-V Hart Capabilities Table, ACPI 6.6).
    RhctNodeHartInfoNode 0 of 12 {
        type_: u16 @ 0, length: u16 @ 2, revision: u16 @ 4, number_of_offsets: u16 @ 6, acpi_processor_uid: u32 @ 8,
    }
}

view! {
    /// RISC-V I/O Mapping Table (RIMT; RISC-V I/O Mapping Table 1.0).
    Rimt 36 of 48 {
        number_of_rimt_nodes: u32 @ 36, offset_to_rimt_node_array: u32 @ 40, reserved: u32 @ 44,
    }
    lists {
        nodes: RimtNode = (|b| length(number(b, 40, 4)), |b| length(number(b, 36, 4)), |b| length(number(b, 2, 2))),
    }
}

view! {
    /// What each node begins with (RIMT; RISC-V I/O Mapping Table 1.0).
    RimtNodeHead 0 of 8 {
        type_: u8 @ 0, revision: u8 @ 1, length: u16 @ 2, reserved: u16 @ 4, id: u16 @ 6,
    }
}

view! {
    /// IOMMU (RIMT; RISC-V I/O Mapping Table 1.0).
    RimtNodeIommu 0 of 40 {
        type_: u8 @ 0, revision: u8 @ 1, length: u16 @ 2, reserved: u16 @ 4, id: u16 @ 6, hardware_id: 8 @ 8,
        base_address: u64 @ 16, flags: u32 @ 24, proximity_domain: u32 @ 28, pcie_segment_number: u16 @ 32,
        pcie_b_d_f: u16 @ 34, number_of_interrupt_wires: u16 @ 36, interrupt_wire_array_offset: u16 @ 38,
    }
    lists {
        wires: RimtWire = (|b| length(number(b, 38, 2)), |b| length(number(b, 36, 2)), |_| 8),
    }
    constants {
        FLAGS_PCIE_DEVICE: u32 = 0x1, FLAGS_PROXIMITY_DOMAIN_IS_VALID: u32 = 0x2,
    }
}

view! {
    /// Interrupt Wire (RIMT; RISC-V I/O Mapping Table 1.0).
    RimtWire 0 of 8 {
        interrupt_number: u32 @ 0, flags: u32 @ 4,
    }
    constants {
        FLAGS_EDGE_TRIGGERED: u32 = 0x0, FLAGS_LEVEL_TRIGGERED: u32 = 0x1, FLAGS_ACTIVE_LOW: u32 = 0x0,
        FLAGS_ACTIVE_HIGH: u32 = 0x2,
    }
}

view! {
    /// ID Mapping (RIMT; RISC-V I/O Mapping Table 1.0).
    RimtMapping 0 of 20 {
        source_id_base: u32 @ 0, number_of_ids: u32 @ 4, destination_device_id_base: u32 @ 8,
        destination_iommu_offset: u32 @ 12, flags: u32 @ 16,
    }
    constants {
        FLAGS_ATS_REQUIRED: u32 = 0x1, FLAGS_PRI_REQUIRED: u32 = 0x2,
    }
}

view! {
    /// PCIe Root Complex (RIMT; RISC-V I/O Mapping Table 1.0).
    RimtNodePcieRootComplex 0 of 20 {
        type_: u8 @ 0, revision: u8 @ 1, length: u16 @ 2, reserved: u16 @ 4, id: u16 @ 6, flags: u32 @ 8,
        reserved_2: u16 @ 12, pcie_segment_number: u16 @ 14, id_mapping_array_offset: u16 @ 16,
        number_of_id_mappings: u16 @ 18,
    }
    lists {
        mappings: RimtMapping = (|b| length(number(b, 16, 2)), |b| length(number(b, 18, 2)), |_| 20),
    }
    constants {
        FLAGS_ATS_SUPPORTED: u32 = 0x1, FLAGS_PRI_SUPPORTED: u32 = 0x2,
    }
}

view! {
    /// Platform Device (RIMT; RISC-V I/O Mapping Table 1.0).
    RimtNodePlatformDevice 0 of 12 {
        type_: u8 @ 0, revision: u8 @ 1, length: u16 @ 2, reserved: u16 @ 4, id: u16 @ 6,
        id_mapping_array_offset: u16 @ 8, number_of_id_mappings: u16 @ 10,
    }
    lists {
        mappings: RimtMapping = (|b| length(number(b, 8, 2)), |b| length(number(b, 10, 2)), |_| 20),
    }
}

view! {
    /// I/O Virtualization Table (IOVT; LoongArch I/O Virtualization Table 0.1).
    Iovt 36 of 48 {
        iommu_count: u16 @ 36, iommu_offset: u16 @ 38, reserved: u64 @ 40,
    }
    lists {
        units: IovtUnit = (|b| length(number(b, 38, 2)), |b| length(number(b, 36, 2)), |b| length(number(b, 2, 2))),
    }
}

view! {
    /// What each unit begins with (IOVT; LoongArch I/O Virtualization Table 0.1).
    IovtUnitHead 0 of 4 {
        type_: u16 @ 0, length: u16 @ 2,
    }
}

view! {
    /// IOMMU version 1 (IOVT; LoongArch I/O Virtualization Table 0.1).
    IovtUnitIommuVersion1 0 of 64 {
        type_: u16 @ 0, length: u16 @ 2, flags: u32 @ 4, pci_segment_number: u16 @ 8,
        physical_address_width: u16 @ 10, virtual_address_width: u16 @ 12, max_page_level: u16 @ 14,
        page_size_supported: u64 @ 16, iommu_deviceid: u32 @ 24, iommu_base_address: u64 @ 28,
        iommu_register_size: u32 @ 36, interrupt_type: u8 @ 40, reserved: 3 @ 41, global_system_interrupt: u32 @ 44,
        proximity_domain: u32 @ 48, max_device_number: u32 @ 52, number_of_device_entries: u32 @ 56,
        offset_of_device_entries: u32 @ 60,
    }
    lists {
        devices: IovtDevice = (|b| length(number(b, 60, 4)), |b| length(number(b, 56, 4)), |b| length(number(b, 1, 1))),
    }
    constants {
        FLAGS_PCI_DEVICE: u32 = 0x1, FLAGS_PROXIMITY_DOMAIN_IS_VALID: u32 = 0x2,
        FLAGS_MANAGEABLE_DEVICES_RANGE: u32 = 0x4, FLAGS_HW_CAPABILITY_SUPPORTED: u32 = 0x8,
        FLAGS_MSI_INTERRUPT_ADDRESS: u32 = 0x10,
    }
}

view! {
    /// What each device begins with (IOVT; LoongArch I/O Virtualization Table 0.1).
    IovtDeviceHead 0 of 8 {
        type_: u8 @ 0, length: u8 @ 1, flags: u8 @ 2, reserved: 3 @ 3, deviceid: u16 @ 6,
    }
}

view! {
    /// A single PCI device (IOVT; LoongArch I/O Virtualization Table 0.1).
    IovtDeviceASinglePciDevice 0 of 8 {
        type_: u8 @ 0, length: u8 @ 1, flags: u8 @ 2, reserved: 3 @ 3, deviceid: u16 @ 6,
    }
}

view! {
    /// Start of range (IOVT; LoongArch I/O Virtualization Table 0.1).
    IovtDeviceStartOfRange 0 of 8 {
        type_: u8 @ 0, length: u8 @ 1, flags: u8 @ 2, reserved: 3 @ 3, deviceid: u16 @ 6,
    }
}

view! {
    /// End of range (IOVT; LoongArch I/O Virtualization Table 0.1).
    IovtDeviceEndOfRange 0 of 8 {
        type_: u8 @ 0, length: u8 @ 1, flags: u8 @ 2, reserved: 3 @ 3, deviceid: u16 @ 6,
    }
}

view! {
    /// ISCSI Boot Firmware Table (IBFT; Microsoft: iSCSI Boot Firmware Table 1.01).
    Ibft 36 of 48 {
        reserved: 12 @ 36,
    }
    lists {
        structures: IbftStructure = (|_| 48, |_| 1, |b| length(number(b, 2, 2))),
    }
}

view! {
    /// What each structure begins with (IBFT; Microsoft: iSCSI Boot Firmware Table 1.01).
    IbftStructureHead 0 of 5 {
        structure_id: u8 @ 0, version: u8 @ 1, length: u16 @ 2, index: u8 @ 4,
    }
}

view! {
    /// Control (IBFT; Microsoft: iSCSI Boot Firmware Table 1.01).
    IbftStructureControl 0 of 18 {
        structure_id: u8 @ 0, version: u8 @ 1, length: u16 @ 2, index: u8 @ 4, flags: u8 @ 5, extensions: u16 @ 6,
        initiator_offset: u16 @ 8, nic_0_offset: u16 @ 10, target_0_offset: u16 @ 12, nic_1_offset: u16 @ 14,
        target_1_offset: u16 @ 16,
    }
    constants {
        FLAGS_BOOT_FAILOVER: u8 = 0x1,
    }
}

view! {
    /// Initiator (IBFT; Microsoft: iSCSI Boot Firmware Table 1.01).
    IbftStructureInitiator 0 of 74 {
        structure_id: u8 @ 0, version: u8 @ 1, length: u16 @ 2, index: u8 @ 4, flags: u8 @ 5, isns_server: 16 @ 6,
        slp_server: 16 @ 22, primary_radius_server: 16 @ 38, secondary_radius_server: 16 @ 54,
        initiator_name_length: u16 @ 70, initiator_name_offset: u16 @ 72,
    }
    constants {
        FLAGS_BLOCK_VALID: u8 = 0x1, FLAGS_FIRMWARE_BOOT_SELECTED: u8 = 0x2,
    }
}

view! {
    /// NIC (IBFT; Microsoft: iSCSI Boot Firmware Table 1.01).
    IbftStructureNic 0 of 102 {
        structure_id: u8 @ 0, version: u8 @ 1, length: u16 @ 2, index: u8 @ 4, flags: u8 @ 5, ip_address: 16 @ 6,
        subnet_mask_prefix: u8 @ 22, origin: u8 @ 23, gateway: 16 @ 24, primary_dns: 16 @ 40, secondary_dns: 16 @ 56,
        dhcp: 16 @ 72, vlan: u16 @ 88, mac_address: 6 @ 90, pci_bus_dev_func: u16 @ 96, host_name_length: u16 @ 98,
        host_name_offset: u16 @ 100,
    }
    constants {
        FLAGS_BLOCK_VALID: u8 = 0x1, FLAGS_FIRMWARE_BOOT_SELECTED: u8 = 0x2, FLAGS_GLOBAL: u8 = 0x4,
        ORIGIN_OTHER: u8 = 0x0, ORIGIN_MANUAL: u8 = 0x1, ORIGIN_WELL_KNOWN: u8 = 0x2, ORIGIN_DHCP: u8 = 0x3,
        ORIGIN_ROUTER_ADVERTISEMENT: u8 = 0x4, ORIGIN_UNCHANGED: u8 = 0xf,
    }
}

view! {
    /// Target (IBFT; Microsoft: iSCSI Boot Firmware Table 1.01).
    IbftStructureTarget 0 of 54 {
        structure_id: u8 @ 0, version: u8 @ 1, length: u16 @ 2, index: u8 @ 4, flags: u8 @ 5,
        target_ip_address: 16 @ 6, target_ip_socket: u16 @ 22, target_boot_lun: 8 @ 24, chap_type: u8 @ 32,
        nic_association: u8 @ 33, target_name_length: u16 @ 34, target_name_offset: u16 @ 36,
        chap_name_length: u16 @ 38, chap_name_offset: u16 @ 40, chap_secret_length: u16 @ 42,
        chap_secret_offset: u16 @ 44, reverse_chap_name_length: u16 @ 46, reverse_chap_name_offset: u16 @ 48,
        reverse_chap_secret_length: u16 @ 50, reverse_chap_secret_offset: u16 @ 52,
    }
    constants {
        FLAGS_BLOCK_VALID: u8 = 0x1, FLAGS_FIRMWARE_BOOT_SELECTED: u8 = 0x2, FLAGS_USE_RADIUS_CHAP: u8 = 0x4,
        FLAGS_USE_RADIUS_RCHAP: u8 = 0x8,
    }
}

view! {
    /// NVMe Boot Firmware Table (NBFT; NVM Express Boot Specification 1.0). Compared with no other reader: a hint.
    Nbft 36 of 64 {
        heap_offset: u32 @ 36, heap_length: u32 @ 40, driver_device_path_signature_offset: u32 @ 44,
        driver_device_path_signature_length: u16 @ 48, minor_revision: u8 @ 50, reserved: 13 @ 51,
    }
    lists {
        controls: NbftControl = (|_| 64, |_| 1, |_| 64),
    }
}

view! {
    /// Control (NBFT; NVM Express Boot Specification 1.0). Compared with no other reader: a hint.
    NbftControl 0 of 64 {
        structure_id: u8 @ 0, major_revision: u8 @ 1, minor_revision: u8 @ 2, reserved: u8 @ 3,
        control_structure_length: u16 @ 4, flags: u8 @ 6, reserved_2: u8 @ 7, host_descriptor_offset: u32 @ 8,
        host_descriptor_length: u16 @ 12, host_descriptor_version: u8 @ 14, reserved_3: u8 @ 15,
        hfi_descriptor_list_offset: u32 @ 16, hfi_descriptor_length: u16 @ 20, hfi_descriptor_version: u8 @ 22,
        number_of_host_fabric_interfaces: u8 @ 23, subsystem_namespace_descriptor_list_offset: u32 @ 24,
        subsystem_namespace_descriptor_length: u16 @ 28, subsystem_namespace_descriptor_version: u8 @ 30,
        number_of_subsystem_namespaces: u8 @ 31, security_descriptor_list_offset: u32 @ 32,
        security_descriptor_length: u16 @ 36, security_descriptor_version: u8 @ 38,
        number_of_security_profiles: u8 @ 39, discovery_descriptor_list_offset: u32 @ 40,
        discovery_descriptor_length: u16 @ 44, discovery_descriptor_version: u8 @ 46,
        number_of_discovery_entries: u8 @ 47, reserved_4: 16 @ 48,
    }
    constants {
        FLAGS_STRUCTURE_VALID: u8 = 0x1,
    }
}

view! {
    /// Host Descriptor (NBFT; NVM Express Boot Specification 1.0). Compared with no other reader: a hint.
    NbftHostDescriptor 0 of 32 {
        structure_id: u8 @ 0, flags: u8 @ 1, host_id: 16 @ 2, host_nqn_offset: u32 @ 18, host_nqn_length: u16 @ 22,
        reserved: u64 @ 24,
    }
    constants {
        FLAGS_DESCRIPTOR_VALID: u8 = 0x1, FLAGS_HOST_ID_IS_CONFIGURED: u8 = 0x2,
        FLAGS_HOST_NQN_IS_CONFIGURED: u8 = 0x4,
    }
}

view! {
    /// Host Fabric Interface Descriptor (NBFT; NVM Express Boot Specification 1.0). Compared with no other reader: a
    /// hint.
    NbftInterface 0 of 32 {
        structure_id: u8 @ 0, hfi_descriptor_index: u8 @ 1, flags: u8 @ 2, hfi_transport_type: u8 @ 3,
        reserved: 12 @ 4, hfi_transport_info_descriptor_offset: u32 @ 16,
        hfi_transport_info_descriptor_length: u16 @ 20, reserved_2: 10 @ 22,
    }
    constants {
        FLAGS_DESCRIPTOR_VALID: u8 = 0x1,
    }
}

view! {
    /// Subsystem Namespace Descriptor (NBFT; NVM Express Boot Specification 1.0). Compared with no other reader: a hint.
    NbftNamespace 0 of 128 {
        structure_id: u8 @ 0, ssns_descriptor_index: u16 @ 1, flags: u16 @ 3, transport_type: u8 @ 5,
        transport_specific_flags: u16 @ 6, primary_discovery_controller_index: u8 @ 8, reserved: u8 @ 9,
        subsystem_transport_address_offset: u32 @ 10, subsystem_transport_address_length: u16 @ 14,
        subsystem_transport_service_identifier_offset: u32 @ 16,
        subsystem_transport_service_identifier_length: u16 @ 20, subsystem_port_id: u16 @ 22, namespace_id: u32 @ 24,
        namespace_identifier_type: u8 @ 28, namespace_identifier: 16 @ 29, security_profile_descriptor_index: u8 @ 45,
        primary_hfi_descriptor_index: u8 @ 46, reserved_2: u8 @ 47, secondary_hfi_associations_offset: u32 @ 48,
        secondary_hfi_associations_length: u16 @ 52, subsystem_and_namespace_nqn_offset: u32 @ 54,
        subsystem_and_namespace_nqn_length: u16 @ 58, ssns_extended_information_descriptor_offset: u32 @ 60,
        ssns_extended_information_descriptor_length: u16 @ 64, reserved_3: 62 @ 66,
    }
    constants {
        FLAGS_DESCRIPTOR_VALID: u16 = 0x1,
    }
}

view! {
    /// Security Profile Descriptor (NBFT; NVM Express Boot Specification 1.0). Compared with no other reader: a hint.
    NbftSecurity 0 of 64 {
        structure_id: u8 @ 0, security_descriptor_index: u8 @ 1, flags: u16 @ 2, secret_type: u8 @ 4,
        reserved: u8 @ 5, secure_channel_algorithms_offset: u32 @ 6, secure_channel_algorithms_length: u16 @ 10,
        authentication_protocols_offset: u32 @ 12, authentication_protocols_length: u16 @ 16,
        cipher_suites_offset: u32 @ 18, cipher_suites_length: u16 @ 22, dh_groups_offset: u32 @ 24,
        dh_groups_length: u16 @ 28, secure_hash_functions_offset: u32 @ 30, secure_hash_functions_length: u16 @ 34,
        secret_keypath_offset: u32 @ 36, secret_keypath_length: u16 @ 40, reserved_2: 22 @ 42,
    }
    constants {
        FLAGS_DESCRIPTOR_VALID: u16 = 0x1,
    }
}

view! {
    /// Discovery Descriptor (NBFT; NVM Express Boot Specification 1.0). Compared with no other reader: a hint.
    NbftDiscovery 0 of 32 {
        structure_id: u8 @ 0, flags: u8 @ 1, discovery_descriptor_index: u8 @ 2, hfi_descriptor_index: u8 @ 3,
        security_profile_descriptor_index: u8 @ 4, reserved: u8 @ 5, discovery_controller_address_offset: u32 @ 6,
        discovery_controller_address_length: u16 @ 10, discovery_controller_nqn_offset: u32 @ 12,
        discovery_controller_nqn_length: u16 @ 16, reserved_2: 14 @ 18,
    }
    constants {
        FLAGS_DESCRIPTOR_VALID: u8 = 0x1,
    }
}

view! {
    /// Root System Description Table (RSDT; ACPI 6.5, section 5.2.7).
    Rsdt 36 of 36 { }
}

view! {
    /// Extended System Description Table (XSDT; ACPI 6.5, section 5.2.8).
    Xsdt 36 of 36 { }
}

view! {
    /// Fixed ACPI Description Table (FACP; ACPI 6.5, section 5.2.9).
    Facp 36 of 276 {
        firmware_ctrl: u32 @ 36, dsdt: u32 @ 40, reserved: u8 @ 44, preferred_pm_profile: u8 @ 45, sci_int: u16 @ 46,
        smi_cmd: u32 @ 48, acpi_enable: u8 @ 52, acpi_disable: u8 @ 53, s4bios_req: u8 @ 54, pstate_cnt: u8 @ 55,
        pm1a_evt_blk: u32 @ 56, pm1b_evt_blk: u32 @ 60, pm1a_cnt_blk: u32 @ 64, pm1b_cnt_blk: u32 @ 68,
        pm2_cnt_blk: u32 @ 72, pm_tmr_blk: u32 @ 76, gpe0_blk: u32 @ 80, gpe1_blk: u32 @ 84, pm1_evt_len: u8 @ 88,
        pm1_cnt_len: u8 @ 89, pm2_cnt_len: u8 @ 90, pm_tmr_len: u8 @ 91, gpe0_blk_len: u8 @ 92, gpe1_blk_len: u8 @ 93,
        gpe1_base: u8 @ 94, cst_cnt: u8 @ 95, p_lvl2_lat: u16 @ 96, p_lvl3_lat: u16 @ 98, flush_size: u16 @ 100,
        flush_stride: u16 @ 102, duty_offset: u8 @ 104, duty_width: u8 @ 105, day_alrm: u8 @ 106, mon_alrm: u8 @ 107,
        century: u8 @ 108, iapc_boot_arch: u16 @ 109, reserved_2: u8 @ 111, flags: u32 @ 112,
        reset_reg: register @ 116, reset_value: u8 @ 128, arm_boot_arch: u16 @ 129, fadt_minor_version: u8 @ 131,
        x_firmware_ctrl: u64 @ 132, x_dsdt: u64 @ 140, x_pm1a_evt_blk: register @ 148, x_pm1b_evt_blk: register @ 160,
        x_pm1a_cnt_blk: register @ 172, x_pm1b_cnt_blk: register @ 184, x_pm2_cnt_blk: register @ 196,
        x_pm_tmr_blk: register @ 208, x_gpe0_blk: register @ 220, x_gpe1_blk: register @ 232,
        sleep_control_reg: register @ 244, sleep_status_reg: register @ 256, hypervisor_vendor_identity: 8 @ 268,
    }
    constants {
        ARM_BOOT_ARCH_PSCI_COMPLIANT: u16 = 0x1, ARM_BOOT_ARCH_PSCI_USE_HVC: u16 = 0x2,
    }
}

view! {
    /// Firmware ACPI Control Structure (FACS; ACPI 6.5, section 5.2.10).
    Facs 0 of 64 {
        signature: 4 @ 0, length: u32 @ 4, hardware_signature: u32 @ 8, firmware_waking_vector: u32 @ 12,
        global_lock: u32 @ 16, flags: u32 @ 20, x_firmware_waking_vector: u64 @ 24, version: u8 @ 32,
        reserved: 3 @ 33, ospm_flags: u32 @ 36, reserved_2: 24 @ 40,
    }
    constants {
        GLOBAL_LOCK_PENDING: u32 = 0x1, GLOBAL_LOCK_OWNED: u32 = 0x2, FLAGS_S4BIOS_F: u32 = 0x1,
        FLAGS_64BIT_WAKE_SUPPORTED_F: u32 = 0x2, OSPM_FLAGS_64BIT_WAKE_F: u32 = 0x1,
    }
}

view! {
    /// Enhanced Resource Director Technology Table (ERDT; Intel Resource Director Technology Architecture Specification
    /// 1.1).
    Erdt 36 of 64 {
        max_clos: u32 @ 36, reserved: 24 @ 40,
    }
    lists {
        domains: ErdtDomain = (|_| 64, |_| usize::MAX, |b| length(number(b, 2, 2))),
    }
}

view! {
    /// What each domain begins with (ERDT; Intel Resource Director Technology Architecture Specification 1.1).
    ErdtDomainHead 0 of 4 {
        type_: u16 @ 0, length: u16 @ 2,
    }
}

view! {
    /// Resource Management Domain Description (RMDD) (ERDT; Intel Resource Director Technology Architecture Specification
    /// 1.1).
    ErdtDomainResourceManagementDomainDescriptionRmdd 0 of 34 {
        type_: u16 @ 0, length: u16 @ 2, flags: u16 @ 4, number_of_i_o_l3_slices: u16 @ 6,
        number_of_i_o_l3_sets: u8 @ 8, number_of_i_o_l3_ways: u8 @ 9, reserved: u64 @ 10, domain_id: u16 @ 18,
        max_rmid: u32 @ 20, control_register_base_address: u64 @ 24, control_register_size_in_4_kb_pages: u16 @ 32,
    }
    lists {
        structures: ErdtStructure = (|_| 34, |_| usize::MAX, |b| length(number(b, 2, 2))),
    }
    constants {
        FLAGS_CPU_L3_DOMAIN: u16 = 0x1, FLAGS_I_O_L3_DOMAIN: u16 = 0x2,
    }
}

view! {
    /// What each structure begins with (ERDT; Intel Resource Director Technology Architecture Specification 1.1).
    ErdtStructureHead 0 of 4 {
        type_: u16 @ 0, length: u16 @ 2,
    }
}

view! {
    /// CPU Agent Collection Description (CACD) (ERDT; Intel Resource Director Technology Architecture Specification 1.1).
    ErdtStructureCpuAgentCollectionDescriptionCacd 0 of 8 {
        type_: u16 @ 0, length: u16 @ 2, reserved: u16 @ 4, domain_id: u16 @ 6,
    }
}

view! {
    /// Device Agent Collection Description (DACD) (ERDT; Intel Resource Director Technology Architecture Specification
    /// 1.1).
    ErdtStructureDeviceAgentCollectionDescriptionDacd 0 of 8 {
        type_: u16 @ 0, length: u16 @ 2, reserved: u16 @ 4, domain_id: u16 @ 6,
    }
    lists {
        devices: ErdtDevice = (|_| 8, |_| usize::MAX, |b| length(number(b, 1, 1))),
    }
}

view! {
    /// What each device begins with (ERDT; Intel Resource Director Technology Architecture Specification 1.1).
    ErdtDeviceHead 0 of 6 {
        type_: u8 @ 0, length: u8 @ 1, pci_segment_number: u16 @ 2, reserved: u8 @ 4, start_bus_number: u8 @ 5,
    }
}

view! {
    /// PCI Endpoint Device (ERDT; Intel Resource Director Technology Architecture Specification 1.1).
    ErdtDevicePciEndpointDevice 0 of 6 {
        type_: u8 @ 0, length: u8 @ 1, pci_segment_number: u16 @ 2, reserved: u8 @ 4, start_bus_number: u8 @ 5,
    }
}

view! {
    /// PCI Sub-hierarchy (ERDT; Intel Resource Director Technology Architecture Specification 1.1).
    ErdtDevicePciSubHierarchy 0 of 6 {
        type_: u8 @ 0, length: u8 @ 1, pci_segment_number: u16 @ 2, reserved: u8 @ 4, start_bus_number: u8 @ 5,
    }
}

view! {
    /// Cache Monitoring Registers for CPU Agents (CMRC) (ERDT; Intel Resource Director Technology Architecture
    /// Specification 1.1).
    ErdtStructureCacheMonitoringRegistersForCpuAgentsCmrc 0 of 48 {
        type_: u16 @ 0, length: u16 @ 2, reserved: u32 @ 4, flags: u32 @ 8, register_indexing_function: u8 @ 12,
        reserved_2: 11 @ 13, cmt_register_block_base_address: u64 @ 24, cmt_register_block_size: u32 @ 32,
        cmt_register_clump_size: u16 @ 36, cmt_register_clump_stride: u16 @ 38,
        cmt_counter_upscaling_factor: u64 @ 40,
    }
}

view! {
    /// Memory-bandwidth Monitoring Registers for CPU Agents (MMRC) (ERDT; Intel Resource Director Technology Architecture
    /// Specification 1.1).
    ErdtStructureMemoryBandwidthMonitoringRegistersForCpuAgentsMmrc 0 of 56 {
        type_: u16 @ 0, length: u16 @ 2, reserved: u32 @ 4, flags: u32 @ 8, register_indexing_function: u8 @ 12,
        reserved_2: 11 @ 13, mbm_register_block_base_address: u64 @ 24, mbm_register_block_size: u32 @ 32,
        mbm_counter_width: u8 @ 36, mbm_counter_upscaling_factor: u64 @ 37, reserved_3: 7 @ 45,
        correction_factor_list_length: u32 @ 52,
    }
}

view! {
    /// Memory-bandwidth Allocation Registers for CPU Agents (MARC) (ERDT; Intel Resource Director Technology Architecture
    /// Specification 1.1).
    ErdtStructureMemoryBandwidthAllocationRegistersForCpuAgentsMarc 0 of 48 {
        type_: u16 @ 0, length: u16 @ 2, reserved: u16 @ 4, flags: u16 @ 6, register_indexing_function: u8 @ 8,
        reserved_2: 7 @ 9, mba_optimal_bandwidth_register_base_address: u64 @ 16,
        mba_minimum_bandwidth_register_base_address: u64 @ 24, mba_maximum_bandwidth_register_base_address: u64 @ 32,
        mba_register_block_size: u32 @ 40, mba_bandwidth_control_window_range: u32 @ 44,
    }
    constants {
        FLAGS_OPTIMAL_BANDWIDTH: u16 = 0x1, FLAGS_MINIMUM_BANDWIDTH: u16 = 0x2, FLAGS_MAXIMUM_BANDWIDTH: u16 = 0x4,
    }
}

view! {
    /// Cache Allocation Registers for CPU Agents (CARC) (ERDT; Intel Resource Director Technology Architecture
    /// Specification 1.1).
    ErdtStructureCacheAllocationRegistersForCpuAgentsCarc 0 of 4 {
        type_: u16 @ 0, length: u16 @ 2,
    }
}

view! {
    /// Cache Monitoring Registers for Device Agents (CMRD) (ERDT; Intel Resource Director Technology Architecture
    /// Specification 1.1).
    ErdtStructureCacheMonitoringRegistersForDeviceAgentsCmrd 0 of 48 {
        type_: u16 @ 0, length: u16 @ 2, reserved: u32 @ 4, flags: u32 @ 8, register_indexing_function: u8 @ 12,
        reserved_2: 11 @ 13, register_base_address: u64 @ 24, register_block_size: u32 @ 32,
        cmt_register_offset: u16 @ 36, cmt_register_clump_size: u16 @ 38, cmt_counter_upscaling_factor: u64 @ 40,
    }
}

view! {
    /// I/O Bandwidth Monitoring Registers for Device Agents (IBRD) (ERDT; Intel Resource Director Technology Architecture
    /// Specification 1.1).
    ErdtStructureIOBandwidthMonitoringRegistersForDeviceAgentsIbrd 0 of 64 {
        type_: u16 @ 0, length: u16 @ 2, reserved: u32 @ 4, flags: u32 @ 8, register_indexing_function: u8 @ 12,
        reserved_2: 11 @ 13, register_base_address: u64 @ 24, register_block_size: u32 @ 32,
        total_i_o_bandwidth_register_offset: u16 @ 36, i_o_miss_bandwidth_register_offset: u16 @ 38,
        total_i_o_bandwidth_register_clump_size: u16 @ 40, i_o_miss_register_clump_size: u16 @ 42, reserved_3: 7 @ 44,
        i_o_bandwidth_counter_width: u8 @ 51, i_o_bandwidth_counter_upscaling_factor: u64 @ 52,
        correction_factor_list_length: u32 @ 60,
    }
}

view! {
    /// I/O Bandwidth Allocation Registers for Device Agents (IBAD) (ERDT; Intel Resource Director Technology Architecture
    /// Specification 1.1).
    ErdtStructureIOBandwidthAllocationRegistersForDeviceAgentsIbad 0 of 4 {
        type_: u16 @ 0, length: u16 @ 2,
    }
}

view! {
    /// Cache Allocation Registers for Device Agents (CARD) (ERDT; Intel Resource Director Technology Architecture
    /// Specification 1.1).
    ErdtStructureCacheAllocationRegistersForDeviceAgentsCard 0 of 40 {
        type_: u16 @ 0, length: u16 @ 2, reserved: u32 @ 4, flags: u32 @ 8, contention_bitmask: u32 @ 12,
        register_indexing_function: u8 @ 16, reserved_2: 7 @ 17, register_base_address: u64 @ 24,
        register_block_size: u32 @ 32, cat_register_offset: u16 @ 36, cat_register_block_size: u16 @ 38,
    }
    constants {
        FLAGS_CONTENTION_BITMASK_IS_VALID: u32 = 0x1, FLAGS_NON_CONTIGUOUS_BITMASKS_ARE_SUPPORTED: u32 = 0x2,
    }
}

view! {
    /// Memory Range and Region Mapping Table (MRRM; Intel Resource Director Technology Architecture Specification 1.1).
    Mrrm 36 of 64 {
        max_memory_regions_supported: u8 @ 36, region_assignment_type: u8 @ 37, reserved: 26 @ 38,
    }
    lists {
        ranges: MrrmRange = (|_| 64, |_| usize::MAX, |b| length(number(b, 2, 2))),
    }
}

view! {
    /// What each range begins with (MRRM; Intel Resource Director Technology Architecture Specification 1.1).
    MrrmRangeHead 0 of 4 {
        type_: u16 @ 0, length: u16 @ 2,
    }
}

view! {
    /// Memory Range (MRRM; Intel Resource Director Technology Architecture Specification 1.1).
    MrrmRangeMemoryRange 0 of 32 {
        type_: u16 @ 0, length: u16 @ 2, reserved: u32 @ 4, system_address_base: u64 @ 8,
        system_address_length: u64 @ 16, region_id_flags: u16 @ 24, static_local_region_id: u8 @ 26,
        static_remote_region_id: u8 @ 27, reserved_2: u32 @ 28,
    }
    constants {
        REGION_ID_FLAGS_LOCAL_REGION_ID_IS_VALID: u16 = 0x1, REGION_ID_FLAGS_REMOTE_REGION_ID_IS_VALID: u16 = 0x2,
    }
}

view! {
    /// Component Resource Attribute Table (CRAT; as Linux's drivers amdkfd and amdgpu declare them: AMD has published
    /// neither). Compared with no other reader: a hint.
    Crat 36 of 48 {
        total_entries: u32 @ 36, number_of_domains: u16 @ 40, reserved: 6 @ 42,
    }
    lists {
        entries: CratEntry = (|_| 48, |_| usize::MAX, |b| length(number(b, 1, 1))),
    }
}

view! {
    /// What each entry begins with (CRAT; as Linux's drivers amdkfd and amdgpu declare them: AMD has published neither).
    /// Compared with no other reader: a hint.
    CratEntryHead 0 of 4 {
        type_: u8 @ 0, length: u8 @ 1, reserved: u16 @ 2,
    }
}

view! {
    /// Compute Unit Affinity (CRAT; as Linux's drivers amdkfd and amdgpu declare them: AMD has published neither).
    /// Compared with no other reader: a hint.
    CratEntryComputeUnitAffinity 0 of 40 {
        type_: u8 @ 0, length: u8 @ 1, reserved: u16 @ 2, flags: u32 @ 4, proximity_domain: u32 @ 8,
        processor_id_low: u32 @ 12, number_of_cpu_cores: u16 @ 16, number_of_simd_cores: u16 @ 18,
        max_waves_per_simd: u16 @ 20, i_o_count: u16 @ 22, hsa_capability: u16 @ 24, lds_size_in_kb: u16 @ 26,
        wave_front_size: u8 @ 28, number_of_banks: u8 @ 29, micro_engine_id: u16 @ 30, number_of_arrays: u8 @ 32,
        compute_units_per_array: u8 @ 33, simds_per_compute_unit: u8 @ 34,
        max_scratch_slots_per_compute_unit: u8 @ 35, reserved_2: u32 @ 36,
    }
    constants {
        FLAGS_ENABLED: u32 = 0x1, FLAGS_HOT_PLUGGABLE: u32 = 0x2, FLAGS_CPU_PRESENT: u32 = 0x4,
        FLAGS_GPU_PRESENT: u32 = 0x8, FLAGS_IOMMU_PRESENT: u32 = 0x10,
    }
}

view! {
    /// Memory Affinity (CRAT; as Linux's drivers amdkfd and amdgpu declare them: AMD has published neither). Compared
    /// with no other reader: a hint.
    CratEntryMemoryAffinity 0 of 40 {
        type_: u8 @ 0, length: u8 @ 1, reserved: u16 @ 2, flags: u32 @ 4, proximity_domain: u32 @ 8,
        base_address: u64 @ 12, length_2: u64 @ 20, width: u32 @ 28, reserved_2: u64 @ 32,
    }
    constants {
        FLAGS_ENABLED: u32 = 0x1, FLAGS_HOT_PLUGGABLE: u32 = 0x2, FLAGS_NON_VOLATILE: u32 = 0x4,
    }
}

view! {
    /// Cache Affinity (CRAT; as Linux's drivers amdkfd and amdgpu declare them: AMD has published neither). Compared with
    /// no other reader: a hint.
    CratEntryCacheAffinity 0 of 64 {
        type_: u8 @ 0, length: u8 @ 1, reserved: u16 @ 2, flags: u32 @ 4, processor_id_low: u32 @ 8,
        sibling_map: 32 @ 12, cache_size: u32 @ 44, cache_level: u8 @ 48, lines_per_tag: u8 @ 49,
        cache_line_size: u16 @ 50, associativity: u8 @ 52, cache_properties: u8 @ 53, cache_latency: u16 @ 54,
        reserved_2: u64 @ 56,
    }
}

view! {
    /// TLB Affinity (CRAT; as Linux's drivers amdkfd and amdgpu declare them: AMD has published neither). Compared with
    /// no other reader: a hint.
    CratEntryTlbAffinity 0 of 64 {
        type_: u8 @ 0, length: u8 @ 1, reserved: u16 @ 2, flags: u32 @ 4, processor_id_low: u32 @ 8,
        sibling_map: 32 @ 12, tlb_level: u32 @ 44, data_tlb_associativity_2_mb: u8 @ 48, data_tlb_size_2_mb: u8 @ 49,
        instruction_tlb_associativity_2_mb: u8 @ 50, instruction_tlb_size_2_mb: u8 @ 51,
        data_tlb_associativity_4_kb: u8 @ 52, data_tlb_size_4_kb: u8 @ 53,
        instruction_tlb_associativity_4_kb: u8 @ 54, instruction_tlb_size_4_kb: u8 @ 55,
        data_tlb_associativity_1_gb: u8 @ 56, data_tlb_size_1_gb: u8 @ 57,
        instruction_tlb_associativity_1_gb: u8 @ 58, instruction_tlb_size_1_gb: u8 @ 59, reserved_2: u32 @ 60,
    }
}

view! {
    /// FPU Affinity (CRAT; as Linux's drivers amdkfd and amdgpu declare them: AMD has published neither). Compared with
    /// no other reader: a hint.
    CratEntryFpuAffinity 0 of 64 {
        type_: u8 @ 0, length: u8 @ 1, reserved: u16 @ 2, flags: u32 @ 4, processor_id_low: u32 @ 8,
        sibling_map: 32 @ 12, fpu_size: u32 @ 44, reserved_2: 16 @ 48,
    }
    constants {
        FLAGS_ENABLED: u32 = 0x1,
    }
}

view! {
    /// I/O Affinity (CRAT; as Linux's drivers amdkfd and amdgpu declare them: AMD has published neither). Compared with
    /// no other reader: a hint.
    CratEntryIOAffinity 0 of 64 {
        type_: u8 @ 0, length: u8 @ 1, reserved: u16 @ 2, flags: u32 @ 4, proximity_domain_from: u32 @ 8,
        proximity_domain_to: u32 @ 12, i_o_interface_type: u8 @ 16, version_major: u8 @ 17, version_minor: u16 @ 18,
        minimum_latency: u32 @ 20, maximum_latency: u32 @ 24, minimum_bandwidth_in_mb_s: u32 @ 28,
        maximum_bandwidth_in_mb_s: u32 @ 32, recommended_transfer_size: u32 @ 36, reserved_2: 24 @ 40,
    }
    constants {
        FLAGS_ENABLED: u32 = 0x1, FLAGS_NON_COHERENT: u32 = 0x2, FLAGS_NO_32_BIT_ATOMICS: u32 = 0x4,
        FLAGS_NO_64_BIT_ATOMICS: u32 = 0x8, FLAGS_NO_PEER_TO_PEER_DMA: u32 = 0x10,
        FLAGS_BIDIRECTIONAL: u32 = 0x80000000,
    }
}

view! {
    /// Video Firmware Content Table (VFCT; as Linux's drivers amdkfd and amdgpu declare them: AMD has published neither).
    /// Compared with no other reader: a hint.
    Vfct 36 of 76 {
        table_uuid: 16 @ 36, vbios_image_offset: u32 @ 52, lib1_image_offset: u32 @ 56, reserved: 16 @ 60,
    }
}

view! {
    /// VBIOS Image (VFCT; as Linux's drivers amdkfd and amdgpu declare them: AMD has published neither). Compared with no
    /// other reader: a hint.
    VfctImage 0 of 28 {
        pci_bus: u32 @ 0, pci_device: u32 @ 4, pci_function: u32 @ 8, vendor_id: u16 @ 12, device_id: u16 @ 14,
        subsystem_vendor_id: u16 @ 16, subsystem_id: u16 @ 18, revision: u32 @ 20, image_length: u32 @ 24,
    }
}

view! {
    /// AMD Secure Processor Table (ASPT; AMD Secure Processor ACPI Table 56956).
    Aspt 36 of 40 {
        number_of_structures: u32 @ 36,
    }
    lists {
        structures: AsptStructure = (|_| 40, |b| length(number(b, 36, 4)), |b| length(number(b, 2, 2))),
    }
}

view! {
    /// What each structure begins with (ASPT; AMD Secure Processor ACPI Table 56956).
    AsptStructureHead 0 of 4 {
        type_: u16 @ 0, length: u16 @ 2,
    }
}

view! {
    /// ASP Global Registers (ASPT; AMD Secure Processor ACPI Table 56956).
    AsptStructureAspGlobalRegisters 0 of 32 {
        type_: u16 @ 0, length: u16 @ 2, reserved: u32 @ 4, feature_register_address: u64 @ 8,
        interrupt_enable_register_address: u64 @ 16, interrupt_status_register_address: u64 @ 24,
    }
}

view! {
    /// SEV Mailbox Registers (ASPT; AMD Secure Processor ACPI Table 56956).
    AsptStructureSevMailboxRegisters 0 of 32 {
        type_: u16 @ 0, length: u16 @ 2, mailbox_interrupt_id: u8 @ 4, reserved: 3 @ 5,
        cmdresp_register_address: u64 @ 8, cmdbufaddr_lo_register_address: u64 @ 16,
        cmdbufaddr_hi_register_address: u64 @ 24,
    }
}

view! {
    /// ACPI Mailbox Registers (ASPT; AMD Secure Processor ACPI Table 56956).
    AsptStructureAcpiMailboxRegisters 0 of 16 {
        type_: u16 @ 0, length: u16 @ 2, reserved: u32 @ 4, cmdresp_register_address: u64 @ 8,
    }
}

view! {
    /// DMA TXT Protection Ranges Table (DTPR; Intel TXT DMA Protection Ranges 0.73).
    Dtpr 36 of 44 {
        flags: u32 @ 36, instance_count: u32 @ 40,
    }
    lists {
        instances: DtprInstance = (|_| 44, |b| length(number(b, 40, 4)), |b|
            8usize.saturating_add(8usize.saturating_mul(length(number(b, 4, 4))))),
    }
}

view! {
    /// TPR Instance (DTPR; Intel TXT DMA Protection Ranges 0.73).
    DtprInstance 0 of 8 {
        flags: u32 @ 0, tpr_count: u32 @ 4,
    }
    lists {
        ranges: DtprRange = (|_| 8, |b| length(number(b, 4, 4)), |_| 8),
    }
}

view! {
    /// TPR (DTPR; Intel TXT DMA Protection Ranges 0.73).
    DtprRange 0 of 8 {
        tprn_base_register: u64 @ 0,
    }
    constants {
        TPRN_BASE_REGISTER_READ_ONLY: u64 = 0x8, TPRN_BASE_REGISTER_DISABLED: u64 = 0x10,
        TPRN_BASE_REGISTER_ADDRESS_IN_MB_MASK: u64 = 0xfffffffffff00000,
        TPRN_BASE_REGISTER_ADDRESS_IN_MB_SHIFT: u32 = 20,
    }
}

view! {
    /// Key Programming Interface for Root Complex IDE Table (KEYP; Intel Root Complex IDE Programming Guide).
    Keyp 36 of 40 {
        reserved: u32 @ 36,
    }
    lists {
        structures: KeypStructure = (|_| 40, |_| usize::MAX, |b| length(number(b, 2, 2))),
    }
}

view! {
    /// What each structure begins with (KEYP; Intel Root Complex IDE Programming Guide).
    KeypStructureHead 0 of 4 {
        type_: u8 @ 0, reserved: u8 @ 1, length: u16 @ 2,
    }
}

view! {
    /// Key Configuration Unit (KEYP; Intel Root Complex IDE Programming Guide).
    KeypStructureKeyConfigurationUnit 0 of 16 {
        type_: u8 @ 0, reserved: u8 @ 1, length: u16 @ 2, protocol_type: u8 @ 4, version: u8 @ 5,
        root_port_count: u8 @ 6, flags: u8 @ 7, register_base_address: u64 @ 8,
    }
    lists {
        root_ports: KeypRootPort = (|_| 16, |b| length(number(b, 6, 1)), |_| 4),
    }
    constants {
        FLAGS_TVM_USABLE: u8 = 0x1,
    }
}

view! {
    /// Root Port (KEYP; Intel Root Complex IDE Programming Guide).
    KeypRootPort 0 of 4 {
        pci_segment: u16 @ 0, pci_bus: u8 @ 2, pci_device_and_function: u8 @ 3,
    }
    constants {
        PCI_DEVICE_AND_FUNCTION_DEVICE_MASK: u8 = 0xf8, PCI_DEVICE_AND_FUNCTION_DEVICE_SHIFT: u32 = 3,
        PCI_DEVICE_AND_FUNCTION_FUNCTION_MASK: u8 = 0x7, PCI_DEVICE_AND_FUNCTION_FUNCTION_SHIFT: u32 = 0,
    }
}

view! {
    /// TD Event Log Table (TDEL; Intel Guest-Host-Communication Interface for TDX).
    Tdel 36 of 56 {
        reserved: u32 @ 36, log_area_minimum_length_laml: u64 @ 40, log_area_start_address_lasa: u64 @ 48,
    }
}

view! {
    /// SoundWire File Table (SWFT; MIPI DisCo Specification for SoundWire 2.1).
    Swft 36 of 36 { }
    lists {
        files: SwftFile = (|_| 36, |_| usize::MAX, |b| length(number(b, 8, 4))),
    }
}

view! {
    /// File (SWFT; MIPI DisCo Specification for SoundWire 2.1).
    SwftFile 0 of 12 {
        vendor_id: u16 @ 0, file_id: u32 @ 2, file_version: u16 @ 6, file_length: u32 @ 8,
    }
}

view! {
    /// Trusted Computing Platform 2 Table (TPM2; TCG ACPI Specification 1.2).
    Tpm2 36 of 76 {
        platform_class: u16 @ 36, reserved: u16 @ 38, address_of_control_area: u64 @ 40, start_method: u32 @ 48,
        log_area_minimum_length_laml: u32 @ 64, log_area_start_address_lasa: u64 @ 68,
    }
    constants {
        PLATFORM_CLASS_CLIENT: u16 = 0x0, PLATFORM_CLASS_SERVER: u16 = 0x1,
        START_METHODS_ACPI_START_METHOD: u32 = 0x2, START_METHODS_MEMORY_MAPPED_I_O_TIS: u32 = 0x6,
        START_METHODS_COMMAND_RESPONSE_BUFFER: u32 = 0x7,
        START_METHODS_COMMAND_RESPONSE_BUFFER_WITH_ACPI_START_METHOD: u32 = 0x8,
        START_METHODS_COMMAND_RESPONSE_BUFFER_WITH_ARM_SMC_OR_HVC: u32 = 0xb,
        START_METHODS_FIFO_OVER_I2C_BUS: u32 = 0xc,
        START_METHODS_COMMAND_RESPONSE_BUFFER_WITH_AMD_MAILBOX_NOTIFICATION: u32 = 0xd,
        START_METHODS_COMMAND_RESPONSE_BUFFER_WITH_ARM_FF_A: u32 = 0xf,
    }
}

view! {
    /// Trusted Computing Platform 2 Table, with the fields of parameters (TPM2; TCG ACPI Specification 1.2).
    Tpm2Parameters 36 of 76 {
        platform_class: u16 @ 36, reserved: u16 @ 38, address_of_control_area: u64 @ 40, start_method: u32 @ 48,
        start_method_specific_parameters: 12 @ 52, log_area_minimum_length_laml: u32 @ 64,
        log_area_start_address_lasa: u64 @ 68,
    }
    constants {
        PLATFORM_CLASS_CLIENT: u16 = 0x0, PLATFORM_CLASS_SERVER: u16 = 0x1,
    }
}

view! {
    /// Trusted Computing Platform 2 Table, with the fields of smc (TPM2; TCG ACPI Specification 1.2).
    Tpm2Smc 36 of 76 {
        platform_class: u16 @ 36, reserved: u16 @ 38, address_of_control_area: u64 @ 40, start_method: u32 @ 48,
        interrupt: u32 @ 52, flags: u8 @ 56, operation_flags: u8 @ 57, reserved_2: u16 @ 58,
        smc_hvc_function_id: u32 @ 60, log_area_minimum_length_laml: u32 @ 64, log_area_start_address_lasa: u64 @ 68,
    }
    constants {
        PLATFORM_CLASS_CLIENT: u16 = 0x0, PLATFORM_CLASS_SERVER: u16 = 0x1, FLAGS_INTERRUPTS_ARE_SUPPORTED: u8 = 0x1,
        FLAGS_ACPI_START_METHOD_IS_REQUIRED: u8 = 0x2, FLAGS_LEVEL_TRIGGERED: u8 = 0x4,
        OPERATION_FLAGS_TPM_IDLE_IS_SUPPORTED: u8 = 0x1,
    }
}

view! {
    /// Trusted Computing Platform Alliance Capabilities Table (TCPA; TCG ACPI Specification 1.2).
    Tcpa 36 of 38 {
        platform_class: u16 @ 36,
    }
    constants {
        PLATFORM_CLASS_CLIENT: u16 = 0x0, PLATFORM_CLASS_SERVER: u16 = 0x1,
    }
}

view! {
    /// Trusted Computing Platform Alliance Capabilities Table, with the fields of client (TCPA; TCG ACPI Specification
    /// 1.2).
    TcpaClient 36 of 50 {
        platform_class: u16 @ 36, log_area_minimum_length_laml: u32 @ 38, log_area_start_address_lasa: u64 @ 42,
    }
    constants {
        PLATFORM_CLASS_CLIENT: u16 = 0x0, PLATFORM_CLASS_SERVER: u16 = 0x1,
    }
}

view! {
    /// Trusted Computing Platform Alliance Capabilities Table, with the fields of server (TCPA; TCG ACPI Specification
    /// 1.2).
    TcpaServer 36 of 100 {
        platform_class: u16 @ 36, reserved: u16 @ 38, log_area_minimum_length_laml: u64 @ 40,
        log_area_start_address_lasa: u64 @ 48, tcg_specification_revision: u16 @ 56, device_flags: u8 @ 58,
        interrupt_flags: u8 @ 59, gpe: u8 @ 60, reserved_2: 3 @ 61, global_system_interrupt: u32 @ 64,
        base_address: register @ 68, reserved_3: u32 @ 80, configuration_address: register @ 84,
        pci_segment_group_number: u8 @ 96, pci_bus_number: u8 @ 97, pci_device_number: u8 @ 98,
        pci_function_number: u8 @ 99,
    }
    constants {
        PLATFORM_CLASS_CLIENT: u16 = 0x0, PLATFORM_CLASS_SERVER: u16 = 0x1, DEVICE_FLAGS_PCI_DEVICE: u8 = 0x1,
        DEVICE_FLAGS_BUS_IS_PLUG_AND_PLAY: u8 = 0x2, DEVICE_FLAGS_CONFIGURATION_ADDRESS_IS_VALID: u8 = 0x4,
        INTERRUPT_FLAGS_INTERRUPT_MODE: u8 = 0x1, INTERRUPT_FLAGS_INTERRUPT_POLARITY: u8 = 0x2,
        INTERRUPT_FLAGS_SCI_TRIGGERED_THROUGH_GPE: u8 = 0x4, INTERRUPT_FLAGS_I_O_APIC_INTERRUPT: u8 = 0x8,
    }
}

view! {
    /// D-RTM Resources Table (DRTM; TCG D-RTM Architecture 1.0).
    Drtm 36 of 100 {
        dl_entry_base: u64 @ 36, dl_entry_length: u64 @ 44, dl_entry32: u32 @ 52, dl_entry64: u64 @ 56,
        dlme_exit: u64 @ 64, log_area_start: u64 @ 72, log_area_length: u32 @ 80, architecture_dependent: u64 @ 84,
        drt_flags: u32 @ 92, validated_table_count: u32 @ 96,
    }
    lists {
        resources: DrtmResource = (|_| 4, |b| length(number(b, 0, 4)), |_| 16),
    }
    constants {
        DRT_FLAGS_NAMESPACE_IN_TCB: u32 = 0x1, DRT_FLAGS_GAP_CODE_ON_S3_RESUME: u32 = 0x2,
        DRT_FLAGS_GAP_CODE_ON_DLME_EXIT: u32 = 0x4, DRT_FLAGS_PCR_AUTHORITIES_CHANGED: u32 = 0x8,
    }
}

view! {
    /// Resource (DRTM; TCG D-RTM Architecture 1.0).
    DrtmResource 0 of 16 {
        size: 7 @ 0, type_: u8 @ 7, address: u64 @ 8,
    }
}

view! {
    /// Secure Devices Table (SDEV; ACPI 6.5, section 5.2.27).
    Sdev 36 of 36 { }
    lists {
        structures: SdevStructure = (|_| 36, |_| usize::MAX, |b| length(number(b, 2, 2))),
    }
}

view! {
    /// What each structure begins with (SDEV; ACPI 6.5, section 5.2.27).
    SdevStructureHead 0 of 4 {
        type_: u8 @ 0, flags: u8 @ 1, length: u16 @ 2,
    }
    constants {
        FLAGS_ALLOW_HANDING_OFF_TO_NON_SECURE_OS: u8 = 0x1, FLAGS_SECURE_ACCESS_COMPONENTS_ARE_PRESENT: u8 = 0x2,
    }
}

view! {
    /// ACPI_NAMESPACE_DEVICE based Secure Device Structure (SDEV; ACPI 6.5, section 5.2.27).
    SdevStructureAcpiNamespaceDeviceBasedSecureDeviceStructure 0 of 12 {
        type_: u8 @ 0, flags: u8 @ 1, length: u16 @ 2, device_id_offset: u16 @ 4, device_id_length: u16 @ 6,
        vendor_specific_data_offset: u16 @ 8, vendor_specific_data_length: u16 @ 10,
    }
    constants {
        FLAGS_ALLOW_HANDING_OFF_TO_NON_SECURE_OS: u8 = 0x1, FLAGS_SECURE_ACCESS_COMPONENTS_ARE_PRESENT: u8 = 0x2,
    }
}

view! {
    /// ACPI_NAMESPACE_DEVICE based Secure Device Structure, with the fields of sdev components (SDEV; ACPI 6.5, section
    /// 5.2.27).
    SdevStructureAcpiNamespaceDeviceBasedSecureDeviceStructureSdevComponents 0 of 16 {
        type_: u8 @ 0, flags: u8 @ 1, length: u16 @ 2, device_id_offset: u16 @ 4, device_id_length: u16 @ 6,
        vendor_specific_data_offset: u16 @ 8, vendor_specific_data_length: u16 @ 10,
        secure_access_components_offset: u16 @ 12, secure_access_components_length: u16 @ 14,
    }
    constants {
        FLAGS_ALLOW_HANDING_OFF_TO_NON_SECURE_OS: u8 = 0x1, FLAGS_SECURE_ACCESS_COMPONENTS_ARE_PRESENT: u8 = 0x2,
    }
}

view! {
    /// What each component begins with (SDEV; ACPI 6.5, section 5.2.27).
    SdevComponentHead 0 of 4 {
        type_: u8 @ 0, length: u16 @ 2,
    }
}

view! {
    /// Identification Based Secure Access Component (SDEV; ACPI 6.5, section 5.2.27).
    SdevComponentIdentificationBasedSecureAccessComponent 0 of 19 {
        type_: u8 @ 0, length: u16 @ 2, hardware_identifier_offset: u16 @ 4, hardware_identifier_length: u16 @ 6,
        subsystem_identifier_offset: u16 @ 8, subsystem_identifier_length: u16 @ 10, hardware_revision: u16 @ 12,
        hardware_revision_present: u8 @ 14, class_code_present: u8 @ 15, pci_compatible_base_class: u8 @ 16,
        pci_compatible_sub_class: u8 @ 17, pci_compatible_programming_interface: u8 @ 18,
    }
}

view! {
    /// Memory-based Secure Access Component (SDEV; ACPI 6.5, section 5.2.27).
    SdevComponentMemoryBasedSecureAccessComponent 0 of 24 {
        type_: u8 @ 0, length: u16 @ 2, reserved: u32 @ 4, memory_address_base: u64 @ 8, memory_length: u64 @ 16,
    }
}

view! {
    /// PCIe Endpoint Device based Device Structure (SDEV; ACPI 6.5, section 5.2.27).
    SdevStructurePcieEndpointDeviceBasedDeviceStructure 0 of 16 {
        type_: u8 @ 0, flags: u8 @ 1, length: u16 @ 2, pci_segment_number: u16 @ 4, start_bus_number: u16 @ 6,
        pci_path_offset: u16 @ 8, pci_path_length: u16 @ 10, vendor_specific_data_offset: u16 @ 12,
        vendor_specific_data_length: u16 @ 14,
    }
    constants {
        FLAGS_ALLOW_HANDING_OFF_TO_NON_SECURE_OS: u8 = 0x1, FLAGS_SECURE_ACCESS_COMPONENTS_ARE_PRESENT: u8 = 0x2,
    }
}

view! {
    /// PCI Path (SDEV; ACPI 6.5, section 5.2.27).
    SdevPath 0 of 2 {
        device: u8 @ 0, function: u8 @ 1,
    }
}

view! {
    /// Confidential Computing Event Log Table (CCEL; ACPI 6.5, section 5.2.36).
    Ccel 36 of 56 {
        cc_type: u8 @ 36, cc_sub_type: u8 @ 37, reserved: u16 @ 38, log_area_minimum_length_laml: u64 @ 40,
        log_area_start_address_lasa: u64 @ 48,
    }
}

view! {
    /// Storage Volume Key Location Table (SVKL; ACPI 6.5, section 5.2.34.2, Intel TDX).
    Svkl 36 of 40 {
        key_count: u32 @ 36,
    }
    lists {
        keies: SvklKey = (|_| 40, |b| length(number(b, 36, 4)), |_| 16),
    }
}

view! {
    /// Storage Volume Key (SVKL; ACPI 6.5, section 5.2.34.2, Intel TDX).
    SvklKey 0 of 16 {
        key_type: u16 @ 0, key_format: u16 @ 2, key_size: u32 @ 4, key_address: u64 @ 8,
    }
    constants {
        KEY_FORMAT_RAW_BINARY: u16 = 0x0,
    }
}

/// `SERIAL_SUBTYPES_FULL_16550`.
pub const SERIAL_SUBTYPES_FULL_16550: u32 = 0x0;
/// `SERIAL_SUBTYPES_FULL_16450`.
pub const SERIAL_SUBTYPES_FULL_16450: u32 = 0x1;
/// `SERIAL_SUBTYPES_MAX311XE_SPI`.
pub const SERIAL_SUBTYPES_MAX311XE_SPI: u32 = 0x2;
/// `SERIAL_SUBTYPES_ARM_PL011`.
pub const SERIAL_SUBTYPES_ARM_PL011: u32 = 0x3;
/// `SERIAL_SUBTYPES_MSM8X60`.
pub const SERIAL_SUBTYPES_MSM8X60: u32 = 0x4;
/// `SERIAL_SUBTYPES_NVIDIA_16550`.
pub const SERIAL_SUBTYPES_NVIDIA_16550: u32 = 0x5;
/// `SERIAL_SUBTYPES_TI_OMAP`.
pub const SERIAL_SUBTYPES_TI_OMAP: u32 = 0x6;
/// `SERIAL_SUBTYPES_APM88XXXX`.
pub const SERIAL_SUBTYPES_APM88XXXX: u32 = 0x8;
/// `SERIAL_SUBTYPES_MSM8974`.
pub const SERIAL_SUBTYPES_MSM8974: u32 = 0x9;
/// `SERIAL_SUBTYPES_SAM5250`.
pub const SERIAL_SUBTYPES_SAM5250: u32 = 0xa;
/// `SERIAL_SUBTYPES_INTEL_USIF`.
pub const SERIAL_SUBTYPES_INTEL_USIF: u32 = 0xb;
/// `SERIAL_SUBTYPES_I_MX_6`.
pub const SERIAL_SUBTYPES_I_MX_6: u32 = 0xc;
/// `SERIAL_SUBTYPES_ARM_SBSA_GENERIC_32_BIT_ACCESSES`.
pub const SERIAL_SUBTYPES_ARM_SBSA_GENERIC_32_BIT_ACCESSES: u32 = 0xd;
/// `SERIAL_SUBTYPES_ARM_SBSA_GENERIC`.
pub const SERIAL_SUBTYPES_ARM_SBSA_GENERIC: u32 = 0xe;
/// `SERIAL_SUBTYPES_ARM_DCC`.
pub const SERIAL_SUBTYPES_ARM_DCC: u32 = 0xf;
/// `SERIAL_SUBTYPES_BCM2835`.
pub const SERIAL_SUBTYPES_BCM2835: u32 = 0x10;
/// `SERIAL_SUBTYPES_SDM845_WITH_A_CLOCK_OF_1_8432_MHZ`.
pub const SERIAL_SUBTYPES_SDM845_WITH_A_CLOCK_OF_1_8432_MHZ: u32 = 0x11;
/// `SERIAL_SUBTYPES_16550_BY_GENERIC_ADDRESS`.
pub const SERIAL_SUBTYPES_16550_BY_GENERIC_ADDRESS: u32 = 0x12;
/// `SERIAL_SUBTYPES_SDM845_WITH_A_CLOCK_OF_7_372_MHZ`.
pub const SERIAL_SUBTYPES_SDM845_WITH_A_CLOCK_OF_7_372_MHZ: u32 = 0x13;
/// `SERIAL_SUBTYPES_INTEL_LPSS`.
pub const SERIAL_SUBTYPES_INTEL_LPSS: u32 = 0x14;
/// `SERIAL_SUBTYPES_RISC_V_SBI_CONSOLE`.
pub const SERIAL_SUBTYPES_RISC_V_SBI_CONSOLE: u32 = 0x15;
/// `WDAT_ACTIONS_RESET`.
pub const WDAT_ACTIONS_RESET: u32 = 0x1;
/// `WDAT_ACTIONS_QUERY_CURRENT_COUNTDOWN_PERIOD`.
pub const WDAT_ACTIONS_QUERY_CURRENT_COUNTDOWN_PERIOD: u32 = 0x4;
/// `WDAT_ACTIONS_QUERY_COUNTDOWN_PERIOD`.
pub const WDAT_ACTIONS_QUERY_COUNTDOWN_PERIOD: u32 = 0x5;
/// `WDAT_ACTIONS_SET_COUNTDOWN_PERIOD`.
pub const WDAT_ACTIONS_SET_COUNTDOWN_PERIOD: u32 = 0x6;
/// `WDAT_ACTIONS_QUERY_RUNNING_STATE`.
pub const WDAT_ACTIONS_QUERY_RUNNING_STATE: u32 = 0x8;
/// `WDAT_ACTIONS_SET_RUNNING_STATE`.
pub const WDAT_ACTIONS_SET_RUNNING_STATE: u32 = 0x9;
/// `WDAT_ACTIONS_QUERY_STOPPED_STATE`.
pub const WDAT_ACTIONS_QUERY_STOPPED_STATE: u32 = 0xa;
/// `WDAT_ACTIONS_SET_STOPPED_STATE`.
pub const WDAT_ACTIONS_SET_STOPPED_STATE: u32 = 0xb;
/// `WDAT_ACTIONS_QUERY_REBOOT`.
pub const WDAT_ACTIONS_QUERY_REBOOT: u32 = 0x10;
/// `WDAT_ACTIONS_SET_REBOOT`.
pub const WDAT_ACTIONS_SET_REBOOT: u32 = 0x11;
/// `WDAT_ACTIONS_QUERY_SHUTDOWN`.
pub const WDAT_ACTIONS_QUERY_SHUTDOWN: u32 = 0x12;
/// `WDAT_ACTIONS_SET_SHUTDOWN`.
pub const WDAT_ACTIONS_SET_SHUTDOWN: u32 = 0x13;
/// `WDAT_ACTIONS_QUERY_WATCHDOG_STATUS`.
pub const WDAT_ACTIONS_QUERY_WATCHDOG_STATUS: u32 = 0x20;
/// `WDAT_ACTIONS_SET_WATCHDOG_STATUS`.
pub const WDAT_ACTIONS_SET_WATCHDOG_STATUS: u32 = 0x21;
/// `EINJ_ACTIONS_BEGIN_INJECTION_OPERATION`.
pub const EINJ_ACTIONS_BEGIN_INJECTION_OPERATION: u32 = 0x0;
/// `EINJ_ACTIONS_GET_TRIGGER_ERROR_ACTION_TABLE`.
pub const EINJ_ACTIONS_GET_TRIGGER_ERROR_ACTION_TABLE: u32 = 0x1;
/// `EINJ_ACTIONS_SET_ERROR_TYPE`.
pub const EINJ_ACTIONS_SET_ERROR_TYPE: u32 = 0x2;
/// `EINJ_ACTIONS_GET_ERROR_TYPE`.
pub const EINJ_ACTIONS_GET_ERROR_TYPE: u32 = 0x3;
/// `EINJ_ACTIONS_END_OPERATION`.
pub const EINJ_ACTIONS_END_OPERATION: u32 = 0x4;
/// `EINJ_ACTIONS_EXECUTE_OPERATION`.
pub const EINJ_ACTIONS_EXECUTE_OPERATION: u32 = 0x5;
/// `EINJ_ACTIONS_CHECK_BUSY_STATUS`.
pub const EINJ_ACTIONS_CHECK_BUSY_STATUS: u32 = 0x6;
/// `EINJ_ACTIONS_GET_COMMAND_STATUS`.
pub const EINJ_ACTIONS_GET_COMMAND_STATUS: u32 = 0x7;
/// `EINJ_ACTIONS_GET_EXECUTE_OPERATION_TIMINGS`.
pub const EINJ_ACTIONS_GET_EXECUTE_OPERATION_TIMINGS: u32 = 0x9;
/// `EINJ_ACTIONS_TRIGGER_ERROR`.
pub const EINJ_ACTIONS_TRIGGER_ERROR: u32 = 0xff;
/// `EINJ_INSTRUCTIONS_READ_REGISTER`.
pub const EINJ_INSTRUCTIONS_READ_REGISTER: u32 = 0x0;
/// `EINJ_INSTRUCTIONS_READ_REGISTER_VALUE`.
pub const EINJ_INSTRUCTIONS_READ_REGISTER_VALUE: u32 = 0x1;
/// `EINJ_INSTRUCTIONS_WRITE_REGISTER`.
pub const EINJ_INSTRUCTIONS_WRITE_REGISTER: u32 = 0x2;
/// `EINJ_INSTRUCTIONS_WRITE_REGISTER_VALUE`.
pub const EINJ_INSTRUCTIONS_WRITE_REGISTER_VALUE: u32 = 0x3;
/// `EINJ_INSTRUCTIONS_NOOP`.
pub const EINJ_INSTRUCTIONS_NOOP: u32 = 0x4;
/// `ERST_ACTIONS_BEGIN_WRITE_OPERATION`.
pub const ERST_ACTIONS_BEGIN_WRITE_OPERATION: u32 = 0x0;
/// `ERST_ACTIONS_BEGIN_READ_OPERATION`.
pub const ERST_ACTIONS_BEGIN_READ_OPERATION: u32 = 0x1;
/// `ERST_ACTIONS_BEGIN_CLEAR_OPERATION`.
pub const ERST_ACTIONS_BEGIN_CLEAR_OPERATION: u32 = 0x2;
/// `ERST_ACTIONS_END_OPERATION`.
pub const ERST_ACTIONS_END_OPERATION: u32 = 0x3;
/// `ERST_ACTIONS_SET_RECORD_OFFSET`.
pub const ERST_ACTIONS_SET_RECORD_OFFSET: u32 = 0x4;
/// `ERST_ACTIONS_EXECUTE_OPERATION`.
pub const ERST_ACTIONS_EXECUTE_OPERATION: u32 = 0x5;
/// `ERST_ACTIONS_CHECK_BUSY_STATUS`.
pub const ERST_ACTIONS_CHECK_BUSY_STATUS: u32 = 0x6;
/// `ERST_ACTIONS_GET_COMMAND_STATUS`.
pub const ERST_ACTIONS_GET_COMMAND_STATUS: u32 = 0x7;
/// `ERST_ACTIONS_GET_RECORD_IDENTIFIER`.
pub const ERST_ACTIONS_GET_RECORD_IDENTIFIER: u32 = 0x8;
/// `ERST_ACTIONS_SET_RECORD_IDENTIFIER`.
pub const ERST_ACTIONS_SET_RECORD_IDENTIFIER: u32 = 0x9;
/// `ERST_ACTIONS_GET_RECORD_COUNT`.
pub const ERST_ACTIONS_GET_RECORD_COUNT: u32 = 0xa;
/// `ERST_ACTIONS_BEGIN_DUMMY_WRITE_OPERATION`.
pub const ERST_ACTIONS_BEGIN_DUMMY_WRITE_OPERATION: u32 = 0xb;
/// `ERST_ACTIONS_GET_ERROR_LOG_ADDRESS_RANGE`.
pub const ERST_ACTIONS_GET_ERROR_LOG_ADDRESS_RANGE: u32 = 0xd;
/// `ERST_ACTIONS_GET_ERROR_LOG_ADDRESS_RANGE_LENGTH`.
pub const ERST_ACTIONS_GET_ERROR_LOG_ADDRESS_RANGE_LENGTH: u32 = 0xe;
/// `ERST_ACTIONS_GET_ERROR_LOG_ADDRESS_RANGE_ATTRIBUTES`.
pub const ERST_ACTIONS_GET_ERROR_LOG_ADDRESS_RANGE_ATTRIBUTES: u32 = 0xf;
/// `ERST_ACTIONS_GET_EXECUTE_OPERATION_TIMINGS`.
pub const ERST_ACTIONS_GET_EXECUTE_OPERATION_TIMINGS: u32 = 0x10;
/// `ERST_INSTRUCTIONS_READ_REGISTER`.
pub const ERST_INSTRUCTIONS_READ_REGISTER: u32 = 0x0;
/// `ERST_INSTRUCTIONS_READ_REGISTER_VALUE`.
pub const ERST_INSTRUCTIONS_READ_REGISTER_VALUE: u32 = 0x1;
/// `ERST_INSTRUCTIONS_WRITE_REGISTER`.
pub const ERST_INSTRUCTIONS_WRITE_REGISTER: u32 = 0x2;
/// `ERST_INSTRUCTIONS_WRITE_REGISTER_VALUE`.
pub const ERST_INSTRUCTIONS_WRITE_REGISTER_VALUE: u32 = 0x3;
/// `ERST_INSTRUCTIONS_NOOP`.
pub const ERST_INSTRUCTIONS_NOOP: u32 = 0x4;
/// `ERST_INSTRUCTIONS_LOAD_VAR1`.
pub const ERST_INSTRUCTIONS_LOAD_VAR1: u32 = 0x5;
/// `ERST_INSTRUCTIONS_LOAD_VAR2`.
pub const ERST_INSTRUCTIONS_LOAD_VAR2: u32 = 0x6;
/// `ERST_INSTRUCTIONS_STORE_VAR1`.
pub const ERST_INSTRUCTIONS_STORE_VAR1: u32 = 0x7;
/// `ERST_INSTRUCTIONS_ADD`.
pub const ERST_INSTRUCTIONS_ADD: u32 = 0x8;
/// `ERST_INSTRUCTIONS_SUBTRACT`.
pub const ERST_INSTRUCTIONS_SUBTRACT: u32 = 0x9;
/// `ERST_INSTRUCTIONS_ADD_VALUE`.
pub const ERST_INSTRUCTIONS_ADD_VALUE: u32 = 0xa;
/// `ERST_INSTRUCTIONS_SUBTRACT_VALUE`.
pub const ERST_INSTRUCTIONS_SUBTRACT_VALUE: u32 = 0xb;
/// `ERST_INSTRUCTIONS_STALL`.
pub const ERST_INSTRUCTIONS_STALL: u32 = 0xc;
/// `ERST_INSTRUCTIONS_STALL_WHILE_TRUE`.
pub const ERST_INSTRUCTIONS_STALL_WHILE_TRUE: u32 = 0xd;
/// `ERST_INSTRUCTIONS_SKIP_NEXT_INSTRUCTION_IF_TRUE`.
pub const ERST_INSTRUCTIONS_SKIP_NEXT_INSTRUCTION_IF_TRUE: u32 = 0xe;
/// `ERST_INSTRUCTIONS_GOTO`.
pub const ERST_INSTRUCTIONS_GOTO: u32 = 0xf;
/// `ERST_INSTRUCTIONS_SET_SRC_ADDRESS_BASE`.
pub const ERST_INSTRUCTIONS_SET_SRC_ADDRESS_BASE: u32 = 0x10;
/// `ERST_INSTRUCTIONS_SET_DST_ADDRESS_BASE`.
pub const ERST_INSTRUCTIONS_SET_DST_ADDRESS_BASE: u32 = 0x11;
/// `ERST_INSTRUCTIONS_MOVE_DATA`.
pub const ERST_INSTRUCTIONS_MOVE_DATA: u32 = 0x12;
/// `HEST_NOTIFICATION_TYPES_POLLED`.
pub const HEST_NOTIFICATION_TYPES_POLLED: u32 = 0x0;
/// `HEST_NOTIFICATION_TYPES_EXTERNAL_INTERRUPT`.
pub const HEST_NOTIFICATION_TYPES_EXTERNAL_INTERRUPT: u32 = 0x1;
/// `HEST_NOTIFICATION_TYPES_LOCAL_INTERRUPT`.
pub const HEST_NOTIFICATION_TYPES_LOCAL_INTERRUPT: u32 = 0x2;
/// `HEST_NOTIFICATION_TYPES_SCI`.
pub const HEST_NOTIFICATION_TYPES_SCI: u32 = 0x3;
/// `HEST_NOTIFICATION_TYPES_NMI`.
pub const HEST_NOTIFICATION_TYPES_NMI: u32 = 0x4;
/// `HEST_NOTIFICATION_TYPES_CMCI`.
pub const HEST_NOTIFICATION_TYPES_CMCI: u32 = 0x5;
/// `HEST_NOTIFICATION_TYPES_MCE`.
pub const HEST_NOTIFICATION_TYPES_MCE: u32 = 0x6;
/// `HEST_NOTIFICATION_TYPES_GPIO_SIGNAL`.
pub const HEST_NOTIFICATION_TYPES_GPIO_SIGNAL: u32 = 0x7;
/// `HEST_NOTIFICATION_TYPES_ARMV8_SEA`.
pub const HEST_NOTIFICATION_TYPES_ARMV8_SEA: u32 = 0x8;
/// `HEST_NOTIFICATION_TYPES_ARMV8_SEI`.
pub const HEST_NOTIFICATION_TYPES_ARMV8_SEI: u32 = 0x9;
/// `HEST_NOTIFICATION_TYPES_EXTERNAL_INTERRUPT_GSIV`.
pub const HEST_NOTIFICATION_TYPES_EXTERNAL_INTERRUPT_GSIV: u32 = 0xa;
/// `HEST_NOTIFICATION_TYPES_SOFTWARE_DELEGATED_EXCEPTION`.
pub const HEST_NOTIFICATION_TYPES_SOFTWARE_DELEGATED_EXCEPTION: u32 = 0xb;
/// `LOCAL_APIC_FLAGS_ENABLED`.
pub const LOCAL_APIC_FLAGS_ENABLED: u32 = 0x1;
/// `LOCAL_APIC_FLAGS_ONLINE_CAPABLE`.
pub const LOCAL_APIC_FLAGS_ONLINE_CAPABLE: u32 = 0x2;
/// `MPS_INTI_FLAGS_AS_THE_BUS_HAS_IT`.
pub const MPS_INTI_FLAGS_AS_THE_BUS_HAS_IT: u32 = 0x0;
/// `MPS_INTI_FLAGS_ACTIVE_HIGH_TRIGGERED_AS_THE_BUS_HAS_IT`.
pub const MPS_INTI_FLAGS_ACTIVE_HIGH_TRIGGERED_AS_THE_BUS_HAS_IT: u32 = 0x1;
/// `MPS_INTI_FLAGS_RESERVED_POLARITY_TRIGGERED_AS_THE_BUS_HAS_IT`.
pub const MPS_INTI_FLAGS_RESERVED_POLARITY_TRIGGERED_AS_THE_BUS_HAS_IT: u32 = 0x2;
/// `MPS_INTI_FLAGS_ACTIVE_LOW_TRIGGERED_AS_THE_BUS_HAS_IT`.
pub const MPS_INTI_FLAGS_ACTIVE_LOW_TRIGGERED_AS_THE_BUS_HAS_IT: u32 = 0x3;
/// `MPS_INTI_FLAGS_ACTIVE_AS_THE_BUS_HAS_IT_EDGE_TRIGGERED`.
pub const MPS_INTI_FLAGS_ACTIVE_AS_THE_BUS_HAS_IT_EDGE_TRIGGERED: u32 = 0x4;
/// `MPS_INTI_FLAGS_ACTIVE_HIGH_EDGE_TRIGGERED`.
pub const MPS_INTI_FLAGS_ACTIVE_HIGH_EDGE_TRIGGERED: u32 = 0x5;
/// `MPS_INTI_FLAGS_RESERVED_POLARITY_EDGE_TRIGGERED`.
pub const MPS_INTI_FLAGS_RESERVED_POLARITY_EDGE_TRIGGERED: u32 = 0x6;
/// `MPS_INTI_FLAGS_ACTIVE_LOW_EDGE_TRIGGERED`.
pub const MPS_INTI_FLAGS_ACTIVE_LOW_EDGE_TRIGGERED: u32 = 0x7;
/// `MPS_INTI_FLAGS_ACTIVE_AS_THE_BUS_HAS_IT_RESERVED_TRIGGER_MODE`.
pub const MPS_INTI_FLAGS_ACTIVE_AS_THE_BUS_HAS_IT_RESERVED_TRIGGER_MODE: u32 = 0x8;
/// `MPS_INTI_FLAGS_ACTIVE_HIGH_RESERVED_TRIGGER_MODE`.
pub const MPS_INTI_FLAGS_ACTIVE_HIGH_RESERVED_TRIGGER_MODE: u32 = 0x9;
/// `MPS_INTI_FLAGS_RESERVED_POLARITY_RESERVED_TRIGGER_MODE`.
pub const MPS_INTI_FLAGS_RESERVED_POLARITY_RESERVED_TRIGGER_MODE: u32 = 0xa;
/// `MPS_INTI_FLAGS_ACTIVE_LOW_RESERVED_TRIGGER_MODE`.
pub const MPS_INTI_FLAGS_ACTIVE_LOW_RESERVED_TRIGGER_MODE: u32 = 0xb;
/// `MPS_INTI_FLAGS_ACTIVE_AS_THE_BUS_HAS_IT_LEVEL_TRIGGERED`.
pub const MPS_INTI_FLAGS_ACTIVE_AS_THE_BUS_HAS_IT_LEVEL_TRIGGERED: u32 = 0xc;
/// `MPS_INTI_FLAGS_ACTIVE_HIGH_LEVEL_TRIGGERED`.
pub const MPS_INTI_FLAGS_ACTIVE_HIGH_LEVEL_TRIGGERED: u32 = 0xd;
/// `MPS_INTI_FLAGS_RESERVED_POLARITY_LEVEL_TRIGGERED`.
pub const MPS_INTI_FLAGS_RESERVED_POLARITY_LEVEL_TRIGGERED: u32 = 0xe;
/// `MPS_INTI_FLAGS_ACTIVE_LOW_LEVEL_TRIGGERED`.
pub const MPS_INTI_FLAGS_ACTIVE_LOW_LEVEL_TRIGGERED: u32 = 0xf;
/// `TIMER_FLAGS_ACTIVE_HIGH_LEVEL_TRIGGERED`.
pub const TIMER_FLAGS_ACTIVE_HIGH_LEVEL_TRIGGERED: u32 = 0x0;
/// `TIMER_FLAGS_ACTIVE_HIGH_EDGE_TRIGGERED`.
pub const TIMER_FLAGS_ACTIVE_HIGH_EDGE_TRIGGERED: u32 = 0x1;
/// `TIMER_FLAGS_ACTIVE_LOW_LEVEL_TRIGGERED`.
pub const TIMER_FLAGS_ACTIVE_LOW_LEVEL_TRIGGERED: u32 = 0x2;
/// `TIMER_FLAGS_ACTIVE_LOW_EDGE_TRIGGERED`.
pub const TIMER_FLAGS_ACTIVE_LOW_EDGE_TRIGGERED: u32 = 0x3;
/// `TIMER_FLAGS_ACTIVE_HIGH_LEVEL_TRIGGERED_ALWAYS_ON`.
pub const TIMER_FLAGS_ACTIVE_HIGH_LEVEL_TRIGGERED_ALWAYS_ON: u32 = 0x4;
/// `TIMER_FLAGS_ACTIVE_HIGH_EDGE_TRIGGERED_ALWAYS_ON`.
pub const TIMER_FLAGS_ACTIVE_HIGH_EDGE_TRIGGERED_ALWAYS_ON: u32 = 0x5;
/// `TIMER_FLAGS_ACTIVE_LOW_LEVEL_TRIGGERED_ALWAYS_ON`.
pub const TIMER_FLAGS_ACTIVE_LOW_LEVEL_TRIGGERED_ALWAYS_ON: u32 = 0x6;
/// `TIMER_FLAGS_ACTIVE_LOW_EDGE_TRIGGERED_ALWAYS_ON`.
pub const TIMER_FLAGS_ACTIVE_LOW_EDGE_TRIGGERED_ALWAYS_ON: u32 = 0x7;
/// `FRAME_TIMER_FLAGS_ACTIVE_HIGH_LEVEL_TRIGGERED`.
pub const FRAME_TIMER_FLAGS_ACTIVE_HIGH_LEVEL_TRIGGERED: u32 = 0x0;
/// `FRAME_TIMER_FLAGS_ACTIVE_HIGH_EDGE_TRIGGERED`.
pub const FRAME_TIMER_FLAGS_ACTIVE_HIGH_EDGE_TRIGGERED: u32 = 0x1;
/// `FRAME_TIMER_FLAGS_ACTIVE_LOW_LEVEL_TRIGGERED`.
pub const FRAME_TIMER_FLAGS_ACTIVE_LOW_LEVEL_TRIGGERED: u32 = 0x2;
/// `FRAME_TIMER_FLAGS_ACTIVE_LOW_EDGE_TRIGGERED`.
pub const FRAME_TIMER_FLAGS_ACTIVE_LOW_EDGE_TRIGGERED: u32 = 0x3;
/// `WATCHDOG_FLAGS_ACTIVE_HIGH_LEVEL_TRIGGERED`.
pub const WATCHDOG_FLAGS_ACTIVE_HIGH_LEVEL_TRIGGERED: u32 = 0x0;
/// `WATCHDOG_FLAGS_ACTIVE_HIGH_EDGE_TRIGGERED`.
pub const WATCHDOG_FLAGS_ACTIVE_HIGH_EDGE_TRIGGERED: u32 = 0x1;
/// `WATCHDOG_FLAGS_ACTIVE_LOW_LEVEL_TRIGGERED`.
pub const WATCHDOG_FLAGS_ACTIVE_LOW_LEVEL_TRIGGERED: u32 = 0x2;
/// `WATCHDOG_FLAGS_ACTIVE_LOW_EDGE_TRIGGERED`.
pub const WATCHDOG_FLAGS_ACTIVE_LOW_EDGE_TRIGGERED: u32 = 0x3;
/// `WATCHDOG_FLAGS_ACTIVE_HIGH_LEVEL_TRIGGERED_SECURE`.
pub const WATCHDOG_FLAGS_ACTIVE_HIGH_LEVEL_TRIGGERED_SECURE: u32 = 0x4;
/// `WATCHDOG_FLAGS_ACTIVE_HIGH_EDGE_TRIGGERED_SECURE`.
pub const WATCHDOG_FLAGS_ACTIVE_HIGH_EDGE_TRIGGERED_SECURE: u32 = 0x5;
/// `WATCHDOG_FLAGS_ACTIVE_LOW_LEVEL_TRIGGERED_SECURE`.
pub const WATCHDOG_FLAGS_ACTIVE_LOW_LEVEL_TRIGGERED_SECURE: u32 = 0x6;
/// `WATCHDOG_FLAGS_ACTIVE_LOW_EDGE_TRIGGERED_SECURE`.
pub const WATCHDOG_FLAGS_ACTIVE_LOW_EDGE_TRIGGERED_SECURE: u32 = 0x7;
/// `IVHD_SETTINGS_INITPASS`.
pub const IVHD_SETTINGS_INITPASS: u32 = 0x1;
/// `IVHD_SETTINGS_EINTPASS`.
pub const IVHD_SETTINGS_EINTPASS: u32 = 0x2;
/// `IVHD_SETTINGS_NMIPASS`.
pub const IVHD_SETTINGS_NMIPASS: u32 = 0x4;
/// `IVHD_SETTINGS_SYSMGT_MASK`.
pub const IVHD_SETTINGS_SYSMGT_MASK: u32 = 0x30;
/// `IVHD_SETTINGS_SYSMGT_SHIFT`.
pub const IVHD_SETTINGS_SYSMGT_SHIFT: u32 = 4;
/// `IVHD_SETTINGS_LINT0PASS`.
pub const IVHD_SETTINGS_LINT0PASS: u32 = 0x40;
/// `IVHD_SETTINGS_LINT1PASS`.
pub const IVHD_SETTINGS_LINT1PASS: u32 = 0x80;
/// `HMAT_HIERARCHY_MEMORY`.
pub const HMAT_HIERARCHY_MEMORY: u32 = 0x0;
/// `HMAT_HIERARCHY_FIRST_LEVEL_MEMORY_SIDE_CACHE`.
pub const HMAT_HIERARCHY_FIRST_LEVEL_MEMORY_SIDE_CACHE: u32 = 0x1;
/// `HMAT_HIERARCHY_SECOND_LEVEL_MEMORY_SIDE_CACHE`.
pub const HMAT_HIERARCHY_SECOND_LEVEL_MEMORY_SIDE_CACHE: u32 = 0x2;
/// `HMAT_HIERARCHY_THIRD_LEVEL_MEMORY_SIDE_CACHE`.
pub const HMAT_HIERARCHY_THIRD_LEVEL_MEMORY_SIDE_CACHE: u32 = 0x3;
/// `HMAT_HIERARCHY_MINIMUM_TRANSFER_SIZE_TO_ACHIEVE_VALUES`.
pub const HMAT_HIERARCHY_MINIMUM_TRANSFER_SIZE_TO_ACHIEVE_VALUES: u32 = 0x10;
/// `HMAT_HIERARCHY_NON_SEQUENTIAL_TRANSFERS`.
pub const HMAT_HIERARCHY_NON_SEQUENTIAL_TRANSFERS: u32 = 0x20;
/// `HMAT_DATA_TYPES_ACCESS_LATENCY`.
pub const HMAT_DATA_TYPES_ACCESS_LATENCY: u32 = 0x0;
/// `HMAT_DATA_TYPES_READ_LATENCY`.
pub const HMAT_DATA_TYPES_READ_LATENCY: u32 = 0x1;
/// `HMAT_DATA_TYPES_WRITE_LATENCY`.
pub const HMAT_DATA_TYPES_WRITE_LATENCY: u32 = 0x2;
/// `HMAT_DATA_TYPES_ACCESS_BANDWIDTH`.
pub const HMAT_DATA_TYPES_ACCESS_BANDWIDTH: u32 = 0x3;
/// `HMAT_DATA_TYPES_READ_BANDWIDTH`.
pub const HMAT_DATA_TYPES_READ_BANDWIDTH: u32 = 0x4;
/// `HMAT_DATA_TYPES_WRITE_BANDWIDTH`.
pub const HMAT_DATA_TYPES_WRITE_BANDWIDTH: u32 = 0x5;
/// `HMAT_CACHE_ATTRIBUTES_TOTAL_CACHE_LEVELS_MASK`.
pub const HMAT_CACHE_ATTRIBUTES_TOTAL_CACHE_LEVELS_MASK: u32 = 0xf;
/// `HMAT_CACHE_ATTRIBUTES_TOTAL_CACHE_LEVELS_SHIFT`.
pub const HMAT_CACHE_ATTRIBUTES_TOTAL_CACHE_LEVELS_SHIFT: u32 = 0;
/// `HMAT_CACHE_ATTRIBUTES_CACHE_LEVEL_MASK`.
pub const HMAT_CACHE_ATTRIBUTES_CACHE_LEVEL_MASK: u32 = 0xf0;
/// `HMAT_CACHE_ATTRIBUTES_CACHE_LEVEL_SHIFT`.
pub const HMAT_CACHE_ATTRIBUTES_CACHE_LEVEL_SHIFT: u32 = 4;
/// `HMAT_CACHE_ATTRIBUTES_ASSOCIATIVITY_NONE`.
pub const HMAT_CACHE_ATTRIBUTES_ASSOCIATIVITY_NONE: u32 = 0x0;
/// `HMAT_CACHE_ATTRIBUTES_DIRECT_MAPPED`.
pub const HMAT_CACHE_ATTRIBUTES_DIRECT_MAPPED: u32 = 0x100;
/// `HMAT_CACHE_ATTRIBUTES_COMPLEX_CACHE_INDEXING`.
pub const HMAT_CACHE_ATTRIBUTES_COMPLEX_CACHE_INDEXING: u32 = 0x200;
/// `HMAT_CACHE_ATTRIBUTES_WRITE_POLICY_NONE`.
pub const HMAT_CACHE_ATTRIBUTES_WRITE_POLICY_NONE: u32 = 0x0;
/// `HMAT_CACHE_ATTRIBUTES_WRITE_BACK`.
pub const HMAT_CACHE_ATTRIBUTES_WRITE_BACK: u32 = 0x1000;
/// `HMAT_CACHE_ATTRIBUTES_WRITE_THROUGH`.
pub const HMAT_CACHE_ATTRIBUTES_WRITE_THROUGH: u32 = 0x2000;
/// `HMAT_CACHE_ATTRIBUTES_CACHE_LINE_SIZE_MASK`.
pub const HMAT_CACHE_ATTRIBUTES_CACHE_LINE_SIZE_MASK: u32 = 0xffff0000;
/// `HMAT_CACHE_ATTRIBUTES_CACHE_LINE_SIZE_SHIFT`.
pub const HMAT_CACHE_ATTRIBUTES_CACHE_LINE_SIZE_SHIFT: u32 = 16;
/// `PMTT_FLAGS_TOP_LEVEL_AGGREGATOR_DEVICE`.
pub const PMTT_FLAGS_TOP_LEVEL_AGGREGATOR_DEVICE: u32 = 0x1;
/// `PMTT_FLAGS_PHYSICAL_ELEMENT_OF_THE_TOPOLOGY`.
pub const PMTT_FLAGS_PHYSICAL_ELEMENT_OF_THE_TOPOLOGY: u32 = 0x2;
/// `PMTT_FLAGS_VOLATILE_MEMORY`.
pub const PMTT_FLAGS_VOLATILE_MEMORY: u32 = 0x0;
/// `PMTT_FLAGS_VOLATILE_AND_NON_VOLATILE_MEMORY`.
pub const PMTT_FLAGS_VOLATILE_AND_NON_VOLATILE_MEMORY: u32 = 0x4;
/// `PMTT_FLAGS_NON_VOLATILE_MEMORY`.
pub const PMTT_FLAGS_NON_VOLATILE_MEMORY: u32 = 0x8;
/// `NFIT_ATTRIBUTES_EFI_MEMORY_UC`.
pub const NFIT_ATTRIBUTES_EFI_MEMORY_UC: u64 = 0x1;
/// `NFIT_ATTRIBUTES_EFI_MEMORY_WC`.
pub const NFIT_ATTRIBUTES_EFI_MEMORY_WC: u64 = 0x2;
/// `NFIT_ATTRIBUTES_EFI_MEMORY_WT`.
pub const NFIT_ATTRIBUTES_EFI_MEMORY_WT: u64 = 0x4;
/// `NFIT_ATTRIBUTES_EFI_MEMORY_WB`.
pub const NFIT_ATTRIBUTES_EFI_MEMORY_WB: u64 = 0x8;
/// `NFIT_ATTRIBUTES_EFI_MEMORY_UCE`.
pub const NFIT_ATTRIBUTES_EFI_MEMORY_UCE: u64 = 0x10;
/// `NFIT_ATTRIBUTES_EFI_MEMORY_WP`.
pub const NFIT_ATTRIBUTES_EFI_MEMORY_WP: u64 = 0x1000;
/// `NFIT_ATTRIBUTES_EFI_MEMORY_RP`.
pub const NFIT_ATTRIBUTES_EFI_MEMORY_RP: u64 = 0x2000;
/// `NFIT_ATTRIBUTES_EFI_MEMORY_XP`.
pub const NFIT_ATTRIBUTES_EFI_MEMORY_XP: u64 = 0x4000;
/// `NFIT_ATTRIBUTES_EFI_MEMORY_NV`.
pub const NFIT_ATTRIBUTES_EFI_MEMORY_NV: u64 = 0x8000;
/// `NFIT_ATTRIBUTES_EFI_MEMORY_MORE_RELIABLE`.
pub const NFIT_ATTRIBUTES_EFI_MEMORY_MORE_RELIABLE: u64 = 0x10000;
/// `NFIT_ATTRIBUTES_EFI_MEMORY_RO`.
pub const NFIT_ATTRIBUTES_EFI_MEMORY_RO: u64 = 0x20000;
/// `NFIT_ATTRIBUTES_EFI_MEMORY_SP`.
pub const NFIT_ATTRIBUTES_EFI_MEMORY_SP: u64 = 0x40000;
/// `NFIT_ATTRIBUTES_EFI_MEMORY_CPU_CRYPTO`.
pub const NFIT_ATTRIBUTES_EFI_MEMORY_CPU_CRYPTO: u64 = 0x80000;
/// `NFIT_ATTRIBUTES_EFI_MEMORY_RUNTIME`.
pub const NFIT_ATTRIBUTES_EFI_MEMORY_RUNTIME: u64 = 0x8000000000000000;
/// `NFIT_HANDLE_DIMM_NUMBER_MASK`.
pub const NFIT_HANDLE_DIMM_NUMBER_MASK: u32 = 0xf;
/// `NFIT_HANDLE_DIMM_NUMBER_SHIFT`.
pub const NFIT_HANDLE_DIMM_NUMBER_SHIFT: u32 = 0;
/// `NFIT_HANDLE_MEMORY_CHANNEL_NUMBER_MASK`.
pub const NFIT_HANDLE_MEMORY_CHANNEL_NUMBER_MASK: u32 = 0xf0;
/// `NFIT_HANDLE_MEMORY_CHANNEL_NUMBER_SHIFT`.
pub const NFIT_HANDLE_MEMORY_CHANNEL_NUMBER_SHIFT: u32 = 4;
/// `NFIT_HANDLE_MEMORY_CONTROLLER_ID_MASK`.
pub const NFIT_HANDLE_MEMORY_CONTROLLER_ID_MASK: u32 = 0xf00;
/// `NFIT_HANDLE_MEMORY_CONTROLLER_ID_SHIFT`.
pub const NFIT_HANDLE_MEMORY_CONTROLLER_ID_SHIFT: u32 = 8;
/// `NFIT_HANDLE_SOCKET_ID_MASK`.
pub const NFIT_HANDLE_SOCKET_ID_MASK: u32 = 0xf000;
/// `NFIT_HANDLE_SOCKET_ID_SHIFT`.
pub const NFIT_HANDLE_SOCKET_ID_SHIFT: u32 = 12;
/// `NFIT_HANDLE_NODE_CONTROLLER_ID_MASK`.
pub const NFIT_HANDLE_NODE_CONTROLLER_ID_MASK: u32 = 0xfff0000;
/// `NFIT_HANDLE_NODE_CONTROLLER_ID_SHIFT`.
pub const NFIT_HANDLE_NODE_CONTROLLER_ID_SHIFT: u32 = 16;
/// `CEDT_GRANULARITY_256_BYTES`.
pub const CEDT_GRANULARITY_256_BYTES: u32 = 0x0;
/// `CEDT_GRANULARITY_512_BYTES`.
pub const CEDT_GRANULARITY_512_BYTES: u32 = 0x1;
/// `CEDT_GRANULARITY_1024_BYTES`.
pub const CEDT_GRANULARITY_1024_BYTES: u32 = 0x2;
/// `CEDT_GRANULARITY_2048_BYTES`.
pub const CEDT_GRANULARITY_2048_BYTES: u32 = 0x3;
/// `CEDT_GRANULARITY_4096_BYTES`.
pub const CEDT_GRANULARITY_4096_BYTES: u32 = 0x4;
/// `CEDT_GRANULARITY_8192_BYTES`.
pub const CEDT_GRANULARITY_8192_BYTES: u32 = 0x5;
/// `CEDT_GRANULARITY_16384_BYTES`.
pub const CEDT_GRANULARITY_16384_BYTES: u32 = 0x6;
/// `PROFILES_UNSPECIFIED`.
pub const PROFILES_UNSPECIFIED: u32 = 0x0;
/// `PROFILES_DESKTOP`.
pub const PROFILES_DESKTOP: u32 = 0x1;
/// `PROFILES_MOBILE`.
pub const PROFILES_MOBILE: u32 = 0x2;
/// `PROFILES_WORKSTATION`.
pub const PROFILES_WORKSTATION: u32 = 0x3;
/// `PROFILES_ENTERPRISE_SERVER`.
pub const PROFILES_ENTERPRISE_SERVER: u32 = 0x4;
/// `PROFILES_SOHO_SERVER`.
pub const PROFILES_SOHO_SERVER: u32 = 0x5;
/// `PROFILES_APPLIANCE_PC`.
pub const PROFILES_APPLIANCE_PC: u32 = 0x6;
/// `PROFILES_PERFORMANCE_SERVER`.
pub const PROFILES_PERFORMANCE_SERVER: u32 = 0x7;
/// `PROFILES_TABLET`.
pub const PROFILES_TABLET: u32 = 0x8;
/// `IAPC_BOOT_ARCH_LEGACY_DEVICES`.
pub const IAPC_BOOT_ARCH_LEGACY_DEVICES: u32 = 0x1;
/// `IAPC_BOOT_ARCH_8042`.
pub const IAPC_BOOT_ARCH_8042: u32 = 0x2;
/// `IAPC_BOOT_ARCH_VGA_NOT_PRESENT`.
pub const IAPC_BOOT_ARCH_VGA_NOT_PRESENT: u32 = 0x4;
/// `IAPC_BOOT_ARCH_MSI_NOT_SUPPORTED`.
pub const IAPC_BOOT_ARCH_MSI_NOT_SUPPORTED: u32 = 0x8;
/// `IAPC_BOOT_ARCH_PCIE_ASPM_CONTROLS`.
pub const IAPC_BOOT_ARCH_PCIE_ASPM_CONTROLS: u32 = 0x10;
/// `IAPC_BOOT_ARCH_CMOS_RTC_NOT_PRESENT`.
pub const IAPC_BOOT_ARCH_CMOS_RTC_NOT_PRESENT: u32 = 0x20;
/// `FIXED_FEATURE_FLAGS_WBINVD`.
pub const FIXED_FEATURE_FLAGS_WBINVD: u32 = 0x1;
/// `FIXED_FEATURE_FLAGS_WBINVD_FLUSH`.
pub const FIXED_FEATURE_FLAGS_WBINVD_FLUSH: u32 = 0x2;
/// `FIXED_FEATURE_FLAGS_PROC_C1`.
pub const FIXED_FEATURE_FLAGS_PROC_C1: u32 = 0x4;
/// `FIXED_FEATURE_FLAGS_P_LVL2_UP`.
pub const FIXED_FEATURE_FLAGS_P_LVL2_UP: u32 = 0x8;
/// `FIXED_FEATURE_FLAGS_PWR_BUTTON`.
pub const FIXED_FEATURE_FLAGS_PWR_BUTTON: u32 = 0x10;
/// `FIXED_FEATURE_FLAGS_SLP_BUTTON`.
pub const FIXED_FEATURE_FLAGS_SLP_BUTTON: u32 = 0x20;
/// `FIXED_FEATURE_FLAGS_FIX_RTC`.
pub const FIXED_FEATURE_FLAGS_FIX_RTC: u32 = 0x40;
/// `FIXED_FEATURE_FLAGS_RTC_S4`.
pub const FIXED_FEATURE_FLAGS_RTC_S4: u32 = 0x80;
/// `FIXED_FEATURE_FLAGS_TMR_VAL_EXT`.
pub const FIXED_FEATURE_FLAGS_TMR_VAL_EXT: u32 = 0x100;
/// `FIXED_FEATURE_FLAGS_DCK_CAP`.
pub const FIXED_FEATURE_FLAGS_DCK_CAP: u32 = 0x200;
/// `FIXED_FEATURE_FLAGS_RESET_REG_SUP`.
pub const FIXED_FEATURE_FLAGS_RESET_REG_SUP: u32 = 0x400;
/// `FIXED_FEATURE_FLAGS_SEALED_CASE`.
pub const FIXED_FEATURE_FLAGS_SEALED_CASE: u32 = 0x800;
/// `FIXED_FEATURE_FLAGS_HEADLESS`.
pub const FIXED_FEATURE_FLAGS_HEADLESS: u32 = 0x1000;
/// `FIXED_FEATURE_FLAGS_CPU_SW_SLP`.
pub const FIXED_FEATURE_FLAGS_CPU_SW_SLP: u32 = 0x2000;
/// `FIXED_FEATURE_FLAGS_PCI_EXP_WAK`.
pub const FIXED_FEATURE_FLAGS_PCI_EXP_WAK: u32 = 0x4000;
/// `FIXED_FEATURE_FLAGS_USE_PLATFORM_CLOCK`.
pub const FIXED_FEATURE_FLAGS_USE_PLATFORM_CLOCK: u32 = 0x8000;
/// `FIXED_FEATURE_FLAGS_S4_RTC_STS_VALID`.
pub const FIXED_FEATURE_FLAGS_S4_RTC_STS_VALID: u32 = 0x10000;
/// `FIXED_FEATURE_FLAGS_REMOTE_POWER_ON_CAPABLE`.
pub const FIXED_FEATURE_FLAGS_REMOTE_POWER_ON_CAPABLE: u32 = 0x20000;
/// `FIXED_FEATURE_FLAGS_FORCE_APIC_CLUSTER_MODEL`.
pub const FIXED_FEATURE_FLAGS_FORCE_APIC_CLUSTER_MODEL: u32 = 0x40000;
/// `FIXED_FEATURE_FLAGS_FORCE_APIC_PHYSICAL_DESTINATION_MODE`.
pub const FIXED_FEATURE_FLAGS_FORCE_APIC_PHYSICAL_DESTINATION_MODE: u32 = 0x80000;
/// `FIXED_FEATURE_FLAGS_HW_REDUCED_ACPI`.
pub const FIXED_FEATURE_FLAGS_HW_REDUCED_ACPI: u32 = 0x100000;
/// `FIXED_FEATURE_FLAGS_LOW_POWER_S0_IDLE_CAPABLE`.
pub const FIXED_FEATURE_FLAGS_LOW_POWER_S0_IDLE_CAPABLE: u32 = 0x200000;
/// `FIXED_FEATURE_FLAGS_PERSISTENT_CPU_CACHES_NOT_PERSISTENT`.
pub const FIXED_FEATURE_FLAGS_PERSISTENT_CPU_CACHES_NOT_PERSISTENT: u32 = 0x400000;
/// `FIXED_FEATURE_FLAGS_PERSISTENT_CPU_CACHES_PERSISTENT`.
pub const FIXED_FEATURE_FLAGS_PERSISTENT_CPU_CACHES_PERSISTENT: u32 = 0x800000;
/// `FIXED_FEATURE_FLAGS_PERSISTENT_CPU_CACHES_RESERVED`.
pub const FIXED_FEATURE_FLAGS_PERSISTENT_CPU_CACHES_RESERVED: u32 = 0xc00000;
/// `CRAT_CACHE_FLAGS_ENABLED`.
pub const CRAT_CACHE_FLAGS_ENABLED: u32 = 0x1;
/// `CRAT_CACHE_FLAGS_DATA`.
pub const CRAT_CACHE_FLAGS_DATA: u32 = 0x2;
/// `CRAT_CACHE_FLAGS_INSTRUCTIONS`.
pub const CRAT_CACHE_FLAGS_INSTRUCTIONS: u32 = 0x4;
/// `CRAT_CACHE_FLAGS_CPU`.
pub const CRAT_CACHE_FLAGS_CPU: u32 = 0x8;
/// `CRAT_CACHE_FLAGS_SIMD`.
pub const CRAT_CACHE_FLAGS_SIMD: u32 = 0x10;

kinds! {
    /// FPDT-record: a structure by its type.
    FpdtRecord at 0, 2 {
        0..=0 => FirmwareBasicBootPerformancePointerRecord(FpdtRecordFirmwareBasicBootPerformancePointerRecord),
        1..=1 => S3PerformanceTablePointerRecord(FpdtRecordS3PerformanceTablePointerRecord),
    }
}

kinds! {
    /// S3PT-record: a structure by its type.
    S3ptRecord at 0, 2 {
        0..=0 => BasicS3ResumePerformanceRecord(S3ptRecordBasicS3ResumePerformanceRecord),
        1..=1 => BasicS3SuspendPerformanceRecord(S3ptRecordBasicS3SuspendPerformanceRecord),
    }
}

kinds! {
    /// FBPT-record: a structure by its type.
    FbptRecord at 0, 2 {
        2..=2 => FirmwareBasicBootPerformanceDataRecord(FbptRecordFirmwareBasicBootPerformanceDataRecord),
    }
}

kinds! {
    /// PHAT-record: a structure by its type.
    PhatRecord at 0, 2 {
        0..=0 => FirmwareVersionDataRecord(PhatRecordFirmwareVersionDataRecord),
        1..=1 => FirmwareHealthDataRecord(PhatRecordFirmwareHealthDataRecord),
    }
}

kinds! {
    /// CPEP-entry: a structure by its type.
    CpepEntry at 0, 1 {
        0..=0 => CorrectedPlatformErrorPollingProcessorStructure(CpepEntryCorrectedPlatformErrorPollingProcessorStructure),
    }
}

kinds! {
    /// HEST-source: a structure by its type.
    HestSource at 0, 2 {
        0..=0 => Ia32ArchitectureMachineCheckException(HestSourceIa32ArchitectureMachineCheckException),
        1..=1 => Ia32ArchitectureCorrectedMachineCheck(HestSourceIa32ArchitectureCorrectedMachineCheck),
        2..=2 => Ia32ArchitectureNonMaskableInterrupt(HestSourceIa32ArchitectureNonMaskableInterrupt),
        6..=6 => PciExpressRootPortAerStructure(HestSourcePciExpressRootPortAerStructure),
        7..=7 => PciExpressDeviceAerStructure(HestSourcePciExpressDeviceAerStructure),
        8..=8 => PciExpressBridgeAerStructure(HestSourcePciExpressBridgeAerStructure),
        9..=9 => GenericHardwareErrorSourceStructure(HestSourceGenericHardwareErrorSourceStructure),
        10..=10 => GenericHardwareErrorSourceVersion2Ghesv2Structure(HestSourceGenericHardwareErrorSourceVersion2Ghesv2Structure),
        11..=11 => Ia32ArchitectureDeferredMachineCheck(HestSourceIa32ArchitectureDeferredMachineCheck),
    }
}

kinds! {
    /// MADT-entry: a structure by its type.
    MadtEntry at 0, 1 {
        0x00..=0x00 => ProcessorLocalApic(MadtEntryProcessorLocalApic),
        0x01..=0x01 => IOApic(MadtEntryIOApic),
        0x02..=0x02 => InterruptSourceOverride(MadtEntryInterruptSourceOverride),
        0x03..=0x03 => NmiSource(MadtEntryNmiSource),
        0x04..=0x04 => LocalApicNmi(MadtEntryLocalApicNmi),
        0x05..=0x05 => LocalApicAddressOverride(MadtEntryLocalApicAddressOverride),
        0x06..=0x06 => IOSapic(MadtEntryIOSapic),
        0x07..=0x07 => LocalSapic(MadtEntryLocalSapic),
        0x08..=0x08 => PlatformInterruptSources(MadtEntryPlatformInterruptSources),
        0x09..=0x09 => ProcessorLocalX2apic(MadtEntryProcessorLocalX2apic),
        0x0a..=0x0a => LocalX2apicNmi(MadtEntryLocalX2apicNmi),
        0x0b..=0x0b => GicCpuInterfaceGicc(MadtEntryGicCpuInterfaceGicc),
        0x0c..=0x0c => GicDistributorGicd(MadtEntryGicDistributorGicd),
        0x0d..=0x0d => GicMsiFrame(MadtEntryGicMsiFrame),
        0x0e..=0x0e => GicRedistributorGicr(MadtEntryGicRedistributorGicr),
        0x0f..=0x0f => GicInterruptTranslationServiceIts(MadtEntryGicInterruptTranslationServiceIts),
        0x10..=0x10 => MultiprocessorWakeup(MadtEntryMultiprocessorWakeup),
        0x11..=0x11 => CoreProgrammableInterruptControllerCorePic(MadtEntryCoreProgrammableInterruptControllerCorePic),
        0x12..=0x12 => LegacyIOProgrammableInterruptControllerLioPic(MadtEntryLegacyIOProgrammableInterruptControllerLioPic),
        0x13..=0x13 => HypertransportProgrammableInterruptControllerHtPic(MadtEntryHypertransportProgrammableInterruptControllerHtPic),
        0x14..=0x14 => ExtendIOProgrammableInterruptControllerEioPic(MadtEntryExtendIOProgrammableInterruptControllerEioPic),
        0x15..=0x15 => MsiProgrammableInterruptControllerMsiPic(MadtEntryMsiProgrammableInterruptControllerMsiPic),
        0x16..=0x16 => BridgeIOProgrammableInterruptControllerBioPic(MadtEntryBridgeIOProgrammableInterruptControllerBioPic),
        0x17..=0x17 => LowPinCountProgrammableInterruptControllerLpcPic(MadtEntryLowPinCountProgrammableInterruptControllerLpcPic),
        0x18..=0x18 => RiscVInterruptControllerRintc(MadtEntryRiscVInterruptControllerRintc),
        0x19..=0x19 => RiscVIncomingMsiControllerImsic(MadtEntryRiscVIncomingMsiControllerImsic),
        0x1a..=0x1a => RiscVAdvancedPlatformLevelInterruptControllerAplic(MadtEntryRiscVAdvancedPlatformLevelInterruptControllerAplic),
        0x1b..=0x1b => RiscVPlatformLevelInterruptControllerPlic(MadtEntryRiscVPlatformLevelInterruptControllerPlic),
    }
}

kinds! {
    /// GTDT-structure: a structure by its type.
    GtdtStructure at 0, 1 {
        0..=0 => GtBlock(GtdtStructureGtBlock),
        1..=1 => ArmGenericWatchdog(GtdtStructureArmGenericWatchdog),
    }
}

kinds! {
    /// DMAR-structure: a structure by its type.
    DmarStructure at 0, 2 {
        0..=0 => DmaRemappingHardwareUnitDefinitionDrhd(DmarStructureDmaRemappingHardwareUnitDefinitionDrhd),
        1..=1 => ReservedMemoryRegionReportingRmrr(DmarStructureReservedMemoryRegionReportingRmrr),
        2..=2 => RootPortAtsCapabilityReportingAtsr(DmarStructureRootPortAtsCapabilityReportingAtsr),
        3..=3 => RemappingHardwareStaticAffinityRhsa(DmarStructureRemappingHardwareStaticAffinityRhsa),
        4..=4 => AcpiNameSpaceDeviceDeclarationAndd(DmarStructureAcpiNameSpaceDeviceDeclarationAndd),
        5..=5 => SocIntegratedAddressTranslationCacheSatc(DmarStructureSocIntegratedAddressTranslationCacheSatc),
        6..=6 => SocIntegratedDevicePropertySidp(DmarStructureSocIntegratedDevicePropertySidp),
    }
}

kinds! {
    /// DMAR-scope: a structure by its type.
    DmarScope at 0, 1 {
        1..=1 => PciEndpointDevice(DmarScopePciEndpointDevice),
        2..=2 => PciSubHierarchy(DmarScopePciSubHierarchy),
        3..=3 => Ioapic(DmarScopeIoapic),
        4..=4 => MsiCapableHpet(DmarScopeMsiCapableHpet),
        5..=5 => AcpiNamespaceDevice(DmarScopeAcpiNamespaceDevice),
    }
}

kinds! {
    /// IVRS-block: a structure by its type.
    IvrsBlock at 0, 1 {
        0x10..=0x10 => IOVirtualizationHardwareDefinitionIvhd0x10(IvrsBlockIOVirtualizationHardwareDefinitionIvhd0x10),
        0x11..=0x11 => IOVirtualizationHardwareDefinitionIvhd0x11(IvrsBlockIOVirtualizationHardwareDefinitionIvhd0x11),
        0x40..=0x40 => IOVirtualizationHardwareDefinitionIvhd0x40(IvrsBlockIOVirtualizationHardwareDefinitionIvhd0x40),
        0x20..=0x20 => IOVirtualizationMemoryDefinitionIvmdAllPeripherals(IvrsBlockIOVirtualizationMemoryDefinitionIvmdAllPeripherals),
        0x21..=0x21 => IOVirtualizationMemoryDefinitionIvmdSpecifiedPeripheral(IvrsBlockIOVirtualizationMemoryDefinitionIvmdSpecifiedPeripheral),
        0x22..=0x22 => IOVirtualizationMemoryDefinitionIvmdPeripheralRange(IvrsBlockIOVirtualizationMemoryDefinitionIvmdPeripheralRange),
    }
}

kinds! {
    /// IVHD-entry: a structure by its type.
    IvhdEntry at 0, 1 {
        0x00..=0x00 => Padding0x00(IvhdEntryPadding0x00),
        0x01..=0x01 => All(IvhdEntryAll),
        0x02..=0x02 => Select(IvhdEntrySelect),
        0x03..=0x03 => StartOfRange(IvhdEntryStartOfRange),
        0x04..=0x04 => EndOfRange(IvhdEntryEndOfRange),
        0x40..=0x40 => Padding0x40(IvhdEntryPadding0x40),
        0x42..=0x42 => AliasSelect(IvhdEntryAliasSelect),
        0x43..=0x43 => AliasStartOfRange(IvhdEntryAliasStartOfRange),
        0x46..=0x46 => ExtendedSelect(IvhdEntryExtendedSelect),
        0x47..=0x47 => ExtendedStartOfRange(IvhdEntryExtendedStartOfRange),
        0x48..=0x48 => SpecialDevice(IvhdEntrySpecialDevice),
        0xf0..=0xf0 => AcpiHidDevice(IvhdEntryAcpiHidDevice),
        0x05..=0x3f => ReservedOf4Bytes(IvhdEntryReservedOf4Bytes),
        0x41..=0x7f => ReservedOf8Bytes(IvhdEntryReservedOf8Bytes),
        0x80..=0xbf => ReservedOf16Bytes(IvhdEntryReservedOf16Bytes),
        0xc0..=0xef => ReservedOf32Bytes(IvhdEntryReservedOf32Bytes),
    }
}

kinds! {
    /// IORT-node: a structure by its type.
    IortNode at 0, 1 {
        0..=0 => ItsGroup(IortNodeItsGroup),
        1..=1 => NamedComponent(IortNodeNamedComponent),
        2..=2 => RootComplex(IortNodeRootComplex),
        3..=3 => Smmuv1OrSmmuv2(IortNodeSmmuv1OrSmmuv2),
        4..=4 => Smmuv3(IortNodeSmmuv3),
        5..=5 => Pmcg(IortNodePmcg),
        6..=6 => ReservedMemoryRangeRmr(IortNodeReservedMemoryRangeRmr),
    }
}

kinds! {
    /// VIOT-node: a structure by its type.
    ViotNode at 0, 1 {
        1..=1 => PciRange(ViotNodePciRange),
        2..=2 => SingleMmioEndpoint(ViotNodeSingleMmioEndpoint),
        3..=3 => VirtioIommuBasedOnVirtioPci(ViotNodeVirtioIommuBasedOnVirtioPci),
        4..=4 => VirtioIommuBasedOnVirtioMmio(ViotNodeVirtioIommuBasedOnVirtioMmio),
    }
}

kinds! {
    /// SRAT-entry: a structure by its type.
    SratEntry at 0, 1 {
        0..=0 => ProcessorLocalApicSapicAffinity(SratEntryProcessorLocalApicSapicAffinity),
        1..=1 => MemoryAffinity(SratEntryMemoryAffinity),
        2..=2 => ProcessorLocalX2apicAffinity(SratEntryProcessorLocalX2apicAffinity),
        3..=3 => GiccAffinity(SratEntryGiccAffinity),
        4..=4 => GicInterruptTranslationServiceItsAffinity(SratEntryGicInterruptTranslationServiceItsAffinity),
        5..=5 => GenericInitiatorAffinity(SratEntryGenericInitiatorAffinity),
        6..=6 => GenericPortAffinity(SratEntryGenericPortAffinity),
        7..=7 => RintcAffinity(SratEntryRintcAffinity),
    }
}

kinds! {
    /// ASF-record: a structure by its type.
    AsfRecord at 0, 1 {
        0x00..=0x00 => AsfInfo0x00(AsfRecordAsfInfo0x00),
        0x80..=0x80 => AsfInfo0x80(AsfRecordAsfInfo0x80),
        0x01..=0x01 => AsfAlrt0x01(AsfRecordAsfAlrt0x01),
        0x81..=0x81 => AsfAlrt0x81(AsfRecordAsfAlrt0x81),
        0x02..=0x02 => AsfRctl0x02(AsfRecordAsfRctl0x02),
        0x82..=0x82 => AsfRctl0x82(AsfRecordAsfRctl0x82),
        0x03..=0x03 => AsfRmcp0x03(AsfRecordAsfRmcp0x03),
        0x83..=0x83 => AsfRmcp0x83(AsfRecordAsfRmcp0x83),
        0x04..=0x04 => AsfAddr0x04(AsfRecordAsfAddr0x04),
        0x84..=0x84 => AsfAddr0x84(AsfRecordAsfAddr0x84),
    }
}

kinds! {
    /// PMTT-device-1: a structure by its type.
    PmttDevice1 at 0, 1 {
        0..=0 => Socket(PmttDevice1Socket),
        1..=1 => MemoryController(PmttDevice1MemoryController),
        2..=2 => Dimm(PmttDevice1Dimm),
    }
}

kinds! {
    /// PMTT-device: a structure by its type.
    PmttDevice at 0, 1 {
        0..=0 => Socket(PmttDeviceSocket),
        1..=1 => MemoryController(PmttDeviceMemoryController),
        2..=2 => Dimm(PmttDeviceDimm),
        0xff..=0xff => VendorSpecific(PmttDeviceVendorSpecific),
    }
}

kinds! {
    /// NFIT-structure: a structure by its type.
    NfitStructure at 0, 2 {
        0..=0 => SystemPhysicalAddressSpaRangeStructure(NfitStructureSystemPhysicalAddressSpaRangeStructure),
        1..=1 => NvdimmRegionMappingStructure(NfitStructureNvdimmRegionMappingStructure),
        2..=2 => InterleaveStructure(NfitStructureInterleaveStructure),
        3..=3 => SmbiosManagementInformationStructure(NfitStructureSmbiosManagementInformationStructure),
        4..=4 => NvdimmControlRegionStructure(NfitStructureNvdimmControlRegionStructure),
        5..=5 => NvdimmBlockDataWindowRegionStructure(NfitStructureNvdimmBlockDataWindowRegionStructure),
        6..=6 => FlushHintAddressStructure(NfitStructureFlushHintAddressStructure),
        7..=7 => PlatformCapabilitiesStructure(NfitStructurePlatformCapabilitiesStructure),
    }
}

kinds! {
    /// CEDT-structure: a structure by its type.
    CedtStructure at 0, 1 {
        0..=0 => CxlHostBridgeStructureChbs(CedtStructureCxlHostBridgeStructureChbs),
        1..=1 => CxlFixedMemoryWindowStructureCfmws(CedtStructureCxlFixedMemoryWindowStructureCfmws),
        2..=2 => CxlXorInterleaveMathStructureCxims(CedtStructureCxlXorInterleaveMathStructureCxims),
        3..=3 => RcecDownstreamPortAssociationStructureRdpas(CedtStructureRcecDownstreamPortAssociationStructureRdpas),
    }
}

kinds! {
    /// PPTT-node: a structure by its type.
    PpttNode at 0, 1 {
        0..=0 => ProcessorHierarchyNodeStructure(PpttNodeProcessorHierarchyNodeStructure),
        1..=1 => CacheTypeStructure(PpttNodeCacheTypeStructure),
        2..=2 => IdStructure(PpttNodeIdStructure),
    }
}

kinds! {
    /// LPIT-state: a structure by its type.
    LpitState at 0, 4 {
        0..=0 => NativeCStateInstructionBasedLpiStructure(LpitStateNativeCStateInstructionBasedLpiStructure),
    }
}

kinds! {
    /// PCCT-subspace: a structure by its type.
    PcctSubspace at 0, 1 {
        0..=0 => GenericCommunicationsSubspace(PcctSubspaceGenericCommunicationsSubspace),
        1..=1 => HwReducedCommunicationsSubspace(PcctSubspaceHwReducedCommunicationsSubspace),
        2..=2 => HwReducedCommunicationsSubspaceType2(PcctSubspaceHwReducedCommunicationsSubspaceType2),
        3..=3 => ExtendedPccSubspaceInitiator(PcctSubspaceExtendedPccSubspaceInitiator),
        4..=4 => ExtendedPccSubspaceResponder(PcctSubspaceExtendedPccSubspaceResponder),
        5..=5 => HwRegistersBasedCommunicationsSubspace(PcctSubspaceHwRegistersBasedCommunicationsSubspace),
    }
}

kinds! {
    /// AEST-node: a structure by its type.
    AestNode at 0, 1 {
        0..=0 => ProcessorErrorNode(AestNodeProcessorErrorNode),
        1..=1 => MemoryErrorNode(AestNodeMemoryErrorNode),
        2..=2 => SmmuErrorNode(AestNodeSmmuErrorNode),
        3..=3 => VendorDefinedErrorNode(AestNodeVendorDefinedErrorNode),
        4..=4 => GicErrorNode(AestNodeGicErrorNode),
    }
}

kinds! {
    /// RHCT-node: a structure by its type.
    RhctNode at 0, 2 {
        0..=0 => IsaStringNode(RhctNodeIsaStringNode),
        1..=1 => CacheManagementOperationCmoExtensionNode(RhctNodeCacheManagementOperationCmoExtensionNode),
        2..=2 => MmuNode(RhctNodeMmuNode),
        0xffff..=0xffff => HartInfoNode(RhctNodeHartInfoNode),
    }
}

kinds! {
    /// RIMT-node: a structure by its type.
    RimtNode at 0, 1 {
        0..=0 => Iommu(RimtNodeIommu),
        1..=1 => PcieRootComplex(RimtNodePcieRootComplex),
        2..=2 => PlatformDevice(RimtNodePlatformDevice),
    }
}

kinds! {
    /// IOVT-unit: a structure by its type.
    IovtUnit at 0, 2 {
        0..=0 => IommuVersion1(IovtUnitIommuVersion1),
    }
}

kinds! {
    /// IOVT-device: a structure by its type.
    IovtDevice at 0, 1 {
        0..=0 => ASinglePciDevice(IovtDeviceASinglePciDevice),
        1..=1 => StartOfRange(IovtDeviceStartOfRange),
        2..=2 => EndOfRange(IovtDeviceEndOfRange),
    }
}

kinds! {
    /// IBFT-structure: a structure by its type.
    IbftStructure at 0, 1 {
        1..=1 => Control(IbftStructureControl),
        2..=2 => Initiator(IbftStructureInitiator),
        3..=3 => Nic(IbftStructureNic),
        4..=4 => Target(IbftStructureTarget),
    }
}

kinds! {
    /// ERDT-domain: a structure by its type.
    ErdtDomain at 0, 2 {
        0..=0 => ResourceManagementDomainDescriptionRmdd(ErdtDomainResourceManagementDomainDescriptionRmdd),
    }
}

kinds! {
    /// ERDT-structure: a structure by its type.
    ErdtStructure at 0, 2 {
        1..=1 => CpuAgentCollectionDescriptionCacd(ErdtStructureCpuAgentCollectionDescriptionCacd),
        2..=2 => DeviceAgentCollectionDescriptionDacd(ErdtStructureDeviceAgentCollectionDescriptionDacd),
        3..=3 => CacheMonitoringRegistersForCpuAgentsCmrc(ErdtStructureCacheMonitoringRegistersForCpuAgentsCmrc),
        4..=4 => MemoryBandwidthMonitoringRegistersForCpuAgentsMmrc(ErdtStructureMemoryBandwidthMonitoringRegistersForCpuAgentsMmrc),
        5..=5 => MemoryBandwidthAllocationRegistersForCpuAgentsMarc(ErdtStructureMemoryBandwidthAllocationRegistersForCpuAgentsMarc),
        6..=6 => CacheAllocationRegistersForCpuAgentsCarc(ErdtStructureCacheAllocationRegistersForCpuAgentsCarc),
        7..=7 => CacheMonitoringRegistersForDeviceAgentsCmrd(ErdtStructureCacheMonitoringRegistersForDeviceAgentsCmrd),
        8..=8 => IOBandwidthMonitoringRegistersForDeviceAgentsIbrd(ErdtStructureIOBandwidthMonitoringRegistersForDeviceAgentsIbrd),
        9..=9 => IOBandwidthAllocationRegistersForDeviceAgentsIbad(ErdtStructureIOBandwidthAllocationRegistersForDeviceAgentsIbad),
        10..=10 => CacheAllocationRegistersForDeviceAgentsCard(ErdtStructureCacheAllocationRegistersForDeviceAgentsCard),
    }
}

kinds! {
    /// ERDT-device: a structure by its type.
    ErdtDevice at 0, 1 {
        1..=1 => PciEndpointDevice(ErdtDevicePciEndpointDevice),
        2..=2 => PciSubHierarchy(ErdtDevicePciSubHierarchy),
    }
}

kinds! {
    /// MRRM-range: a structure by its type.
    MrrmRange at 0, 2 {
        0..=0 => MemoryRange(MrrmRangeMemoryRange),
    }
}

kinds! {
    /// CRAT-entry: a structure by its type.
    CratEntry at 0, 1 {
        0..=0 => ComputeUnitAffinity(CratEntryComputeUnitAffinity),
        1..=1 => MemoryAffinity(CratEntryMemoryAffinity),
        2..=2 => CacheAffinity(CratEntryCacheAffinity),
        3..=3 => TlbAffinity(CratEntryTlbAffinity),
        4..=4 => FpuAffinity(CratEntryFpuAffinity),
        5..=5 => IOAffinity(CratEntryIOAffinity),
    }
}

kinds! {
    /// ASPT-structure: a structure by its type.
    AsptStructure at 0, 2 {
        0..=0 => AspGlobalRegisters(AsptStructureAspGlobalRegisters),
        1..=1 => SevMailboxRegisters(AsptStructureSevMailboxRegisters),
        2..=2 => AcpiMailboxRegisters(AsptStructureAcpiMailboxRegisters),
    }
}

kinds! {
    /// KEYP-structure: a structure by its type.
    KeypStructure at 0, 1 {
        0..=0 => KeyConfigurationUnit(KeypStructureKeyConfigurationUnit),
    }
}

kinds! {
    /// SDEV-structure: a structure by its type.
    SdevStructure at 0, 1 {
        0..=0 => AcpiNamespaceDeviceBasedSecureDeviceStructure(SdevStructureAcpiNamespaceDeviceBasedSecureDeviceStructure),
        1..=1 => PcieEndpointDeviceBasedDeviceStructure(SdevStructurePcieEndpointDeviceBasedDeviceStructure),
    }
}
