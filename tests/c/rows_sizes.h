/* Made by scripts/row_fields of zacpi.h: no byte of a struct is padding, but the second half of a
 * pointer of 32 bits. For rows.c. */
#ifndef ROWS_SIZES_H
#define ROWS_SIZES_H

#define SIZE_OF(type, field) sizeof(((struct type *)0)->field)
#define POINTER(type, field) (0 * SIZE_OF(type, field) + 8)
#define IS_FULL(type, size) typedef char type##_is_full[sizeof(struct type) == (size) ? 1 : -1]

IS_FULL(zacpi_region, SIZE_OF(zacpi_region, address) + POINTER(zacpi_region, bytes) + SIZE_OF(zacpi_region, length));
IS_FULL(zacpi_range, SIZE_OF(zacpi_range, address) + SIZE_OF(zacpi_range, length));
IS_FULL(zacpi_source, POINTER(zacpi_source, regions) + SIZE_OF(zacpi_source, regions_length) +
        SIZE_OF(zacpi_source, address) + SIZE_OF(zacpi_source, start) + SIZE_OF(zacpi_source, accept));
IS_FULL(zacpi_place, SIZE_OF(zacpi_place, region) + SIZE_OF(zacpi_place, offset));
IS_FULL(zacpi_signature, SIZE_OF(zacpi_signature, letters));
IS_FULL(zacpi_root, SIZE_OF(zacpi_root, address) + SIZE_OF(zacpi_root, length) + SIZE_OF(zacpi_root, revision) +
        SIZE_OF(zacpi_root, pointer_width) + SIZE_OF(zacpi_root, reserved_1) + SIZE_OF(zacpi_root, rsdp_address) +
        SIZE_OF(zacpi_root, rsdp_length) + SIZE_OF(zacpi_root, reserved_2));
IS_FULL(zacpi_rsdp, SIZE_OF(zacpi_rsdp, address) + SIZE_OF(zacpi_rsdp, xsdt_address) +
        SIZE_OF(zacpi_rsdp, rsdt_address) + SIZE_OF(zacpi_rsdp, length) + SIZE_OF(zacpi_rsdp, revision) +
        SIZE_OF(zacpi_rsdp, oem_id) + SIZE_OF(zacpi_rsdp, reserved));
IS_FULL(zacpi_table, SIZE_OF(zacpi_table, address) + SIZE_OF(zacpi_table, length) + SIZE_OF(zacpi_table, signature) +
        SIZE_OF(zacpi_table, revision) + SIZE_OF(zacpi_table, oem_id) + SIZE_OF(zacpi_table, oem_table_id) +
        SIZE_OF(zacpi_table, reserved_1) + SIZE_OF(zacpi_table, oem_revision) + SIZE_OF(zacpi_table, creator_id) +
        SIZE_OF(zacpi_table, creator_revision) + SIZE_OF(zacpi_table, reserved_2));
IS_FULL(zacpi_member, SIZE_OF(zacpi_member, table) + SIZE_OF(zacpi_member, status) + SIZE_OF(zacpi_member, has_header)
        + SIZE_OF(zacpi_member, reserved));
IS_FULL(zacpi_fault, SIZE_OF(zacpi_fault, address) + SIZE_OF(zacpi_fault, status) + SIZE_OF(zacpi_fault, accepted) +
        SIZE_OF(zacpi_fault, reserved));
IS_FULL(zacpi_walk, SIZE_OF(zacpi_walk, first) + SIZE_OF(zacpi_walk, type_offset) + SIZE_OF(zacpi_walk, type_width) +
        SIZE_OF(zacpi_walk, length_offset) + SIZE_OF(zacpi_walk, length_width));
IS_FULL(zacpi_entry, SIZE_OF(zacpi_entry, address) + SIZE_OF(zacpi_entry, entry_type) + SIZE_OF(zacpi_entry, length));
IS_FULL(zacpi_aml_table, SIZE_OF(zacpi_aml_table, address) + SIZE_OF(zacpi_aml_table, length) +
        SIZE_OF(zacpi_aml_table, revision) + SIZE_OF(zacpi_aml_table, reserved) +
        SIZE_OF(zacpi_aml_table, table_address));
IS_FULL(zacpi_generic_address, SIZE_OF(zacpi_generic_address, address) + SIZE_OF(zacpi_generic_address, space) +
        SIZE_OF(zacpi_generic_address, bit_width) + SIZE_OF(zacpi_generic_address, bit_offset) +
        SIZE_OF(zacpi_generic_address, access_size) + SIZE_OF(zacpi_generic_address, reserved));
IS_FULL(zacpi_register, SIZE_OF(zacpi_register, at) + SIZE_OF(zacpi_register, present) +
        SIZE_OF(zacpi_register, reserved));
IS_FULL(zacpi_pm_timer, SIZE_OF(zacpi_pm_timer, base) + SIZE_OF(zacpi_pm_timer, present) +
        SIZE_OF(zacpi_pm_timer, is_32_bit) + SIZE_OF(zacpi_pm_timer, reserved));
IS_FULL(zacpi_hpet_info, SIZE_OF(zacpi_hpet_info, base_address) + SIZE_OF(zacpi_hpet_info, event_timer_block_id) +
        SIZE_OF(zacpi_hpet_info, clock_tick_unit) + SIZE_OF(zacpi_hpet_info, number) +
        SIZE_OF(zacpi_hpet_info, page_protection));
IS_FULL(zacpi_boot_graphic, SIZE_OF(zacpi_boot_graphic, address) + SIZE_OF(zacpi_boot_graphic, x) +
        SIZE_OF(zacpi_boot_graphic, y) + SIZE_OF(zacpi_boot_graphic, orientation) +
        SIZE_OF(zacpi_boot_graphic, displayed) + SIZE_OF(zacpi_boot_graphic, image_type) +
        SIZE_OF(zacpi_boot_graphic, reserved));
IS_FULL(zacpi_gpe_block, SIZE_OF(zacpi_gpe_block, address) + SIZE_OF(zacpi_gpe_block, space) +
        SIZE_OF(zacpi_gpe_block, byte_length) + SIZE_OF(zacpi_gpe_block, present) +
        SIZE_OF(zacpi_gpe_block, reserved));
IS_FULL(zacpi_fixed_hardware, SIZE_OF(zacpi_fixed_hardware, facs_address) +
        SIZE_OF(zacpi_fixed_hardware, dsdt_address) + SIZE_OF(zacpi_fixed_hardware, pm1a_event) +
        SIZE_OF(zacpi_fixed_hardware, pm1b_event) + SIZE_OF(zacpi_fixed_hardware, pm1a_control) +
        SIZE_OF(zacpi_fixed_hardware, pm1b_control) + SIZE_OF(zacpi_fixed_hardware, pm2_control) +
        SIZE_OF(zacpi_fixed_hardware, pm_timer) + SIZE_OF(zacpi_fixed_hardware, gpe0) +
        SIZE_OF(zacpi_fixed_hardware, gpe1) + SIZE_OF(zacpi_fixed_hardware, reset) +
        SIZE_OF(zacpi_fixed_hardware, sleep_control) + SIZE_OF(zacpi_fixed_hardware, sleep_status) +
        SIZE_OF(zacpi_fixed_hardware, gpe0_block) + SIZE_OF(zacpi_fixed_hardware, gpe1_block) +
        SIZE_OF(zacpi_fixed_hardware, smi_command) + SIZE_OF(zacpi_fixed_hardware, flags) +
        SIZE_OF(zacpi_fixed_hardware, sci_interrupt) + SIZE_OF(zacpi_fixed_hardware, x86_boot_flags) +
        SIZE_OF(zacpi_fixed_hardware, arm_boot_flags) + SIZE_OF(zacpi_fixed_hardware, c2_latency) +
        SIZE_OF(zacpi_fixed_hardware, c3_latency) + SIZE_OF(zacpi_fixed_hardware, flush_size) +
        SIZE_OF(zacpi_fixed_hardware, flush_stride) + SIZE_OF(zacpi_fixed_hardware, power_profile) +
        SIZE_OF(zacpi_fixed_hardware, acpi_enable) + SIZE_OF(zacpi_fixed_hardware, acpi_disable) +
        SIZE_OF(zacpi_fixed_hardware, s4bios_request) + SIZE_OF(zacpi_fixed_hardware, pstate_control) +
        SIZE_OF(zacpi_fixed_hardware, c_state_control) + SIZE_OF(zacpi_fixed_hardware, gpe1_base) +
        SIZE_OF(zacpi_fixed_hardware, duty_offset) + SIZE_OF(zacpi_fixed_hardware, duty_width) +
        SIZE_OF(zacpi_fixed_hardware, day_alarm) + SIZE_OF(zacpi_fixed_hardware, month_alarm) +
        SIZE_OF(zacpi_fixed_hardware, century) + SIZE_OF(zacpi_fixed_hardware, reset_value) +
        SIZE_OF(zacpi_fixed_hardware, revision) + SIZE_OF(zacpi_fixed_hardware, minor_revision) +
        SIZE_OF(zacpi_fixed_hardware, reserved) + SIZE_OF(zacpi_fixed_hardware, hypervisor_id));
IS_FULL(zacpi_facs, SIZE_OF(zacpi_facs, address) + SIZE_OF(zacpi_facs, waking_vector_64) + SIZE_OF(zacpi_facs, length)
        + SIZE_OF(zacpi_facs, hardware_signature) + SIZE_OF(zacpi_facs, waking_vector) + SIZE_OF(zacpi_facs, flags) +
        SIZE_OF(zacpi_facs, version) + SIZE_OF(zacpi_facs, reserved));
IS_FULL(zacpi_console, SIZE_OF(zacpi_console, base) + SIZE_OF(zacpi_console, baud_rate) +
        SIZE_OF(zacpi_console, global_system_interrupt) + SIZE_OF(zacpi_console, clock_frequency) +
        SIZE_OF(zacpi_console, pci_flags) + SIZE_OF(zacpi_console, pci_device_id) +
        SIZE_OF(zacpi_console, pci_vendor_id) + SIZE_OF(zacpi_console, interface_type) + SIZE_OF(zacpi_console, irq) +
        SIZE_OF(zacpi_console, has_irq) + SIZE_OF(zacpi_console, has_global_system_interrupt) +
        SIZE_OF(zacpi_console, has_baud_rate) + SIZE_OF(zacpi_console, parity) + SIZE_OF(zacpi_console, stop_bits) +
        SIZE_OF(zacpi_console, pci_segment) + SIZE_OF(zacpi_console, pci_bus) + SIZE_OF(zacpi_console, pci_device) +
        SIZE_OF(zacpi_console, pci_function) + SIZE_OF(zacpi_console, reserved));
IS_FULL(zacpi_step, SIZE_OF(zacpi_step, at) + SIZE_OF(zacpi_step, mask) + SIZE_OF(zacpi_step, value) +
        SIZE_OF(zacpi_step, width) + SIZE_OF(zacpi_step, kind) + SIZE_OF(zacpi_step, reserved));
IS_FULL(zacpi_plan, SIZE_OF(zacpi_plan, steps) + SIZE_OF(zacpi_plan, count) + SIZE_OF(zacpi_plan, reserved));
IS_FULL(zacpi_sleep_types, SIZE_OF(zacpi_sleep_types, a) + SIZE_OF(zacpi_sleep_types, b));
IS_FULL(zacpi_pci_region, SIZE_OF(zacpi_pci_region, base_address) + SIZE_OF(zacpi_pci_region, segment_group) +
        SIZE_OF(zacpi_pci_region, first_bus) + SIZE_OF(zacpi_pci_region, last_bus) +
        SIZE_OF(zacpi_pci_region, reserved));
IS_FULL(zacpi_ecam_range, SIZE_OF(zacpi_ecam_range, address) + SIZE_OF(zacpi_ecam_range, length) +
        SIZE_OF(zacpi_ecam_range, segment_group) + SIZE_OF(zacpi_ecam_range, present) +
        SIZE_OF(zacpi_ecam_range, reserved));
IS_FULL(zacpi_interrupt_model, SIZE_OF(zacpi_interrupt_model, local_apic_address) +
        SIZE_OF(zacpi_interrupt_model, io_apics) + SIZE_OF(zacpi_interrupt_model, overrides) +
        SIZE_OF(zacpi_interrupt_model, nmi_sources) + SIZE_OF(zacpi_interrupt_model, nmi_lines) +
        SIZE_OF(zacpi_interrupt_model, processors) + SIZE_OF(zacpi_interrupt_model, known) +
        SIZE_OF(zacpi_interrupt_model, also_has_8259) + SIZE_OF(zacpi_interrupt_model, reserved));
IS_FULL(zacpi_local_apic, SIZE_OF(zacpi_local_apic, address) + SIZE_OF(zacpi_local_apic, also_has_8259) +
        SIZE_OF(zacpi_local_apic, reserved));
IS_FULL(zacpi_io_apic, SIZE_OF(zacpi_io_apic, address) + SIZE_OF(zacpi_io_apic, global_system_interrupt_base) +
        SIZE_OF(zacpi_io_apic, id) + SIZE_OF(zacpi_io_apic, reserved));
IS_FULL(zacpi_interrupt_source_override, SIZE_OF(zacpi_interrupt_source_override, global_system_interrupt) +
        SIZE_OF(zacpi_interrupt_source_override, isa_source) + SIZE_OF(zacpi_interrupt_source_override, polarity) +
        SIZE_OF(zacpi_interrupt_source_override, trigger) + SIZE_OF(zacpi_interrupt_source_override, bus));
IS_FULL(zacpi_nmi_source, SIZE_OF(zacpi_nmi_source, global_system_interrupt) + SIZE_OF(zacpi_nmi_source, polarity) +
        SIZE_OF(zacpi_nmi_source, trigger) + SIZE_OF(zacpi_nmi_source, reserved));
IS_FULL(zacpi_nmi_line, SIZE_OF(zacpi_nmi_line, processor_uid) + SIZE_OF(zacpi_nmi_line, of_all) +
        SIZE_OF(zacpi_nmi_line, lint) + SIZE_OF(zacpi_nmi_line, polarity) + SIZE_OF(zacpi_nmi_line, trigger));
IS_FULL(zacpi_processor, SIZE_OF(zacpi_processor, uid) + SIZE_OF(zacpi_processor, local_apic_id) +
        SIZE_OF(zacpi_processor, state) + SIZE_OF(zacpi_processor, is_boot) +
        SIZE_OF(zacpi_processor, is_online_capable) + SIZE_OF(zacpi_processor, is_x2apic));
IS_FULL(zacpi_entry_fault, SIZE_OF(zacpi_entry_fault, address) + SIZE_OF(zacpi_entry_fault, status) +
        SIZE_OF(zacpi_entry_fault, entry_type) + SIZE_OF(zacpi_entry_fault, reserved));
IS_FULL(zacpi_platform_lists, POINTER(zacpi_platform_lists, processors) +
        SIZE_OF(zacpi_platform_lists, processors_capacity) + SIZE_OF(zacpi_platform_lists, processors_count) +
        POINTER(zacpi_platform_lists, io_apics) + SIZE_OF(zacpi_platform_lists, io_apics_capacity) +
        SIZE_OF(zacpi_platform_lists, io_apics_count) + POINTER(zacpi_platform_lists, overrides) +
        SIZE_OF(zacpi_platform_lists, overrides_capacity) + SIZE_OF(zacpi_platform_lists, overrides_count) +
        POINTER(zacpi_platform_lists, nmi_sources) + SIZE_OF(zacpi_platform_lists, nmi_sources_capacity) +
        SIZE_OF(zacpi_platform_lists, nmi_sources_count) + POINTER(zacpi_platform_lists, nmi_lines) +
        SIZE_OF(zacpi_platform_lists, nmi_lines_capacity) + SIZE_OF(zacpi_platform_lists, nmi_lines_count));
IS_FULL(zacpi_interrupt, SIZE_OF(zacpi_interrupt, global_system_interrupt) + SIZE_OF(zacpi_interrupt, polarity) +
        SIZE_OF(zacpi_interrupt, trigger) + SIZE_OF(zacpi_interrupt, reserved));
IS_FULL(zacpi_io_apic_pin, SIZE_OF(zacpi_io_apic_pin, io_apic) + SIZE_OF(zacpi_io_apic_pin, pin));
IS_FULL(zacpi_isa_route, SIZE_OF(zacpi_isa_route, interrupt) + SIZE_OF(zacpi_isa_route, pin) +
        SIZE_OF(zacpi_isa_route, present) + SIZE_OF(zacpi_isa_route, has_pin) + SIZE_OF(zacpi_isa_route, reserved));
IS_FULL(zacpi_isa_interrupts, SIZE_OF(zacpi_isa_interrupts, routes));
IS_FULL(zacpi_gic_distributor, SIZE_OF(zacpi_gic_distributor, address) + SIZE_OF(zacpi_gic_distributor, id) +
        SIZE_OF(zacpi_gic_distributor, system_vector_base) + SIZE_OF(zacpi_gic_distributor, version) +
        SIZE_OF(zacpi_gic_distributor, reserved));
IS_FULL(zacpi_gic_cpu_interface, SIZE_OF(zacpi_gic_cpu_interface, mpidr) +
        SIZE_OF(zacpi_gic_cpu_interface, parked_address) + SIZE_OF(zacpi_gic_cpu_interface, address) +
        SIZE_OF(zacpi_gic_cpu_interface, virtual_address) + SIZE_OF(zacpi_gic_cpu_interface, hypervisor_address) +
        SIZE_OF(zacpi_gic_cpu_interface, redistributor_address) + SIZE_OF(zacpi_gic_cpu_interface, number) +
        SIZE_OF(zacpi_gic_cpu_interface, processor_uid) + SIZE_OF(zacpi_gic_cpu_interface, performance_interrupt) +
        SIZE_OF(zacpi_gic_cpu_interface, maintenance_interrupt) +
        SIZE_OF(zacpi_gic_cpu_interface, parking_protocol_version) +
        SIZE_OF(zacpi_gic_cpu_interface, spe_overflow_interrupt) +
        SIZE_OF(zacpi_gic_cpu_interface, trace_buffer_interrupt) + SIZE_OF(zacpi_gic_cpu_interface, is_enabled) +
        SIZE_OF(zacpi_gic_cpu_interface, is_online_capable) + SIZE_OF(zacpi_gic_cpu_interface, performance_trigger) +
        SIZE_OF(zacpi_gic_cpu_interface, maintenance_trigger) + SIZE_OF(zacpi_gic_cpu_interface, efficiency_class) +
        SIZE_OF(zacpi_gic_cpu_interface, reserved));
IS_FULL(zacpi_gic_translation_service, SIZE_OF(zacpi_gic_translation_service, address) +
        SIZE_OF(zacpi_gic_translation_service, id) + SIZE_OF(zacpi_gic_translation_service, reserved));
IS_FULL(zacpi_gic_msi_frame, SIZE_OF(zacpi_gic_msi_frame, address) + SIZE_OF(zacpi_gic_msi_frame, id) +
        SIZE_OF(zacpi_gic_msi_frame, spi_base) + SIZE_OF(zacpi_gic_msi_frame, spi_count) +
        SIZE_OF(zacpi_gic_msi_frame, has_spis) + SIZE_OF(zacpi_gic_msi_frame, reserved));
IS_FULL(zacpi_arm_timer, SIZE_OF(zacpi_arm_timer, interrupt) + SIZE_OF(zacpi_arm_timer, polarity) +
        SIZE_OF(zacpi_arm_timer, trigger) + SIZE_OF(zacpi_arm_timer, always_on) + SIZE_OF(zacpi_arm_timer, present));
IS_FULL(zacpi_arm_timers, SIZE_OF(zacpi_arm_timers, control_base) + SIZE_OF(zacpi_arm_timers, read_base) +
        SIZE_OF(zacpi_arm_timers, secure_el1) + SIZE_OF(zacpi_arm_timers, non_secure_el1) +
        SIZE_OF(zacpi_arm_timers, virtual_el1) + SIZE_OF(zacpi_arm_timers, el2) +
        SIZE_OF(zacpi_arm_timers, virtual_el2) + SIZE_OF(zacpi_arm_timers, platform_timers_malformed) +
        SIZE_OF(zacpi_arm_timers, reserved));
IS_FULL(zacpi_gt_frame, SIZE_OF(zacpi_gt_frame, block_address) + SIZE_OF(zacpi_gt_frame, address) +
        SIZE_OF(zacpi_gt_frame, el0_address) + SIZE_OF(zacpi_gt_frame, physical_interrupt) +
        SIZE_OF(zacpi_gt_frame, virtual_interrupt) + SIZE_OF(zacpi_gt_frame, number) +
        SIZE_OF(zacpi_gt_frame, physical_polarity) + SIZE_OF(zacpi_gt_frame, physical_trigger) +
        SIZE_OF(zacpi_gt_frame, virtual_polarity) + SIZE_OF(zacpi_gt_frame, virtual_trigger) +
        SIZE_OF(zacpi_gt_frame, is_secure) + SIZE_OF(zacpi_gt_frame, is_always_on) +
        SIZE_OF(zacpi_gt_frame, reserved));
IS_FULL(zacpi_watchdog, SIZE_OF(zacpi_watchdog, refresh_frame) + SIZE_OF(zacpi_watchdog, control_frame) +
        SIZE_OF(zacpi_watchdog, interrupt) + SIZE_OF(zacpi_watchdog, polarity) + SIZE_OF(zacpi_watchdog, trigger) +
        SIZE_OF(zacpi_watchdog, is_secure) + SIZE_OF(zacpi_watchdog, reserved));
IS_FULL(zacpi_rintc, SIZE_OF(zacpi_rintc, hart_id) + SIZE_OF(zacpi_rintc, imsic_address) + SIZE_OF(zacpi_rintc, flags)
        + SIZE_OF(zacpi_rintc, processor_uid) + SIZE_OF(zacpi_rintc, external_interrupt_controller_id) +
        SIZE_OF(zacpi_rintc, imsic_size) + SIZE_OF(zacpi_rintc, version) + SIZE_OF(zacpi_rintc, reserved));
IS_FULL(zacpi_imsic, SIZE_OF(zacpi_imsic, flags) + SIZE_OF(zacpi_imsic, supervisor_identities) +
        SIZE_OF(zacpi_imsic, guest_identities) + SIZE_OF(zacpi_imsic, guest_index_bits) +
        SIZE_OF(zacpi_imsic, hart_index_bits) + SIZE_OF(zacpi_imsic, group_index_bits) +
        SIZE_OF(zacpi_imsic, group_index_shift) + SIZE_OF(zacpi_imsic, version) + SIZE_OF(zacpi_imsic, reserved));
IS_FULL(zacpi_aplic, SIZE_OF(zacpi_aplic, address) + SIZE_OF(zacpi_aplic, hardware_id) + SIZE_OF(zacpi_aplic, flags) +
        SIZE_OF(zacpi_aplic, global_system_interrupt_base) + SIZE_OF(zacpi_aplic, size) +
        SIZE_OF(zacpi_aplic, idc_count) + SIZE_OF(zacpi_aplic, source_count) + SIZE_OF(zacpi_aplic, id) +
        SIZE_OF(zacpi_aplic, version) + SIZE_OF(zacpi_aplic, reserved));
IS_FULL(zacpi_plic, SIZE_OF(zacpi_plic, address) + SIZE_OF(zacpi_plic, hardware_id) + SIZE_OF(zacpi_plic, flags) +
        SIZE_OF(zacpi_plic, global_system_interrupt_base) + SIZE_OF(zacpi_plic, size) +
        SIZE_OF(zacpi_plic, source_count) + SIZE_OF(zacpi_plic, max_priority) + SIZE_OF(zacpi_plic, id) +
        SIZE_OF(zacpi_plic, version) + SIZE_OF(zacpi_plic, reserved));
IS_FULL(zacpi_memory_affinity, SIZE_OF(zacpi_memory_affinity, address) + SIZE_OF(zacpi_memory_affinity, length) +
        SIZE_OF(zacpi_memory_affinity, domain) + SIZE_OF(zacpi_memory_affinity, is_hot_pluggable) +
        SIZE_OF(zacpi_memory_affinity, is_non_volatile) + SIZE_OF(zacpi_memory_affinity, reserved));
IS_FULL(zacpi_processor_affinity, SIZE_OF(zacpi_processor_affinity, id) + SIZE_OF(zacpi_processor_affinity, domain) +
        SIZE_OF(zacpi_processor_affinity, clock_domain) + SIZE_OF(zacpi_processor_affinity, entry_type) +
        SIZE_OF(zacpi_processor_affinity, reserved));
IS_FULL(zacpi_generic_initiator, SIZE_OF(zacpi_generic_initiator, domain) +
        SIZE_OF(zacpi_generic_initiator, is_architectural) + SIZE_OF(zacpi_generic_initiator, handle_type) +
        SIZE_OF(zacpi_generic_initiator, handle) + SIZE_OF(zacpi_generic_initiator, reserved));
IS_FULL(zacpi_its_affinity, SIZE_OF(zacpi_its_affinity, domain) + SIZE_OF(zacpi_its_affinity, its_id));
IS_FULL(zacpi_localities, SIZE_OF(zacpi_localities, localities) + SIZE_OF(zacpi_localities, is_sane) +
        SIZE_OF(zacpi_localities, reserved));
IS_FULL(zacpi_dmar_flags, SIZE_OF(zacpi_dmar_flags, address_bits) + SIZE_OF(zacpi_dmar_flags, flags) +
        SIZE_OF(zacpi_dmar_flags, reserved));
IS_FULL(zacpi_hop, SIZE_OF(zacpi_hop, device) + SIZE_OF(zacpi_hop, function));
IS_FULL(zacpi_dmar_unit, SIZE_OF(zacpi_dmar_unit, register_base) + SIZE_OF(zacpi_dmar_unit, register_bytes) +
        SIZE_OF(zacpi_dmar_unit, segment) + SIZE_OF(zacpi_dmar_unit, includes_pci_all) +
        SIZE_OF(zacpi_dmar_unit, flags) + SIZE_OF(zacpi_dmar_unit, size) + SIZE_OF(zacpi_dmar_unit, reserved));
IS_FULL(zacpi_dmar_scope, SIZE_OF(zacpi_dmar_scope, path_length) + SIZE_OF(zacpi_dmar_scope, scope_type) +
        SIZE_OF(zacpi_dmar_scope, flags) + SIZE_OF(zacpi_dmar_scope, enumeration_id) + SIZE_OF(zacpi_dmar_scope, bus)
        + SIZE_OF(zacpi_dmar_scope, path) + SIZE_OF(zacpi_dmar_scope, reserved));
IS_FULL(zacpi_dmar_source, SIZE_OF(zacpi_dmar_source, unit) + SIZE_OF(zacpi_dmar_source, bus) +
        SIZE_OF(zacpi_dmar_source, hop) + SIZE_OF(zacpi_dmar_source, has_hop) + SIZE_OF(zacpi_dmar_source, reserved));
IS_FULL(zacpi_dmar_reserved, SIZE_OF(zacpi_dmar_reserved, base) + SIZE_OF(zacpi_dmar_reserved, limit) +
        SIZE_OF(zacpi_dmar_reserved, segment) + SIZE_OF(zacpi_dmar_reserved, reserved));
IS_FULL(zacpi_dmar_root_ports, SIZE_OF(zacpi_dmar_root_ports, segment) + SIZE_OF(zacpi_dmar_root_ports, includes_all)
        + SIZE_OF(zacpi_dmar_root_ports, flags));
IS_FULL(zacpi_dmar_affinity, SIZE_OF(zacpi_dmar_affinity, register_base) + SIZE_OF(zacpi_dmar_affinity, domain) +
        SIZE_OF(zacpi_dmar_affinity, reserved));
IS_FULL(zacpi_ivrs_unit, SIZE_OF(zacpi_ivrs_unit, base) + SIZE_OF(zacpi_ivrs_unit, extended_features) +
        SIZE_OF(zacpi_ivrs_unit, features) + SIZE_OF(zacpi_ivrs_unit, segment) + SIZE_OF(zacpi_ivrs_unit, device_id) +
        SIZE_OF(zacpi_ivrs_unit, capability_offset) + SIZE_OF(zacpi_ivrs_unit, info) +
        SIZE_OF(zacpi_ivrs_unit, block_type) + SIZE_OF(zacpi_ivrs_unit, flags) +
        SIZE_OF(zacpi_ivrs_unit, has_extended_features) + SIZE_OF(zacpi_ivrs_unit, reserved));
IS_FULL(zacpi_ivrs_device, SIZE_OF(zacpi_ivrs_device, unit) + SIZE_OF(zacpi_ivrs_device, source_id) +
        SIZE_OF(zacpi_ivrs_device, settings) + SIZE_OF(zacpi_ivrs_device, reserved));
IS_FULL(zacpi_ivrs_memory, SIZE_OF(zacpi_ivrs_memory, start) + SIZE_OF(zacpi_ivrs_memory, length) +
        SIZE_OF(zacpi_ivrs_memory, device_id) + SIZE_OF(zacpi_ivrs_memory, auxiliary) +
        SIZE_OF(zacpi_ivrs_memory, block_type) + SIZE_OF(zacpi_ivrs_memory, flags) +
        SIZE_OF(zacpi_ivrs_memory, reserved));
IS_FULL(zacpi_ivrs_entry, SIZE_OF(zacpi_ivrs_entry, unique_id_length) + SIZE_OF(zacpi_ivrs_entry, extended_settings) +
        SIZE_OF(zacpi_ivrs_entry, first) + SIZE_OF(zacpi_ivrs_entry, last) + SIZE_OF(zacpi_ivrs_entry, source_id) +
        SIZE_OF(zacpi_ivrs_entry, entry_type) + SIZE_OF(zacpi_ivrs_entry, settings) +
        SIZE_OF(zacpi_ivrs_entry, handle) + SIZE_OF(zacpi_ivrs_entry, variety) +
        SIZE_OF(zacpi_ivrs_entry, hardware_id) + SIZE_OF(zacpi_ivrs_entry, compatible_id) +
        SIZE_OF(zacpi_ivrs_entry, unique_id_format) + SIZE_OF(zacpi_ivrs_entry, unique_id) +
        SIZE_OF(zacpi_ivrs_entry, reserved));
IS_FULL(zacpi_table_ids, SIZE_OF(zacpi_table_ids, oem_id) + SIZE_OF(zacpi_table_ids, oem_table_id) +
        SIZE_OF(zacpi_table_ids, reserved) + SIZE_OF(zacpi_table_ids, oem_revision) +
        SIZE_OF(zacpi_table_ids, creator_id) + SIZE_OF(zacpi_table_ids, creator_revision));
IS_FULL(zacpi_madt_contents, POINTER(zacpi_madt_contents, processors) +
        SIZE_OF(zacpi_madt_contents, processors_length) + POINTER(zacpi_madt_contents, io_apics) +
        SIZE_OF(zacpi_madt_contents, io_apics_length) + POINTER(zacpi_madt_contents, overrides) +
        SIZE_OF(zacpi_madt_contents, overrides_length) + POINTER(zacpi_madt_contents, nmi_sources) +
        SIZE_OF(zacpi_madt_contents, nmi_sources_length) + POINTER(zacpi_madt_contents, nmi_lines) +
        SIZE_OF(zacpi_madt_contents, nmi_lines_length) + SIZE_OF(zacpi_madt_contents, local_apic_address) +
        SIZE_OF(zacpi_madt_contents, wakeup_mailbox) + SIZE_OF(zacpi_madt_contents, also_has_8259) +
        SIZE_OF(zacpi_madt_contents, has_wakeup_mailbox) + SIZE_OF(zacpi_madt_contents, reserved));
IS_FULL(zacpi_gic_contents, SIZE_OF(zacpi_gic_contents, distributor) + POINTER(zacpi_gic_contents, cpu_interfaces) +
        SIZE_OF(zacpi_gic_contents, cpu_interfaces_length) + POINTER(zacpi_gic_contents, redistributors) +
        SIZE_OF(zacpi_gic_contents, redistributors_length) + POINTER(zacpi_gic_contents, translation_services) +
        SIZE_OF(zacpi_gic_contents, translation_services_length) + POINTER(zacpi_gic_contents, msi_frames) +
        SIZE_OF(zacpi_gic_contents, msi_frames_length));
IS_FULL(zacpi_riscv_contents, POINTER(zacpi_riscv_contents, rintcs) + SIZE_OF(zacpi_riscv_contents, rintcs_length) +
        POINTER(zacpi_riscv_contents, imsics) + SIZE_OF(zacpi_riscv_contents, imsics_length) +
        POINTER(zacpi_riscv_contents, aplics) + SIZE_OF(zacpi_riscv_contents, aplics_length) +
        POINTER(zacpi_riscv_contents, plics) + SIZE_OF(zacpi_riscv_contents, plics_length));
IS_FULL(zacpi_rhct_contents, POINTER(zacpi_rhct_contents, isa) + SIZE_OF(zacpi_rhct_contents, isa_length) +
        POINTER(zacpi_rhct_contents, harts) + SIZE_OF(zacpi_rhct_contents, harts_length) +
        SIZE_OF(zacpi_rhct_contents, time_base_frequency) + SIZE_OF(zacpi_rhct_contents, flags) +
        SIZE_OF(zacpi_rhct_contents, reserved));
IS_FULL(zacpi_apic_domain, SIZE_OF(zacpi_apic_domain, local_apic_id) + SIZE_OF(zacpi_apic_domain, domain));
IS_FULL(zacpi_gicc_domain, SIZE_OF(zacpi_gicc_domain, processor_uid) + SIZE_OF(zacpi_gicc_domain, domain));
IS_FULL(zacpi_srat_contents, POINTER(zacpi_srat_contents, apics) + SIZE_OF(zacpi_srat_contents, apics_length) +
        POINTER(zacpi_srat_contents, giccs) + SIZE_OF(zacpi_srat_contents, giccs_length) +
        POINTER(zacpi_srat_contents, ranges) + SIZE_OF(zacpi_srat_contents, ranges_length));
IS_FULL(zacpi_spcr_contents, SIZE_OF(zacpi_spcr_contents, console) +
        SIZE_OF(zacpi_spcr_contents, interrupt_controllers) + SIZE_OF(zacpi_spcr_contents, flow_control) +
        SIZE_OF(zacpi_spcr_contents, terminal_type) + SIZE_OF(zacpi_spcr_contents, reserved));
IS_FULL(zacpi_platform_timer, SIZE_OF(zacpi_platform_timer, kind) + SIZE_OF(zacpi_platform_timer, reserved) +
        SIZE_OF(zacpi_platform_timer, block_address) + POINTER(zacpi_platform_timer, frames) +
        SIZE_OF(zacpi_platform_timer, frames_length) + SIZE_OF(zacpi_platform_timer, watchdog));
IS_FULL(zacpi_gtdt_contents, SIZE_OF(zacpi_gtdt_contents, timers) + POINTER(zacpi_gtdt_contents, platform_timers) +
        SIZE_OF(zacpi_gtdt_contents, platform_timers_length));
IS_FULL(zacpi_facs_contents, SIZE_OF(zacpi_facs_contents, waking_vector_64) +
        SIZE_OF(zacpi_facs_contents, hardware_signature) + SIZE_OF(zacpi_facs_contents, waking_vector) +
        SIZE_OF(zacpi_facs_contents, supports_s4bios) + SIZE_OF(zacpi_facs_contents, supports_64_bit_wake) +
        SIZE_OF(zacpi_facs_contents, reserved));
IS_FULL(zacpi_aml_contents, POINTER(zacpi_aml_contents, aml) + SIZE_OF(zacpi_aml_contents, aml_length) +
        SIZE_OF(zacpi_aml_contents, revision) + SIZE_OF(zacpi_aml_contents, reserved));
IS_FULL(zacpi_listed_table, POINTER(zacpi_listed_table, bytes) + SIZE_OF(zacpi_listed_table, length));
IS_FULL(zacpi_machine, SIZE_OF(zacpi_machine, ids) + SIZE_OF(zacpi_machine, reserved) + POINTER(zacpi_machine, tables)
        + SIZE_OF(zacpi_machine, tables_length) + POINTER(zacpi_machine, dsdts) + SIZE_OF(zacpi_machine, dsdts_length)
        + POINTER(zacpi_machine, facs) + SIZE_OF(zacpi_machine, facs_length));
#endif
