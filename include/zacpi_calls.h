/* SPDX-License-Identifier: MIT */
/* The inlines of zacpi.h, which includes this file, and checks of its records. scripts/calls made them of the
 * prototypes and structs there, and says what they are for. */
#ifndef ZACPI_H
#error "include zacpi.h, which includes this file"
#else
#define ZACPI_NOTHING ((void *)(uintptr_t)16) /* where the items of a list of none are: aligned for any type */

/* How the library is called, whatever -mregparm makes of the caller's own functions. */
#if defined(__GNUC__) && defined(__i386__)
#define ZACPI_CALL __attribute__((__cdecl__, __regparm__(0)))
#else
#define ZACPI_CALL
#endif

/* What the library writes a count to, and the call that does it. With pointers of 32 bits that is a variable, of which
 * the caller has a copy: the largest size_t if it has more bits. */
#if ZACPI_IS_64_BIT
typedef size_t zacpi_number;
#define ZACPI_COUNTED(count) count
#define ZACPI_COUNTING(count, call) \
    ZACPI_FITS; \
    return call
#else
typedef uint64_t zacpi_number;
#define ZACPI_COUNTED(count) &zacpi_counted
#define ZACPI_COUNTING(count, call) \
    zacpi_number zacpi_counted; \
    const zacpi_status zacpi_returned = call; \
    ZACPI_FITS; \
    if (!zacpi_returned) *count = zacpi_counted > ~(size_t)0 ? ~(size_t)0 : (size_t)zacpi_counted; \
    return zacpi_returned
#endif

/* The layouts by which the library reads and writes records, which have no padding: a record's size and its alignment,
 * the same with pointers of 32 bits and 64. An array of -1 here is a record that is laid out otherwise, by a flag that
 * no pragma undoes, as gcc's -fpack-struct. A kernel's own offsetof may be no constant. */
#if defined(__GNUC__)
#define ZACPI_OFFSET(record, field) __builtin_offsetof(struct record, field)
#else
#define ZACPI_OFFSET(record, field) offsetof(struct record, field)
#endif
#define ZACPI_LAID_OUT(record, size, alignment) \
    struct record##_after { \
        char first; \
        struct record at; \
    }; \
    typedef char record##_is_laid_out[sizeof(struct record) == size && \
                                      ZACPI_OFFSET(record##_after, at) == alignment ? 1 : -1]
ZACPI_LAID_OUT(zacpi_region, 24, 8);
ZACPI_LAID_OUT(zacpi_range, 16, 8);
ZACPI_LAID_OUT(zacpi_source, 32, 8);
ZACPI_LAID_OUT(zacpi_place, 16, 8);
ZACPI_LAID_OUT(zacpi_signature, 4, 1);
ZACPI_LAID_OUT(zacpi_root, 32, 8);
ZACPI_LAID_OUT(zacpi_rsdp, 32, 8);
ZACPI_LAID_OUT(zacpi_table, 48, 8);
ZACPI_LAID_OUT(zacpi_member, 56, 8);
ZACPI_LAID_OUT(zacpi_fault, 16, 8);
ZACPI_LAID_OUT(zacpi_walk, 8, 4);
ZACPI_LAID_OUT(zacpi_entry, 16, 8);
ZACPI_LAID_OUT(zacpi_aml_table, 24, 8);
ZACPI_LAID_OUT(zacpi_generic_address, 16, 8);
ZACPI_LAID_OUT(zacpi_register, 24, 8);
ZACPI_LAID_OUT(zacpi_pm_timer, 24, 8);
ZACPI_LAID_OUT(zacpi_hpet_info, 16, 8);
ZACPI_LAID_OUT(zacpi_boot_graphic, 24, 8);
ZACPI_LAID_OUT(zacpi_gpe_block, 16, 8);
ZACPI_LAID_OUT(zacpi_fixed_hardware, 360, 8);
ZACPI_LAID_OUT(zacpi_facs, 40, 8);
ZACPI_LAID_OUT(zacpi_console, 56, 8);
ZACPI_LAID_OUT(zacpi_step, 40, 8);
ZACPI_LAID_OUT(zacpi_plan, 328, 8);
ZACPI_LAID_OUT(zacpi_sleep_types, 2, 1);
ZACPI_LAID_OUT(zacpi_pci_region, 16, 8);
ZACPI_LAID_OUT(zacpi_ecam_range, 24, 8);
ZACPI_LAID_OUT(zacpi_interrupt_model, 56, 8);
ZACPI_LAID_OUT(zacpi_local_apic, 16, 8);
ZACPI_LAID_OUT(zacpi_io_apic, 12, 4);
ZACPI_LAID_OUT(zacpi_interrupt_source_override, 8, 4);
ZACPI_LAID_OUT(zacpi_nmi_source, 8, 4);
ZACPI_LAID_OUT(zacpi_nmi_line, 8, 4);
ZACPI_LAID_OUT(zacpi_processor, 12, 4);
ZACPI_LAID_OUT(zacpi_entry_fault, 16, 8);
ZACPI_LAID_OUT(zacpi_platform_lists, 120, 8);
ZACPI_LAID_OUT(zacpi_interrupt, 8, 4);
ZACPI_LAID_OUT(zacpi_io_apic_pin, 16, 4);
ZACPI_LAID_OUT(zacpi_isa_route, 28, 4);
ZACPI_LAID_OUT(zacpi_isa_interrupts, 448, 4);
ZACPI_LAID_OUT(zacpi_gic_distributor, 24, 8);
ZACPI_LAID_OUT(zacpi_gic_cpu_interface, 80, 8);
ZACPI_LAID_OUT(zacpi_gic_translation_service, 16, 8);
ZACPI_LAID_OUT(zacpi_gic_msi_frame, 24, 8);
ZACPI_LAID_OUT(zacpi_arm_timer, 8, 4);
ZACPI_LAID_OUT(zacpi_arm_timers, 64, 8);
ZACPI_LAID_OUT(zacpi_gt_frame, 40, 8);
ZACPI_LAID_OUT(zacpi_watchdog, 24, 8);
ZACPI_LAID_OUT(zacpi_rintc, 40, 8);
ZACPI_LAID_OUT(zacpi_imsic, 16, 4);
ZACPI_LAID_OUT(zacpi_aplic, 40, 8);
ZACPI_LAID_OUT(zacpi_plic, 40, 8);
ZACPI_LAID_OUT(zacpi_memory_affinity, 24, 8);
ZACPI_LAID_OUT(zacpi_processor_affinity, 16, 4);
ZACPI_LAID_OUT(zacpi_generic_initiator, 24, 4);
ZACPI_LAID_OUT(zacpi_its_affinity, 8, 4);
ZACPI_LAID_OUT(zacpi_localities, 16, 8);
ZACPI_LAID_OUT(zacpi_dmar_flags, 4, 2);
ZACPI_LAID_OUT(zacpi_hop, 2, 1);
ZACPI_LAID_OUT(zacpi_dmar_unit, 24, 8);
ZACPI_LAID_OUT(zacpi_dmar_scope, 48, 8);
ZACPI_LAID_OUT(zacpi_dmar_source, 32, 8);
ZACPI_LAID_OUT(zacpi_dmar_reserved, 24, 8);
ZACPI_LAID_OUT(zacpi_dmar_root_ports, 4, 2);
ZACPI_LAID_OUT(zacpi_dmar_affinity, 16, 8);
ZACPI_LAID_OUT(zacpi_ivrs_unit, 32, 8);
ZACPI_LAID_OUT(zacpi_ivrs_device, 40, 8);
ZACPI_LAID_OUT(zacpi_ivrs_memory, 24, 8);
ZACPI_LAID_OUT(zacpi_ivrs_entry, 72, 8);
ZACPI_LAID_OUT(zacpi_table_ids, 28, 4);
ZACPI_LAID_OUT(zacpi_madt_contents, 104, 8);
ZACPI_LAID_OUT(zacpi_gic_contents, 88, 8);
ZACPI_LAID_OUT(zacpi_riscv_contents, 64, 8);
ZACPI_LAID_OUT(zacpi_rhct_contents, 48, 8);
ZACPI_LAID_OUT(zacpi_apic_domain, 8, 4);
ZACPI_LAID_OUT(zacpi_gicc_domain, 8, 4);
ZACPI_LAID_OUT(zacpi_srat_contents, 48, 8);
ZACPI_LAID_OUT(zacpi_spcr_contents, 64, 8);
ZACPI_LAID_OUT(zacpi_platform_timer, 56, 8);
ZACPI_LAID_OUT(zacpi_gtdt_contents, 80, 8);
ZACPI_LAID_OUT(zacpi_facs_contents, 24, 8);
ZACPI_LAID_OUT(zacpi_aml_contents, 24, 8);
ZACPI_LAID_OUT(zacpi_listed_table, 16, 8);
ZACPI_LAID_OUT(zacpi_machine, 80, 8);

static inline struct zacpi_source zacpi_source_kept(const struct zacpi_source *given) {
    struct zacpi_source kept = *given;
    if (!kept.regions_length)
        kept.regions = (const struct zacpi_region *)ZACPI_NOTHING;
    return kept;
}

static inline struct zacpi_platform_lists zacpi_platform_lists_kept(const struct zacpi_platform_lists *given) {
    struct zacpi_platform_lists kept = *given;
    if (!kept.processors_capacity)
        kept.processors = (struct zacpi_processor *)ZACPI_NOTHING;
    if (!kept.io_apics_capacity)
        kept.io_apics = (struct zacpi_io_apic *)ZACPI_NOTHING;
    if (!kept.overrides_capacity)
        kept.overrides = (struct zacpi_interrupt_source_override *)ZACPI_NOTHING;
    if (!kept.nmi_sources_capacity)
        kept.nmi_sources = (struct zacpi_nmi_source *)ZACPI_NOTHING;
    if (!kept.nmi_lines_capacity)
        kept.nmi_lines = (struct zacpi_nmi_line *)ZACPI_NOTHING;
    return kept;
}

static inline struct zacpi_madt_contents zacpi_madt_contents_kept(const struct zacpi_madt_contents *given) {
    struct zacpi_madt_contents kept = *given;
    if (!kept.processors_length)
        kept.processors = (const struct zacpi_processor *)ZACPI_NOTHING;
    if (!kept.io_apics_length)
        kept.io_apics = (const struct zacpi_io_apic *)ZACPI_NOTHING;
    if (!kept.overrides_length)
        kept.overrides = (const struct zacpi_interrupt_source_override *)ZACPI_NOTHING;
    if (!kept.nmi_sources_length)
        kept.nmi_sources = (const struct zacpi_nmi_source *)ZACPI_NOTHING;
    if (!kept.nmi_lines_length)
        kept.nmi_lines = (const struct zacpi_nmi_line *)ZACPI_NOTHING;
    return kept;
}

static inline struct zacpi_gic_contents zacpi_gic_contents_kept(const struct zacpi_gic_contents *given) {
    struct zacpi_gic_contents kept = *given;
    if (!kept.cpu_interfaces_length)
        kept.cpu_interfaces = (const struct zacpi_gic_cpu_interface *)ZACPI_NOTHING;
    if (!kept.redistributors_length)
        kept.redistributors = (const struct zacpi_range *)ZACPI_NOTHING;
    if (!kept.translation_services_length)
        kept.translation_services = (const struct zacpi_gic_translation_service *)ZACPI_NOTHING;
    if (!kept.msi_frames_length)
        kept.msi_frames = (const struct zacpi_gic_msi_frame *)ZACPI_NOTHING;
    return kept;
}

static inline struct zacpi_riscv_contents zacpi_riscv_contents_kept(const struct zacpi_riscv_contents *given) {
    struct zacpi_riscv_contents kept = *given;
    if (!kept.rintcs_length)
        kept.rintcs = (const struct zacpi_rintc *)ZACPI_NOTHING;
    if (!kept.imsics_length)
        kept.imsics = (const struct zacpi_imsic *)ZACPI_NOTHING;
    if (!kept.aplics_length)
        kept.aplics = (const struct zacpi_aplic *)ZACPI_NOTHING;
    if (!kept.plics_length)
        kept.plics = (const struct zacpi_plic *)ZACPI_NOTHING;
    return kept;
}

static inline struct zacpi_rhct_contents zacpi_rhct_contents_kept(const struct zacpi_rhct_contents *given) {
    struct zacpi_rhct_contents kept = *given;
    if (!kept.isa_length)
        kept.isa = (const uint8_t *)ZACPI_NOTHING;
    if (!kept.harts_length)
        kept.harts = (const uint32_t *)ZACPI_NOTHING;
    return kept;
}

static inline struct zacpi_srat_contents zacpi_srat_contents_kept(const struct zacpi_srat_contents *given) {
    struct zacpi_srat_contents kept = *given;
    if (!kept.apics_length)
        kept.apics = (const struct zacpi_apic_domain *)ZACPI_NOTHING;
    if (!kept.giccs_length)
        kept.giccs = (const struct zacpi_gicc_domain *)ZACPI_NOTHING;
    if (!kept.ranges_length)
        kept.ranges = (const struct zacpi_memory_affinity *)ZACPI_NOTHING;
    return kept;
}

static inline struct zacpi_gtdt_contents zacpi_gtdt_contents_kept(const struct zacpi_gtdt_contents *given) {
    struct zacpi_gtdt_contents kept = *given;
    if (!kept.platform_timers_length)
        kept.platform_timers = (const struct zacpi_platform_timer *)ZACPI_NOTHING;
    return kept;
}

static inline struct zacpi_machine zacpi_machine_kept(const struct zacpi_machine *given) {
    struct zacpi_machine kept = *given;
    if (!kept.tables_length)
        kept.tables = (const struct zacpi_listed_table *)ZACPI_NOTHING;
    if (!kept.dsdts_length)
        kept.dsdts = (const struct zacpi_aml_contents *)ZACPI_NOTHING;
    if (!kept.facs_length)
        kept.facs = (const struct zacpi_facs_contents *)ZACPI_NOTHING;
    return kept;
}

zacpi_status ZACPI_CALL zacpi_1_clip_ranges(struct zacpi_range *ranges, zacpi_number ranges_length,
                                            struct zacpi_range *without,
                                            zacpi_number without_length,
                                            const struct zacpi_range *window,
                                            struct zacpi_range *out, zacpi_number capacity,
                                            zacpi_number *count);
ZACPI_NONNULL((5, 8))
ZACPI_STATUS zacpi_clip_ranges(struct zacpi_range *ranges, size_t ranges_length,
                               struct zacpi_range *without, size_t without_length,
                               const struct zacpi_range *window, struct zacpi_range *out,
                               size_t capacity, size_t *count) {
    ZACPI_COUNTING(count, zacpi_1_clip_ranges(
                   ranges_length ? ranges : (struct zacpi_range *)ZACPI_NOTHING, ranges_length,
                   without_length ? without : (struct zacpi_range *)ZACPI_NOTHING, without_length,
                   window, capacity ? out : (struct zacpi_range *)ZACPI_NOTHING, capacity,
                   ZACPI_COUNTED(count)));
}

zacpi_status ZACPI_CALL zacpi_1_locate(const struct zacpi_region *regions,
                                       zacpi_number regions_length, uint64_t address,
                                       uint64_t length, struct zacpi_place *out);
ZACPI_NONNULL((5))
ZACPI_STATUS zacpi_locate(const struct zacpi_region *regions, size_t regions_length,
                          uint64_t address, uint64_t length, struct zacpi_place *out) {
    ZACPI_FITS;
    return zacpi_1_locate(regions_length ? regions : (const struct zacpi_region *)ZACPI_NOTHING,
                          regions_length, address, length, out);
}

zacpi_status ZACPI_CALL zacpi_1_start_of_rsdp(const uint8_t *rsdp, zacpi_number rsdp_length,
                                              struct zacpi_source *source);
ZACPI_NONNULL((3))
ZACPI_STATUS zacpi_start_of_rsdp(const uint8_t *rsdp, size_t rsdp_length,
                                 struct zacpi_source *source) {
    struct zacpi_source kept_source = zacpi_source_kept(source);
    const zacpi_status status = zacpi_1_start_of_rsdp(
                                                rsdp_length ? rsdp : (const uint8_t *)ZACPI_NOTHING,
                                                      rsdp_length, &kept_source);
    ZACPI_FITS;
    source->address = kept_source.address;
    source->start = kept_source.start;
    source->accept = kept_source.accept;
    return status;
}

zacpi_status ZACPI_CALL zacpi_1_open(const struct zacpi_source *source, struct zacpi_root *out,
                                     struct zacpi_signature *signature);
ZACPI_NONNULL((1, 2))
ZACPI_STATUS zacpi_open(const struct zacpi_source *source, struct zacpi_root *out,
                        struct zacpi_signature *signature) {
    const struct zacpi_source kept_source = zacpi_source_kept(source);
    struct zacpi_signature unasked;
    ZACPI_FITS;
    return zacpi_1_open(&kept_source, out, signature ? signature : &unasked);
}

zacpi_status ZACPI_CALL zacpi_1_get_rsdp(const struct zacpi_source *source, struct zacpi_rsdp *out,
                                         struct zacpi_signature *signature);
ZACPI_NONNULL((1, 2))
ZACPI_STATUS zacpi_get_rsdp(const struct zacpi_source *source, struct zacpi_rsdp *out,
                            struct zacpi_signature *signature) {
    const struct zacpi_source kept_source = zacpi_source_kept(source);
    struct zacpi_signature unasked;
    ZACPI_FITS;
    return zacpi_1_get_rsdp(&kept_source, out, signature ? signature : &unasked);
}

zacpi_status ZACPI_CALL zacpi_1_list_missing_ranges(const struct zacpi_source *source,
                                                    struct zacpi_range *out, zacpi_number capacity,
                                                    zacpi_number *count,
                                                    struct zacpi_signature *signature);
ZACPI_NONNULL((1, 4))
ZACPI_STATUS zacpi_list_missing_ranges(const struct zacpi_source *source, struct zacpi_range *out,
                                       size_t capacity, size_t *count,
                                       struct zacpi_signature *signature) {
    const struct zacpi_source kept_source = zacpi_source_kept(source);
    struct zacpi_signature unasked;
    ZACPI_COUNTING(count, zacpi_1_list_missing_ranges(&kept_source,
                   capacity ? out : (struct zacpi_range *)ZACPI_NOTHING, capacity,
                   ZACPI_COUNTED(count), signature ? signature : &unasked));
}

zacpi_status ZACPI_CALL zacpi_1_list_tables(const struct zacpi_source *source,
                                            struct zacpi_table *out, zacpi_number capacity,
                                            zacpi_number *count, struct zacpi_signature *signature);
ZACPI_NONNULL((1, 4))
ZACPI_STATUS zacpi_list_tables(const struct zacpi_source *source, struct zacpi_table *out,
                               size_t capacity, size_t *count, struct zacpi_signature *signature) {
    const struct zacpi_source kept_source = zacpi_source_kept(source);
    struct zacpi_signature unasked;
    ZACPI_COUNTING(count, zacpi_1_list_tables(&kept_source,
                   capacity ? out : (struct zacpi_table *)ZACPI_NOTHING, capacity,
                   ZACPI_COUNTED(count), signature ? signature : &unasked));
}

zacpi_status ZACPI_CALL zacpi_1_list_members(const struct zacpi_source *source,
                                             struct zacpi_member *out, zacpi_number capacity,
                                             zacpi_number *count,
                                             struct zacpi_signature *signature);
ZACPI_NONNULL((1, 4))
ZACPI_STATUS zacpi_list_members(const struct zacpi_source *source, struct zacpi_member *out,
                                size_t capacity, size_t *count, struct zacpi_signature *signature) {
    const struct zacpi_source kept_source = zacpi_source_kept(source);
    struct zacpi_signature unasked;
    ZACPI_COUNTING(count, zacpi_1_list_members(&kept_source,
                   capacity ? out : (struct zacpi_member *)ZACPI_NOTHING, capacity,
                   ZACPI_COUNTED(count), signature ? signature : &unasked));
}

zacpi_status ZACPI_CALL zacpi_1_find_table(const struct zacpi_source *source,
                                           struct zacpi_signature wanted, struct zacpi_table *out,
                                           struct zacpi_signature *signature);
ZACPI_NONNULL((1, 3))
ZACPI_STATUS zacpi_find_table(const struct zacpi_source *source, struct zacpi_signature wanted,
                              struct zacpi_table *out, struct zacpi_signature *signature) {
    const struct zacpi_source kept_source = zacpi_source_kept(source);
    struct zacpi_signature unasked;
    ZACPI_FITS;
    return zacpi_1_find_table(&kept_source, wanted, out, signature ? signature : &unasked);
}

zacpi_status ZACPI_CALL zacpi_1_get_table(const struct zacpi_source *source, uint64_t address,
                                          struct zacpi_table *out,
                                          struct zacpi_signature *signature);
ZACPI_NONNULL((1, 3))
ZACPI_STATUS zacpi_get_table(const struct zacpi_source *source, uint64_t address,
                             struct zacpi_table *out, struct zacpi_signature *signature) {
    const struct zacpi_source kept_source = zacpi_source_kept(source);
    struct zacpi_signature unasked;
    ZACPI_FITS;
    return zacpi_1_get_table(&kept_source, address, out, signature ? signature : &unasked);
}

zacpi_status ZACPI_CALL zacpi_1_find_nth_table(const struct zacpi_source *source,
                                               struct zacpi_signature wanted, zacpi_number index,
                                               struct zacpi_table *out,
                                               struct zacpi_signature *signature);
ZACPI_NONNULL((1, 4))
ZACPI_STATUS zacpi_find_nth_table(const struct zacpi_source *source, struct zacpi_signature wanted,
                                  size_t index, struct zacpi_table *out,
                                  struct zacpi_signature *signature) {
    const struct zacpi_source kept_source = zacpi_source_kept(source);
    struct zacpi_signature unasked;
    ZACPI_FITS;
    return zacpi_1_find_nth_table(&kept_source, wanted, index, out,
                                  signature ? signature : &unasked);
}

zacpi_status ZACPI_CALL zacpi_1_list_entries(const struct zacpi_source *source, uint64_t table,
                                             const struct zacpi_walk *walk, struct zacpi_entry *out,
                                             zacpi_number capacity, zacpi_number *count,
                                             uint8_t *malformed, struct zacpi_signature *signature);
ZACPI_NONNULL((1, 3, 6, 7))
ZACPI_STATUS zacpi_list_entries(const struct zacpi_source *source, uint64_t table,
                                const struct zacpi_walk *walk, struct zacpi_entry *out,
                                size_t capacity, size_t *count, uint8_t *malformed,
                                struct zacpi_signature *signature) {
    const struct zacpi_source kept_source = zacpi_source_kept(source);
    struct zacpi_signature unasked;
    ZACPI_COUNTING(count, zacpi_1_list_entries(&kept_source, table, walk,
                   capacity ? out : (struct zacpi_entry *)ZACPI_NOTHING, capacity,
                   ZACPI_COUNTED(count), malformed, signature ? signature : &unasked));
}

zacpi_status ZACPI_CALL zacpi_1_list_faults(const struct zacpi_source *source,
                                            struct zacpi_signature wanted, struct zacpi_fault *out,
                                            zacpi_number capacity, zacpi_number *count,
                                            struct zacpi_signature *signature);
ZACPI_NONNULL((1, 5))
ZACPI_STATUS zacpi_list_faults(const struct zacpi_source *source, struct zacpi_signature wanted,
                               struct zacpi_fault *out, size_t capacity, size_t *count,
                               struct zacpi_signature *signature) {
    const struct zacpi_source kept_source = zacpi_source_kept(source);
    struct zacpi_signature unasked;
    ZACPI_COUNTING(count, zacpi_1_list_faults(&kept_source, wanted,
                   capacity ? out : (struct zacpi_fault *)ZACPI_NOTHING, capacity,
                   ZACPI_COUNTED(count), signature ? signature : &unasked));
}

zacpi_status ZACPI_CALL zacpi_1_get_dsdt(const struct zacpi_source *source,
                                         struct zacpi_aml_table *out,
                                         struct zacpi_signature *signature);
ZACPI_NONNULL((1, 2))
ZACPI_STATUS zacpi_get_dsdt(const struct zacpi_source *source, struct zacpi_aml_table *out,
                            struct zacpi_signature *signature) {
    const struct zacpi_source kept_source = zacpi_source_kept(source);
    struct zacpi_signature unasked;
    ZACPI_FITS;
    return zacpi_1_get_dsdt(&kept_source, out, signature ? signature : &unasked);
}

zacpi_status ZACPI_CALL zacpi_1_list_ssdts(const struct zacpi_source *source,
                                           struct zacpi_aml_table *out, zacpi_number capacity,
                                           zacpi_number *count, struct zacpi_signature *signature);
ZACPI_NONNULL((1, 4))
ZACPI_STATUS zacpi_list_ssdts(const struct zacpi_source *source, struct zacpi_aml_table *out,
                              size_t capacity, size_t *count, struct zacpi_signature *signature) {
    const struct zacpi_source kept_source = zacpi_source_kept(source);
    struct zacpi_signature unasked;
    ZACPI_COUNTING(count, zacpi_1_list_ssdts(&kept_source,
                   capacity ? out : (struct zacpi_aml_table *)ZACPI_NOTHING, capacity,
                   ZACPI_COUNTED(count), signature ? signature : &unasked));
}

zacpi_status ZACPI_CALL zacpi_1_list_ranges(const struct zacpi_source *source,
                                            struct zacpi_range *out, zacpi_number capacity,
                                            zacpi_number *count, struct zacpi_signature *signature);
ZACPI_NONNULL((1, 4))
ZACPI_STATUS zacpi_list_ranges(const struct zacpi_source *source, struct zacpi_range *out,
                               size_t capacity, size_t *count, struct zacpi_signature *signature) {
    const struct zacpi_source kept_source = zacpi_source_kept(source);
    struct zacpi_signature unasked;
    ZACPI_COUNTING(count, zacpi_1_list_ranges(&kept_source,
                   capacity ? out : (struct zacpi_range *)ZACPI_NOTHING, capacity,
                   ZACPI_COUNTED(count), signature ? signature : &unasked));
}

zacpi_status ZACPI_CALL zacpi_1_get_fixed_hardware(const struct zacpi_source *source,
                                                   struct zacpi_fixed_hardware *out,
                                                   struct zacpi_signature *signature);
ZACPI_NONNULL((1, 2))
ZACPI_STATUS zacpi_get_fixed_hardware(const struct zacpi_source *source,
                                      struct zacpi_fixed_hardware *out,
                                      struct zacpi_signature *signature) {
    const struct zacpi_source kept_source = zacpi_source_kept(source);
    struct zacpi_signature unasked;
    ZACPI_FITS;
    return zacpi_1_get_fixed_hardware(&kept_source, out, signature ? signature : &unasked);
}

zacpi_status ZACPI_CALL zacpi_1_get_facs(const struct zacpi_source *source, struct zacpi_facs *out,
                                         struct zacpi_signature *signature);
ZACPI_NONNULL((1, 2))
ZACPI_STATUS zacpi_get_facs(const struct zacpi_source *source, struct zacpi_facs *out,
                            struct zacpi_signature *signature) {
    const struct zacpi_source kept_source = zacpi_source_kept(source);
    struct zacpi_signature unasked;
    ZACPI_FITS;
    return zacpi_1_get_facs(&kept_source, out, signature ? signature : &unasked);
}

zacpi_status ZACPI_CALL zacpi_1_get_console(const struct zacpi_source *source,
                                            struct zacpi_console *out,
                                            struct zacpi_signature *signature);
ZACPI_NONNULL((1, 2))
ZACPI_STATUS zacpi_get_console(const struct zacpi_source *source, struct zacpi_console *out,
                               struct zacpi_signature *signature) {
    const struct zacpi_source kept_source = zacpi_source_kept(source);
    struct zacpi_signature unasked;
    ZACPI_FITS;
    return zacpi_1_get_console(&kept_source, out, signature ? signature : &unasked);
}

zacpi_status ZACPI_CALL zacpi_1_get_pm_timer(const struct zacpi_source *source,
                                             struct zacpi_pm_timer *out,
                                             struct zacpi_signature *signature);
ZACPI_NONNULL((1, 2))
ZACPI_STATUS zacpi_get_pm_timer(const struct zacpi_source *source, struct zacpi_pm_timer *out,
                                struct zacpi_signature *signature) {
    const struct zacpi_source kept_source = zacpi_source_kept(source);
    struct zacpi_signature unasked;
    ZACPI_FITS;
    return zacpi_1_get_pm_timer(&kept_source, out, signature ? signature : &unasked);
}

zacpi_status ZACPI_CALL zacpi_1_get_hpet(const struct zacpi_source *source,
                                         struct zacpi_hpet_info *out,
                                         struct zacpi_signature *signature);
ZACPI_NONNULL((1, 2))
ZACPI_STATUS zacpi_get_hpet(const struct zacpi_source *source, struct zacpi_hpet_info *out,
                            struct zacpi_signature *signature) {
    const struct zacpi_source kept_source = zacpi_source_kept(source);
    struct zacpi_signature unasked;
    ZACPI_FITS;
    return zacpi_1_get_hpet(&kept_source, out, signature ? signature : &unasked);
}

zacpi_status ZACPI_CALL zacpi_1_list_hpets(const struct zacpi_source *source,
                                           struct zacpi_hpet_info *out, zacpi_number capacity,
                                           zacpi_number *count, struct zacpi_signature *signature);
ZACPI_NONNULL((1, 4))
ZACPI_STATUS zacpi_list_hpets(const struct zacpi_source *source, struct zacpi_hpet_info *out,
                              size_t capacity, size_t *count, struct zacpi_signature *signature) {
    const struct zacpi_source kept_source = zacpi_source_kept(source);
    struct zacpi_signature unasked;
    ZACPI_COUNTING(count, zacpi_1_list_hpets(&kept_source,
                   capacity ? out : (struct zacpi_hpet_info *)ZACPI_NOTHING, capacity,
                   ZACPI_COUNTED(count), signature ? signature : &unasked));
}

zacpi_status ZACPI_CALL zacpi_1_get_boot_graphic(const struct zacpi_source *source,
                                                 struct zacpi_boot_graphic *out,
                                                 struct zacpi_signature *signature);
ZACPI_NONNULL((1, 2))
ZACPI_STATUS zacpi_get_boot_graphic(const struct zacpi_source *source,
                                    struct zacpi_boot_graphic *out,
                                    struct zacpi_signature *signature) {
    const struct zacpi_source kept_source = zacpi_source_kept(source);
    struct zacpi_signature unasked;
    ZACPI_FITS;
    return zacpi_1_get_boot_graphic(&kept_source, out, signature ? signature : &unasked);
}

zacpi_status ZACPI_CALL zacpi_1_get_sleep_types(const struct zacpi_source *source, uint32_t state,
                                                struct zacpi_sleep_types *out,
                                                struct zacpi_signature *signature);
ZACPI_NONNULL((1, 3))
ZACPI_STATUS zacpi_get_sleep_types(const struct zacpi_source *source, uint32_t state,
                                   struct zacpi_sleep_types *out,
                                   struct zacpi_signature *signature) {
    const struct zacpi_source kept_source = zacpi_source_kept(source);
    struct zacpi_signature unasked;
    ZACPI_FITS;
    return zacpi_1_get_sleep_types(&kept_source, state, out, signature ? signature : &unasked);
}

zacpi_status ZACPI_CALL zacpi_1_get_sleep_plan(const struct zacpi_source *source, uint32_t state,
                                               struct zacpi_plan *out,
                                               struct zacpi_signature *signature);
ZACPI_NONNULL((1, 3))
ZACPI_STATUS zacpi_get_sleep_plan(const struct zacpi_source *source, uint32_t state,
                                  struct zacpi_plan *out, struct zacpi_signature *signature) {
    const struct zacpi_source kept_source = zacpi_source_kept(source);
    struct zacpi_signature unasked;
    ZACPI_FITS;
    return zacpi_1_get_sleep_plan(&kept_source, state, out, signature ? signature : &unasked);
}

zacpi_status ZACPI_CALL zacpi_1_get_power_off_plan(const struct zacpi_source *source,
                                                   struct zacpi_plan *out,
                                                   struct zacpi_signature *signature);
ZACPI_NONNULL((1, 2))
ZACPI_STATUS zacpi_get_power_off_plan(const struct zacpi_source *source, struct zacpi_plan *out,
                                      struct zacpi_signature *signature) {
    const struct zacpi_source kept_source = zacpi_source_kept(source);
    struct zacpi_signature unasked;
    ZACPI_FITS;
    return zacpi_1_get_power_off_plan(&kept_source, out, signature ? signature : &unasked);
}

zacpi_status ZACPI_CALL zacpi_1_get_reset_plan(const struct zacpi_source *source,
                                               struct zacpi_plan *out,
                                               struct zacpi_signature *signature);
ZACPI_NONNULL((1, 2))
ZACPI_STATUS zacpi_get_reset_plan(const struct zacpi_source *source, struct zacpi_plan *out,
                                  struct zacpi_signature *signature) {
    const struct zacpi_source kept_source = zacpi_source_kept(source);
    struct zacpi_signature unasked;
    ZACPI_FITS;
    return zacpi_1_get_reset_plan(&kept_source, out, signature ? signature : &unasked);
}

zacpi_status ZACPI_CALL zacpi_1_get_enable_plan(const struct zacpi_source *source,
                                                struct zacpi_plan *out,
                                                struct zacpi_signature *signature);
ZACPI_NONNULL((1, 2))
ZACPI_STATUS zacpi_get_enable_plan(const struct zacpi_source *source, struct zacpi_plan *out,
                                   struct zacpi_signature *signature) {
    const struct zacpi_source kept_source = zacpi_source_kept(source);
    struct zacpi_signature unasked;
    ZACPI_FITS;
    return zacpi_1_get_enable_plan(&kept_source, out, signature ? signature : &unasked);
}

zacpi_status ZACPI_CALL zacpi_1_list_pci_regions(const struct zacpi_source *source,
                                                 struct zacpi_pci_region *out,
                                                 zacpi_number capacity, zacpi_number *count,
                                                 struct zacpi_signature *signature);
ZACPI_NONNULL((1, 4))
ZACPI_STATUS zacpi_list_pci_regions(const struct zacpi_source *source, struct zacpi_pci_region *out,
                                    size_t capacity, size_t *count,
                                    struct zacpi_signature *signature) {
    const struct zacpi_source kept_source = zacpi_source_kept(source);
    struct zacpi_signature unasked;
    ZACPI_COUNTING(count, zacpi_1_list_pci_regions(&kept_source,
                   capacity ? out : (struct zacpi_pci_region *)ZACPI_NOTHING, capacity,
                   ZACPI_COUNTED(count), signature ? signature : &unasked));
}

zacpi_status ZACPI_CALL zacpi_1_list_ecam_ranges(const struct zacpi_source *source,
                                                 struct zacpi_ecam_range *out,
                                                 zacpi_number capacity, zacpi_number *count,
                                                 struct zacpi_signature *signature);
ZACPI_NONNULL((1, 4))
ZACPI_STATUS zacpi_list_ecam_ranges(const struct zacpi_source *source, struct zacpi_ecam_range *out,
                                    size_t capacity, size_t *count,
                                    struct zacpi_signature *signature) {
    const struct zacpi_source kept_source = zacpi_source_kept(source);
    struct zacpi_signature unasked;
    ZACPI_COUNTING(count, zacpi_1_list_ecam_ranges(&kept_source,
                   capacity ? out : (struct zacpi_ecam_range *)ZACPI_NOTHING, capacity,
                   ZACPI_COUNTED(count), signature ? signature : &unasked));
}

zacpi_status ZACPI_CALL zacpi_1_pci_ecam_address(const struct zacpi_source *source,
                                                 uint16_t segment_group, uint8_t bus,
                                                 uint8_t device, uint8_t function, uint64_t *out,
                                                 struct zacpi_signature *signature);
ZACPI_NONNULL((1, 6))
ZACPI_STATUS zacpi_pci_ecam_address(const struct zacpi_source *source, uint16_t segment_group,
                                    uint8_t bus, uint8_t device, uint8_t function, uint64_t *out,
                                    struct zacpi_signature *signature) {
    const struct zacpi_source kept_source = zacpi_source_kept(source);
    struct zacpi_signature unasked;
    ZACPI_FITS;
    return zacpi_1_pci_ecam_address(&kept_source, segment_group, bus, device, function, out,
                                    signature ? signature : &unasked);
}

zacpi_status ZACPI_CALL zacpi_1_get_interrupt_model(const struct zacpi_source *source,
                                                    struct zacpi_interrupt_model *out,
                                                    struct zacpi_signature *signature);
ZACPI_NONNULL((1, 2))
ZACPI_STATUS zacpi_get_interrupt_model(const struct zacpi_source *source,
                                       struct zacpi_interrupt_model *out,
                                       struct zacpi_signature *signature) {
    const struct zacpi_source kept_source = zacpi_source_kept(source);
    struct zacpi_signature unasked;
    ZACPI_FITS;
    return zacpi_1_get_interrupt_model(&kept_source, out, signature ? signature : &unasked);
}

zacpi_status ZACPI_CALL zacpi_1_get_local_apic(const struct zacpi_source *source,
                                               struct zacpi_local_apic *out,
                                               struct zacpi_signature *signature);
ZACPI_NONNULL((1, 2))
ZACPI_STATUS zacpi_get_local_apic(const struct zacpi_source *source, struct zacpi_local_apic *out,
                                  struct zacpi_signature *signature) {
    const struct zacpi_source kept_source = zacpi_source_kept(source);
    struct zacpi_signature unasked;
    ZACPI_FITS;
    return zacpi_1_get_local_apic(&kept_source, out, signature ? signature : &unasked);
}

zacpi_status ZACPI_CALL zacpi_1_list_io_apics(const struct zacpi_source *source,
                                              struct zacpi_io_apic *out, zacpi_number capacity,
                                              zacpi_number *count,
                                              struct zacpi_signature *signature);
ZACPI_NONNULL((1, 4))
ZACPI_STATUS zacpi_list_io_apics(const struct zacpi_source *source, struct zacpi_io_apic *out,
                                 size_t capacity, size_t *count,
                                 struct zacpi_signature *signature) {
    const struct zacpi_source kept_source = zacpi_source_kept(source);
    struct zacpi_signature unasked;
    ZACPI_COUNTING(count, zacpi_1_list_io_apics(&kept_source,
                   capacity ? out : (struct zacpi_io_apic *)ZACPI_NOTHING, capacity,
                   ZACPI_COUNTED(count), signature ? signature : &unasked));
}

zacpi_status ZACPI_CALL zacpi_1_list_overrides(const struct zacpi_source *source,
                                               struct zacpi_interrupt_source_override *out,
                                               zacpi_number capacity, zacpi_number *count,
                                               struct zacpi_signature *signature);
ZACPI_NONNULL((1, 4))
ZACPI_STATUS zacpi_list_overrides(const struct zacpi_source *source,
                                  struct zacpi_interrupt_source_override *out, size_t capacity,
                                  size_t *count, struct zacpi_signature *signature) {
    const struct zacpi_source kept_source = zacpi_source_kept(source);
    struct zacpi_signature unasked;
    ZACPI_COUNTING(count, zacpi_1_list_overrides(&kept_source,
                   capacity ? out : (struct zacpi_interrupt_source_override *)ZACPI_NOTHING,
                   capacity, ZACPI_COUNTED(count), signature ? signature : &unasked));
}

zacpi_status ZACPI_CALL zacpi_1_list_nmi_sources(const struct zacpi_source *source,
                                                 struct zacpi_nmi_source *out,
                                                 zacpi_number capacity, zacpi_number *count,
                                                 struct zacpi_signature *signature);
ZACPI_NONNULL((1, 4))
ZACPI_STATUS zacpi_list_nmi_sources(const struct zacpi_source *source, struct zacpi_nmi_source *out,
                                    size_t capacity, size_t *count,
                                    struct zacpi_signature *signature) {
    const struct zacpi_source kept_source = zacpi_source_kept(source);
    struct zacpi_signature unasked;
    ZACPI_COUNTING(count, zacpi_1_list_nmi_sources(&kept_source,
                   capacity ? out : (struct zacpi_nmi_source *)ZACPI_NOTHING, capacity,
                   ZACPI_COUNTED(count), signature ? signature : &unasked));
}

zacpi_status ZACPI_CALL zacpi_1_list_nmi_lines(const struct zacpi_source *source,
                                               struct zacpi_nmi_line *out, zacpi_number capacity,
                                               zacpi_number *count,
                                               struct zacpi_signature *signature);
ZACPI_NONNULL((1, 4))
ZACPI_STATUS zacpi_list_nmi_lines(const struct zacpi_source *source, struct zacpi_nmi_line *out,
                                  size_t capacity, size_t *count,
                                  struct zacpi_signature *signature) {
    const struct zacpi_source kept_source = zacpi_source_kept(source);
    struct zacpi_signature unasked;
    ZACPI_COUNTING(count, zacpi_1_list_nmi_lines(&kept_source,
                   capacity ? out : (struct zacpi_nmi_line *)ZACPI_NOTHING, capacity,
                   ZACPI_COUNTED(count), signature ? signature : &unasked));
}

zacpi_status ZACPI_CALL zacpi_1_list_processors(const struct zacpi_source *source,
                                                struct zacpi_processor *out, zacpi_number capacity,
                                                zacpi_number *count,
                                                struct zacpi_signature *signature);
ZACPI_NONNULL((1, 4))
ZACPI_STATUS zacpi_list_processors(const struct zacpi_source *source, struct zacpi_processor *out,
                                   size_t capacity, size_t *count,
                                   struct zacpi_signature *signature) {
    const struct zacpi_source kept_source = zacpi_source_kept(source);
    struct zacpi_signature unasked;
    ZACPI_COUNTING(count, zacpi_1_list_processors(&kept_source,
                   capacity ? out : (struct zacpi_processor *)ZACPI_NOTHING, capacity,
                   ZACPI_COUNTED(count), signature ? signature : &unasked));
}

zacpi_status ZACPI_CALL zacpi_1_list_processors_from(const struct zacpi_source *source,
                                                     zacpi_number from, struct zacpi_processor *out,
                                                     zacpi_number capacity, zacpi_number *count,
                                                     struct zacpi_signature *signature);
ZACPI_NONNULL((1, 5))
ZACPI_STATUS zacpi_list_processors_from(const struct zacpi_source *source, size_t from,
                                        struct zacpi_processor *out, size_t capacity, size_t *count,
                                        struct zacpi_signature *signature) {
    const struct zacpi_source kept_source = zacpi_source_kept(source);
    struct zacpi_signature unasked;
    ZACPI_COUNTING(count, zacpi_1_list_processors_from(&kept_source, from,
                   capacity ? out : (struct zacpi_processor *)ZACPI_NOTHING, capacity,
                   ZACPI_COUNTED(count), signature ? signature : &unasked));
}

zacpi_status ZACPI_CALL zacpi_1_get_mailbox_address(const struct zacpi_source *source,
                                                    uint64_t *out,
                                                    struct zacpi_signature *signature);
ZACPI_NONNULL((1, 2))
ZACPI_STATUS zacpi_get_mailbox_address(const struct zacpi_source *source, uint64_t *out,
                                       struct zacpi_signature *signature) {
    const struct zacpi_source kept_source = zacpi_source_kept(source);
    struct zacpi_signature unasked;
    ZACPI_FITS;
    return zacpi_1_get_mailbox_address(&kept_source, out, signature ? signature : &unasked);
}

zacpi_status ZACPI_CALL zacpi_1_list_madt_faults(const struct zacpi_source *source,
                                                 struct zacpi_entry_fault *out,
                                                 zacpi_number capacity, zacpi_number *count,
                                                 struct zacpi_signature *signature);
ZACPI_NONNULL((1, 4))
ZACPI_STATUS zacpi_list_madt_faults(const struct zacpi_source *source,
                                    struct zacpi_entry_fault *out, size_t capacity, size_t *count,
                                    struct zacpi_signature *signature) {
    const struct zacpi_source kept_source = zacpi_source_kept(source);
    struct zacpi_signature unasked;
    ZACPI_COUNTING(count, zacpi_1_list_madt_faults(&kept_source,
                   capacity ? out : (struct zacpi_entry_fault *)ZACPI_NOTHING, capacity,
                   ZACPI_COUNTED(count), signature ? signature : &unasked));
}

zacpi_status ZACPI_CALL zacpi_1_get_platform(const struct zacpi_source *source,
                                             struct zacpi_interrupt_model *out,
                                             struct zacpi_platform_lists *lists,
                                             struct zacpi_signature *signature);
ZACPI_NONNULL((1, 2, 3))
ZACPI_STATUS zacpi_get_platform(const struct zacpi_source *source,
                                struct zacpi_interrupt_model *out,
                                struct zacpi_platform_lists *lists,
                                struct zacpi_signature *signature) {
    const struct zacpi_source kept_source = zacpi_source_kept(source);
    struct zacpi_platform_lists kept_lists = zacpi_platform_lists_kept(lists);
    struct zacpi_signature unasked;
    const zacpi_status status = zacpi_1_get_platform(&kept_source, out, &kept_lists,
                                                     signature ? signature : &unasked);
    ZACPI_FITS;
    lists->processors_count = kept_lists.processors_count;
    lists->io_apics_count = kept_lists.io_apics_count;
    lists->overrides_count = kept_lists.overrides_count;
    lists->nmi_sources_count = kept_lists.nmi_sources_count;
    lists->nmi_lines_count = kept_lists.nmi_lines_count;
    return status;
}

zacpi_status ZACPI_CALL zacpi_1_get_isa_interrupt(const struct zacpi_source *source, uint8_t irq,
                                                  struct zacpi_interrupt *out,
                                                  struct zacpi_signature *signature);
ZACPI_NONNULL((1, 3))
ZACPI_STATUS zacpi_get_isa_interrupt(const struct zacpi_source *source, uint8_t irq,
                                     struct zacpi_interrupt *out,
                                     struct zacpi_signature *signature) {
    const struct zacpi_source kept_source = zacpi_source_kept(source);
    struct zacpi_signature unasked;
    ZACPI_FITS;
    return zacpi_1_get_isa_interrupt(&kept_source, irq, out, signature ? signature : &unasked);
}

zacpi_status ZACPI_CALL zacpi_1_get_sci_interrupt(const struct zacpi_source *source,
                                                  struct zacpi_interrupt *out,
                                                  struct zacpi_signature *signature);
ZACPI_NONNULL((1, 2))
ZACPI_STATUS zacpi_get_sci_interrupt(const struct zacpi_source *source, struct zacpi_interrupt *out,
                                     struct zacpi_signature *signature) {
    const struct zacpi_source kept_source = zacpi_source_kept(source);
    struct zacpi_signature unasked;
    ZACPI_FITS;
    return zacpi_1_get_sci_interrupt(&kept_source, out, signature ? signature : &unasked);
}

zacpi_status ZACPI_CALL zacpi_1_get_io_apic_pin(const struct zacpi_source *source,
                                                uint32_t global_system_interrupt,
                                                struct zacpi_io_apic_pin *out,
                                                struct zacpi_signature *signature);
ZACPI_NONNULL((1, 3))
ZACPI_STATUS zacpi_get_io_apic_pin(const struct zacpi_source *source,
                                   uint32_t global_system_interrupt, struct zacpi_io_apic_pin *out,
                                   struct zacpi_signature *signature) {
    const struct zacpi_source kept_source = zacpi_source_kept(source);
    struct zacpi_signature unasked;
    ZACPI_FITS;
    return zacpi_1_get_io_apic_pin(&kept_source, global_system_interrupt, out,
                                   signature ? signature : &unasked);
}

zacpi_status ZACPI_CALL zacpi_1_get_isa_interrupts(const struct zacpi_source *source,
                                                   struct zacpi_isa_interrupts *out,
                                                   struct zacpi_signature *signature);
ZACPI_NONNULL((1, 2))
ZACPI_STATUS zacpi_get_isa_interrupts(const struct zacpi_source *source,
                                      struct zacpi_isa_interrupts *out,
                                      struct zacpi_signature *signature) {
    const struct zacpi_source kept_source = zacpi_source_kept(source);
    struct zacpi_signature unasked;
    ZACPI_FITS;
    return zacpi_1_get_isa_interrupts(&kept_source, out, signature ? signature : &unasked);
}

zacpi_status ZACPI_CALL zacpi_1_get_gic_distributor(const struct zacpi_source *source,
                                                    struct zacpi_gic_distributor *out,
                                                    struct zacpi_signature *signature);
ZACPI_NONNULL((1, 2))
ZACPI_STATUS zacpi_get_gic_distributor(const struct zacpi_source *source,
                                       struct zacpi_gic_distributor *out,
                                       struct zacpi_signature *signature) {
    const struct zacpi_source kept_source = zacpi_source_kept(source);
    struct zacpi_signature unasked;
    ZACPI_FITS;
    return zacpi_1_get_gic_distributor(&kept_source, out, signature ? signature : &unasked);
}

zacpi_status ZACPI_CALL zacpi_1_list_gic_cpu_interfaces(const struct zacpi_source *source,
                                                        struct zacpi_gic_cpu_interface *out,
                                                        zacpi_number capacity, zacpi_number *count,
                                                        struct zacpi_signature *signature);
ZACPI_NONNULL((1, 4))
ZACPI_STATUS zacpi_list_gic_cpu_interfaces(const struct zacpi_source *source,
                                           struct zacpi_gic_cpu_interface *out, size_t capacity,
                                           size_t *count, struct zacpi_signature *signature) {
    const struct zacpi_source kept_source = zacpi_source_kept(source);
    struct zacpi_signature unasked;
    ZACPI_COUNTING(count, zacpi_1_list_gic_cpu_interfaces(&kept_source,
                   capacity ? out : (struct zacpi_gic_cpu_interface *)ZACPI_NOTHING, capacity,
                   ZACPI_COUNTED(count), signature ? signature : &unasked));
}

zacpi_status ZACPI_CALL zacpi_1_list_gic_cpu_interfaces_from(const struct zacpi_source *source,
                                                             zacpi_number from,
                                                             struct zacpi_gic_cpu_interface *out,
                                                             zacpi_number capacity,
                                                             zacpi_number *count,
                                                             struct zacpi_signature *signature);
ZACPI_NONNULL((1, 5))
ZACPI_STATUS zacpi_list_gic_cpu_interfaces_from(const struct zacpi_source *source, size_t from,
                                                struct zacpi_gic_cpu_interface *out,
                                                size_t capacity, size_t *count,
                                                struct zacpi_signature *signature) {
    const struct zacpi_source kept_source = zacpi_source_kept(source);
    struct zacpi_signature unasked;
    ZACPI_COUNTING(count, zacpi_1_list_gic_cpu_interfaces_from(&kept_source, from,
                   capacity ? out : (struct zacpi_gic_cpu_interface *)ZACPI_NOTHING, capacity,
                   ZACPI_COUNTED(count), signature ? signature : &unasked));
}

zacpi_status ZACPI_CALL zacpi_1_list_gic_redistributors(const struct zacpi_source *source,
                                                        struct zacpi_range *out,
                                                        zacpi_number capacity, zacpi_number *count,
                                                        struct zacpi_signature *signature);
ZACPI_NONNULL((1, 4))
ZACPI_STATUS zacpi_list_gic_redistributors(const struct zacpi_source *source,
                                           struct zacpi_range *out, size_t capacity, size_t *count,
                                           struct zacpi_signature *signature) {
    const struct zacpi_source kept_source = zacpi_source_kept(source);
    struct zacpi_signature unasked;
    ZACPI_COUNTING(count, zacpi_1_list_gic_redistributors(&kept_source,
                   capacity ? out : (struct zacpi_range *)ZACPI_NOTHING, capacity,
                   ZACPI_COUNTED(count), signature ? signature : &unasked));
}

zacpi_status ZACPI_CALL zacpi_1_list_gic_translation_services(const struct zacpi_source *source,
                                                          struct zacpi_gic_translation_service *out,
                                                              zacpi_number capacity,
                                                              zacpi_number *count,
                                                              struct zacpi_signature *signature);
ZACPI_NONNULL((1, 4))
ZACPI_STATUS zacpi_list_gic_translation_services(const struct zacpi_source *source,
                                                 struct zacpi_gic_translation_service *out,
                                                 size_t capacity, size_t *count,
                                                 struct zacpi_signature *signature) {
    const struct zacpi_source kept_source = zacpi_source_kept(source);
    struct zacpi_signature unasked;
    ZACPI_COUNTING(count, zacpi_1_list_gic_translation_services(&kept_source,
                   capacity ? out : (struct zacpi_gic_translation_service *)ZACPI_NOTHING, capacity,
                   ZACPI_COUNTED(count), signature ? signature : &unasked));
}

zacpi_status ZACPI_CALL zacpi_1_list_gic_msi_frames(const struct zacpi_source *source,
                                                    struct zacpi_gic_msi_frame *out,
                                                    zacpi_number capacity, zacpi_number *count,
                                                    struct zacpi_signature *signature);
ZACPI_NONNULL((1, 4))
ZACPI_STATUS zacpi_list_gic_msi_frames(const struct zacpi_source *source,
                                       struct zacpi_gic_msi_frame *out, size_t capacity,
                                       size_t *count, struct zacpi_signature *signature) {
    const struct zacpi_source kept_source = zacpi_source_kept(source);
    struct zacpi_signature unasked;
    ZACPI_COUNTING(count, zacpi_1_list_gic_msi_frames(&kept_source,
                   capacity ? out : (struct zacpi_gic_msi_frame *)ZACPI_NOTHING, capacity,
                   ZACPI_COUNTED(count), signature ? signature : &unasked));
}

zacpi_status ZACPI_CALL zacpi_1_get_arm_timers(const struct zacpi_source *source,
                                               struct zacpi_arm_timers *out,
                                               struct zacpi_signature *signature);
ZACPI_NONNULL((1, 2))
ZACPI_STATUS zacpi_get_arm_timers(const struct zacpi_source *source, struct zacpi_arm_timers *out,
                                  struct zacpi_signature *signature) {
    const struct zacpi_source kept_source = zacpi_source_kept(source);
    struct zacpi_signature unasked;
    ZACPI_FITS;
    return zacpi_1_get_arm_timers(&kept_source, out, signature ? signature : &unasked);
}

zacpi_status ZACPI_CALL zacpi_1_list_gt_frames(const struct zacpi_source *source,
                                               struct zacpi_gt_frame *out, zacpi_number capacity,
                                               zacpi_number *count,
                                               struct zacpi_signature *signature);
ZACPI_NONNULL((1, 4))
ZACPI_STATUS zacpi_list_gt_frames(const struct zacpi_source *source, struct zacpi_gt_frame *out,
                                  size_t capacity, size_t *count,
                                  struct zacpi_signature *signature) {
    const struct zacpi_source kept_source = zacpi_source_kept(source);
    struct zacpi_signature unasked;
    ZACPI_COUNTING(count, zacpi_1_list_gt_frames(&kept_source,
                   capacity ? out : (struct zacpi_gt_frame *)ZACPI_NOTHING, capacity,
                   ZACPI_COUNTED(count), signature ? signature : &unasked));
}

zacpi_status ZACPI_CALL zacpi_1_list_watchdogs(const struct zacpi_source *source,
                                               struct zacpi_watchdog *out, zacpi_number capacity,
                                               zacpi_number *count,
                                               struct zacpi_signature *signature);
ZACPI_NONNULL((1, 4))
ZACPI_STATUS zacpi_list_watchdogs(const struct zacpi_source *source, struct zacpi_watchdog *out,
                                  size_t capacity, size_t *count,
                                  struct zacpi_signature *signature) {
    const struct zacpi_source kept_source = zacpi_source_kept(source);
    struct zacpi_signature unasked;
    ZACPI_COUNTING(count, zacpi_1_list_watchdogs(&kept_source,
                   capacity ? out : (struct zacpi_watchdog *)ZACPI_NOTHING, capacity,
                   ZACPI_COUNTED(count), signature ? signature : &unasked));
}

zacpi_status ZACPI_CALL zacpi_1_list_gtdt_faults(const struct zacpi_source *source,
                                                 struct zacpi_entry_fault *out,
                                                 zacpi_number capacity, zacpi_number *count,
                                                 struct zacpi_signature *signature);
ZACPI_NONNULL((1, 4))
ZACPI_STATUS zacpi_list_gtdt_faults(const struct zacpi_source *source,
                                    struct zacpi_entry_fault *out, size_t capacity, size_t *count,
                                    struct zacpi_signature *signature) {
    const struct zacpi_source kept_source = zacpi_source_kept(source);
    struct zacpi_signature unasked;
    ZACPI_COUNTING(count, zacpi_1_list_gtdt_faults(&kept_source,
                   capacity ? out : (struct zacpi_entry_fault *)ZACPI_NOTHING, capacity,
                   ZACPI_COUNTED(count), signature ? signature : &unasked));
}

zacpi_status ZACPI_CALL zacpi_1_list_rintcs(const struct zacpi_source *source,
                                            struct zacpi_rintc *out, zacpi_number capacity,
                                            zacpi_number *count, struct zacpi_signature *signature);
ZACPI_NONNULL((1, 4))
ZACPI_STATUS zacpi_list_rintcs(const struct zacpi_source *source, struct zacpi_rintc *out,
                               size_t capacity, size_t *count, struct zacpi_signature *signature) {
    const struct zacpi_source kept_source = zacpi_source_kept(source);
    struct zacpi_signature unasked;
    ZACPI_COUNTING(count, zacpi_1_list_rintcs(&kept_source,
                   capacity ? out : (struct zacpi_rintc *)ZACPI_NOTHING, capacity,
                   ZACPI_COUNTED(count), signature ? signature : &unasked));
}

zacpi_status ZACPI_CALL zacpi_1_list_imsics(const struct zacpi_source *source,
                                            struct zacpi_imsic *out, zacpi_number capacity,
                                            zacpi_number *count, struct zacpi_signature *signature);
ZACPI_NONNULL((1, 4))
ZACPI_STATUS zacpi_list_imsics(const struct zacpi_source *source, struct zacpi_imsic *out,
                               size_t capacity, size_t *count, struct zacpi_signature *signature) {
    const struct zacpi_source kept_source = zacpi_source_kept(source);
    struct zacpi_signature unasked;
    ZACPI_COUNTING(count, zacpi_1_list_imsics(&kept_source,
                   capacity ? out : (struct zacpi_imsic *)ZACPI_NOTHING, capacity,
                   ZACPI_COUNTED(count), signature ? signature : &unasked));
}

zacpi_status ZACPI_CALL zacpi_1_list_aplics(const struct zacpi_source *source,
                                            struct zacpi_aplic *out, zacpi_number capacity,
                                            zacpi_number *count, struct zacpi_signature *signature);
ZACPI_NONNULL((1, 4))
ZACPI_STATUS zacpi_list_aplics(const struct zacpi_source *source, struct zacpi_aplic *out,
                               size_t capacity, size_t *count, struct zacpi_signature *signature) {
    const struct zacpi_source kept_source = zacpi_source_kept(source);
    struct zacpi_signature unasked;
    ZACPI_COUNTING(count, zacpi_1_list_aplics(&kept_source,
                   capacity ? out : (struct zacpi_aplic *)ZACPI_NOTHING, capacity,
                   ZACPI_COUNTED(count), signature ? signature : &unasked));
}

zacpi_status ZACPI_CALL zacpi_1_list_plics(const struct zacpi_source *source,
                                           struct zacpi_plic *out, zacpi_number capacity,
                                           zacpi_number *count, struct zacpi_signature *signature);
ZACPI_NONNULL((1, 4))
ZACPI_STATUS zacpi_list_plics(const struct zacpi_source *source, struct zacpi_plic *out,
                              size_t capacity, size_t *count, struct zacpi_signature *signature) {
    const struct zacpi_source kept_source = zacpi_source_kept(source);
    struct zacpi_signature unasked;
    ZACPI_COUNTING(count, zacpi_1_list_plics(&kept_source,
                   capacity ? out : (struct zacpi_plic *)ZACPI_NOTHING, capacity,
                   ZACPI_COUNTED(count), signature ? signature : &unasked));
}

zacpi_status ZACPI_CALL zacpi_1_list_rintcs_from(const struct zacpi_source *source,
                                                 zacpi_number from, struct zacpi_rintc *out,
                                                 zacpi_number capacity, zacpi_number *count,
                                                 struct zacpi_signature *signature);
ZACPI_NONNULL((1, 5))
ZACPI_STATUS zacpi_list_rintcs_from(const struct zacpi_source *source, size_t from,
                                    struct zacpi_rintc *out, size_t capacity, size_t *count,
                                    struct zacpi_signature *signature) {
    const struct zacpi_source kept_source = zacpi_source_kept(source);
    struct zacpi_signature unasked;
    ZACPI_COUNTING(count, zacpi_1_list_rintcs_from(&kept_source, from,
                   capacity ? out : (struct zacpi_rintc *)ZACPI_NOTHING, capacity,
                   ZACPI_COUNTED(count), signature ? signature : &unasked));
}

zacpi_status ZACPI_CALL zacpi_1_list_memory_affinities(const struct zacpi_source *source,
                                                       struct zacpi_memory_affinity *out,
                                                       zacpi_number capacity, zacpi_number *count,
                                                       struct zacpi_signature *signature);
ZACPI_NONNULL((1, 4))
ZACPI_STATUS zacpi_list_memory_affinities(const struct zacpi_source *source,
                                          struct zacpi_memory_affinity *out, size_t capacity,
                                          size_t *count, struct zacpi_signature *signature) {
    const struct zacpi_source kept_source = zacpi_source_kept(source);
    struct zacpi_signature unasked;
    ZACPI_COUNTING(count, zacpi_1_list_memory_affinities(&kept_source,
                   capacity ? out : (struct zacpi_memory_affinity *)ZACPI_NOTHING, capacity,
                   ZACPI_COUNTED(count), signature ? signature : &unasked));
}

zacpi_status ZACPI_CALL zacpi_1_list_memory_affinities_from(const struct zacpi_source *source,
                                                            zacpi_number from,
                                                            struct zacpi_memory_affinity *out,
                                                            zacpi_number capacity,
                                                            zacpi_number *count,
                                                            struct zacpi_signature *signature);
ZACPI_NONNULL((1, 5))
ZACPI_STATUS zacpi_list_memory_affinities_from(const struct zacpi_source *source, size_t from,
                                               struct zacpi_memory_affinity *out, size_t capacity,
                                               size_t *count, struct zacpi_signature *signature) {
    const struct zacpi_source kept_source = zacpi_source_kept(source);
    struct zacpi_signature unasked;
    ZACPI_COUNTING(count, zacpi_1_list_memory_affinities_from(&kept_source, from,
                   capacity ? out : (struct zacpi_memory_affinity *)ZACPI_NOTHING, capacity,
                   ZACPI_COUNTED(count), signature ? signature : &unasked));
}

zacpi_status ZACPI_CALL zacpi_1_list_processor_affinities(const struct zacpi_source *source,
                                                          struct zacpi_processor_affinity *out,
                                                          zacpi_number capacity,
                                                          zacpi_number *count,
                                                          struct zacpi_signature *signature);
ZACPI_NONNULL((1, 4))
ZACPI_STATUS zacpi_list_processor_affinities(const struct zacpi_source *source,
                                             struct zacpi_processor_affinity *out, size_t capacity,
                                             size_t *count, struct zacpi_signature *signature) {
    const struct zacpi_source kept_source = zacpi_source_kept(source);
    struct zacpi_signature unasked;
    ZACPI_COUNTING(count, zacpi_1_list_processor_affinities(&kept_source,
                   capacity ? out : (struct zacpi_processor_affinity *)ZACPI_NOTHING, capacity,
                   ZACPI_COUNTED(count), signature ? signature : &unasked));
}

zacpi_status ZACPI_CALL zacpi_1_list_processor_affinities_from(const struct zacpi_source *source,
                                                               zacpi_number from,
                                                               struct zacpi_processor_affinity *out,
                                                               zacpi_number capacity,
                                                               zacpi_number *count,
                                                               struct zacpi_signature *signature);
ZACPI_NONNULL((1, 5))
ZACPI_STATUS zacpi_list_processor_affinities_from(const struct zacpi_source *source, size_t from,
                                                  struct zacpi_processor_affinity *out,
                                                  size_t capacity, size_t *count,
                                                  struct zacpi_signature *signature) {
    const struct zacpi_source kept_source = zacpi_source_kept(source);
    struct zacpi_signature unasked;
    ZACPI_COUNTING(count, zacpi_1_list_processor_affinities_from(&kept_source, from,
                   capacity ? out : (struct zacpi_processor_affinity *)ZACPI_NOTHING, capacity,
                   ZACPI_COUNTED(count), signature ? signature : &unasked));
}

zacpi_status ZACPI_CALL zacpi_1_list_generic_initiators(const struct zacpi_source *source,
                                                        struct zacpi_generic_initiator *out,
                                                        zacpi_number capacity, zacpi_number *count,
                                                        struct zacpi_signature *signature);
ZACPI_NONNULL((1, 4))
ZACPI_STATUS zacpi_list_generic_initiators(const struct zacpi_source *source,
                                           struct zacpi_generic_initiator *out, size_t capacity,
                                           size_t *count, struct zacpi_signature *signature) {
    const struct zacpi_source kept_source = zacpi_source_kept(source);
    struct zacpi_signature unasked;
    ZACPI_COUNTING(count, zacpi_1_list_generic_initiators(&kept_source,
                   capacity ? out : (struct zacpi_generic_initiator *)ZACPI_NOTHING, capacity,
                   ZACPI_COUNTED(count), signature ? signature : &unasked));
}

zacpi_status ZACPI_CALL zacpi_1_list_its_affinities(const struct zacpi_source *source,
                                                    struct zacpi_its_affinity *out,
                                                    zacpi_number capacity, zacpi_number *count,
                                                    struct zacpi_signature *signature);
ZACPI_NONNULL((1, 4))
ZACPI_STATUS zacpi_list_its_affinities(const struct zacpi_source *source,
                                       struct zacpi_its_affinity *out, size_t capacity,
                                       size_t *count, struct zacpi_signature *signature) {
    const struct zacpi_source kept_source = zacpi_source_kept(source);
    struct zacpi_signature unasked;
    ZACPI_COUNTING(count, zacpi_1_list_its_affinities(&kept_source,
                   capacity ? out : (struct zacpi_its_affinity *)ZACPI_NOTHING, capacity,
                   ZACPI_COUNTED(count), signature ? signature : &unasked));
}

zacpi_status ZACPI_CALL zacpi_1_list_srat_faults(const struct zacpi_source *source,
                                                 struct zacpi_entry_fault *out,
                                                 zacpi_number capacity, zacpi_number *count,
                                                 struct zacpi_signature *signature);
ZACPI_NONNULL((1, 4))
ZACPI_STATUS zacpi_list_srat_faults(const struct zacpi_source *source,
                                    struct zacpi_entry_fault *out, size_t capacity, size_t *count,
                                    struct zacpi_signature *signature) {
    const struct zacpi_source kept_source = zacpi_source_kept(source);
    struct zacpi_signature unasked;
    ZACPI_COUNTING(count, zacpi_1_list_srat_faults(&kept_source,
                   capacity ? out : (struct zacpi_entry_fault *)ZACPI_NOTHING, capacity,
                   ZACPI_COUNTED(count), signature ? signature : &unasked));
}

zacpi_status ZACPI_CALL zacpi_1_domain_of_address(const struct zacpi_source *source,
                                                  uint64_t address, uint32_t *out,
                                                  struct zacpi_signature *signature);
ZACPI_NONNULL((1, 3))
ZACPI_STATUS zacpi_domain_of_address(const struct zacpi_source *source, uint64_t address,
                                     uint32_t *out, struct zacpi_signature *signature) {
    const struct zacpi_source kept_source = zacpi_source_kept(source);
    struct zacpi_signature unasked;
    ZACPI_FITS;
    return zacpi_1_domain_of_address(&kept_source, address, out, signature ? signature : &unasked);
}

zacpi_status ZACPI_CALL zacpi_1_domain_of_apic(const struct zacpi_source *source,
                                               uint32_t local_apic_id, uint32_t *out,
                                               struct zacpi_signature *signature);
ZACPI_NONNULL((1, 3))
ZACPI_STATUS zacpi_domain_of_apic(const struct zacpi_source *source, uint32_t local_apic_id,
                                  uint32_t *out, struct zacpi_signature *signature) {
    const struct zacpi_source kept_source = zacpi_source_kept(source);
    struct zacpi_signature unasked;
    ZACPI_FITS;
    return zacpi_1_domain_of_apic(&kept_source, local_apic_id, out,
                                  signature ? signature : &unasked);
}

zacpi_status ZACPI_CALL zacpi_1_domain_of_processor(const struct zacpi_source *source, uint32_t uid,
                                                    uint32_t *out,
                                                    struct zacpi_signature *signature);
ZACPI_NONNULL((1, 3))
ZACPI_STATUS zacpi_domain_of_processor(const struct zacpi_source *source, uint32_t uid,
                                       uint32_t *out, struct zacpi_signature *signature) {
    const struct zacpi_source kept_source = zacpi_source_kept(source);
    struct zacpi_signature unasked;
    ZACPI_FITS;
    return zacpi_1_domain_of_processor(&kept_source, uid, out, signature ? signature : &unasked);
}

zacpi_status ZACPI_CALL zacpi_1_get_localities(const struct zacpi_source *source,
                                               struct zacpi_localities *out,
                                               struct zacpi_signature *signature);
ZACPI_NONNULL((1, 2))
ZACPI_STATUS zacpi_get_localities(const struct zacpi_source *source, struct zacpi_localities *out,
                                  struct zacpi_signature *signature) {
    const struct zacpi_source kept_source = zacpi_source_kept(source);
    struct zacpi_signature unasked;
    ZACPI_FITS;
    return zacpi_1_get_localities(&kept_source, out, signature ? signature : &unasked);
}

zacpi_status ZACPI_CALL zacpi_1_distance(const struct zacpi_source *source, uint64_t from,
                                         uint64_t to, uint8_t *out,
                                         struct zacpi_signature *signature);
ZACPI_NONNULL((1, 4))
ZACPI_STATUS zacpi_distance(const struct zacpi_source *source, uint64_t from, uint64_t to,
                            uint8_t *out, struct zacpi_signature *signature) {
    const struct zacpi_source kept_source = zacpi_source_kept(source);
    struct zacpi_signature unasked;
    ZACPI_FITS;
    return zacpi_1_distance(&kept_source, from, to, out, signature ? signature : &unasked);
}

zacpi_status ZACPI_CALL zacpi_1_get_dmar_flags(const struct zacpi_source *source,
                                               struct zacpi_dmar_flags *out,
                                               struct zacpi_signature *signature);
ZACPI_NONNULL((1, 2))
ZACPI_STATUS zacpi_get_dmar_flags(const struct zacpi_source *source, struct zacpi_dmar_flags *out,
                                  struct zacpi_signature *signature) {
    const struct zacpi_source kept_source = zacpi_source_kept(source);
    struct zacpi_signature unasked;
    ZACPI_FITS;
    return zacpi_1_get_dmar_flags(&kept_source, out, signature ? signature : &unasked);
}

zacpi_status ZACPI_CALL zacpi_1_list_dmar_units(const struct zacpi_source *source,
                                                struct zacpi_dmar_unit *out, zacpi_number capacity,
                                                zacpi_number *count,
                                                struct zacpi_signature *signature);
ZACPI_NONNULL((1, 4))
ZACPI_STATUS zacpi_list_dmar_units(const struct zacpi_source *source, struct zacpi_dmar_unit *out,
                                   size_t capacity, size_t *count,
                                   struct zacpi_signature *signature) {
    const struct zacpi_source kept_source = zacpi_source_kept(source);
    struct zacpi_signature unasked;
    ZACPI_COUNTING(count, zacpi_1_list_dmar_units(&kept_source,
                   capacity ? out : (struct zacpi_dmar_unit *)ZACPI_NOTHING, capacity,
                   ZACPI_COUNTED(count), signature ? signature : &unasked));
}

zacpi_status ZACPI_CALL zacpi_1_list_dmar_scopes(const struct zacpi_source *source,
                                                 zacpi_number index, struct zacpi_dmar_scope *out,
                                                 zacpi_number capacity, zacpi_number *count,
                                                 struct zacpi_signature *signature);
ZACPI_NONNULL((1, 5))
ZACPI_STATUS zacpi_list_dmar_scopes(const struct zacpi_source *source, size_t index,
                                    struct zacpi_dmar_scope *out, size_t capacity, size_t *count,
                                    struct zacpi_signature *signature) {
    const struct zacpi_source kept_source = zacpi_source_kept(source);
    struct zacpi_signature unasked;
    ZACPI_COUNTING(count, zacpi_1_list_dmar_scopes(&kept_source, index,
                   capacity ? out : (struct zacpi_dmar_scope *)ZACPI_NOTHING, capacity,
                   ZACPI_COUNTED(count), signature ? signature : &unasked));
}

zacpi_status ZACPI_CALL zacpi_1_list_dmar_regions(const struct zacpi_source *source,
                                                  struct zacpi_dmar_reserved *out,
                                                  zacpi_number capacity, zacpi_number *count,
                                                  struct zacpi_signature *signature);
ZACPI_NONNULL((1, 4))
ZACPI_STATUS zacpi_list_dmar_regions(const struct zacpi_source *source,
                                     struct zacpi_dmar_reserved *out, size_t capacity,
                                     size_t *count, struct zacpi_signature *signature) {
    const struct zacpi_source kept_source = zacpi_source_kept(source);
    struct zacpi_signature unasked;
    ZACPI_COUNTING(count, zacpi_1_list_dmar_regions(&kept_source,
                   capacity ? out : (struct zacpi_dmar_reserved *)ZACPI_NOTHING, capacity,
                   ZACPI_COUNTED(count), signature ? signature : &unasked));
}

zacpi_status ZACPI_CALL zacpi_1_list_dmar_root_ports(const struct zacpi_source *source,
                                                     struct zacpi_dmar_root_ports *out,
                                                     zacpi_number capacity, zacpi_number *count,
                                                     struct zacpi_signature *signature);
ZACPI_NONNULL((1, 4))
ZACPI_STATUS zacpi_list_dmar_root_ports(const struct zacpi_source *source,
                                        struct zacpi_dmar_root_ports *out, size_t capacity,
                                        size_t *count, struct zacpi_signature *signature) {
    const struct zacpi_source kept_source = zacpi_source_kept(source);
    struct zacpi_signature unasked;
    ZACPI_COUNTING(count, zacpi_1_list_dmar_root_ports(&kept_source,
                   capacity ? out : (struct zacpi_dmar_root_ports *)ZACPI_NOTHING, capacity,
                   ZACPI_COUNTED(count), signature ? signature : &unasked));
}

zacpi_status ZACPI_CALL zacpi_1_list_dmar_affinities(const struct zacpi_source *source,
                                                     struct zacpi_dmar_affinity *out,
                                                     zacpi_number capacity, zacpi_number *count,
                                                     struct zacpi_signature *signature);
ZACPI_NONNULL((1, 4))
ZACPI_STATUS zacpi_list_dmar_affinities(const struct zacpi_source *source,
                                        struct zacpi_dmar_affinity *out, size_t capacity,
                                        size_t *count, struct zacpi_signature *signature) {
    const struct zacpi_source kept_source = zacpi_source_kept(source);
    struct zacpi_signature unasked;
    ZACPI_COUNTING(count, zacpi_1_list_dmar_affinities(&kept_source,
                   capacity ? out : (struct zacpi_dmar_affinity *)ZACPI_NOTHING, capacity,
                   ZACPI_COUNTED(count), signature ? signature : &unasked));
}

zacpi_status ZACPI_CALL zacpi_1_list_dmar_structure_scopes(const struct zacpi_source *source,
                                                           uint16_t structure_type,
                                                           zacpi_number index,
                                                           struct zacpi_dmar_scope *out,
                                                           zacpi_number capacity,
                                                           zacpi_number *count,
                                                           struct zacpi_signature *signature);
ZACPI_NONNULL((1, 6))
ZACPI_STATUS zacpi_list_dmar_structure_scopes(const struct zacpi_source *source,
                                              uint16_t structure_type, size_t index,
                                              struct zacpi_dmar_scope *out, size_t capacity,
                                              size_t *count, struct zacpi_signature *signature) {
    const struct zacpi_source kept_source = zacpi_source_kept(source);
    struct zacpi_signature unasked;
    ZACPI_COUNTING(count, zacpi_1_list_dmar_structure_scopes(&kept_source, structure_type, index,
                   capacity ? out : (struct zacpi_dmar_scope *)ZACPI_NOTHING, capacity,
                   ZACPI_COUNTED(count), signature ? signature : &unasked));
}

zacpi_status ZACPI_CALL zacpi_1_list_dmar_faults(const struct zacpi_source *source,
                                                 struct zacpi_entry_fault *out,
                                                 zacpi_number capacity, zacpi_number *count,
                                                 struct zacpi_signature *signature);
ZACPI_NONNULL((1, 4))
ZACPI_STATUS zacpi_list_dmar_faults(const struct zacpi_source *source,
                                    struct zacpi_entry_fault *out, size_t capacity, size_t *count,
                                    struct zacpi_signature *signature) {
    const struct zacpi_source kept_source = zacpi_source_kept(source);
    struct zacpi_signature unasked;
    ZACPI_COUNTING(count, zacpi_1_list_dmar_faults(&kept_source,
                   capacity ? out : (struct zacpi_entry_fault *)ZACPI_NOTHING, capacity,
                   ZACPI_COUNTED(count), signature ? signature : &unasked));
}

zacpi_status ZACPI_CALL zacpi_1_get_dmar_unit(const struct zacpi_source *source, uint16_t segment,
                                              uint8_t bus, const struct zacpi_hop *hops,
                                              zacpi_number hops_length, struct zacpi_dmar_unit *out,
                                              struct zacpi_signature *signature);
ZACPI_NONNULL((1, 6))
ZACPI_STATUS zacpi_get_dmar_unit(const struct zacpi_source *source, uint16_t segment, uint8_t bus,
                                 const struct zacpi_hop *hops, size_t hops_length,
                                 struct zacpi_dmar_unit *out, struct zacpi_signature *signature) {
    const struct zacpi_source kept_source = zacpi_source_kept(source);
    struct zacpi_signature unasked;
    ZACPI_FITS;
    return zacpi_1_get_dmar_unit(&kept_source, segment, bus,
                                 hops_length ? hops : (const struct zacpi_hop *)ZACPI_NOTHING,
                                 hops_length, out, signature ? signature : &unasked);
}

zacpi_status ZACPI_CALL zacpi_1_get_dmar_io_apic(const struct zacpi_source *source, uint8_t id,
                                                 struct zacpi_dmar_source *out,
                                                 struct zacpi_signature *signature);
ZACPI_NONNULL((1, 3))
ZACPI_STATUS zacpi_get_dmar_io_apic(const struct zacpi_source *source, uint8_t id,
                                    struct zacpi_dmar_source *out,
                                    struct zacpi_signature *signature) {
    const struct zacpi_source kept_source = zacpi_source_kept(source);
    struct zacpi_signature unasked;
    ZACPI_FITS;
    return zacpi_1_get_dmar_io_apic(&kept_source, id, out, signature ? signature : &unasked);
}

zacpi_status ZACPI_CALL zacpi_1_get_dmar_hpet(const struct zacpi_source *source, uint8_t number,
                                              struct zacpi_dmar_source *out,
                                              struct zacpi_signature *signature);
ZACPI_NONNULL((1, 3))
ZACPI_STATUS zacpi_get_dmar_hpet(const struct zacpi_source *source, uint8_t number,
                                 struct zacpi_dmar_source *out, struct zacpi_signature *signature) {
    const struct zacpi_source kept_source = zacpi_source_kept(source);
    struct zacpi_signature unasked;
    ZACPI_FITS;
    return zacpi_1_get_dmar_hpet(&kept_source, number, out, signature ? signature : &unasked);
}

zacpi_status ZACPI_CALL zacpi_1_list_dmar_reserved(const struct zacpi_source *source,
                                                   uint16_t segment, uint8_t bus,
                                                   const struct zacpi_hop *hops,
                                                   zacpi_number hops_length,
                                                   struct zacpi_dmar_reserved *out,
                                                   zacpi_number capacity, zacpi_number *count,
                                                   struct zacpi_signature *signature);
ZACPI_NONNULL((1, 8))
ZACPI_STATUS zacpi_list_dmar_reserved(const struct zacpi_source *source, uint16_t segment,
                                      uint8_t bus, const struct zacpi_hop *hops, size_t hops_length,
                                      struct zacpi_dmar_reserved *out, size_t capacity,
                                      size_t *count, struct zacpi_signature *signature) {
    const struct zacpi_source kept_source = zacpi_source_kept(source);
    struct zacpi_signature unasked;
    ZACPI_COUNTING(count, zacpi_1_list_dmar_reserved(&kept_source, segment, bus,
                   hops_length ? hops : (const struct zacpi_hop *)ZACPI_NOTHING, hops_length,
                   capacity ? out : (struct zacpi_dmar_reserved *)ZACPI_NOTHING, capacity,
                   ZACPI_COUNTED(count), signature ? signature : &unasked));
}

zacpi_status ZACPI_CALL zacpi_1_list_ivrs_units(const struct zacpi_source *source,
                                                struct zacpi_ivrs_unit *out, zacpi_number capacity,
                                                zacpi_number *count,
                                                struct zacpi_signature *signature);
ZACPI_NONNULL((1, 4))
ZACPI_STATUS zacpi_list_ivrs_units(const struct zacpi_source *source, struct zacpi_ivrs_unit *out,
                                   size_t capacity, size_t *count,
                                   struct zacpi_signature *signature) {
    const struct zacpi_source kept_source = zacpi_source_kept(source);
    struct zacpi_signature unasked;
    ZACPI_COUNTING(count, zacpi_1_list_ivrs_units(&kept_source,
                   capacity ? out : (struct zacpi_ivrs_unit *)ZACPI_NOTHING, capacity,
                   ZACPI_COUNTED(count), signature ? signature : &unasked));
}

zacpi_status ZACPI_CALL zacpi_1_list_ivrs_entries(const struct zacpi_source *source,
                                                  zacpi_number index, struct zacpi_ivrs_entry *out,
                                                  zacpi_number capacity, zacpi_number *count,
                                                  struct zacpi_signature *signature);
ZACPI_NONNULL((1, 5))
ZACPI_STATUS zacpi_list_ivrs_entries(const struct zacpi_source *source, size_t index,
                                     struct zacpi_ivrs_entry *out, size_t capacity, size_t *count,
                                     struct zacpi_signature *signature) {
    const struct zacpi_source kept_source = zacpi_source_kept(source);
    struct zacpi_signature unasked;
    ZACPI_COUNTING(count, zacpi_1_list_ivrs_entries(&kept_source, index,
                   capacity ? out : (struct zacpi_ivrs_entry *)ZACPI_NOTHING, capacity,
                   ZACPI_COUNTED(count), signature ? signature : &unasked));
}

zacpi_status ZACPI_CALL zacpi_1_list_ivrs_faults(const struct zacpi_source *source,
                                                 struct zacpi_entry_fault *out,
                                                 zacpi_number capacity, zacpi_number *count,
                                                 struct zacpi_signature *signature);
ZACPI_NONNULL((1, 4))
ZACPI_STATUS zacpi_list_ivrs_faults(const struct zacpi_source *source,
                                    struct zacpi_entry_fault *out, size_t capacity, size_t *count,
                                    struct zacpi_signature *signature) {
    const struct zacpi_source kept_source = zacpi_source_kept(source);
    struct zacpi_signature unasked;
    ZACPI_COUNTING(count, zacpi_1_list_ivrs_faults(&kept_source,
                   capacity ? out : (struct zacpi_entry_fault *)ZACPI_NOTHING, capacity,
                   ZACPI_COUNTED(count), signature ? signature : &unasked));
}

zacpi_status ZACPI_CALL zacpi_1_get_ivrs_unit(const struct zacpi_source *source, uint16_t segment,
                                              uint16_t device_id, struct zacpi_ivrs_device *out,
                                              struct zacpi_signature *signature);
ZACPI_NONNULL((1, 4))
ZACPI_STATUS zacpi_get_ivrs_unit(const struct zacpi_source *source, uint16_t segment,
                                 uint16_t device_id, struct zacpi_ivrs_device *out,
                                 struct zacpi_signature *signature) {
    const struct zacpi_source kept_source = zacpi_source_kept(source);
    struct zacpi_signature unasked;
    ZACPI_FITS;
    return zacpi_1_get_ivrs_unit(&kept_source, segment, device_id, out,
                                 signature ? signature : &unasked);
}

zacpi_status ZACPI_CALL zacpi_1_list_ivrs_regions(const struct zacpi_source *source,
                                                  struct zacpi_ivrs_memory *out,
                                                  zacpi_number capacity, zacpi_number *count,
                                                  struct zacpi_signature *signature);
ZACPI_NONNULL((1, 4))
ZACPI_STATUS zacpi_list_ivrs_regions(const struct zacpi_source *source,
                                     struct zacpi_ivrs_memory *out, size_t capacity, size_t *count,
                                     struct zacpi_signature *signature) {
    const struct zacpi_source kept_source = zacpi_source_kept(source);
    struct zacpi_signature unasked;
    ZACPI_COUNTING(count, zacpi_1_list_ivrs_regions(&kept_source,
                   capacity ? out : (struct zacpi_ivrs_memory *)ZACPI_NOTHING, capacity,
                   ZACPI_COUNTED(count), signature ? signature : &unasked));
}

zacpi_status ZACPI_CALL zacpi_1_list_ivrs_memory(const struct zacpi_source *source,
                                                 uint16_t device_id, struct zacpi_ivrs_memory *out,
                                                 zacpi_number capacity, zacpi_number *count,
                                                 struct zacpi_signature *signature);
ZACPI_NONNULL((1, 5))
ZACPI_STATUS zacpi_list_ivrs_memory(const struct zacpi_source *source, uint16_t device_id,
                                    struct zacpi_ivrs_memory *out, size_t capacity, size_t *count,
                                    struct zacpi_signature *signature) {
    const struct zacpi_source kept_source = zacpi_source_kept(source);
    struct zacpi_signature unasked;
    ZACPI_COUNTING(count, zacpi_1_list_ivrs_memory(&kept_source, device_id,
                   capacity ? out : (struct zacpi_ivrs_memory *)ZACPI_NOTHING, capacity,
                   ZACPI_COUNTED(count), signature ? signature : &unasked));
}

zacpi_status ZACPI_CALL zacpi_1_write_rsdp(const struct zacpi_table_ids *ids, uint64_t xsdt,
                                           uint8_t *out, zacpi_number capacity,
                                           zacpi_number *length);
ZACPI_NONNULL((1, 5))
ZACPI_STATUS zacpi_write_rsdp(const struct zacpi_table_ids *ids, uint64_t xsdt, uint8_t *out,
                              size_t capacity, size_t *length) {
    ZACPI_COUNTING(length, zacpi_1_write_rsdp(ids, xsdt, capacity ? out : (uint8_t *)ZACPI_NOTHING,
                   capacity, ZACPI_COUNTED(length)));
}

zacpi_status ZACPI_CALL zacpi_1_write_rsdt(const struct zacpi_table_ids *ids,
                                           const uint32_t *addresses, zacpi_number addresses_length,
                                           uint8_t *out, zacpi_number capacity,
                                           zacpi_number *length);
ZACPI_NONNULL((1, 6))
ZACPI_STATUS zacpi_write_rsdt(const struct zacpi_table_ids *ids, const uint32_t *addresses,
                              size_t addresses_length, uint8_t *out, size_t capacity,
                              size_t *length) {
    ZACPI_COUNTING(length, zacpi_1_write_rsdt(ids,
                   addresses_length ? addresses : (const uint32_t *)ZACPI_NOTHING, addresses_length,
                   capacity ? out : (uint8_t *)ZACPI_NOTHING, capacity, ZACPI_COUNTED(length)));
}

zacpi_status ZACPI_CALL zacpi_1_write_xsdt(const struct zacpi_table_ids *ids,
                                           const uint64_t *addresses, zacpi_number addresses_length,
                                           uint8_t *out, zacpi_number capacity,
                                           zacpi_number *length);
ZACPI_NONNULL((1, 6))
ZACPI_STATUS zacpi_write_xsdt(const struct zacpi_table_ids *ids, const uint64_t *addresses,
                              size_t addresses_length, uint8_t *out, size_t capacity,
                              size_t *length) {
    ZACPI_COUNTING(length, zacpi_1_write_xsdt(ids,
                   addresses_length ? addresses : (const uint64_t *)ZACPI_NOTHING, addresses_length,
                   capacity ? out : (uint8_t *)ZACPI_NOTHING, capacity, ZACPI_COUNTED(length)));
}

zacpi_status ZACPI_CALL zacpi_1_write_dsdt(const struct zacpi_table_ids *ids, uint8_t revision,
                                           const uint8_t *aml, zacpi_number aml_length,
                                           uint8_t *out, zacpi_number capacity,
                                           zacpi_number *length);
ZACPI_NONNULL((1, 7))
ZACPI_STATUS zacpi_write_dsdt(const struct zacpi_table_ids *ids, uint8_t revision,
                              const uint8_t *aml, size_t aml_length, uint8_t *out, size_t capacity,
                              size_t *length) {
    ZACPI_COUNTING(length, zacpi_1_write_dsdt(ids, revision,
                   aml_length ? aml : (const uint8_t *)ZACPI_NOTHING, aml_length,
                   capacity ? out : (uint8_t *)ZACPI_NOTHING, capacity, ZACPI_COUNTED(length)));
}

zacpi_status ZACPI_CALL zacpi_1_write_ssdt(const struct zacpi_table_ids *ids, uint8_t revision,
                                           const uint8_t *aml, zacpi_number aml_length,
                                           uint8_t *out, zacpi_number capacity,
                                           zacpi_number *length);
ZACPI_NONNULL((1, 7))
ZACPI_STATUS zacpi_write_ssdt(const struct zacpi_table_ids *ids, uint8_t revision,
                              const uint8_t *aml, size_t aml_length, uint8_t *out, size_t capacity,
                              size_t *length) {
    ZACPI_COUNTING(length, zacpi_1_write_ssdt(ids, revision,
                   aml_length ? aml : (const uint8_t *)ZACPI_NOTHING, aml_length,
                   capacity ? out : (uint8_t *)ZACPI_NOTHING, capacity, ZACPI_COUNTED(length)));
}

zacpi_status ZACPI_CALL zacpi_1_write_table(const struct zacpi_table_ids *ids,
                                            struct zacpi_signature wanted, uint8_t revision,
                                            const uint8_t *body, zacpi_number body_length,
                                            uint8_t *out, zacpi_number capacity,
                                            zacpi_number *length);
ZACPI_NONNULL((1, 8))
ZACPI_STATUS zacpi_write_table(const struct zacpi_table_ids *ids, struct zacpi_signature wanted,
                               uint8_t revision, const uint8_t *body, size_t body_length,
                               uint8_t *out, size_t capacity, size_t *length) {
    ZACPI_COUNTING(length, zacpi_1_write_table(ids, wanted, revision,
                   body_length ? body : (const uint8_t *)ZACPI_NOTHING, body_length,
                   capacity ? out : (uint8_t *)ZACPI_NOTHING, capacity, ZACPI_COUNTED(length)));
}

zacpi_status ZACPI_CALL zacpi_1_write_madt(const struct zacpi_table_ids *ids,
                                           const struct zacpi_madt_contents *contents, uint8_t *out,
                                           zacpi_number capacity, zacpi_number *length);
ZACPI_NONNULL((1, 2, 5))
ZACPI_STATUS zacpi_write_madt(const struct zacpi_table_ids *ids,
                              const struct zacpi_madt_contents *contents, uint8_t *out,
                              size_t capacity, size_t *length) {
    const struct zacpi_madt_contents kept_contents = zacpi_madt_contents_kept(contents);
    ZACPI_COUNTING(length, zacpi_1_write_madt(ids, &kept_contents,
                   capacity ? out : (uint8_t *)ZACPI_NOTHING, capacity, ZACPI_COUNTED(length)));
}

zacpi_status ZACPI_CALL zacpi_1_write_gic_madt(const struct zacpi_table_ids *ids,
                                               const struct zacpi_gic_contents *contents,
                                               uint8_t *out, zacpi_number capacity,
                                               zacpi_number *length);
ZACPI_NONNULL((1, 2, 5))
ZACPI_STATUS zacpi_write_gic_madt(const struct zacpi_table_ids *ids,
                                  const struct zacpi_gic_contents *contents, uint8_t *out,
                                  size_t capacity, size_t *length) {
    const struct zacpi_gic_contents kept_contents = zacpi_gic_contents_kept(contents);
    ZACPI_COUNTING(length, zacpi_1_write_gic_madt(ids, &kept_contents,
                   capacity ? out : (uint8_t *)ZACPI_NOTHING, capacity, ZACPI_COUNTED(length)));
}

zacpi_status ZACPI_CALL zacpi_1_write_riscv_madt(const struct zacpi_table_ids *ids,
                                                 const struct zacpi_riscv_contents *contents,
                                                 uint8_t *out, zacpi_number capacity,
                                                 zacpi_number *length);
ZACPI_NONNULL((1, 2, 5))
ZACPI_STATUS zacpi_write_riscv_madt(const struct zacpi_table_ids *ids,
                                    const struct zacpi_riscv_contents *contents, uint8_t *out,
                                    size_t capacity, size_t *length) {
    const struct zacpi_riscv_contents kept_contents = zacpi_riscv_contents_kept(contents);
    ZACPI_COUNTING(length, zacpi_1_write_riscv_madt(ids, &kept_contents,
                   capacity ? out : (uint8_t *)ZACPI_NOTHING, capacity, ZACPI_COUNTED(length)));
}

zacpi_status ZACPI_CALL zacpi_1_write_rhct(const struct zacpi_table_ids *ids,
                                           const struct zacpi_rhct_contents *contents, uint8_t *out,
                                           zacpi_number capacity, zacpi_number *length);
ZACPI_NONNULL((1, 2, 5))
ZACPI_STATUS zacpi_write_rhct(const struct zacpi_table_ids *ids,
                              const struct zacpi_rhct_contents *contents, uint8_t *out,
                              size_t capacity, size_t *length) {
    const struct zacpi_rhct_contents kept_contents = zacpi_rhct_contents_kept(contents);
    ZACPI_COUNTING(length, zacpi_1_write_rhct(ids, &kept_contents,
                   capacity ? out : (uint8_t *)ZACPI_NOTHING, capacity, ZACPI_COUNTED(length)));
}

zacpi_status ZACPI_CALL zacpi_1_write_mcfg(const struct zacpi_table_ids *ids,
                                           const struct zacpi_pci_region *regions,
                                           zacpi_number regions_length, uint8_t *out,
                                           zacpi_number capacity, zacpi_number *length);
ZACPI_NONNULL((1, 6))
ZACPI_STATUS zacpi_write_mcfg(const struct zacpi_table_ids *ids,
                              const struct zacpi_pci_region *regions, size_t regions_length,
                              uint8_t *out, size_t capacity, size_t *length) {
    ZACPI_COUNTING(length, zacpi_1_write_mcfg(ids,
                   regions_length ? regions : (const struct zacpi_pci_region *)ZACPI_NOTHING,
                   regions_length, capacity ? out : (uint8_t *)ZACPI_NOTHING, capacity,
                   ZACPI_COUNTED(length)));
}

zacpi_status ZACPI_CALL zacpi_1_write_hpet(const struct zacpi_table_ids *ids,
                                           const struct zacpi_hpet_info *info, uint8_t *out,
                                           zacpi_number capacity, zacpi_number *length);
ZACPI_NONNULL((1, 2, 5))
ZACPI_STATUS zacpi_write_hpet(const struct zacpi_table_ids *ids, const struct zacpi_hpet_info *info,
                              uint8_t *out, size_t capacity, size_t *length) {
    ZACPI_COUNTING(length, zacpi_1_write_hpet(ids, info, capacity ? out : (uint8_t *)ZACPI_NOTHING,
                   capacity, ZACPI_COUNTED(length)));
}

zacpi_status ZACPI_CALL zacpi_1_write_slit(const struct zacpi_table_ids *ids, uint64_t localities,
                                           const uint8_t *distances, zacpi_number distances_length,
                                           uint8_t *out, zacpi_number capacity,
                                           zacpi_number *length);
ZACPI_NONNULL((1, 7))
ZACPI_STATUS zacpi_write_slit(const struct zacpi_table_ids *ids, uint64_t localities,
                              const uint8_t *distances, size_t distances_length, uint8_t *out,
                              size_t capacity, size_t *length) {
    ZACPI_COUNTING(length, zacpi_1_write_slit(ids, localities,
                   distances_length ? distances : (const uint8_t *)ZACPI_NOTHING, distances_length,
                   capacity ? out : (uint8_t *)ZACPI_NOTHING, capacity, ZACPI_COUNTED(length)));
}

zacpi_status ZACPI_CALL zacpi_1_write_srat(const struct zacpi_table_ids *ids,
                                           const struct zacpi_srat_contents *contents, uint8_t *out,
                                           zacpi_number capacity, zacpi_number *length);
ZACPI_NONNULL((1, 2, 5))
ZACPI_STATUS zacpi_write_srat(const struct zacpi_table_ids *ids,
                              const struct zacpi_srat_contents *contents, uint8_t *out,
                              size_t capacity, size_t *length) {
    const struct zacpi_srat_contents kept_contents = zacpi_srat_contents_kept(contents);
    ZACPI_COUNTING(length, zacpi_1_write_srat(ids, &kept_contents,
                   capacity ? out : (uint8_t *)ZACPI_NOTHING, capacity, ZACPI_COUNTED(length)));
}

zacpi_status ZACPI_CALL zacpi_1_write_bgrt(const struct zacpi_table_ids *ids,
                                           const struct zacpi_boot_graphic *graphic, uint8_t *out,
                                           zacpi_number capacity, zacpi_number *length);
ZACPI_NONNULL((1, 2, 5))
ZACPI_STATUS zacpi_write_bgrt(const struct zacpi_table_ids *ids,
                              const struct zacpi_boot_graphic *graphic, uint8_t *out,
                              size_t capacity, size_t *length) {
    ZACPI_COUNTING(length, zacpi_1_write_bgrt(ids, graphic,
                   capacity ? out : (uint8_t *)ZACPI_NOTHING, capacity, ZACPI_COUNTED(length)));
}

zacpi_status ZACPI_CALL zacpi_1_write_spcr(const struct zacpi_table_ids *ids,
                                           const struct zacpi_spcr_contents *contents, uint8_t *out,
                                           zacpi_number capacity, zacpi_number *length);
ZACPI_NONNULL((1, 2, 5))
ZACPI_STATUS zacpi_write_spcr(const struct zacpi_table_ids *ids,
                              const struct zacpi_spcr_contents *contents, uint8_t *out,
                              size_t capacity, size_t *length) {
    ZACPI_COUNTING(length, zacpi_1_write_spcr(ids, contents,
                   capacity ? out : (uint8_t *)ZACPI_NOTHING, capacity, ZACPI_COUNTED(length)));
}

zacpi_status ZACPI_CALL zacpi_1_write_gtdt(const struct zacpi_table_ids *ids,
                                           const struct zacpi_gtdt_contents *contents, uint8_t *out,
                                           zacpi_number capacity, zacpi_number *length);
ZACPI_NONNULL((1, 2, 5))
ZACPI_STATUS zacpi_write_gtdt(const struct zacpi_table_ids *ids,
                              const struct zacpi_gtdt_contents *contents, uint8_t *out,
                              size_t capacity, size_t *length) {
    const struct zacpi_gtdt_contents kept_contents = zacpi_gtdt_contents_kept(contents);
    ZACPI_COUNTING(length, zacpi_1_write_gtdt(ids, &kept_contents,
                   capacity ? out : (uint8_t *)ZACPI_NOTHING, capacity, ZACPI_COUNTED(length)));
}

zacpi_status ZACPI_CALL zacpi_1_write_fadt(const struct zacpi_table_ids *ids,
                                           const struct zacpi_fixed_hardware *fadt, uint8_t *out,
                                           zacpi_number capacity, zacpi_number *length);
ZACPI_NONNULL((1, 2, 5))
ZACPI_STATUS zacpi_write_fadt(const struct zacpi_table_ids *ids,
                              const struct zacpi_fixed_hardware *fadt, uint8_t *out,
                              size_t capacity, size_t *length) {
    ZACPI_COUNTING(length, zacpi_1_write_fadt(ids, fadt, capacity ? out : (uint8_t *)ZACPI_NOTHING,
                   capacity, ZACPI_COUNTED(length)));
}

zacpi_status ZACPI_CALL zacpi_1_write_facs(const struct zacpi_facs_contents *contents, uint8_t *out,
                                           zacpi_number capacity, zacpi_number *length);
ZACPI_NONNULL((1, 4))
ZACPI_STATUS zacpi_write_facs(const struct zacpi_facs_contents *contents, uint8_t *out,
                              size_t capacity, size_t *length) {
    ZACPI_COUNTING(length, zacpi_1_write_facs(contents, capacity ? out : (uint8_t *)ZACPI_NOTHING,
                   capacity, ZACPI_COUNTED(length)));
}

zacpi_status ZACPI_CALL zacpi_1_write_tables(const struct zacpi_machine *machine, uint64_t address,
                                             uint8_t *out, zacpi_number capacity,
                                             zacpi_number *length);
ZACPI_NONNULL((1, 5))
ZACPI_STATUS zacpi_write_tables(const struct zacpi_machine *machine, uint64_t address, uint8_t *out,
                                size_t capacity, size_t *length) {
    const struct zacpi_machine kept_machine = zacpi_machine_kept(machine);
    ZACPI_COUNTING(length, zacpi_1_write_tables(&kept_machine, address,
                   capacity ? out : (uint8_t *)ZACPI_NOTHING, capacity, ZACPI_COUNTED(length)));
}

zacpi_status ZACPI_CALL zacpi_1_write_tables_without_rsdp(const struct zacpi_machine *machine,
                                                          uint64_t address, uint8_t *out,
                                                          zacpi_number capacity,
                                                          zacpi_number *length);
ZACPI_NONNULL((1, 5))
ZACPI_STATUS zacpi_write_tables_without_rsdp(const struct zacpi_machine *machine, uint64_t address,
                                             uint8_t *out, size_t capacity, size_t *length) {
    const struct zacpi_machine kept_machine = zacpi_machine_kept(machine);
    ZACPI_COUNTING(length, zacpi_1_write_tables_without_rsdp(&kept_machine, address,
                   capacity ? out : (uint8_t *)ZACPI_NOTHING, capacity, ZACPI_COUNTED(length)));
}

zacpi_status ZACPI_CALL zacpi_1_tables_size(const struct zacpi_machine *machine,
                                            zacpi_number *length);
ZACPI_NONNULL((1, 2))
ZACPI_STATUS zacpi_tables_size(const struct zacpi_machine *machine, size_t *length) {
    const struct zacpi_machine kept_machine = zacpi_machine_kept(machine);
    ZACPI_COUNTING(length, zacpi_1_tables_size(&kept_machine, ZACPI_COUNTED(length)));
}

zacpi_status ZACPI_CALL zacpi_1_dsdt_address(uint64_t address, zacpi_number tables_length,
                                             uint64_t *out);
ZACPI_NONNULL((3))
ZACPI_STATUS zacpi_dsdt_address(uint64_t address, size_t tables_length, uint64_t *out) {
    ZACPI_FITS;
    return zacpi_1_dsdt_address(address, tables_length, out);
}

zacpi_status ZACPI_CALL zacpi_1_facs_address(uint64_t address, zacpi_number tables_length,
                                             const struct zacpi_aml_contents *dsdts,
                                             zacpi_number dsdts_length, uint64_t *out);
ZACPI_NONNULL((5))
ZACPI_STATUS zacpi_facs_address(uint64_t address, size_t tables_length,
                                const struct zacpi_aml_contents *dsdts, size_t dsdts_length,
                                uint64_t *out) {
    ZACPI_FITS;
    return zacpi_1_facs_address(address, tables_length,
                            dsdts_length ? dsdts : (const struct zacpi_aml_contents *)ZACPI_NOTHING,
                                dsdts_length, out);
}
#endif
