/* SPDX-License-Identifier: MIT */
#include "stick.h"

enum { MOST = 256 };
typedef zacpi_status list_entry_faults(const struct zacpi_source *, struct zacpi_entry_fault *, size_t, size_t *,
                                       struct zacpi_signature *);
static struct zacpi_signature named;
static size_t found;

static void begin(const struct printer *p, const char *signature, uint64_t address) {
    found++;
    p->write(p->to, signature, 4), say(p, " at "), say_address(p, address), say(p, ": ");
}
static void end(const struct printer *p, zacpi_status status, const char *more) {
    say_error(p, status), say(p, more), say(p, "\n");
}

/* Tables that a lookup skips, or takes though they have an error, if the list of tables hasn't that error already. */
static void faults_of_lookup(const struct zacpi_source *source, const char *signature, const struct entry *entries,
                             size_t count, const struct printer *p) {
    static struct zacpi_fault faults[MOST];
    size_t length = 0;
    if (zacpi_list_faults(source, zacpi_signature_of(signature), faults, MOST, &length, &named)) return;
    for (size_t i = 0; i < length && i < MOST; i++) {
        int is_listed = 0;
        for (size_t k = 0; k < count; k++)
            is_listed |= entries[k].address == faults[i].address && entries[k].status == faults[i].status;
        if (is_listed) continue;
        begin(p, signature, faults[i].address);
        end(p, faults[i].status, faults[i].accepted ? ", accepted" : ", skipped");
    }
}

/* Entries of a table with an error. Those of a GIC are none on an Arm machine. */
static void faults_of_entries(const struct zacpi_source *source, const char *signature, list_entry_faults *call,
                              int is_arm, const struct printer *p) {
    static struct zacpi_entry_fault faults[MOST];
    size_t length = 0;
    if (call(source, faults, MOST, &length, &named)) return;
    for (size_t i = 0; i < length && i < MOST; i++) {
        const uint16_t type = faults[i].entry_type;
        if (is_arm && faults[i].status == ZACPI_MADT_UNEXPECTED_ENTRY && type >= 0xb && type <= 0xf) continue;
        say(p, "entry of type "), say_number(p, type), say(p, " of ");
        begin(p, signature, faults[i].address), end(p, faults[i].status, "");
    }
}

static void faults_of_calls(const struct zacpi_source *source, int is_arm, const struct printer *p) {
    struct zacpi_localities localities;
    struct zacpi_interrupt_model model;
    struct zacpi_aml_table dsdt;
    struct zacpi_table slit;
    zacpi_status status = zacpi_get_dsdt(source, &dsdt, &named);
    if (status) found++, say_refused(p, "the DSDT", status, &named);
    status = is_arm ? ZACPI_OK : zacpi_get_interrupt_model(source, &model, &named);
    if (status) found++, say_refused(p, "the platform", status, &named);
    if (!zacpi_get_localities(source, &localities, &named) && !localities.is_sane &&
        !zacpi_find_table(source, zacpi_signature_of("SLIT"), &slit, &named))
        begin(p, "SLIT", slit.address), say(p, "distances that can't be\n");
}

void print_faults(const struct zacpi_source *source, const struct entry *entries, size_t count,
                  const struct printer *p) {
    static const char *const looked_up[] = {"FACP", "APIC", "MCFG", "HPET", "BGRT", "SPCR",
                                            "SRAT", "SLIT", "GTDT", "DMAR", "IVRS"};
    struct zacpi_gic_distributor distributor;
    const int is_arm = !zacpi_get_gic_distributor(source, &distributor, &named);
    found = 0;
    say(p, "\fFaults:\n");
    for (size_t i = 0; i < count; i++)
        if (entries[i].status)
            begin(p, (const char *)entries[i].letters, entries[i].address), end(p, entries[i].status, "");
    for (size_t i = 0; i < sizeof looked_up / sizeof *looked_up; i++)
        faults_of_lookup(source, looked_up[i], entries, count, p);
    faults_of_entries(source, "APIC", zacpi_list_madt_faults, is_arm, p);
    faults_of_entries(source, "SRAT", zacpi_list_srat_faults, is_arm, p);
    faults_of_entries(source, "GTDT", zacpi_list_gtdt_faults, is_arm, p);
    faults_of_entries(source, "DMAR", zacpi_list_dmar_faults, is_arm, p);
    faults_of_entries(source, "IVRS", zacpi_list_ivrs_faults, is_arm, p);
    faults_of_calls(source, is_arm, p);
    if (found) say(p, "faults that the library finds: "), say_number(p, found), say(p, "\n");
    else say(p, "The library finds no fault.\n");
}
