/* How answers.c prints what a call answers: a line for each item or error. */
#ifndef ANSWERS_PRINT_H
#define ANSWERS_PRINT_H
#include "edges.h"
#include "fields.h"
#include "lines.h"
#include "answers_fields.h"

enum { MOST = 1024 }; /* items of a list that are printed */

static inline void add(void *to, const char *bytes, size_t length) { strncat((char *)to, bytes, length); }
/* The name that acpi_view has for a status. */
static inline const char *name_of(zacpi_status status) {
    static char name[64];
    const struct printer printer = {add, name};
    name[0] = 0;
    say_error(&printer, status);
    return name;
}

/* The name of an error. Of one of the SRAT, the GTDT or an IOMMU's table, the call says which table it is. */
static inline const char *error_name(zacpi_status status) {
    const char *error = name_of(status);
    return status >= ZACPI_NUMA_INVALID_ENTRY_LENGTH && strchr(error, ' ') ? strchr(error, ' ') + 1 : error;
}

/* `NAME: ERROR`. */
static inline void print_error(const char *name, zacpi_status status, const struct zacpi_signature *named) {
    printf("%s: %s", name, error_name(status));
    if ((status >= ZACPI_SDT_INVALID_SIGNATURE && status <= ZACPI_TABLE_MISSING) || status == ZACPI_AML_INVALID)
        printf(" %.4s", named->letters);
    putchar('\n');
}

/* All fields of a record, in the order of its struct; of the reserved ones those that aren't 0. */
static inline void print_fields(const struct field *fields, const void *record) {
    for (; fields->size; fields++) {
        const uint64_t number = number_at((const uint8_t *)record + fields->at, fields->size);
        if (!fields->is_reserved || number) printf(" %llx", (unsigned long long)number);
    }
    putchar('\n');
}

/* A list: how many items there are, and a line for each, `it`, of those that there was room for. Between the list's
 * name and its room may stand what is asked for. */
#define LIST(NAME, TYPE, CALL, ASKED, ...) LIST_BY(NAME, TYPE, CALL, ASKED, printf("  " __VA_ARGS__))
/* The same, with all fields of each. */
#define LIST_WHOLE(NAME, TYPE, CALL, ASKED, FIELDS) \
    LIST_BY(NAME, TYPE, CALL, ASKED, printf(" "), print_fields(FIELDS, it))
#define LIST_BY(NAME, TYPE, CALL, ASKED, ...) \
    do { \
        struct TYPE *const items = (struct TYPE *)painted_again(0, MOST * sizeof(struct TYPE)); \
        struct zacpi_signature *const named = (struct zacpi_signature *)painted_again(1, sizeof *named); \
        size_t *const count = (size_t *)painted_again(2, sizeof *count); \
        const struct TYPE *it; \
        const zacpi_status refused = CALL ASKED; \
        if (refused) print_error(NAME, refused, named); \
        else printf("%s %lu\n", NAME, (unsigned long)*count); \
        for (it = items; !refused && it < items + (*count < MOST ? *count : MOST); it++) __VA_ARGS__; \
    } while (0)
#define ALL (source, items, MOST, count, named)

/* One item, `it`, and its line, or an error. */
#define ONE(NAME, TYPE, CALL, ASKED, ...) \
    do { \
        TYPE *const item = (TYPE *)painted_again(0, sizeof(TYPE)); \
        const TYPE *const it = item; \
        struct zacpi_signature *const named = (struct zacpi_signature *)painted_again(1, sizeof *named); \
        const zacpi_status refused = CALL ASKED; \
        if (refused) print_error(NAME, refused, named); \
        else printf(NAME " " __VA_ARGS__); \
    } while (0)
#define IT (source, item, named)

/* Whether a table isn't there, or nothing of it: then that is the one line. */
static inline int is_missing(const char *name, zacpi_status status, const struct zacpi_signature *named) {
    if (status) print_error(name, status, named);
    return status != ZACPI_OK;
}
#endif
