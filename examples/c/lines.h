/* The lines of acpi_view, through the library, for any output: a file, a system call, a serial port. It
 * needs nothing of a C library. */
#ifndef LINES_H
#define LINES_H
#include "zacpi.h"
#ifdef __cplusplus
extern "C" {
#endif

struct printer {
    void (*write)(void *to, const char *bytes, size_t length);
    void *to;
};

/* Pieces of lines: an address is 0x and hexadecimal digits. */
void say(const struct printer *p, const char *text);
void say_number(const struct printer *p, uint64_t number);
void say_address(const struct printer *p, uint64_t address);
void say_signature(const struct printer *p, const uint8_t letters[4]);
/* An error by the name that acpi_view has for it: MapFailed for ZACPI_MAP_FAILED. */
void say_error(const struct printer *p, zacpi_status status);
/* `WHAT: ERROR` and a newline, by the names that acpi_view has for errors. */
void say_refused(const struct printer *p, const char *what, zacpi_status status, const struct zacpi_signature *named);

/* Prints what acpi_view prints of these tables on its standard output, and on `skipped` what it prints of
 * skipped tables, unless it is null. The revision is the one at `revision`, or that of zacpi_open if it is null.
 * Returns ZACPI_OK, or the error of opening the tables, and has then printed nothing. */
zacpi_status print_lines(const struct zacpi_source *source, const uint8_t *revision, const struct printer *p,
                         const struct printer *skipped, struct zacpi_signature *named);

#ifdef __cplusplus
}
#endif
#endif
