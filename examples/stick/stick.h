/* A program without an operating system that shows what a machine's ACPI tables contain, page by page, and saves them
 * as acpidump's text. stick.c has it; what it needs of the firmware is in uefi.c and bios.c. */
#ifndef STICK_H
#define STICK_H
#include "lines.h"

enum { MOST_TABLES = 256 };

/* The firmware ---------------------------------------------------------------------------------- */

const char *firmware_name(void);
/* The memory that the firmware keeps for itself, in which tables may be: how many ranges there are, 0 if that isn't
 * known. */
size_t firmware_memory(struct zacpi_range *out, size_t capacity);
uint32_t rows_of_screen(void);
void clear_screen(void);
void show_text(const char *text, size_t length); /* ends a line by '\n' */
int wait_for_key(uint32_t seconds);              /* whether one was pressed */

/* The file on the stick, for a text of so many bytes. Each returns why it can't, or null. A block has at most BLOCK
 * bytes, and all but the last have as many; at the end its memory may be used. */
enum { BLOCK = 32768 };
const char *file_name(void);
const char *open_file(size_t length);
const char *write_block(uint8_t *block, size_t length);
const char *close_file(uint8_t *block);

void power_off(const struct zacpi_source *source); /* may return */

/* The program. It is called with how tables are opened. */
void stick(uint32_t start, uint64_t address);

/* Lines ----------------------------------------------------------------------------------------- */

/* Takes lines apart for a screen or a file: a tab goes to the column of what a name means, and '\f' begins a page. */
struct sheet {
    void (*end_line)(const char *line, size_t length);
    void (*begin_page)(void);
    size_t length;
    char line[79];
};
void to_sheet(void *sheet, const char *bytes, size_t length);
/* A number of so many hexadecimal digits; `letters` has all sixteen. */
void say_digits(const struct printer *p, uint64_t number, int digits, const char *letters);

/* The tables ------------------------------------------------------------------------------------ */

/* The RSDP, a root table, what that lists, the DSDT or the FACS. */
struct entry {
    uint64_t address;
    const uint8_t *bytes; /* those of them that are mapped: `here` bytes */
    uint32_t here, length;
    zacpi_status status; /* its first error, also one that is accepted */
    uint8_t letters[4];
};
/* Adds them to the `count` entries that are there, each address once. Fails as zacpi_open does, and adds the RSDP and
 * the root table then too. */
zacpi_status list_all(const struct zacpi_source *source, struct entry *out, size_t capacity, size_t *count,
                      struct zacpi_signature *named);
void print_entries(const struct entry *entries, size_t count, const struct printer *p);
/* Whether its bytes aren't to be shown: an MSDM has the product key of Windows. */
int is_private(const struct entry *entry);

void print_machine(const struct zacpi_source *source, const struct printer *p); /* as acpi_dump --summary has it */
void print_power(const struct zacpi_source *source, const struct printer *p);
void print_faults(const struct zacpi_source *source, const struct entry *entries, size_t count,
                  const struct printer *p);

/* Saving ---------------------------------------------------------------------------------------- */

/* Writes the file: what `print` prints as lines that begin with '#', and then the tables as acpidump's text. Returns
 * why that can't be, or null. */
const char *save_tables(const struct entry *entries, size_t count, void (*print)(const struct printer *p));

#endif
