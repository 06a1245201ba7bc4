/* SPDX-License-Identifier: MIT */
#include "stick.h"

enum { VALUE = 21 }; /* the column of what a name means */

static void end(struct sheet *sheet, size_t length) {
    sheet->end_line(sheet->line, length);
    sheet->length = 0;
}
/* Ends a line that is full at its last blank, and begins the next one with what comes after that. */
static void wrap(struct sheet *sheet) {
    size_t at = sizeof sheet->line, i;
    while (at > VALUE && sheet->line[at - 1] != ' ') at--;
    if (at == VALUE) at = sizeof sheet->line;
    end(sheet, at);
    for (i = at; i < sizeof sheet->line; i++) sheet->line[VALUE + i - at] = sheet->line[i];
    while (sheet->length < VALUE) sheet->line[sheet->length++] = ' ';
    sheet->length += sizeof sheet->line - at;
}
static void add(struct sheet *sheet, char c) {
    if (sheet->length == sizeof sheet->line) wrap(sheet);
    sheet->line[sheet->length++] = c >= ' ' && c <= '~' ? c : '.';
}
static void tab(struct sheet *sheet) {
    do add(sheet, ' ');
    while (sheet->length < VALUE);
}

void to_sheet(void *to, const char *bytes, size_t length) {
    struct sheet *const sheet = to;
    for (; length--; bytes++) {
        if (*bytes == '\f') sheet->begin_page();
        else if (*bytes == '\n') end(sheet, sheet->length);
        else if (*bytes == '\t') tab(sheet);
        else add(sheet, *bytes);
    }
}
