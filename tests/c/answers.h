/* What the calls answer that acpi_view doesn't print, a line for each item or error. */
#ifndef ANSWERS_H
#define ANSWERS_H
#include "lines.h"

/* Where outputs are from now on, of which edges.h has the numbers. */
void answer_at(int where);
void print_lines_at(int where); /* lines_at_edges.c */
/* The memory that is missing and the RSDP, also if the tables aren't opened. */
void print_missing(const struct zacpi_source *source);
/* What every other call answers that reads tables. */
void print_answers(const struct zacpi_source *source);
#endif
