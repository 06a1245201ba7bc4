/* Made by scripts/row_fields of zacpi.h: the fields of its structs that are printed whole. For answers.c. */
#ifndef ANSWERS_FIELDS_H
#define ANSWERS_FIELDS_H

FIELDS(of_hpet_info, F(struct zacpi_hpet_info, base_address), F(struct zacpi_hpet_info, event_timer_block_id),
       F(struct zacpi_hpet_info, clock_tick_unit), F(struct zacpi_hpet_info, number),
       F(struct zacpi_hpet_info, page_protection));
#endif
