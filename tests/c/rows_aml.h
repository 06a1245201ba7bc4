/* More blocks of AML for zacpi_get_sleep_types, worked out by hand from section 20.2: names, texts, blocks and
 * arguments that the AML ends in, terms whose parts are names of several segments, and objects. For rows_sleep.h. */
#ifndef ROWS_AML_H
#define ROWS_AML_H

#define FOO 'F', 'O', 'O', '_'
#define BAR 'B', 'A', 'R', '_'
/* NameOp, _S5_, PackageOp, PkgLength of 6 bytes, NumElements 2: BytePrefix 7, BytePrefix 6. */
#define S5_OF_7_6 8, '_', 'S', '5', '_', 0x12, 6, 2, 10, 7, 10, 6
#define AML(name, ...) static const uint8_t name[] = {__VA_ARGS__}
AML(aml_caret, 8, '^');
AML(aml_root, 8, '\\');
AML(aml_two_cut, 8, 0x2e, 'A', 'B');
AML(aml_second_cut, 8, 0x2e, FOO, 'B', 'A', 'R');
AML(aml_many_cut, 8, 0x2f, 2, FOO, 'B', 'A');
AML(aml_first_letter, 8, 0x2f, 1, '1', 'B', 'C', 'D');
AML(aml_second_letter, 8, 0x2f, 1, 'A', 'b', 'C', 'D');
AML(aml_third_letter, 8, 0x2f, 1, 'A', 'B', '[', 'D');
AML(aml_fourth_letter, 8, 0x2f, 1, 'A', 'B', 'C', '/');
AML(aml_length_of_2, 0x10, 0x40);
AML(aml_length_of_3, 0x10, 0x81, 0);
AML(aml_length_of_4, 0x10, 0xc1, 0, 0);
AML(aml_text, 8, FOO, 0x0d, 'A');
AML(aml_text_cut, 8, FOO, 0x0d);
AML(aml_opcode_cut, 8, FOO, 0x5b);
AML(aml_word_cut, 8, '_', 'S', '5', '_', 0x12, 4, 2, 0x0b, 1);
AML(aml_byte_cut, 8, '_', 'S', '5', '_', 0x12, 5, 2, 10, 7, 10);
AML(aml_alias_of_digit, 6, '1', 'O', 'O', '_', BAR);
AML(aml_external_digit, 0x15, '1', 'O', 'O', '_', 0, 0);
AML(aml_external_cut, 0x15, FOO, 0);
AML(aml_if_too_long, 0xa0, 0x3f);
/* CreateDWordField of a ShiftLeft, a ShiftRight and an And of One, One and Local0, at 0. */
AML(aml_shifted, 0x8a, 0x79, 1, 1, 0x60, 0, BAR, 0x8a, 0x7a, 1, 1, 0x60, 0, BAR, 0x8a, 0x7b, 1, 1, 0x60, 0, BAR,
    S5_OF_7_6);
/* Fields that are named from the root, from the scope around, and by two segments and by one after the prefix of
 * many. */
AML(aml_named_fields, 0x8a, FOO, 0, '\\', BAR, 0x8a, FOO, 0, '^', BAR, 0x8a, FOO, 0, 0x2e, FOO, BAR,
    0x8a, FOO, 0, 0x2f, 1, BAR, S5_OF_7_6);
AML(aml_alias_of_two, 6, FOO, 0x2e, FOO, BAR, S5_OF_7_6);
AML(aml_alias_of_up, 6, FOO, '^', '_', 'S', '5', '_', S5_OF_7_6);
/* Name(FOO_, FOO_.BAR_), with one argument, and a name of one segment after the prefix of many, with none. */
AML(aml_called, 8, FOO, 0x2e, FOO, BAR, 8, FOO, 0x2f, 1, BAR, S5_OF_7_6);

/* Each form of an object, which defines no state: Alias, Name of each kind of data, Scope, Method, External, fields of
 * a buffer, Mutex, Event, regions, Field, Device, Processor, PowerResource, ThermalZone, IndexField, BankField and
 * Noop. */
AML(object_alias, 6, FOO, BAR);
AML(object_zero, 8, FOO, 0);
AML(object_byte, 8, FOO, 10, 7);
AML(object_word, 8, FOO, 11, 7, 6);
AML(object_dword, 8, FOO, 12, 7, 6, 5, 4);
AML(object_qword, 8, FOO, 14, 7, 6, 5, 4, 3, 2, 1, 0);
AML(object_text, 8, FOO, 13, 'A', 'B', 0);
AML(object_buffer, 8, FOO, 0x11, 4, 10, 1, 7);
AML(object_package, 8, FOO, 0x12, 4, 1, 10, 7);
AML(object_of_packages, 8, FOO, 0x13, 5, 10, 1, 10, 7);
AML(object_scope, 0x10, 5, BAR);
AML(object_method, 0x14, 6, FOO, 0);
AML(object_external, 0x15, FOO, 8, 0);
AML(object_dword_field, 0x8a, FOO, 10, 4, BAR);
AML(object_field_of_bits, 0x5b, 0x13, FOO, 10, 4, 10, 2, BAR);
AML(object_mutex, 0x5b, 1, FOO, 7);
AML(object_event, 0x5b, 2, FOO);
AML(object_region, 0x5b, 0x80, FOO, 1, 10, 4, 10, 2);
AML(object_field, 0x5b, 0x81, 12, FOO, 1, 'B', 'A', 'R', '_', 8, 0);
AML(object_device, 0x5b, 0x82, 5, FOO);
AML(object_processor, 0x5b, 0x83, 11, FOO, 1, 16, 4, 0, 0, 6);
AML(object_power, 0x5b, 0x84, 8, FOO, 0, 0, 0);
AML(object_zone, 0x5b, 0x85, 5, FOO);
AML(object_index, 0x5b, 0x86, 10, FOO, BAR, 1);
AML(object_bank, 0x5b, 0x87, 12, FOO, BAR, 10, 2, 1);
AML(object_noop, 0xa3);
AML(object_data_region, 0x5b, 0x88, FOO, 13, 'A', 0, 13, 'B', 0, 13, 'C', 0);
#define OBJECT(name) {object_##name, sizeof object_##name}
static const struct {
    const uint8_t *aml;
    size_t length;
} objects[] = {OBJECT(alias), OBJECT(zero), OBJECT(byte), OBJECT(word), OBJECT(dword), OBJECT(qword), OBJECT(text),
               OBJECT(buffer), OBJECT(package), OBJECT(of_packages), OBJECT(scope), OBJECT(method), OBJECT(external),
               OBJECT(dword_field), OBJECT(field_of_bits), OBJECT(mutex), OBJECT(event), OBJECT(region), OBJECT(field),
               OBJECT(device), OBJECT(processor), OBJECT(power), OBJECT(zone), OBJECT(index), OBJECT(bank),
               OBJECT(noop), OBJECT(data_region)};

#define OF_AML(name, status, ...) {name, sizeof name, 5, status, {__VA_ARGS__}}
#define INVALID(name) OF_AML(name, ZACPI_AML_INVALID, 0, 0)
static const struct state_row more_states[] = {
    INVALID(aml_caret), INVALID(aml_root), INVALID(aml_two_cut), INVALID(aml_second_cut), INVALID(aml_many_cut),
    INVALID(aml_first_letter), INVALID(aml_second_letter), INVALID(aml_third_letter), INVALID(aml_fourth_letter),
    INVALID(aml_length_of_2), INVALID(aml_length_of_3), INVALID(aml_length_of_4), INVALID(aml_text),
    INVALID(aml_text_cut), INVALID(aml_opcode_cut), INVALID(aml_word_cut), INVALID(aml_byte_cut),
    INVALID(aml_alias_of_digit), INVALID(aml_external_digit), INVALID(aml_external_cut),
    INVALID(aml_if_too_long),
    OF_AML(aml_shifted, ZACPI_OK, 7, 6), OF_AML(aml_named_fields, ZACPI_OK, 7, 6),
    OF_AML(aml_alias_of_two, ZACPI_OK, 7, 6), OF_AML(aml_alias_of_up, ZACPI_OK, 7, 6),
    OF_AML(aml_called, ZACPI_OK, 7, 6)};
#endif
