/* Blocks of AML as DSDTs, each at the end of its region: those of rows_states.h and rows_aml.h, the objects of the
 * last, cut at each place, and each opcode. For rows.c. */
#ifndef ROWS_SLEEP_H
#define ROWS_SLEEP_H
#include "rows_states.h"
#include "rows_aml.h"

static void check_state(const struct state_row *row, size_t number) {
    static uint8_t rsdt[40] = {'R', 'S', 'D', 'T', 40, [8] = 1, [37] = 0x20};
    static uint8_t fadt[116] = {'F', 'A', 'C', 'P', 116, [8] = 1, [41] = 0x30}; /* DSDT */
    static uint8_t dsdt[36 + 4200];
    const size_t length = 36 + row->length;
    const struct zacpi_region regions[] = {{0x1000, rsdt, 40}, {0x2000, fadt, 116}, {0x3000, dsdt, length}};
    struct zacpi_source source = {NULL, 3, 0x1000, ZACPI_START_RSDT, 0};
    struct zacpi_signature named = {{'?', '?', '?', '?'}};
    const char *const carried = row->status == ZACPI_AML_INVALID ? "DSDT" : "????";
    const uint64_t values[] = {row->types.a, row->types.b};
    zacpi_status got;
    memcpy(dsdt, "DSDT", 4), put(dsdt + 4, 4, length), dsdt[8] = 2;
    memcpy(dsdt + 36, row->aml, row->length);
    sum_up(rsdt, 40), sum_up(fadt, 116), sum_up(dsdt, length);
    source.regions = all_at_edge(regions, 3);
    got = zacpi_get_sleep_types(&source, row->state, (sleep_pair *)paint(&out, sizeof(sleep_pair)), &named);
    result(got == row->status && !memcmp(named.letters, carried, 4) && is_written(&call_get_sleep_types, values, !got),
           "get_sleep_types", (int)number, row->length, got);
}

/* Each object, cut at each place: without its last bytes it is no AML, and of no byte nothing is. */
static void check_objects(void) {
    size_t i, k;
    for (i = 0; i < sizeof objects / sizeof *objects; i++)
        for (k = 0; k <= objects[i].length; k++) {
            struct state_row row = {objects[i].aml, k, 5, ZACPI_AML_INVALID, {0, 0}};
            if (k == 0 || k == objects[i].length) row.status = ZACPI_SLEEP_STATE_ABSENT;
            check_state(&row, 11000 + i);
        }
}

/* Each character at each place of a name's segment: of one alone, of the second of two, and of one that is counted
 * (section 20.2.2). Left out as its first is what a name begins with otherwise. */
static void check_letters(void) {
    static const uint8_t fronts_of_names[][6] = {{8}, {8, 0x2e, FOO}, {8, 0x2f, 1}}, name[] = {0, S5_OF_7_6};
    static const uint8_t lengths[] = {1, 6, 3};
    uint8_t aml[10 + sizeof name];
    size_t i, place;
    unsigned letter;
    for (i = 0; i < sizeof lengths; i++)
        for (place = 0; place < 4; place++)
            for (letter = 0; letter < 256; letter++) {
                const int is_lead = ('A' <= letter && letter <= 'Z') || letter == '_';
                const int holds = is_lead || (place && '0' <= letter && letter <= '9');
                struct state_row row = {aml, lengths[i] + 4u + sizeof name, 5, ZACPI_AML_INVALID, {0, 0}};
                if (i == 0 && place == 0 && (letter == 0 || letter == '\\' || letter == '^' || letter >> 1 == 0x17))
                    continue;
                memcpy(aml, fronts_of_names[i], 6), memcpy(aml + lengths[i], "FOO_", 4);
                aml[lengths[i] + place] = (uint8_t)letter;
                memcpy(aml + lengths[i] + 4, name, sizeof name);
                if (holds) row.status = ZACPI_OK, row.types.a = 7, row.types.b = 6;
                check_state(&row, 12000 + 10 * i + place);
            }
}

/* ---- Opcodes ---------------------------------------------------------------------------------------------------- */

struct opcodes {
    unsigned first, last;
};
static int is_among(const struct opcodes *all, unsigned code) {
    for (; all->last; all++)
        if (all->first <= code && code <= all->last) return 1;
    return 0;
}
/* What is run: Store to Mod, Notify to Match, ObjectType, LAnd to ToInteger, ToString to Continue, Return and Break,
 * BreakPoint; CondRefOf, LoadTable to Unload, Fatal and Timer (sections 20.2.5.3 and 20.2.5.4). */
static const struct opcodes run[] = {{0x70, 0x85}, {0x86, 0x89}, {0x8e, 0x8e}, {0x90, 0x99}, {0x9c, 0x9f}, {0xa4, 0xa5},
                                     {0xcc, 0xcc}, {0x5b12, 0x5b12}, {0x5b1f, 0x5b2a}, {0x5b32, 0x5b33}, {0, 0}};
/* Objects, and what begins a call or another operand: Alias, Name, Scope, Buffer to VarPackage, Method and External,
 * prefixes of names, letters, the prefix of opcodes of two bytes, CreateDWordField to CreateBitField, CreateQWordField,
 * If to Noop; Mutex and Event, CreateField, OperationRegion to DataTableRegion. */
static const struct opcodes begun[] = {{0x06, 0x06}, {0x08, 0x08}, {0x10, 0x15}, {0x2e, 0x2f}, {'A', 'Z'}, {0x5b, 0x5c},
                                       {0x5e, 0x5f}, {0x8a, 0x8d}, {0x8f, 0x8f}, {0xa0, 0xa3}, {0x5b01, 0x5b02},
                                       {0x5b13, 0x5b13}, {0x5b80, 0x5b88}, {0, 0}};
/* Zero and One, BytePrefix to QWordPrefix, Local0 to Arg6, Ones; Revision and Debug: no term. */
static const struct opcodes data[] = {{0, 1}, {0x0a, 0x0e}, {0x60, 0x6e}, {0xff, 0xff}, {0x5b30, 0x5b31}, {0, 0}};

static void check_opcode_after(const uint8_t *front, size_t length, unsigned code, zacpi_status status) {
    static const uint8_t name[] = {S5_OF_7_6};
    uint8_t aml[8 + sizeof name];
    struct state_row row = {aml, 0, 5, 0, {0, 0}};
    if (length) memcpy(aml, front, length);
    if (code > 0xff) aml[length++] = 0x5b;
    aml[length++] = (uint8_t)code;
    memcpy(aml + length, name, sizeof name);
    row.length = length + sizeof name, row.status = status;
    check_state(&row, 20000 + code);
}
/* Each opcode where an object has to begin, with the name of state 5 after it. What is run may define that; what
 * section 20.3 has no opcode for, or one that begins no term, is no AML, and so is the first as what a name is set to.
 * Objects and operands have rows of their own. */
static void check_opcode(unsigned code) {
    static const uint8_t named[] = {8, FOO};
    if (is_among(begun, code)) return;
    if (is_among(run, code)) check_opcode_after(NULL, 0, code, ZACPI_SLEEP_STATE_NOT_SEEN);
    else {
        check_opcode_after(NULL, 0, code, ZACPI_AML_INVALID);
        if (!is_among(data, code)) check_opcode_after(LISTED(named), code, ZACPI_AML_INVALID);
    }
}

static void check_states(void) {
    size_t i;
    check_objects();
    check_letters();
    for (i = 0; i < 0x100; i++) check_opcode((unsigned)i), check_opcode(0x5b00 + (unsigned)i);
    for (i = 0; i < sizeof states / sizeof *states; i++) check_state(states + i, i);
    for (i = 0; i < sizeof more_states / sizeof *more_states; i++) check_state(more_states + i, 10000 + i);
}
#endif
