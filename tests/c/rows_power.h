/* Rows of the calls about power, worked out by hand from rows_tables_power.h. For rows.c. */
#ifndef ROWS_POWER_H
#define ROWS_POWER_H

typedef struct zacpi_sleep_types sleep_pair;
typedef struct zacpi_plan plan;

ONE(get_sleep_types, sleep_pair, of_sleep_types, ARGUMENT(0, uint32_t))
ONE(get_sleep_plan, plan, of_plan, ARGUMENT(0, uint32_t))
ONE(get_power_off_plan, plan, of_plan, )
ONE(get_reset_plan, plan, of_plan, )
ONE(get_enable_plan, plan, of_plan, )

/* A step: the register, which is present, then the mask, the value, the width and the kind. */
#define STEP(space, bits, access, address, ...) address, space, bits, 0, access, 1, __VA_ARGS__
#define NO_STEP 0, 0, 0, 0, 0, 0, 0, 0, 0, 0
#define NO_STEPS_6 NO_STEP, NO_STEP, NO_STEP, NO_STEP, NO_STEP, NO_STEP
#define ONE_STEP(...) __VA_ARGS__, NO_STEP, NO_STEPS_6, 1
#define TWO_STEPS(...) __VA_ARGS__, NO_STEPS_6, 2
#define NO_STEPS NO_STEP, NO_STEP, NO_STEPS_6, 0
/* SLP_TYP 5 and 6 at bit 10, 0x1400 and 0x1800, and SLP_EN at bit 13, 0x2000. */
#define PM1A STEP(1, 16, 0, 0x604, 0x3c00, 0x3400, 16, ZACPI_STEP_WRITE)
#define PM1B STEP(1, 16, 0, 0x704, 0x3c00, 0x3800, 16, ZACPI_STEP_WRITE)
/* SLP_TYP 5 at bit 2 and SLP_EN at bit 5: 0x14 and 0x20. */
#define SLEEP_CONTROL STEP(0, 8, 1, 0xfee00010, 0x3c, 0x34, 8, ZACPI_STEP_WRITE)

static const struct row power_rows[] = {
    GOOD(get_sleep_types, POWER, NULL, A(5), 1, 5, 6),
    GOOD(get_sleep_types, REDUCED, NULL, A(5), 1, 5, 1),
    GOOD(get_sleep_types, BROKEN, NULL, A(5), 1, 5, 6), /* the DSDT has an error */
    GOOD(get_sleep_types, FADTLESS, NULL, A(5), 1, 5, 6),
    REFUSED(get_sleep_types, POWER, NULL, A(3), ZACPI_SLEEP_STATE_NOT_SEEN, NULL), /* a method in the DSDT */
    REFUSED(get_sleep_types, POWER, NULL, A(4), ZACPI_SLEEP_STATE_ABSENT, NULL),
    REFUSED(get_sleep_types, POWER, NULL, A(6), ZACPI_NO_SUCH_STATE, NULL),
    REFUSED(get_sleep_types, POWER, NULL, A(UINT32_MAX), ZACPI_NO_SUCH_STATE, NULL),
    REFUSED(get_sleep_types, POWER, NULL, A(256 + 5), ZACPI_NO_SUCH_STATE, NULL),
    REFUSED(get_sleep_types, BROKEN, NULL, A(4), ZACPI_AML_INVALID, "DSDT"),
    REFUSED(get_sleep_types, FADTLESS, NULL, A(4), ZACPI_TABLE_MISSING, "FACP"),
    REFUSED(get_sleep_types, HOLES, NULL, A(5), ZACPI_MAP_FAILED, NULL), /* the DSDT isn't mapped */
    REFUSED(get_sleep_types, DESKTOP, NULL, A(5), ZACPI_INVALID_DSDT_ADDRESS, NULL),
    REFUSED(get_sleep_types, EMPTY, NULL, A(6), ZACPI_NO_SUCH_STATE, NULL),
    GOOD(get_sleep_types, HIGH, NULL, A(5), 1, 8, 1),
    GOOD(get_sleep_types, HIGH, NULL, A(2), 1, 5, 6), /* in a scope of the root in another */
    REFUSED(get_sleep_types, HIGH, NULL, A(3), ZACPI_SLEEP_STATE_NOT_SEEN, NULL), /* in a scope that is passed */
    REFUSED(get_sleep_types, HIGH, NULL, A(1), ZACPI_SLEEP_STATE_NOT_SEEN, NULL), /* StoreOp */
    REFUSED(get_sleep_types, WIDE_PLAIN, NULL, A(4), ZACPI_SLEEP_TYPE_TOO_HIGH, NULL), /* 0x105, which isn't 5 */
    REFUSED(get_sleep_types, WIDE_PLAIN, NULL, A(3), ZACPI_SLEEP_TYPE_TOO_HIGH, NULL), /* the second */
    GOOD(get_sleep_types, WIDE_PLAIN, NULL, A(2), 1, 5, 7), /* the two bytes of an only element */
    GOOD(get_sleep_types, WIDE_PLAIN, NULL, A(1), 1, 7, 7),
    REFUSED(get_sleep_types, WIDE_PLAIN, NULL, A(0), ZACPI_SLEEP_STATE_ABSENT, NULL), /* External */

    GOOD(get_sleep_plan, POWER, NULL, A(5), 1, TWO_STEPS(PM1A, PM1B)),
    GOOD(get_sleep_plan, PLAIN, NULL, A(5), 1, ONE_STEP(PM1A)),
    GOOD(get_sleep_plan, REDUCED, NULL, A(5), 1, ONE_STEP(SLEEP_CONTROL)),
    REFUSED(get_sleep_plan, POWER, NULL, A(3), ZACPI_SLEEP_STATE_NOT_SEEN, NULL),
    REFUSED(get_sleep_plan, POWER, NULL, A(6), ZACPI_NO_SUCH_STATE, NULL),
    REFUSED(get_sleep_plan, BARE, NULL, A(5), ZACPI_NO_REGISTER, NULL),
    REFUSED(get_sleep_plan, BROKEN, NULL, A(5), ZACPI_NO_REGISTER, NULL),
    REFUSED(get_sleep_plan, BROKEN, NULL, A(4), ZACPI_AML_INVALID, "DSDT"),
    REFUSED(get_sleep_plan, FADTLESS, NULL, A(5), ZACPI_TABLE_MISSING, "FACP"),
    REFUSED(get_sleep_plan, HIGH, NULL, A(5), ZACPI_SLEEP_TYPE_TOO_HIGH, NULL), /* of PM1a_CNT */
    REFUSED(get_sleep_plan, HIGH, NULL, A(4), ZACPI_SLEEP_TYPE_TOO_HIGH, NULL), /* of PM1b_CNT */
    REFUSED(get_sleep_plan, HIGH, NULL, A(3), ZACPI_SLEEP_STATE_NOT_SEEN, NULL),
    GOOD(get_sleep_plan, HIGH_PLAIN, NULL, A(4), 1,
         ONE_STEP(STEP(1, 16, 0, 0x604, 0x3c00, 0x3c00, 16, ZACPI_STEP_WRITE))), /* SLP_TYP 7 */
    REFUSED(get_sleep_plan, HIGH_REDUCED, NULL, A(0), ZACPI_SLEEP_TYPE_TOO_HIGH, NULL), /* of SLEEP_CONTROL_REG */
    GOOD(get_sleep_plan, HIGH_REDUCED, NULL, A(4), 1, /* SLP_TYP 7, 0x1c; that of PM1b_CNT isn't written */
         ONE_STEP(STEP(0, 8, 1, 0xfee00010, 0x3c, 0x3c, 8, ZACPI_STEP_WRITE))),
    REFUSED(get_sleep_plan, WIDE_PLAIN, NULL, A(4), ZACPI_SLEEP_TYPE_TOO_HIGH, NULL),
    GOOD(get_sleep_plan, WIDE_PLAIN, NULL, A(3), 1, ONE_STEP(PM1A)), /* the second isn't written */
    REFUSED(get_sleep_plan, WIDE_REDUCED, NULL, A(4), ZACPI_SLEEP_TYPE_TOO_HIGH, NULL),
    GOOD(get_sleep_plan, WIDE_REDUCED, NULL, A(3), 1, ONE_STEP(SLEEP_CONTROL)),
    REFUSED(get_power_off_plan, HIGH, NULL, NO, ZACPI_SLEEP_TYPE_TOO_HIGH, NULL),
    GOOD(get_power_off_plan, POWER, NULL, NO, 1, TWO_STEPS(PM1A, PM1B)),
    GOOD(get_power_off_plan, REDUCED, NULL, NO, 1, ONE_STEP(SLEEP_CONTROL)),
    REFUSED(get_power_off_plan, BARE, NULL, NO, ZACPI_NO_REGISTER, NULL),
    REFUSED(get_power_off_plan, APPLIANCE, NULL, NO, ZACPI_AML_INVALID, "DSDT"), /* zeros */

    GOOD(get_reset_plan, POWER, NULL, NO, 1, ONE_STEP(STEP(1, 8, 1, 0xcf9, 0xff, 6, 8, ZACPI_STEP_WRITE))),
    REFUSED(get_reset_plan, REDUCED, NULL, NO, ZACPI_NO_RESET, NULL),
    REFUSED(get_reset_plan, PLAIN, NULL, NO, ZACPI_NO_RESET, NULL),
    REFUSED(get_reset_plan, FADTLESS, NULL, NO, ZACPI_TABLE_MISSING, "FACP"),

    GOOD(get_enable_plan, POWER, NULL, NO, 1, TWO_STEPS(STEP(1, 8, 1, 0xb2, 0xff, 0xf1, 8, ZACPI_STEP_WRITE),
                                                         STEP(1, 16, 0, 0x604, 1, 1, 16, ZACPI_STEP_WAIT))),
    GOOD(get_enable_plan, REDUCED, NULL, NO, 1, NO_STEPS),
    GOOD(get_enable_plan, PLAIN, NULL, NO, 1, NO_STEPS),
    GOOD(get_enable_plan, HIGH, NULL, NO, 1, NO_STEPS),
    REFUSED(get_enable_plan, BROKEN, NULL, NO, ZACPI_NO_REGISTER, NULL),
    REFUSED(get_enable_plan, PC, NULL, NO, ZACPI_INVALID_GENERIC_ADDRESS, NULL), /* X_PM1a_CNT_BLK */
};

#endif
