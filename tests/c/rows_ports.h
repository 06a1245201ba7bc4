/* Each code of a serial port that is written: a byte of its record has each value, and so has the byte of the SPCR that
 * it goes to, or the call refuses it. For rows_written.h, whose SPCR of a PC it begins with. */
#ifndef ROWS_PORTS_H
#define ROWS_PORTS_H

typedef struct zacpi_spcr_contents port;
/* Where a record has a byte, where the SPCR does, and which codes there are. */
enum port_codes { EACH_CODE, EACH_SPACE, EACH_ACCESS_SIZE, EACH_PRESENCE };
static const struct port_byte {
    size_t in_record, in_table;
    enum port_codes codes;
} port_bytes[] = {
#define PORT_BYTE(name, place, codes) {offsetof(port, name), place, codes}
    PORT_BYTE(console.interface_type, 36, EACH_CODE), PORT_BYTE(console.base.at.space, 40, EACH_SPACE),
    PORT_BYTE(console.base.at.bit_width, 41, EACH_CODE), PORT_BYTE(console.base.at.bit_offset, 42, EACH_CODE),
    PORT_BYTE(console.base.at.access_size, 43, EACH_ACCESS_SIZE), PORT_BYTE(console.irq, 53, EACH_CODE),
    PORT_BYTE(console.parity, 59, EACH_CODE), PORT_BYTE(console.stop_bits, 60, EACH_CODE),
    PORT_BYTE(flow_control, 61, EACH_CODE), PORT_BYTE(terminal_type, 62, EACH_CODE),
    PORT_BYTE(console.pci_bus, 68, EACH_CODE), PORT_BYTE(console.pci_device, 69, EACH_CODE),
    PORT_BYTE(console.pci_function, 70, EACH_CODE), PORT_BYTE(console.pci_segment, 75, EACH_CODE),
    PORT_BYTE(console.base.present, 0, EACH_PRESENCE)};

static void check_port(const port *given, const uint8_t *bytes, int holds, size_t place, unsigned value) {
    uint8_t summed[SPCR_SIZE];
    size_t *length = paint_size(&out_count);
    zacpi_status got;
    memcpy(summed, bytes, SPCR_SIZE), sum_up(summed, SPCR_SIZE);
    got = zacpi_write_spcr(ids, given, (uint8_t *)paint(&out, SPCR_SIZE), SPCR_SIZE, length);
    result(got == (holds ? ZACPI_OK : (zacpi_status)ZACPI_UNKNOWN_CODE) && *length == (holds ? SPCR_SIZE : UNCOUNTED)
           && is_left_but(&out, holds ? SPCR_SIZE : 0) && (!holds || !memcmp(out.at, summed, SPCR_SIZE)),
           "a written port", (int)place, value, got);
}

static int is_of_port(enum port_codes codes, unsigned value) {
    return codes == EACH_SPACE ? is_space(value) : codes == EACH_ACCESS_SIZE ? is_access_size(value)
           : codes == EACH_PRESENCE ? value <= 1 : 1;
}
/* With no base, its twelve bytes are zeros, and its codes aren't looked at. */
static void check_port_bytes(void) {
    const struct port_byte *byte;
    unsigned value;
    for (byte = port_bytes; byte < port_bytes + sizeof port_bytes / sizeof *port_bytes; byte++)
        for (value = 0; value < 256; value++) {
            const int is_of_base = byte->codes == EACH_SPACE || byte->codes == EACH_ACCESS_SIZE;
            port given = pc_console;
            uint8_t bytes[SPCR_SIZE];
            memcpy(bytes, pc_spcr_bytes, SPCR_SIZE);
            ((uint8_t *)&given)[byte->in_record] = (uint8_t)value;
            if (byte->codes != EACH_PRESENCE) bytes[byte->in_table] = (uint8_t)value;
            else if (!value) memset(bytes + 40, 0, 12);
            check_port(&given, bytes, is_of_port(byte->codes, value), byte->in_table, value);
            if (!is_of_base) continue;
            given.console.base.present = 0, memset(bytes + 40, 0, 12);
            check_port(&given, bytes, 1, byte->in_table, value);
        }
}

/* Interrupt Type has bit 0 of an IRQ on the 8259s, and the bits 1 to 4 of other controllers, of which one is there. */
static void check_port_interrupts(void) {
    unsigned controllers, has;
    for (controllers = 0; controllers < 256; controllers++)
        for (has = 0; has < 4; has++) {
            const int holds = !(has & 2) || (controllers && !(controllers & ~30u));
            port given = pc_console;
            uint8_t bytes[SPCR_SIZE];
            memcpy(bytes, pc_spcr_bytes, SPCR_SIZE);
            given.interrupt_controllers = (uint8_t)controllers;
            given.console.has_irq = has & 1, given.console.has_global_system_interrupt = has & 2;
            bytes[52] = (uint8_t)((has & 1) | (has & 2 ? controllers : 0));
            bytes[53] = has & 1 ? 4 : 0, bytes[54] = has & 2 ? 4 : 0; /* IRQ, Global System Interrupt */
            check_port(&given, bytes, holds, has, controllers);
        }
}

/* Configured Baud Rate has a code of four rates (58), and Precise Baud Rate each one (80). */
static void check_port_rates(void) {
    static const struct { uint32_t rate; uint8_t code; } rates[] = {
        {0, 0}, {1, 0}, {300, 0}, {9599, 0}, {9600, 3}, {9601, 0}, {19199, 0}, {19200, 4}, {19201, 0}, {38400, 0},
        {57599, 0}, {57600, 6}, {57601, 0}, {115199, 0}, {115200, 7}, {115201, 0}, {0x12580, 0}, {0x80002580, 0},
        {0x8000e100, 0}, {0x14b00, 0}, {0x8001c200, 0}, {0xffffffff, 0}};
    size_t i;
    for (i = 0; i < sizeof rates / sizeof *rates; i++) {
        port given = pc_console;
        uint8_t bytes[SPCR_SIZE];
        memcpy(bytes, pc_spcr_bytes, SPCR_SIZE);
        given.console.baud_rate = rates[i].rate;
        bytes[58] = rates[i].code, put(bytes + 80, 4, rates[i].rate);
        check_port(&given, bytes, 1, 80, (unsigned)i);
        given.console.has_baud_rate = 0, bytes[58] = 0, put(bytes + 80, 4, 0);
        check_port(&given, bytes, 1, 80, (unsigned)i);
    }
}

static void check_ports(void) {
    check_port_bytes();
    check_port_interrupts();
    check_port_rates();
}
#endif
