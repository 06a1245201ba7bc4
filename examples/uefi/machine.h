/* What the application does with the machine itself, which is one of QEMU. */
#ifndef MACHINE_H
#define MACHINE_H
#include <stddef.h>
#include <stdint.h>
#ifdef __cplusplus
extern "C" {
#endif

void to_serial(void *to, const char *bytes, size_t length);
/* On AArch64: from here on every instruction of a floating-point or vector register is a fault, which is printed, and
 * nothing interrupts. */
void forbid_vectors(void);
/* Waits until the serial port has got a byte, with nothing that interrupts from then on: the firmware reads the port
 * too. */
void wait_for_byte(void);

#ifdef __cplusplus
}
#endif
#endif
