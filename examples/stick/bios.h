/* A call of the BIOS by calls.s, and what it shares with bios.c and fat.c. */
#ifndef BIOS_H
#define BIOS_H
#include <stdint.h>

/* In the order in which popa takes them; bits of `flags` as after the call. */
struct registers {
    uint32_t edi, esi, ebp, unused, ebx, edx, ecx, eax, flags;
};
enum { CARRY = 1, ZERO = 0x40 };
/* Goes to real mode, where ds, es and ss are 0, and runs an instruction of two bytes, with interrupts enabled. */
void run_in_real_mode(struct registers *registers, uint16_t instruction);
#define INT(number) ((uint16_t)(0xcd | (number) << 8))
#define HLT_NOP ((uint16_t)0x90f4)

/* Reads or writes sectors of the drive by a function of int 0x13. Returns whether that failed. */
enum { READ = 0x42, WRITE = 0x43 };
int transfer(uint32_t function, uint8_t *block, uint32_t sector, uint32_t sectors);

extern uint8_t drive;
/* Below 64 KiB, for calls with an address in 16 bits. */
extern struct packet {
    uint8_t size, zero;
    uint16_t count, offset, segment;
    uint64_t sector;
} packet; /* of int 0x13's extended read and write */
extern struct piece {
    uint64_t address, length;
    uint32_t type, attributes;
} piece; /* an entry of the memory map */

#endif
