# The headers of multiboot 1 and 2. They are not in the image for PVH: QEMU takes a kernel with the first for one of
# multiboot.
        .section .multiboot, "a"
        .balign 8
        .set flags, 0x00010002          # memory map wanted; the addresses below are used, not the ELF headers
first:  .long 0x1BADB002, flags, -(0x1BADB002 + flags)
        .long first_at, load_start, load_end, bss_end, start
        .set first_at, load_start       # link.ld puts this first
        .balign 8
second: .long 0xE85250D6, 0, second_end - second, -(0xE85250D6 + (second_end - second))
        .short 3, 0                     # tag: where to enter; the rest by the ELF headers
        .long 12, start
        .balign 8
        .short 0, 0                     # the last tag
        .long 8
second_end:
        .section .note.GNU-stack, "", @progbits
