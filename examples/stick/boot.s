# The first sector, which a BIOS loads to 0x7c00: reads the program from the second sector on to 0x8000, 32 KiB at a
# time, by the extended read of int 0x13, and jumps there with the drive in dl.
        .code16
        .globl entry
entry:  cli
        xor %ax, %ax
        mov %ax, %ds
        mov %ax, %es
        mov %ax, %ss
        mov $0x7c00, %sp
        ljmp $0, $here
here:   sti
        cld
        mov %dl, drive
        mov $0x41, %ah                  # are there extensions?
        mov $0x55aa, %bx
        int $0x13
        jc failed
        cmp $0xaa55, %bx
        jne failed
1:      mov $packet, %si
        mov drive, %dl
        mov $0x42, %ah
        int $0x13
        jc failed
        addw $0x800, segment
        addw $64, sector
        decw chunks
        jnz 1b
        mov drive, %dl
        ljmp $0, $0x8000
failed: mov $text, %si
2:      lodsb
        test %al, %al
        jz 3f
        mov $0x0e, %ah
        mov $7, %bx
        int $0x10
        jmp 2b
3:      hlt
        jmp 3b
text:   .asciz "The BIOS can't read the stick."
drive:  .byte 0
        .balign 4
packet: .byte 16, 0
        .word 64, 0
segment: .word 0x800
sector: .long 1, 0
        .org 436                        # the image's maker writes this: how many times 32 KiB
chunks: .word 1
