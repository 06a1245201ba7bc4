# What boot.s jumps to, at 0x8000 in real mode, with the drive in dl, and calls of the BIOS from protected mode.
        .set real_stack, 0x7000
        .section .head, "awx"
        .code16
        .globl start, drive, packet, piece
start:  jmp begin
        .balign 4
packet: .skip 16
piece:  .skip 24
registers: .skip 36                     # edi, esi, ebp, esp, ebx, edx, ecx, eax, flags
kept:   .long 0
drive:  .byte 0
        .balign 8
gdt:    .quad 0, 0x00cf9a000000ffff, 0x00cf92000000ffff   # flat code and data, of 32 bits
        .quad 0x00009a000000ffff, 0x000092000000ffff      # code and data of 64 KiB, of 16 bits
gdt_at: .word . - gdt - 1
        .long gdt
real_idt: .word 0x3ff
        .long 0

begin:  cli
        xor %ax, %ax
        mov %ax, %ds
        mov %dl, drive
        lgdtl gdt_at
        mov %cr0, %eax
        or $1, %al
        mov %eax, %cr0
        ljmpl $8, $first
        .code32
flat:   mov $16, %eax                   # loads the data segments
        mov %eax, %ds
        mov %eax, %es
        mov %eax, %fs
        mov %eax, %gs
        mov %eax, %ss
        ret
first:  mov $16, %eax
        mov %eax, %ss
        mov $stack_top, %esp
        call flat
        cld
        mov $bss_start, %edi
        mov $bss_end, %ecx
        sub %edi, %ecx
        xor %eax, %eax
        rep stosb
        call bios_main
2:      hlt
        jmp 2b

# void run_in_real_mode(struct registers *, uint16_t instruction)
        .globl run_in_real_mode
run_in_real_mode:
        pushal
        mov 36(%esp), %esi
        mov 40(%esp), %eax
        mov %ax, instruction
        mov $registers, %edi
        mov $9, %ecx
        cld
        rep movsl
        mov %esp, kept
        ljmp $24, $leave
        .code16
leave:  mov $32, %ax                    # segments of 64 KiB, as real mode has them
        mov %ax, %ds
        mov %ax, %es
        mov %ax, %fs
        mov %ax, %gs
        mov %ax, %ss
        mov %cr0, %eax
        and $0xfe, %al
        mov %eax, %cr0
        ljmp $0, $real
real:   xor %ax, %ax
        mov %ax, %ds
        mov %ax, %es
        mov %ax, %fs
        mov %ax, %gs
        mov %ax, %ss
        lidtl real_idt
        mov $registers, %sp
        popal
        mov $real_stack, %sp
        sti
instruction: int $0
        cli
        cld
        mov $registers + 36, %sp
        pushfl
        pushal
        xor %ax, %ax
        mov %ax, %ds
        lgdtl gdt_at
        mov %cr0, %eax
        or $1, %al
        mov %eax, %cr0
        ljmpl $8, $again
        .code32
again:  mov $16, %eax
        mov %eax, %ss
        mov %ss:kept, %esp
        call flat
        mov 36(%esp), %edi
        mov $registers, %esi
        mov $9, %ecx
        rep movsl
        popal
        ret

        .section .bss
        .balign 16
        .skip 32768
stack_top:
        .section .note.GNU-stack, "", @progbits
