/* The entry of the 32-bit kernel, by multiboot: protected mode, flat, no paging, and no vector registers. */
        .code32
        .section .multiboot, "a"
        .set magic, 0x1badb002
        .set flags, 0                   /* what the loader has to pass: nothing; it loads by the ELF headers */
        .balign 4
        .long magic, flags, -(magic + flags)
        .text
        .globl entry
entry:  cld
        mov $stack_top, %esp
        mov %cr0, %eax
        and $0xfffffffd, %eax
        or $0xc, %eax                   /* EM and TS: an instruction with a register of the FPU or of SSE faults */
        mov %eax, %cr0
        call kernel
1:      cli
        hlt
        jmp 1b
        .bss
        .balign 16
        .skip 32768
stack_top:
        .section .note.GNU-stack, "", @progbits
