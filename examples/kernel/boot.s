# The entries: 32-bit, protected, no paging. Each goes to long mode in the upper half, and calls kernel(magic, info).
# The first GiB is mapped at base, where the kernel is linked, and after it is the window through which memory is
# mapped on demand (window.c): 2 MiB at 0xffffffffc0000000, nothing in it yet. Nothing is at 0.
        .set base, 0xffffffff80000000   # as in link.ld
        .section .text
        .code32
        .globl entry, entry_pvh
entry_pvh:                              # PVH: the magic number is in the information (start_info) that ebx leads to
        mov (%ebx), %eax
entry:                                  # multiboot 1 and 2: the magic number is in eax, the information at ebx
        cld
        mov $(stack_top - base), %esp
        mov %eax, %edi                  # first argument: the loader's magic number
        mov %ebx, %esi                  # second: multiboot's information
        movl $(upper - base + 3), root - base                  # at 0 too, until the jump to `high`
        movl $(upper - base + 3), root - base + 511 * 8
        movl $(directory - base + 3), upper - base
        movl $(directory - base + 3), upper - base + 510 * 8   # at base
        movl $(window_directory - base + 3), upper - base + 511 * 8
        movl $(window_pages - base + 3), window_directory - base
        mov $0x83, %eax                 # 512 pages of 2 MiB: present, writable, large
        xor %ecx, %ecx
1:      mov %eax, directory - base(,%ecx,8)
        add $0x200000, %eax
        inc %ecx
        cmp $512, %ecx
        jb 1b
        mov %cr4, %eax
        or $0x20, %eax                  # PAE
        mov %eax, %cr4
        mov $(root - base), %eax
        mov %eax, %cr3
        mov $0xC0000080, %ecx           # EFER.LME
        rdmsr
        or $0x100, %eax
        wrmsr
        mov %cr0, %eax
        or $0x8001000e, %eax            # PG, WP, MP, EM, TS: writes to the window, x87, MMX and SSE fault
        mov %eax, %cr0
        lgdt gdt_at - base
        ljmp $8, $(long - base)
        .code64
long:   mov $16, %eax
        mov %eax, %ds
        mov %eax, %es
        mov %eax, %ss
        movabs $high, %rax
        jmp *%rax
high:   lgdt gdt_high
        movq $0, root                   # nothing at 0 any more
        movq $0, upper
        mov %cr3, %rax
        mov %rax, %cr3
        mov $stack_top, %rsp            # aligned to 16 before the call
        xor %ebp, %ebp
        call kernel
2:      hlt
        jmp 2b

# One stub of 16 bytes for each exception; those without an error code push a zero.
        .globl stubs
        .balign 16
stubs:
        .irp n, 0,1,2,3,4,5,6,7,8,9,10,11,12,13,14,15,16,17,18,19,20,21,22,23,24,25,26,27,28,29,30,31
        .balign 16
        .ifeq (\n == 8) || (\n >= 10 && \n <= 14) || (\n == 17) || (\n == 21) || (\n == 29) || (\n == 30)
        push $0
        .endif
        push $\n
        jmp fault
        .endr
fault:  mov (%rsp), %rdi                # number, error code, instruction
        mov 8(%rsp), %rsi
        mov 16(%rsp), %rdx
        and $-16, %rsp
        call on_fault

        .section .rodata
        .balign 8
gdt:    .quad 0, 0x00AF9A000000FFFF, 0x00CF92000000FFFF
gdt_at: .word . - gdt - 1
        .long gdt - base
gdt_high: .word 23
        .quad gdt

        .section .bss
        .balign 4096
        .globl window_pages
root:   .skip 4096
upper:  .skip 4096
directory: .skip 4096
window_directory: .skip 4096
window_pages: .skip 4096
        .globl stack, stack_top
stack:  .skip 16384
stack_top:
        # PVH's entry: a note of "Xen", type 18 (XEN_ELFNOTE_PHYS32_ENTRY).
        .section .note.Xen, "a", @note
        .balign 4
        .long 4, 8, 18
        .asciz "Xen"
        .quad start_pvh
        .section .note.GNU-stack, "", @progbits
