# The entry: 32-bit, protected, no paging (PVH), with the information at ebx. It goes to long mode with the first 4 GiB
# mapped where they are, and calls `start` with the information.
        .pushsection .note.Xen, "a"
        .long 4, 4, 18                  # XEN_ELFNOTE_PHYS32_ENTRY
        .asciz "Xen"
        .long entry
        .popsection
        .pushsection .text.entry, "ax"
        .code32
        .globl entry
entry:  cld
        mov $stack_top, %esp
        mov %ebx, %edi
        mov $(tables + 0x1003), %eax    # tables: a root, an upper one, and four of 512 pages of 2 MiB
        mov %eax, tables
        xor %ecx, %ecx
1:      lea tables + 0x2003(%ecx), %eax
        mov %ecx, %edx
        shr $9, %edx
        mov %eax, tables + 0x1000(%edx)
        add $0x1000, %ecx
        cmp $0x4000, %ecx
        jb 1b
        mov $0x83, %eax                 # present, writable, large
        xor %ecx, %ecx
2:      mov %eax, tables + 0x2000(,%ecx,8)
        add $0x200000, %eax
        inc %ecx
        cmp $2048, %ecx
        jb 2b
        mov %cr4, %eax
        or $0x620, %eax                 # PAE, OSFXSR, OSXMMEXCPT: rustc's code may use SSE
        mov %eax, %cr4
        mov $tables, %eax
        mov %eax, %cr3
        mov $0xC0000080, %ecx           # EFER.LME
        rdmsr
        or $0x100, %eax
        wrmsr
        mov %cr0, %eax
        and $0xfffffffb, %eax           # EM
        or $0x80000002, %eax            # PG, MP
        mov %eax, %cr0
        lgdt gdt_at
        ljmp $8, $long
        .code64
long:   mov $16, %eax
        mov %eax, %ds
        mov %eax, %es
        mov %eax, %ss
        xor %ebp, %ebp
        call start
        ud2
        .balign 8
gdt:    .quad 0, 0x00AF9A000000FFFF, 0x00CF92000000FFFF
gdt_at: .short 23
        .long gdt
        .popsection
        .pushsection .bss.boot, "aw", @nobits
        .balign 4096
tables: .skip 6 * 4096
        .skip 32 * 1024
stack_top:
        .popsection
