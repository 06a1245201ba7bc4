/* Loaded at 2 MiB, where it is linked. QEMU enters it as the note says. */
OUTPUT_FORMAT(elf64-x86-64)
ENTRY(entry)
PHDRS { all PT_LOAD FLAGS(7); note PT_NOTE FLAGS(4); }
SECTIONS {
    . = 2M;
    .all : { *(.text .text.*) *(.rodata .rodata.*) *(.data .data.* .got .got.*) . = ALIGN(16); } :all
    .note : { KEEP(*(.note.Xen)) . = ALIGN(16); } :all :note
    .bss : { *(.bss .bss.* COMMON) } :all
    /DISCARD/ : { *(.comment) *(.note.GNU-stack) *(.note.gnu*) *(.eh_frame*) *(.gcc_except_table*) *(.llvm_addrsig) }
}
