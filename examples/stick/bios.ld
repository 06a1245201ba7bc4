/* Below the video memory, so that the BIOS reaches it, and below what a BIOS may keep at the end of that memory. */
ENTRY(start)
SECTIONS {
    . = 0x8000;
    .all : { *(.head) *(.text .text.*) *(.rodata .rodata.*) *(.data .data.*) . = ALIGN(16); }
    .bss : { bss_start = .; *(.bss .bss.* COMMON) bss_end = .; }
    ASSERT(bss_end <= 0x80000, "no memory is left for it")
    /DISCARD/ : { *(.comment) *(.note*) *(.eh_frame*) *(.llvm_addrsig) }
}
