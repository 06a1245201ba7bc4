/* At 2 MiB; the header of multiboot comes first, since it has to be in the first 8 KiB of the file. */
ENTRY(entry)
SECTIONS {
    . = 2M;
    .text : { KEEP(*(.multiboot)) *(.text .text.*) }
    .rodata : { *(.rodata .rodata.*) }
    .data : { *(.data .data.*) }
    .bss : { *(.bss .bss.* COMMON) }
    /DISCARD/ : { *(.comment) *(.note*) *(.eh_frame*) }
}
