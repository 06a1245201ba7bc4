/* The first sector. */
ENTRY(entry)
SECTIONS {
    . = 0x7c00;
    .text : { *(.text) }
    /DISCARD/ : { *(.data) *(.bss) *(.comment) *(.note*) }
}
