ENTRY(start)
PHDRS { image PT_LOAD FLAGS(7); notes PT_NOTE; }
SECTIONS {
    . = 0x100000;
    .head : { *(.head) } : image
    .note : { *(.note.pvh) } : image : notes
    .text : { *(.text*) } : image
    .data : { *(.rodata*) *(.data*) }
    .bss : { *(.bss*) *(COMMON) }
    /DISCARD/ : { *(.eh_frame*) *(.comment) *(.note.GNU*) *(.note.gnu*) }
}
