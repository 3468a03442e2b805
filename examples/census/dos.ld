ENTRY(start)
OUTPUT_FORMAT(binary)
SECTIONS {
    . = 0x100;
    .text : { *(.head) *(.text*) *(.rodata*) *(.data*) }
    .bss : { bss_begin = .; *(.bss*) *(COMMON) bss_end = .; }
    ASSERT(. < 0xf000, "no room for the stack")
    /DISCARD/ : { *(.eh_frame*) *(.comment) *(.note*) }
}
