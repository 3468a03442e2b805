/* The start of memory, where the board begins to run. */
ENTRY(start)
SECTIONS {
    . = 0x80000000;
    .text : { *(.text.start) *(.text .text.*) }
    .rodata : { *(.rodata .rodata.* .srodata .srodata.*) }
    .data : { *(.data .data.* .sdata .sdata.*) *(.got .got.*) }
    .bss : { *(.bss .bss.* .sbss .sbss.*) *(COMMON) }
    /DISCARD/ : { *(.eh_frame*) *(.comment) *(.riscv.attributes) *(.debug*) }
}
