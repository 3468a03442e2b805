/* A kernel at the address LOAD_AT, whose first code is `start`, with a stack of 64 KiB. */
ENTRY(start)
SECTIONS {
    . = LOAD_AT;
    .note : { *(.note.pvh) }
    .text : { *(.text.start) *(.text .text.*) }
    .rodata : { *(.rodata .rodata.* .srodata .srodata.*) }
    . = ALIGN(4096);
    .data : { *(.data .data.* .sdata .sdata.*) *(.got .got.*) }
    .bss : { *(.bss .bss.* .sbss .sbss.*) *(COMMON) . = ALIGN(16); . += 65536; stack_end = .; }
    /DISCARD/ : { *(.eh_frame*) *(.comment) *(.note.gnu*) *(.note.GNU-stack) *(.riscv.attributes) }
}
