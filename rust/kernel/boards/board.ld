/* A kernel at the address LOAD_AT, whose first code is `start`. */
ENTRY(start)
SECTIONS {
    . = LOAD_AT;
    .text : { *(.text.start) *(.text .text.*) }
    .rodata : { *(.rodata .rodata.* .srodata .srodata.* .sdata2*) }
    . = ALIGN(4096);
    .data : { *(.data .data.* .sdata .sdata.*) *(.got .got.* .got2 .toc*) }
    .bss : { *(.bss .bss.* .sbss .sbss.*) *(COMMON) . = ALIGN(16); . += 65536; stack_end = .; }
    /DISCARD/ : {
        *(.eh_frame*) *(.ARM.*) *(.comment) *(.debug*) *(.reginfo) *(.MIPS.abiflags) *(.MIPS.options) *(.pdr)
        *(.gnu.attributes) *(.riscv.attributes) *(.note.gnu*) *(.note.GNU-stack)
    }
}
