/* Where GXemul begins: a stack, and C. */
    .set noreorder
    .globl __start
__start:
    lui $29, 0x8080
    la $25, census_main
    jr $25
    nop
