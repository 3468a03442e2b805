/* The beginning of a .COM program: real mode, one segment of 64 KB for all, at 100. */
    .code16gcc
    .section .head, "ax"
    .globl start
start:
    cld
    movzwl %sp, %esp
    /* DOS leaves in memory what was there. */
    xorl %eax, %eax
    movl $bss_begin, %edi
    movl $bss_end, %ecx
    subl %edi, %ecx
    rep stosb
    call census_main
    movw $0x4c00, %ax
    int $0x21
    .section .note.GNU-stack, "", @progbits
