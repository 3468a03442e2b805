/* SPDX-License-Identifier: MIT OR Apache-2.0 */
/* A first domain of Xen that writes what it reads, for a test of Xen's console. A call of Xen is a syscall whose number is in rax. */
#define NOTE(type, text) \
    .pushsection .note.Xen, "a", @note; .balign 4; .long 4, 2f - 1f, type; .asciz "Xen"; 1: .asciz text; 2: .balign 4; .popsection
    NOTE(5, "xen-3.0")  /* the interface */
    NOTE(8, "generic")  /* the loader */
    NOTE(9, "yes")      /* page tables of 64 bits */

    .globl _start
_start:
    mov $(end - begin), %esi
    lea begin(%rip), %rdx
write:
    mov $18, %eax       /* console_io */
    xor %edi, %edi      /* CONSOLEIO_write */
    syscall
read:
    mov $18, %eax
    mov $1, %edi        /* CONSOLEIO_read */
    mov $16, %esi
    lea buffer(%rip), %rdx
    syscall
    mov %eax, %esi
    test %eax, %eax
    jg write
    mov $29, %eax       /* sched_op */
    xor %edi, %edi      /* SCHEDOP_yield */
    xor %esi, %esi
    syscall
    jmp read

    .data
begin:
    .ascii "the domain writes what it reads\n"
end:
buffer:
    .fill 16
