/* A kernel of 32 bits that GRUB and `qemu -kernel` load as multiboot, and a monitor without firmware as PVH. Both enter with a flat
   segment for code and one for data, without paging, and with interrupts off. */
    .section .head, "ax"
    .balign 4
    .long 0x1badb002, 0x00000002, -0x1badb004

    .section .note.pvh, "a", @note
    .balign 4
    .long 4, 4, 18
    .asciz "Xen"
    .long start

    .text
    .globl start
start:
    cli
    cld
    movl $stack, %esp
    pushl %ebx
    pushl %eax
    call census_main
1:    hlt
    jmp 1b

    .bss
    .balign 16
    .skip 16384
stack:
    .section .note.GNU-stack, "", @progbits
