/*
 * Where the kernel of a PC begins: by PVH, in 32 bits and without paging. With 64 bits the first GiB is mapped to itself. SSE stays off: an
 * instruction of it would fault.
 */
        .set CODE, 8
        .set DATA, 16

/* The note by which a loader finds the entry. */
        .section .note.pvh, "a", @note
        .long 4, 4, 18
        .asciz "Xen"
        .long start

        .section .text.start, "ax"
        .code32
        .globl start
start:
        cld
        movl $stack_end, %esp
#if defined(__x86_64__)
        .set PRESENT_WRITABLE, 0x03
        .set LARGE_PAGE, 0x83           /* present, writable, 2 MiB */
        .set LARGE_PAGE_SIZE, 0x200000
        .set LARGE_PAGES, 512
        .set CR4_PAE, 0x20
        .set EFER, 0xc0000080
        .set EFER_LONG_MODE, 0x100
        .set CR0_PAGING_AND_PROTECTION, 0x80000001

        movl $pointers + PRESENT_WRITABLE, root
        movl $pages + PRESENT_WRITABLE, pointers
        movl $LARGE_PAGE, %eax
        xorl %ecx, %ecx
1:      movl %eax, pages(, %ecx, 8)
        addl $LARGE_PAGE_SIZE, %eax
        incl %ecx
        cmpl $LARGE_PAGES, %ecx
        jne 1b
        movl $root, %eax
        movl %eax, %cr3
        movl $CR4_PAE, %eax
        movl %eax, %cr4
        movl $EFER, %ecx
        rdmsr
        orl $EFER_LONG_MODE, %eax
        wrmsr
        movl %cr0, %eax
        orl $CR0_PAGING_AND_PROTECTION, %eax
        movl %eax, %cr0
#endif
        lgdt descriptors_pointer
        ljmp $CODE, $run

#if defined(__x86_64__)
        .code64
#endif
run:
        movw $DATA, %ax
        movw %ax, %ds
        movw %ax, %es
        movw %ax, %ss
#if defined(__x86_64__)
        movq $stack_end, %rsp
#endif
        call kernel_main
2:      hlt
        jmp 2b

        .section .rodata
        .balign 8
descriptors:
        .quad 0
#if defined(__x86_64__)
        .quad 0x00af9a000000ffff        /* code, 64 bits */
#else
        .quad 0x00cf9a000000ffff        /* code, 32 bits */
#endif
        .quad 0x00cf92000000ffff        /* data */
descriptors_pointer:
        .word . - descriptors - 1
        .long descriptors

#if defined(__x86_64__)
        .section .bss, "aw", @nobits
        .balign 4096
root:
        .skip 4096
pointers:
        .skip 4096
pages:
        .skip 4096
#endif

        .section .note.GNU-stack, "", @progbits
