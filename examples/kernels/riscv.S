/* Where the kernel of a RISC-V board begins. One processor runs, and others wait. */
        .section .text.start, "ax"
        .globl start
start:
        csrr t0, mhartid
        bnez t0, 1f
        la sp, stack_end
        call kernel_main
1:      wfi
        j 1b

        .section .note.GNU-stack, "", @progbits
