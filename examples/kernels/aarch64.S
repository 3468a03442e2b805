/* Where the kernel of an Arm board begins, and its interrupts. One processor runs, and others wait. */
        .section .text.start, "ax"
        .globl start
start:
        mrs x0, mpidr_el1
        and x0, x0, #3
        cbnz x0, 1f
        ldr x0, =stack_end
        mov sp, x0
        bl kernel_main
1:      wfe
        b 1b

/* The entries of exceptions: 16 of 128 bytes each. An interrupt comes into the sixth, and each other one is a fault. */
        .section .text
        .balign 0x800
        .globl vectors
vectors:
        .rept 5
        b fault
        .balign 0x80
        .endr
        b interrupt
        .balign 0x80
        .rept 10
        b fault
        .balign 0x80
        .endr

fault:
        wfe
        b fault

/* Saves what a function may change. The kernel uses none of the vector registers. */
interrupt:
        stp x0, x1, [sp, #-192]!
        stp x2, x3, [sp, #16]
        stp x4, x5, [sp, #32]
        stp x6, x7, [sp, #48]
        stp x8, x9, [sp, #64]
        stp x10, x11, [sp, #80]
        stp x12, x13, [sp, #96]
        stp x14, x15, [sp, #112]
        stp x16, x17, [sp, #128]
        stp x18, x29, [sp, #144]
        mrs x0, elr_el1
        mrs x1, spsr_el1
        stp x30, x0, [sp, #160]
        str x1, [sp, #176]
        bl board_interrupt
        ldr x1, [sp, #176]
        ldp x30, x0, [sp, #160]
        msr spsr_el1, x1
        msr elr_el1, x0
        ldp x18, x29, [sp, #144]
        ldp x16, x17, [sp, #128]
        ldp x14, x15, [sp, #112]
        ldp x12, x13, [sp, #96]
        ldp x10, x11, [sp, #80]
        ldp x8, x9, [sp, #64]
        ldp x6, x7, [sp, #48]
        ldp x4, x5, [sp, #32]
        ldp x2, x3, [sp, #16]
        ldp x0, x1, [sp], #192
        eret

        .section .note.GNU-stack, "", @progbits
