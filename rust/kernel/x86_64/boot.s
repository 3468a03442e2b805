# From the entry by PVH, in 32 bits and without paging, to 64 bits with the first GiB mapped to itself. Then calls kernel_main. Another
# processor comes from 16 bits, with the same tables, and calls processor_main.
# SSE stays off: an instruction of it would fault.

    .set PRESENT_WRITABLE, 0x03
    .set LARGE_PAGE, 0x83           # present, writable, 2 MiB
    .set LARGE_PAGE_SIZE, 0x200000
    .set ENTRIES, 512
    .set CR4_PAE, 0x20
    .set CR0_PAGING_AND_PROTECTION, 0x80000001
    .set EFER, 0xc0000080
    .set EFER_LONG_MODE, 0x100
    .set CODE, 8
    .set DATA, 16
    .set EXIT_PORT, 0xf4
    .set STACK_SIZE, 65536
    .set DESCRIPTORS_SIZE, 24

# The note by which a loader finds the entry.
    .section .note.pvh, "a", @note
    .long 4, 4, 18
    .asciz "Xen"
    .long start32

    .section .text.boot, "ax"
    .code32
    .globl start32
start32:
    cld
    movl $stack_end, %esp
    movl $pointers + PRESENT_WRITABLE, root
    movl $pages + PRESENT_WRITABLE, pointers
    movl $LARGE_PAGE, %eax
    xorl %ecx, %ecx
map:
    movl %eax, pages(, %ecx, 8)
    addl $LARGE_PAGE_SIZE, %eax
    incl %ecx
    cmpl $ENTRIES, %ecx
    jne map
    movl $root, %eax
    movl %eax, %cr3
    movl $CR4_PAE, %eax
    movl %eax, %cr4
    movl $EFER, %ecx
    rdmsr
    orl $EFER_LONG_MODE, %eax
    wrmsr
    movl %cr0, %eax
    orl $CR0_PAGING_AND_PROTECTION, %eax
    movl %eax, %cr0
    lgdt descriptors_pointer
    ljmp $CODE, $start64

# Where another processor begins. This is copied to a page of the first MiB, and so uses no address of its own but from its beginning.
    .code16
    .globl processor_entry
processor_entry:
    cli
    movw %cs, %ax
    movw %ax, %ds
    lgdtl copied_pointer - processor_entry
    movl $root, %eax
    movl %eax, %cr3
    movl $CR4_PAE, %eax
    movl %eax, %cr4
    movl $EFER, %ecx
    rdmsr
    orl $EFER_LONG_MODE, %eax
    wrmsr
    movl $CR0_PAGING_AND_PROTECTION, %eax
    movl %eax, %cr0
    ljmpl $CODE, $processor64
copied_pointer:
    .word DESCRIPTORS_SIZE - 1
    .long descriptors
    .globl processor_entry_end
processor_entry_end:

    .code64
processor64:
    movw $DATA, %ax
    movw %ax, %ds
    movw %ax, %es
    movw %ax, %ss
    movq $processor_stack_end, %rsp
    call processor_main
    jmp halt

start64:
    movw $DATA, %ax
    movw %ax, %ds
    movw %ax, %es
    movw %ax, %ss
    movq $stack_end, %rsp
    call kernel_main
halt:
    hlt
    jmp halt

# The interrupt of COM1. Saves what a function may change.
    .globl interrupt_entry
interrupt_entry:
    pushq %rax
    pushq %rcx
    pushq %rdx
    pushq %rsi
    pushq %rdi
    pushq %r8
    pushq %r9
    pushq %r10
    pushq %r11
    pushq %rbp
    movq %rsp, %rbp
    andq $-16, %rsp
    cld
    call handle_interrupt
    movq %rbp, %rsp
    popq %rbp
    popq %r11
    popq %r10
    popq %r9
    popq %r8
    popq %rdi
    popq %rsi
    popq %rdx
    popq %rcx
    popq %rax
    iretq

# Any other interrupt, and each fault: ends the machine.
    .globl fault_entry
fault_entry:
    movw $EXIT_PORT, %dx
    movb $0x7f, %al
    outb %al, %dx
    hlt

    .section .rodata
    .balign 8
descriptors:
    .quad 0
    .quad 0x00af9a000000ffff        # code, 64 bits
    .quad 0x00cf92000000ffff        # data
descriptors_pointer:
    .word . - descriptors - 1
    .quad descriptors

    .section .bss, "aw", @nobits
    .balign 4096
root:
    .skip 4096
pointers:
    .skip 4096
pages:
    .skip 4096
stack:
    .skip STACK_SIZE
stack_end:
processor_stack:
    .skip STACK_SIZE
processor_stack_end:

# Most kernels have one processor.
    .weak processor_main

    .section .note.GNU-stack, "", @progbits
