//! Where a board's processor begins: it gets a stack, and calls `kernel_main`. The link script says where the stack ends, but for
//! a PC.

use core::arch::global_asm;

#[cfg(target_arch = "x86")]
global_asm!(
    // The note by which a loader finds the entry.
    ".section .note.pvh, \"a\", @note",
    ".long 4, 4, 18",
    ".asciz \"Xen\"",
    ".long start32",
    ".section .text.boot, \"ax\"",
    ".globl start32",
    "start32:",
    "mov esp, offset stack_end",
    // The loader's information is the first argument.
    "sub esp, 12",
    "push ebx",
    "call kernel_main",
    ".section .bss, \"aw\", @nobits",
    ".balign 16",
    ".skip 65536",
    "stack_end:",
    ".section .note.GNU-stack, \"\", @progbits",
);

// From 32 bits to 64, with a stack of its own.
#[cfg(target_arch = "x86_64")]
global_asm!(include_str!("../x86_64/boot.s"), options(att_syntax));

#[cfg(any(target_arch = "riscv32", target_arch = "riscv64"))]
global_asm!(
    ".section .text.start, \"ax\"",
    ".globl start",
    "start:",
    // One processor runs, and the others wait.
    "csrr t0, mhartid",
    "bnez t0, 1f",
    "la sp, stack_end",
    "call kernel_main",
    "1: wfi",
    "j 1b",
);

#[cfg(target_arch = "loongarch64")]
global_asm!(
    ".section .text.start, \"ax\"",
    ".globl start",
    "start:",
    "la.pcrel $sp, stack_end",
    "bl kernel_main",
);

#[cfg(target_arch = "aarch64")]
global_asm!(
    ".section .text.start, \"ax\"",
    ".globl start",
    "start:",
    "mrs x0, mpidr_el1",
    "and x0, x0, #3",
    "cbnz x0, 1f",
    // The compiler may use the vector registers.
    "mov x0, #0x300000",
    "msr cpacr_el1, x0",
    "isb",
    "ldr x0, =stack_end",
    "mov sp, x0",
    "bl kernel_main",
    "1: wfe",
    "b 1b",
);

// Those with several processors.
#[cfg(all(
    target_arch = "arm",
    not(target_feature = "mclass"),
    target_feature = "v7"
))]
global_asm!(
    ".section .text.start, \"ax\"",
    ".arm",
    ".globl start",
    "start:",
    "mrc p15, 0, r0, c0, c0, 5",
    "ands r0, r0, #3",
    "bne 1f",
    "ldr sp, =stack_end",
    "bl kernel_main",
    "1: wfe",
    "b 1b",
);

#[cfg(all(
    target_arch = "arm",
    not(target_feature = "mclass"),
    not(target_feature = "v7")
))]
global_asm!(
    ".section .text.start, \"ax\"",
    ".arm",
    ".globl start",
    "start:",
    "ldr sp, =stack_end",
    "bl kernel_main",
);

// A microcontroller finds both in its table of vectors.
#[cfg(all(target_arch = "arm", target_feature = "mclass"))]
global_asm!(
    ".section .text.start, \"ax\"",
    ".word stack_end",
    ".word start",
    ".thumb",
    ".thumb_func",
    ".globl start",
    "start:",
    "bl kernel_main",
);

#[cfg(target_arch = "mips")]
global_asm!(
    ".section .text.start, \"ax\"",
    ".set noreorder",
    ".globl start",
    "start:",
    "lui $29, %hi(stack_end)",
    "addiu $29, $29, %lo(stack_end)",
    // A function may save its arguments above its frame.
    "addiu $29, $29, -32",
    "jal kernel_main",
    "nop",
);

#[cfg(target_arch = "mips64")]
global_asm!(
    ".section .text.start, \"ax\"",
    ".set noreorder",
    ".globl start",
    "start:",
    // The compiler may use the registers of the floating point unit.
    "mfc0 $8, $12",
    "lui $9, 0x2400",
    "or $8, $8, $9",
    "mtc0 $8, $12",
    "ehb",
    "lui $29, %hi(stack_end)",
    "daddiu $29, $29, %lo(stack_end)",
    // A function finds its own address in this register.
    "lui $25, %hi(kernel_main)",
    "daddiu $25, $25, %lo(kernel_main)",
    "jalr $25",
    "nop",
);

#[cfg(all(target_arch = "powerpc", not(needs = "e500")))]
global_asm!(
    ".section .text.start, \"ax\"",
    ".globl start",
    "start:",
    "lis 1, stack_end@h",
    "ori 1, 1, stack_end@l",
    "addi 1, 1, -64",
    "bl kernel_main",
);

// An e500 has the memory of its devices not yet mapped: 16 MiB from 0xe0000000 on, not cached, guarded. The register 3 has the address of
// the device tree, and keeps it.
#[cfg(all(target_arch = "powerpc", needs = "e500"))]
global_asm!(
    ".section .text.start, \"ax\"",
    ".globl start",
    "start:",
    "lis 5, 0x100f",
    "mtspr 624, 5",
    "lis 5, 0x8000",
    "ori 5, 5, 0x0700",
    "mtspr 625, 5",
    "lis 5, 0xe000",
    "ori 5, 5, 0x000a",
    "mtspr 626, 5",
    "lis 5, 0xe000",
    "ori 5, 5, 0x003f",
    "mtspr 627, 5",
    "isync",
    "tlbwe",
    "isync",
    "lis 1, stack_end@h",
    "ori 1, 1, stack_end@l",
    "addi 1, 1, -64",
    "bl kernel_main",
);
