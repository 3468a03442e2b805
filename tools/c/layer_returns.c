/*
 * Where code is to be small, gcc for PowerPC saves registers and returns by functions of its own library. A program that is linked without
 * that library has them here. One that has them, as kernels do, takes its own. Two files that are compiled as one have them once.
 */
#if defined(__powerpc__) && !defined(__powerpc64__) && defined(__ELF__) && defined(__OPTIMIZE_SIZE__) && !defined(__clang__)
#define UART_CALLERS_REGISTERS "14, 15, 16, 17, 18, 19, 20, 21, 22, 23, 24, 25, 26, 27, 28, 29, 30, 31"
__asm__(".ifndef _restgpr_14_x\n"
        ".pushsection .text.uart_restore, \"ax\", @progbits\n"
        ".irp number, " UART_CALLERS_REGISTERS "\n"
        ".weak _restgpr_\\number\\()_x\n"
        ".hidden _restgpr_\\number\\()_x\n"
        "_restgpr_\\number\\()_x: lwz \\number, 4 * (\\number - 32)(11)\n"
        ".endr\n"
        "lwz 0, 4(11)\n"
        "mtlr 0\n"
        "mr 1, 11\n"
        "blr\n"
        ".popsection\n"
        ".endif\n"
        ".ifndef _savegpr_14\n"
        ".pushsection .text.uart_save, \"ax\", @progbits\n"
        ".irp number, " UART_CALLERS_REGISTERS "\n"
        ".weak _savegpr_\\number\n"
        ".hidden _savegpr_\\number\n"
        "_savegpr_\\number: stw \\number, 4 * (\\number - 32)(11)\n"
        ".endr\n"
        "blr\n"
        ".popsection\n"
        ".endif\n");
#endif
