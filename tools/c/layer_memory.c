/* --------------------------------------------------------------- registers in memory that the library accesses itself */

/*
 * Makes the processor finish the accesses before this, to devices and to memory, before it begins those behind it, where its architecture
 * does not do so by itself. On x86 and on Arm accesses to one device are made in the order of the program, if its memory is mapped as a
 * device's. On the others the order depends on the memory's attributes, or a load may pass a store, and barriers of locks are not for
 * devices.
 */
#ifndef U16550_BARRIER
#if defined(__riscv)
#define U16550_BARRIER() __asm__ __volatile__("fence iorw, iorw" : : : "memory")
#elif defined(__loongarch__)
#define U16550_BARRIER() __asm__ __volatile__("dbar 0" : : : "memory")
#elif defined(__powerpc__) || defined(__PPC__)
#define U16550_BARRIER() __asm__ __volatile__("sync" : : : "memory")
#elif defined(__mips__)
#define U16550_BARRIER() __asm__ __volatile__(".set push\n\t.set mips2\n\tsync\n\t.set pop" : : : "memory")
#elif defined(__s390x__)
#define U16550_BARRIER() __asm__ __volatile__("bcr 15, 0" : : : "memory")
#elif defined(__i386__) || defined(__x86_64__) || defined(__arm__) || defined(__aarch64__) || defined(__AVR__) || defined(__MSP430__) || \
    defined(_M_IX86) || defined(_M_X64) || defined(__SDCC)
#define U16550_BARRIER() UART_FENCE()
#elif defined(__GNUC__)
#define U16550_BARRIER() __sync_synchronize()
#else
#error "define U16550_BARRIER() as what orders accesses to devices on this processor, or as ((void)0) if nothing is needed"
#endif
#endif

/*
 * One load and one store of a register, between barriers. On Arm they are instructions that a hypervisor can emulate: such as change no
 * address register. A compiler may make others of a volatile access.
 */
#if defined(__GNUC__) && defined(__aarch64__)
#define UART_LOAD(bits, name) __asm__ __volatile__(name " %w0, [%1]" : "=r"(loaded) : "r"(address) : "memory")
#define UART_STORE(bits, name) __asm__ __volatile__(name " %w0, [%1]" : : "r"(value), "r"(address) : "memory")
#elif defined(__GNUC__) && defined(__arm__)
#define UART_LOAD(bits, name) __asm__ __volatile__(name " %0, [%1]" : "=l"(loaded) : "l"(address) : "memory")
#define UART_STORE(bits, name) __asm__ __volatile__(name " %0, [%1]" : : "l"(value), "l"(address) : "memory")
#else
#define UART_LOAD(bits, name) (loaded = *(const volatile uint##bits##_t *)address)
#define UART_STORE(bits, name) (*(volatile uint##bits##_t *)address = (uint##bits##_t)value)
#endif
#define UART_WORD(bits, load, store)                                        \
    static inline uint32_t uart_load_##bits(uintptr_t address)              \
    {                                                                       \
        uint32_t loaded;                                                    \
        U16550_BARRIER();                                                   \
        UART_LOAD(bits, load);                                              \
        U16550_BARRIER();                                                   \
        return loaded;                                                      \
    }                                                                       \
    static inline void uart_store_##bits(uintptr_t address, uint32_t value) \
    {                                                                       \
        U16550_BARRIER();                                                   \
        UART_STORE(bits, store);                                            \
        U16550_BARRIER();                                                   \
    }
UART_WORD(8, "ldrb", "strb")
UART_WORD(16, "ldrh", "strh")
UART_WORD(32, "ldr", "str")

/*
 * The functions of a driver for such registers. The eight bits of a register are in its lowest byte: in a register of `bits` bits whose
 * bytes are the other way round than those of the processor, they are `up` bits further up.
 */
#define UART_REGISTERS(name, bits, up)                                                        \
    static uint8_t uart_read_##name(void *context, uintptr_t address)                         \
    {                                                                                         \
        (void)context;                                                                        \
        return (uint8_t)(uart_load_##bits(address) >> (up));                                  \
    }                                                                                         \
    static void uart_write_##name(void *context, uintptr_t address, uint8_t value)            \
    {                                                                                         \
        (void)context;                                                                        \
        uart_store_##bits(address, (uint32_t)value << (up));                                  \
    }                                                                                         \
    static struct u16550_io uart_io_of_##name(void)                                           \
    {                                                                                         \
        struct u16550_io io = { NULL, uart_read_##name, uart_write_##name };                  \
        return io;                                                                            \
    }
UART_REGISTERS(bytes, 8, 0)
UART_REGISTERS(half_words, 16, 0)
UART_REGISTERS(swapped_half_words, 16, 8)
UART_REGISTERS(words, 32, 0)
UART_REGISTERS(swapped_words, 32, 24)

/* Returns whether the first byte of a number is the highest, as this processor has it. */
static bool uart_is_big_endian(void)
{
    const uint16_t one = 1;
    return *(const uint8_t *)&one == 0;
}

/* Returns the functions for registers of a layout that was looked at. */
static struct u16550_io uart_io_of_layout(const struct u16550_layout *layout)
{
    bool is_swapped = layout->byte_order == (uart_is_big_endian() ? U16550_LITTLE_ENDIAN : U16550_BIG_ENDIAN);
    if (layout->width == 8)
        return uart_io_of_bytes();
    if (layout->width == 16)
        return is_swapped ? uart_io_of_swapped_half_words() : uart_io_of_half_words();
    return is_swapped ? uart_io_of_swapped_words() : uart_io_of_words();
}

/* Refuses registers that cannot lie so: `last` is the offset of the last one. */
static int uart_check_memory_layout(uintptr_t base, const struct u16550_layout *layout, uint8_t last)
{
    uint8_t bytes;
    int status;
    if (layout == NULL)
        return U16550_NULL_POINTER;
    if (layout->width != 8 && layout->width != 16 && layout->width != 32)
        return U16550_BAD_WIDTH;
    if (layout->byte_order > U16550_BIG_ENDIAN)
        return U16550_BAD_CODE;
    bytes = layout->width / 8;
    status = uart_check_place(base, layout->stride);
    if (status != U16550_OK)
        return status;
    if (layout->stride < bytes)
        return U16550_STRIDE_TOO_SMALL;
    if ((base & (bytes - 1U)) != 0)
        return U16550_MISALIGNED_BASE;
    if (base > UINTPTR_MAX - uart_distance(last, layout->stride))
        return U16550_BAD_BASE;
    return U16550_OK;
}

int (u16550_new_mmio_wide)(struct u16550 *uart, uintptr_t base, const struct u16550_layout *layout)
{
    struct u16550_io io;
    int status = uart_check_memory(uart);
    if (status == U16550_OK)
        status = uart_check_memory_layout(base, layout, UART_SPR);
    if (status != U16550_OK)
        return status;
    io = uart_io_of_layout(layout);
    uart_begin(uart);
    return uart_put(uart, &io, base, layout->stride, NULL);
}

