/* --------------------------------------------------------------- what is by hand: memory of the caller, and calls that are not done */

/* Takes so many cells from the front of the memory, if there are so many. */
static bool
uart_cells_in_memory(struct uart_memory *memory, uint8_t value, size_t count, struct u16550_core_vec_u8 *cells)
{
    if (count > memory->len)
        return false;
    cells->data = memory->data;
    cells->len = count;
    cells->capacity = count;
    memory->data += count;
    memory->len -= count;
    for (size_t i = 0; i < count; i++)
        cells->data[i] = value;
    return true;
}

/* Marks memory with a driver in it, and a call that is not done. Either is unlikely in other memory. */
#define UART_MARK UINT32_C(0x16550a5e)
#define UART_IS_BUSY UINT32_C(0x16550b5b)

/* What is before this in the text is done before what is behind it, as an interrupt handler of the same processor sees it. */
#if defined(__GNUC__)
#define UART_FENCE() __asm__ __volatile__("" : : : "memory")
#else
#define UART_FENCE() ((void)0)
#endif

#define UART_ALIGNMENT(name, type) struct uart_aligned_##name { char first; type value; }
UART_ALIGNMENT(handle, struct u16550);
UART_ALIGNMENT(io, struct u16550_io);
UART_ALIGNMENT(config, struct u16550_config);
UART_ALIGNMENT(state, struct u16550_state);
UART_ALIGNMENT(difference, struct u16550_difference);
UART_ALIGNMENT(handled, struct u16550_handled);
UART_ALIGNMENT(port, struct u16550_line_port);
UART_ALIGNMENT(chip, struct u16550_design_ware);
UART_ALIGNMENT(notes, struct u16550_notes);
UART_ALIGNMENT(bus, struct u16550_bus);
UART_ALIGNMENT(size, size_t);
UART_ALIGNMENT(u64, uint64_t);
UART_ALIGNMENT(u32, uint32_t);
UART_ALIGNMENT(u16, uint16_t);
#define UART_USABLE(at, name) uart_usable(at, offsetof(struct uart_aligned_##name, value))
#define UART_ALIGNED(at, name) uart_aligned(at, offsetof(struct uart_aligned_##name, value))

static inline int uart_aligned(const void *at, size_t alignment)
{
    if (((uintptr_t)at & (alignment - 1)) != 0)
        return U16550_MISALIGNED;
    return U16550_OK;
}

/* Refuses a pointer that is null or not aligned. */
static int uart_usable(const void *at, size_t alignment)
{
    return at == NULL ? U16550_NULL_POINTER : uart_aligned(at, alignment);
}

/*
 * Refuses an array that cannot be: a pointer that is null or not aligned, more items than half of all memory holds, or an end behind that of
 * memory. An array of no items may have any pointer.
 */
static int uart_items(const void *at, size_t len, size_t item, size_t half, size_t alignment)
{
    uintptr_t start = (uintptr_t)at;
    int status;
    if (len == 0)
        return U16550_OK;
    status = uart_usable(at, alignment);
    if (status != U16550_OK)
        return status;
    if (len > half || start > UINTPTR_MAX - uart_times(len, (uint8_t)item))
        return U16550_BAD_LENGTH;
    return U16550_OK;
}

/* The same for items of a constant size: how many half of all memory holds is computed by the compiler. */
#define uart_array(at, len, item, alignment) uart_items(at, len, item, (SIZE_MAX / 2) / (item), alignment)

/* Begins a call over a driver, unless there is none or a call over it is not done. */
static int uart_enter(struct u16550 *uart)
{
    int status = UART_USABLE(uart, handle);
    if (status != U16550_OK)
        return status;
    if (uart->mark != UART_MARK)
        return U16550_NOT_MADE;
    if (uart->is_busy != 0)
        return U16550_BUSY;
    uart->is_busy = UART_IS_BUSY;
    UART_FENCE();
    /* A handler that came before the sign was set may have ended the driver. */
    if (uart->mark != UART_MARK) {
        uart->is_busy = 0;
        return U16550_NOT_MADE;
    }
    return U16550_OK;
}

/* The same for a call over the rings. */
static int uart_enter_rings(struct u16550 *uart)
{
    int status = uart_enter(uart);
    if (status == U16550_OK && !uart->has_rings) {
        uart->is_busy = 0;
        return U16550_NO_RINGS;
    }
    return status;
}

/* Ends a call, and returns its status. */
static inline int uart_leave(struct u16550 *uart, int status)
{
    UART_FENCE();
    uart->is_busy = 0;
    return status;
}

static int uart_check_flag(uint8_t byte)
{
    if (byte > 1)
        return U16550_BAD_CODE;
    return U16550_OK;
}
