/* --------------------------------------------------------------- UARTs of DesignWare */

/* The functions by which a driver reaches a chip in its context. */
static uint8_t uart_chip_read(void *context, uintptr_t offset)
{
    struct u16550_design_ware *chip = (struct u16550_design_ware *)context;
    return uart_design_ware_read(&chip->chip, (uint8_t)offset);
}

static void uart_chip_write(void *context, uintptr_t offset, uint8_t value)
{
    struct u16550_design_ware *chip = (struct u16550_design_ware *)context;
    uart_design_ware_write(&chip->chip, (uint8_t)offset, value);
}

/* Makes a driver over a chip in its own memory, over these registers, unless they are refused. */
static int uart_make_chip(struct u16550 *uart, struct u16550_design_ware *chip, const struct u16550_io *io, uintptr_t base, uint8_t stride,
                          int refused, uint64_t patience)
{
    struct u16550_io functions = { chip, uart_chip_read, uart_chip_write };
    struct u16550_device registers;
    int status = uart_check_memory(uart);
    if (status == U16550_OK)
        status = UART_USABLE(chip, chip);
    if (status == U16550_OK && patience == 0)
        status = U16550_ZERO_LIMIT;
    if (status == U16550_OK)
        status = refused;
    if (status != U16550_OK)
        return status;
    /* The driver that was there may have this chip: no handler is to use it from now on. */
    uart_begin(uart);
    registers.io = *io;
    registers.base = base;
    registers.stride = stride;
    chip->chip = uart_design_ware_new(registers, patience);
    return uart_put(uart, &functions, 0, 1, NULL);
}

int (u16550_new_design_ware)(struct u16550 *uart, struct u16550_design_ware *chip, const struct u16550_io *io, uint64_t patience)
{
    return uart_make_chip(uart, chip, io, 0, 1, uart_check_io(io), patience);
}

int (u16550_new_mmio_design_ware)(struct u16550 *uart, struct u16550_design_ware *chip, uintptr_t base, const struct u16550_layout *layout,
                                uint64_t patience)
{
    struct u16550_io io = { NULL, NULL, NULL };
    uint8_t stride = 0;
    int refused = uart_check_memory_layout(base, layout, UART_USR);
    if (refused == U16550_OK) {
        io = uart_io_of_layout(layout);
        stride = layout->stride;
    }
    return uart_make_chip(uart, chip, &io, base, stride, refused, patience);
}

int u16550_design_ware_fault(struct u16550 *uart, struct u16550_design_ware *chip)
{
    uint8_t fault;
    int status = UART_USABLE(chip, chip);
    if (status == U16550_OK)
        status = uart_enter(uart);
    if (status != U16550_OK)
        return status;
    if (uart->ring.uart.backend.io.context != (void *)chip)
        return uart_leave(uart, U16550_NOT_MADE);
    return uart_leave(uart, uart_design_ware_fault(&chip->chip, &fault) ? (int)fault : U16550_OK);
}
