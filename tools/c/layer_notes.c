/* --------------------------------------------------------------- notes of the errors of received bytes */

/* The functions by which a driver reaches its device through the notes in its context. */
static uint8_t uart_noted_read(void *context, uintptr_t offset)
{
    struct u16550_notes *notes = (struct u16550_notes *)context;
    return uart_error_notes_read(&notes->notes, (uint8_t)offset);
}

static void uart_noted_write(void *context, uintptr_t offset, uint8_t value)
{
    struct u16550_notes *notes = (struct u16550_notes *)context;
    uart_error_notes_write(&notes->notes, (uint8_t)offset, value);
}

/* The notes through which a driver reaches its device, or null. No other driver has these functions. */
static struct u16550_notes *uart_notes_of(const struct u16550 *uart)
{
    const struct u16550_io *io = &uart->ring.uart.backend.io;
    return io->read == uart_noted_read && io->write == uart_noted_write ? (struct u16550_notes *)io->context : NULL;
}

int u16550_note_errors(struct u16550 *uart, struct u16550_notes *notes, uint8_t *memory, size_t capacity)
{
    struct u16550_device given;
    struct u16550_core_error_notes made;
    struct uart_memory cells = { memory, capacity };
    struct u16550_device *device;
    int status = UART_USABLE(notes, notes);
    if (status == U16550_OK)
        status = uart_enter(uart);
    if (status != U16550_OK)
        return status;
    status = uart_notes_of(uart) != NULL ? U16550_HAS_NOTES : uart_array(memory, capacity, 1, 1);
    if (status != U16550_OK)
        return uart_leave(uart, status);
    device = uart_backend_mut(&uart->ring.uart);
    status = uart_error_notes_new(&cells, *device, capacity, &made, &given);
    if (status != U16550_OK)
        return uart_leave(uart, status);
    notes->notes = made;
    device->io.context = notes;
    device->io.read = uart_noted_read;
    device->io.write = uart_noted_write;
    device->base = 0;
    device->stride = 1;
    return uart_leave(uart, U16550_OK);
}

int u16550_end_notes(struct u16550 *uart)
{
    struct u16550_notes *notes;
    int status = uart_enter(uart);
    if (status != U16550_OK)
        return status;
    notes = uart_notes_of(uart);
    if (notes == NULL)
        return uart_leave(uart, U16550_NO_NOTES);
    *uart_backend_mut(&uart->ring.uart) = notes->notes.backend;
    return uart_leave(uart, U16550_OK);
}

int u16550_ring_take_with_errors(struct u16550 *uart, struct u16550_received *received, size_t len, size_t *count)
{
    size_t copied, unnoted;
    const struct u16550_notes *notes;
    int status = UART_USABLE(count, size);
    if (status == U16550_OK)
        status = uart_enter_rings(uart);
    if (status != U16550_OK)
        return status;
    notes = uart_notes_of(uart);
    status = notes == NULL ? U16550_NO_NOTES : uart_array(received, len, sizeof(struct u16550_received), 1);
    if (status != U16550_OK)
        return uart_leave(uart, status);
    status = uart_ring_copy_with_notes(&uart->ring, &notes->notes, received, len, &copied, &unnoted);
    if (status == U16550_OK)
        uart_ring_drop_taken(&uart->ring, copied);
    *count = status == U16550_OK ? copied : unnoted;
    return uart_leave(uart, status);
}
