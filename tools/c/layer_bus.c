/* --------------------------------------------------------------- a driver at a bus of two wires */

/* Marks memory with a bus in it. */
#define UART_BUS_MARK UINT32_C(0x16550b05)

/* Begins a call over a bus, as uart_enter does over a driver. One copy is enough: the time at a bus is that of the line. The name of the
 * attribute has underscores, since kernels and U-Boot have a macro with the other name. */
#if defined(__GNUC__)
__attribute__((__noinline__))
#endif
static int uart_enter_bus(struct u16550_bus *bus)
{
    int status = UART_USABLE(bus, bus);
    if (status != U16550_OK)
        return status;
    if (bus->mark != UART_BUS_MARK)
        return U16550_NOT_MADE;
    if (bus->is_busy != 0)
        return U16550_BUSY;
    bus->is_busy = UART_IS_BUSY;
    UART_FENCE();
    /* A handler that came before the sign was set may have ended the bus. */
    if (bus->mark != UART_BUS_MARK) {
        bus->is_busy = 0;
        return U16550_NOT_MADE;
    }
    return U16550_OK;
}

static int uart_leave_bus(struct u16550_bus *bus, int status)
{
    UART_FENCE();
    bus->is_busy = 0;
    return status;
}

static int uart_decode_direction(const struct u16550_direction *from, struct u16550_core_direction *to)
{
    int status = from == NULL ? U16550_NULL_POINTER : uart_check_flag(from->sends_when_set);
    if (status == U16550_OK)
        status = uart_check_direction_line(from->line);
    if (status != U16550_OK)
        return status;
    to->line = from->line;
    to->sends_when_set = from->sends_when_set == 1;
    return U16550_OK;
}

int u16550_direction_receiving(const struct u16550_direction *direction, uint8_t outputs, uint8_t *receiving)
{
    struct u16550_core_direction decoded;
    int status = receiving == NULL ? U16550_NULL_POINTER : uart_decode_direction(direction, &decoded);
    if (status == U16550_OK)
        *receiving = uart_direction_receiving(decoded, outputs);
    return status;
}

int u16550_bus_new(struct u16550_bus *bus, struct u16550 *uart, const struct u16550_direction *direction)
{
    struct u16550_core_half_duplex made;
    struct u16550_core_driver driver;
    struct u16550_core_direction decoded;
    uint32_t before;
    int status = UART_USABLE(bus, bus);
    if (status == U16550_OK && bus->is_busy == UART_IS_BUSY)
        status = U16550_BUSY;
    if (status == U16550_OK)
        status = uart_enter(uart);
    if (status != U16550_OK)
        return status;
    status = uart->has_rings ? U16550_HAS_RINGS : uart_decode_direction(direction, &decoded);
    if (status != U16550_OK)
        return uart_leave(uart, status);
    /* A handler that comes from now on finds a call that is not done, at a bus that was there too. */
    before = bus->is_busy;
    bus->is_busy = UART_IS_BUSY;
    UART_FENCE();
    status = uart_half_duplex_new(uart->ring.uart, decoded, &made, &driver);
    if (status != U16550_OK) {
        uart->ring.uart = driver;
        bus->is_busy = before;
        return uart_leave(uart, status);
    }
    bus->mark = UART_BUS_MARK;
    bus->bus = made;
    uart->mark = 0;
    uart_leave(uart, U16550_OK);
    return uart_leave_bus(bus, U16550_OK);
}

int u16550_bus_end(struct u16550_bus *bus, struct u16550 *uart)
{
    struct u16550_core_half_duplex ended;
    int status = uart_check_memory(uart);
    if (status == U16550_OK)
        status = uart_enter_bus(bus);
    if (status != U16550_OK)
        return status;
    uart_begin(uart);
    uart->mark = UART_MARK;
    uart->has_rings = false;
    /* By way of a place of its own: for two places that may overlap clang calls memmove, which few kernels have. */
    ended = bus->bus;
    UART_FENCE();
    uart->ring.uart = uart_half_duplex_into_inner(ended);
    bus->mark = 0;
    uart_leave_bus(bus, U16550_OK);
    return uart_leave(uart, U16550_OK);
}

int u16550_bus_start_sending(struct u16550_bus *bus)
{
    int status = uart_enter_bus(bus);
    if (status != U16550_OK)
        return status;
    uart_half_duplex_start_sending(&bus->bus);
    return uart_leave_bus(bus, U16550_OK);
}

int u16550_bus_try_finish(struct u16550_bus *bus)
{
    int status = uart_enter_bus(bus);
    if (status != U16550_OK)
        return status;
    if (!uart_half_duplex_try_finish(&bus->bus))
        status = U16550_BUS_BUSY;
    return uart_leave_bus(bus, status);
}

int u16550_bus_flush(struct u16550_bus *bus)
{
    int status = uart_enter_bus(bus);
    if (status != U16550_OK)
        return status;
    return uart_leave_bus(bus, uart_half_duplex_flush(&bus->bus));
}

int u16550_bus_is_idle(struct u16550_bus *bus, uint8_t *idle)
{
    uint8_t found;
    int status = idle == NULL ? U16550_NULL_POINTER : uart_enter_bus(bus);
    if (status != U16550_OK)
        return status;
    found = uart_half_duplex_is_idle(&bus->bus);
    uart_leave_bus(bus, U16550_OK);
    *idle = found;
    return U16550_OK;
}

int u16550_bus_is_sending(struct u16550_bus *bus, uint8_t *sending)
{
    uint8_t found;
    int status = sending == NULL ? U16550_NULL_POINTER : uart_enter_bus(bus);
    if (status != U16550_OK)
        return status;
    found = uart_half_duplex_is_sending(&bus->bus);
    uart_leave_bus(bus, U16550_OK);
    *sending = found;
    return U16550_OK;
}

int u16550_bus_lsr(struct u16550_bus *bus, uint8_t *value)
{
    uint8_t found;
    int status = value == NULL ? U16550_NULL_POINTER : uart_enter_bus(bus);
    if (status != U16550_OK)
        return status;
    found = uart_half_duplex_lsr(&bus->bus);
    uart_leave_bus(bus, U16550_OK);
    *value = found;
    return U16550_OK;
}

int u16550_bus_send_bytes(struct u16550_bus *bus, const uint8_t *buffer, size_t len, size_t *count)
{
    size_t sent;
    int status = UART_USABLE(count, size);
    if (status == U16550_OK)
        status = uart_enter_bus(bus);
    if (status != U16550_OK)
        return status;
    status = uart_array(buffer, len, 1, 1);
    if (status != U16550_OK)
        return uart_leave_bus(bus, status);
    if (!uart_half_duplex_send_bytes(&bus->bus, buffer, len, &sent))
        status = U16550_BUS_NOT_SENDING;
    uart_leave_bus(bus, status);
    if (status == U16550_OK)
        *count = sent;
    return status;
}

int u16550_bus_send_bytes_exact(struct u16550_bus *bus, const uint8_t *buffer, size_t len, size_t *done)
{
    size_t sent = 0;
    int status = UART_ALIGNED(done, size);
    if (status == U16550_OK)
        status = uart_enter_bus(bus);
    if (status != U16550_OK)
        return status;
    status = uart_array(buffer, len, 1, 1);
    if (status != U16550_OK)
        return uart_leave_bus(bus, status);
    status = uart_leave_bus(bus, uart_half_duplex_send_bytes_exact(&bus->bus, buffer, len, &sent));
    if (done != NULL)
        *done = status == U16550_OK ? len : sent;
    return status;
}

int u16550_bus_receive_bytes(struct u16550_bus *bus, uint8_t *buffer, size_t len, size_t *count)
{
    size_t found;
    int status = UART_USABLE(count, size);
    if (status == U16550_OK)
        status = uart_enter_bus(bus);
    if (status != U16550_OK)
        return status;
    status = uart_array(buffer, len, 1, 1);
    if (status != U16550_OK)
        return uart_leave_bus(bus, status);
    found = uart_half_duplex_receive_bytes(&bus->bus, buffer, len);
    uart_leave_bus(bus, U16550_OK);
    *count = found;
    return U16550_OK;
}

int u16550_bus_receive_with_errors(struct u16550_bus *bus, struct u16550_received *received, size_t len, size_t *count)
{
    size_t found;
    int status = UART_USABLE(count, size);
    if (status == U16550_OK)
        status = uart_enter_bus(bus);
    if (status != U16550_OK)
        return status;
    status = uart_array(received, len, sizeof(struct u16550_received), 1);
    if (status != U16550_OK)
        return uart_leave_bus(bus, status);
    found = uart_half_duplex_receive_with_errors(&bus->bus, received, len);
    uart_leave_bus(bus, U16550_OK);
    *count = found;
    return U16550_OK;
}
