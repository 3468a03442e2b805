/* --------------------------------------------------------------- data of the header as those of the driver, and back */

/* Reads a trigger level, or none for 0. */
static int uart_decode_level(uint8_t from, struct u16550_core_maybe_fifo_trigger_level *to)
{
    to->is_some = from != 0;
    to->value = U16550_CORE_FIFO_TRIGGER_LEVEL_ONE;
    return to->is_some ? uart_decode_fifo_trigger_level(from, &to->value) : U16550_OK;
}

/* Reads a configuration, of which perhaps no divisor can be computed. */
static UART_NO_TABLE int uart_decode_config(const struct u16550_config *from, struct u16550_core_config *to)
{
    int status = uart_check_flag(from->has_prescaler);
    to->data_bits = U16550_CORE_WORD_LENGTH_EIGHT_BITS;
    if (status == U16550_OK)
        status = uart_check_flag(from->extra_stop_bits);
    if (status == U16550_OK)
        status = uart_check_flag(from->check_cts_before_sending);
    if (status == U16550_OK)
        status = uart_decode_level(from->fifo_trigger_level, &to->fifo_trigger_level);
    if (status == U16550_OK)
        status = uart_decode_word_length(from->data_bits, &to->data_bits);
    if (status == U16550_OK)
        status = uart_check_parity(from->parity);
    to->parity = from->parity;
    to->interrupts = from->interrupts;
    to->frequency = from->frequency;
    to->prescaler_division_factor.is_some = from->has_prescaler == 1;
    to->prescaler_division_factor.value = from->prescaler_division_factor;
    to->baud_rate = uart_baud_rate_from_bps(from->baud_rate);
    to->extra_stop_bits = from->extra_stop_bits == 1;
    to->check_cts_before_sending = from->check_cts_before_sending == 1;
    return status;
}

/* The same, if a divisor can be computed. */
static int uart_decode_computable(const struct u16550_config *from, struct u16550_core_config *to)
{
    int status = UART_USABLE(from, config);
    if (status == U16550_OK)
        status = uart_decode_config(from, to);
    if (status != U16550_OK)
        return status;
    if (!uart_config_is_computable(to))
        return U16550_NOT_COMPUTABLE;
    return U16550_OK;
}

static void uart_encode_config(const struct u16550_core_config *from, struct u16550_config *to)
{
    bool has_prescaler = from->prescaler_division_factor.is_some;
    to->frequency = from->frequency;
    to->baud_rate = uart_baud_rate_bps(from->baud_rate);
    to->prescaler_division_factor = has_prescaler ? from->prescaler_division_factor.value : 0;
    to->has_prescaler = has_prescaler;
    to->interrupts = from->interrupts;
    to->fifo_trigger_level = (uint8_t)(from->fifo_trigger_level.is_some ? uart_encode_fifo_trigger_level(from->fifo_trigger_level.value) : 0);
    to->data_bits = uart_encode_word_length(from->data_bits);
    to->extra_stop_bits = from->extra_stop_bits;
    to->parity = from->parity;
    to->check_cts_before_sending = from->check_cts_before_sending;
}

static int uart_decode_state(const struct u16550_state *from, struct uart_driver_state *to)
{
    int status = uart_decode_config(&from->config, &to->config);
    if (status == U16550_OK)
        status = uart_check_flag(from->fifo_enabled);
    if (status == U16550_OK && from->spin_limit == 0)
        status = U16550_ZERO_LIMIT;
    if (status == U16550_OK)
        status = uart_decode_fifo_size(from->fifo_size, &to->fifo_size);
    if (status != U16550_OK)
        return status;
    to->fifo_enabled = from->fifo_enabled == 1;
    to->saved_lsr = from->saved_lsr;
    to->saved_msr = from->saved_msr;
    to->spin_limit = from->spin_limit;
    return U16550_OK;
}

static void uart_encode_state(struct uart_driver_state from, struct u16550_state *to)
{
    to->spin_limit = from.spin_limit;
    uart_encode_config(&from.config, &to->config);
    to->fifo_enabled = from.fifo_enabled;
    to->saved_lsr = from.saved_lsr;
    to->saved_msr = from.saved_msr;
    to->fifo_size = uart_encode_fifo_size(from.fifo_size);
}

static int uart_decode_setup(const struct u16550_setup *from, struct uart_setup *to)
{
    int status = from == NULL ? U16550_NULL_POINTER : uart_check_flag(from->checks_presence);
    if (status == U16550_OK)
        status = uart_check_transmitter_wait(from->wait);
    if (status != U16550_OK)
        return status;
    to->wait = from->wait;
    to->checks_presence = from->checks_presence == 1;
    to->outputs = from->outputs;
    return U16550_OK;
}

static struct uart_receive_marks uart_marks(size_t hold, size_t release)
{
    struct uart_receive_marks marks;
    marks.hold = hold;
    marks.release = release;
    return marks;
}

static void uart_encode_failure(const struct uart_loopback_failure *from, struct u16550_loopback_failure *to)
{
    to->expected = from->expected;
    to->actual = from->actual;
    uart_copy_bytes(to->expected_msg, from->expected_msg.bytes, 16);
    uart_copy_bytes(to->actual_msg, from->actual_msg.bytes, 16);
}

/* A byte that goes first, if there is one. */
static int uart_decode_urgent(const uint8_t *from, struct u16550_core_maybe_u8 *to)
{
    to->is_some = from != NULL;
    to->value = (uint8_t)(from != NULL ? *from : 0);
    return U16550_OK;
}

/* --------------------------------------------------------------- making and ending a driver */

int u16550_check_layout(uint32_t first, uint32_t second, uint32_t third)
{
    if (first != U16550_LAYOUT || second != U16550_LAYOUT || third != U16550_LAYOUT)
        return U16550_OTHER_LAYOUT;
    return U16550_OK;
}

/* Refuses functions that are not there. */
static int uart_check_io(const struct u16550_io *io)
{
    int status = UART_USABLE(io, io);
    return status == U16550_OK && (io->read == NULL || io->write == NULL) ? U16550_NULL_POINTER : status;
}

/* Refuses memory of a driver in which a call is not done. */
static int uart_check_memory(struct u16550 *uart)
{
    int status = UART_USABLE(uart, handle);
    return status == U16550_OK && uart->is_busy == UART_IS_BUSY ? U16550_BUSY : status;
}

/*
 * Begins to make a driver in memory that was looked at. A handler that comes from now on finds a call that is not done, and never a part of
 * the old driver with one of the new.
 */
static void uart_begin(struct u16550 *uart)
{
    uart->is_busy = UART_IS_BUSY;
    UART_FENCE();
}

/* Makes a driver whose functions get addresses from base on, and ends what was begun. */
static int uart_put(struct u16550 *uart, const struct u16550_io *io, uintptr_t base, uint8_t stride, const struct uart_driver_state *state)
{
    struct u16550_device device;
    device.io = *io;
    device.base = base;
    device.stride = stride;
    uart->mark = UART_MARK;
    uart->has_rings = false;
    uart->ring.uart = state == NULL ? uart_new_with_backend(device) : uart_from_state(device, state);
    return uart_leave(uart, U16550_OK);
}

/* Makes a driver, unless it is refused, or its memory or its functions are not there. */
static int uart_make(struct u16550 *uart, const struct u16550_io *io, uintptr_t base, uint8_t stride, int refused)
{
    int status = uart_check_memory(uart);
    if (status == U16550_OK)
        status = UART_USABLE(io, io);
    if (status == U16550_OK)
        status = refused;
    if (status == U16550_OK)
        status = uart_check_io(io);
    if (status != U16550_OK)
        return status;
    uart_begin(uart);
    return uart_put(uart, io, base, stride, NULL);
}

/* Refuses registers in memory that cannot be there. */
static int uart_check_place(uintptr_t base, uint8_t stride)
{
    if (base == 0)
        return U16550_BAD_BASE;
    if (stride == 0 || (stride & (stride - 1)) != 0)
        return U16550_BAD_STRIDE;
    if (base > UINTPTR_MAX - uart_distance(UART_SPR, stride))
        return U16550_BAD_BASE;
    return U16550_OK;
}

int (u16550_new)(struct u16550 *uart, const struct u16550_io *io)
{
    return uart_make(uart, io, 0, 1, U16550_OK);
}

int (u16550_new_port)(struct u16550 *uart, const struct u16550_io *io, uint16_t base)
{
    int refused = U16550_OK;
    if (base > UINT16_MAX - UART_SPR)
        refused = U16550_BAD_BASE;
    return uart_make(uart, io, base, 1, refused);
}

int (u16550_new_mmio)(struct u16550 *uart, const struct u16550_io *io, uintptr_t base, uint8_t stride)
{
    return uart_make(uart, io, base, stride, uart_check_place(base, stride));
}

int (u16550_from_state)(struct u16550 *uart, const struct u16550_io *io, const struct u16550_state *state)
{
    struct uart_driver_state decoded;
    int status = uart_check_memory(uart);
    if (status == U16550_OK)
        status = UART_USABLE(io, io);
    if (status == U16550_OK)
        status = UART_USABLE(state, state);
    if (status == U16550_OK)
        status = uart_check_io(io);
    if (status == U16550_OK)
        status = uart_decode_state(state, &decoded);
    if (status != U16550_OK)
        return status;
    uart_begin(uart);
    return uart_put(uart, io, 0, 1, &decoded);
}

int u16550_end(struct u16550 *uart)
{
    int status = uart_enter(uart);
    if (status != U16550_OK)
        return status;
    uart->mark = 0;
    return uart_leave(uart, U16550_OK);
}

int u16550_get_io(struct u16550 *uart, struct u16550_io *io)
{
    struct u16550_io found;
    int status = UART_USABLE(io, io);
    if (status == U16550_OK)
        status = uart_enter(uart);
    if (status != U16550_OK)
        return status;
    found = uart_backend(&uart->ring.uart)->io;
    uart_leave(uart, U16550_OK);
    *io = found;
    return U16550_OK;
}

int u16550_set_io(struct u16550 *uart, const struct u16550_io *io)
{
    int status = uart_enter(uart);
    if (status != U16550_OK)
        return status;
    status = uart_check_io(io);
    if (status == U16550_OK)
        uart_backend_mut(&uart->ring.uart)->io = *io;
    return uart_leave(uart, status);
}

int u16550_test_loopback(struct u16550 *uart, struct u16550_loopback_failure *failure)
{
    struct uart_loopback_failure found = { 0, 0, { { 0 } }, { { 0 } } };
    int status = uart_enter(uart);
    if (status != U16550_OK)
        return status;
    status = uart_test_loopback(&uart->ring.uart, &found);
    if (status != U16550_OK && failure != NULL)
        uart_encode_failure(&found, failure);
    return uart_leave(uart, status);
}

int u16550_check_configured(struct u16550 *uart, uint8_t outputs, struct u16550_difference *difference)
{
    struct u16550_difference found = { 0, 0 };
    int status = uart_enter(uart);
    if (status != U16550_OK)
        return status;
    status = UART_ALIGNED(difference, difference);
    if (status != U16550_OK)
        return uart_leave(uart, status);
    status = uart_check_configured(&uart->ring.uart, outputs, &found);
    if (status != U16550_OK && difference != NULL)
        *difference = found;
    return uart_leave(uart, status);
}

/* Brings the chip into a state in which text goes out. */
static int uart_take_over(struct u16550_core_driver *uart)
{
    const uint8_t blocking = U16550_LCR_DLAB | U16550_LCR_SET_BREAK;
    uint8_t lcr = uart_lcr(uart);
    uint8_t kept;
    /* A UART of DesignWare takes no new LCR while it is busy. */
    for (uint64_t writes = 0; writes < uart->spin_limit && (lcr & blocking) != 0; writes++) {
        uart_device_write(&uart->backend, UART_LCR, (uint8_t)(lcr & ~blocking));
        lcr = uart_lcr(uart);
    }
    if ((lcr & blocking) != 0)
        return U16550_ATTACH_DIVISOR_LATCH_OPEN;
    uart_device_write(&uart->backend, UART_IER, 0);
    /* The other outputs stay: loopback and a flow control by the chip would hold text back. */
    kept = uart_mcr(uart) & (U16550_MCR_OUT_1 | U16550_MCR_OUT_2_INT_ENABLE);
    uart_set_modem_control(uart, kept | U16550_MCR_DTR | U16550_MCR_RTS);
    if ((uart_mcr(uart) & U16550_MCR_LOOP_BACK) != 0)
        return U16550_ATTACH_LOOPBACK;
    return U16550_OK;
}

int u16550_emergency(struct u16550 *uart)
{
    struct u16550_core_driver console;
    int status = uart_enter(uart);
    if (status != U16550_OK)
        return status;
    if (uart->has_rings)
        return uart_leave(uart, U16550_HAS_RINGS);
    console = uart_new_with_backend(uart->ring.uart.backend);
    uart_set_spin_limit(&console, uart->ring.uart.spin_limit);
    /* Nobody knows whether the FIFOs are on. If they are off, the second byte of a burst would be lost. */
    console.fifo_enabled = false;
    status = uart_take_over(&console);
    if (status == U16550_OK)
        uart->ring.uart = console;
    return uart_leave(uart, status);
}

const char *u16550_version(void)
{
    return U16550_VERSION;
}

int u16550_default_config(struct u16550_config *config)
{
    struct u16550_device device = { { NULL, NULL, NULL }, 0, 0 };
    struct u16550_core_driver fresh;
    int status = UART_USABLE(config, config);
    if (status != U16550_OK)
        return status;
    fresh = uart_new_with_backend(device);
    uart_encode_config(&fresh.config, config);
    return U16550_OK;
}

int u16550_nearest(const struct u16550_config *config, uint32_t per_mille, struct u16550_config *nearest)
{
    struct u16550_core_config decoded, found;
    int status = UART_USABLE(nearest, config);
    if (status == U16550_OK)
        status = uart_decode_computable(config, &decoded);
    if (status != U16550_OK)
        return status;
    status = uart_config_nearest(decoded, per_mille, &found);
    if (status == U16550_OK)
        uart_encode_config(&found, nearest);
    return status;
}

int u16550_dump_divisor(const struct u16550_dump *dump, uint16_t *divisor)
{
    int status = UART_USABLE(divisor, u16);
    if (status == U16550_OK && dump == NULL)
        status = U16550_NULL_POINTER;
    if (status == U16550_OK)
        *divisor = uart_config_register_dump_divisor(dump);
    return status;
}

int u16550_dump_baud_rate(const struct u16550_dump *dump, const struct u16550_config *config, uint32_t *baud_rate)
{
    struct u16550_core_baud_rate rate;
    struct u16550_core_config decoded;
    int status = UART_USABLE(baud_rate, u32);
    if (status == U16550_OK && dump == NULL)
        status = U16550_NULL_POINTER;
    if (status == U16550_OK)
        status = UART_USABLE(config, config);
    if (status == U16550_OK)
        status = uart_decode_config(config, &decoded);
    if (status != U16550_OK)
        return status;
    if (decoded.frequency == 0 ||
        (decoded.prescaler_division_factor.is_some && decoded.prescaler_division_factor.value > UART_MAX_PRESCALER))
        return U16550_NOT_COMPUTABLE;
    status = uart_config_register_dump_baud_rate(dump, &decoded, &rate);
    if (status == U16550_OK)
        *baud_rate = uart_baud_rate_bps(rate);
    return status;
}

/* --------------------------------------------------------------- rings and lines */

int u16550_ring_new(struct u16550 *uart, uint8_t *memory, size_t size, size_t tx_capacity, size_t rx_capacity)
{
    struct u16550_core_driver driver;
    struct u16550_core_ring made;
    struct uart_memory cells = { memory, size };
    int status = uart_enter(uart);
    if (status != U16550_OK)
        return status;
    status = uart->has_rings ? U16550_HAS_RINGS : uart_array(memory, size, 1, 1);
    if (status != U16550_OK)
        return uart_leave(uart, status);
    status = uart_ring_new(&cells, uart->ring.uart, tx_capacity, rx_capacity, &made, &driver);
    if (status != U16550_OK)
        return uart_leave(uart, status);
    uart->ring = made;
    uart->has_rings = true;
    return uart_leave(uart, U16550_OK);
}

int u16550_ring_end(struct u16550 *uart)
{
    int status = uart_enter_rings(uart);
    if (status != U16550_OK)
        return status;
    uart->has_rings = false;
    return uart_leave(uart, U16550_OK);
}

int u16550_ring_stuck(struct u16550 *uart, struct u16550_stuck *stuck)
{
    struct u16550_core_stuck_error found;
    int status = stuck == NULL ? U16550_NULL_POINTER : uart_enter_rings(uart);
    if (status != U16550_OK)
        return status;
    stuck->is_stuck = uart_ring_stuck(&uart->ring, &found);
    uart_leave(uart, U16550_OK);
    stuck->isr = 0;
    if (stuck->is_stuck && found.kind == U16550_RING_STUCK_UNKNOWN)
        stuck->isr = found.unknown & 0x0f;
    else if (stuck->is_stuck)
        stuck->isr = uart_interrupt_type_to_bits(found.pending);
    return U16550_OK;
}

static inline size_t uart_line_ports_number(const struct uart_line_ports *ports)
{
    return ports->count;
}

/* The port of this number. A compiler would call a multiplication where a processor has none. */
static struct u16550_line_port *uart_line_port(struct u16550_line_port *ports, size_t port)
{
    return (struct u16550_line_port *)(void *)((uint8_t *)ports + uart_times(port, sizeof(struct u16550_line_port)));
}

static bool
uart_line_ports_lower(struct uart_line_ports *ports, size_t port, size_t limit, uint32_t rounds)
{
    struct u16550_line_port *at = uart_line_port(ports->ports, port);
    struct uart_lowered lowered;
    at->handled.served = 0;
    at->handled.end = U16550_HANDLE_IDLE;
    at->status = uart_enter_rings(at->uart);
    if (at->status != U16550_OK)
        return false;
    lowered = uart_ring_lower_line(&at->uart->ring, limit, rounds);
    uart_leave(at->uart, U16550_OK);
    at->enabled = lowered.enabled;
    at->status = lowered.handled.error.kind;
    if (at->status != U16550_OK)
        return false;
    at->handled = lowered.handled.value;
    return at->handled.served > 0;
}

static void uart_line_ports_raise(struct uart_line_ports *ports, size_t port)
{
    struct u16550_line_port *at = uart_line_port(ports->ports, port);
    if (uart_enter_rings(at->uart) != U16550_OK)
        return;
    uart_ring_raise_line(&at->uart->ring, at->enabled);
    uart_leave(at->uart, U16550_OK);
}

int u16550_line_handle(struct u16550_line_port *ports, size_t count, size_t limit, uint32_t rounds, uint8_t *served)
{
    struct uart_line_ports line = { ports, count };
    int status = served == NULL ? U16550_NULL_POINTER :
        uart_array(ports, count, sizeof(struct u16550_line_port), offsetof(struct uart_aligned_port, value));
    for (size_t port = 0; status == U16550_OK && port < count; port++) {
        struct u16550 *uart = uart_line_port(ports, port)->uart;
        status = uart_enter_rings(uart);
        if (status == U16550_OK)
            uart_leave(uart, U16550_OK);
    }
    if (status == U16550_OK)
        *served = uart_handle_line(&line, limit, rounds);
    return status;
}

/* Returns whether a text is UTF-8: no overlong form, no surrogate, nothing above U+10FFFF. */
static bool uart_is_utf8(const uint8_t *text, size_t len)
{
    size_t at = 0;
    while (at < len) {
        uint8_t first = text[at++];
        uint8_t low = 0x80, high = 0xbf;
        unsigned more;
        if (first < 0x80)
            continue;
        if (first < 0xc2 || first > 0xf4)
            return false;
        more = first < 0xe0 ? 1u : first < 0xf0 ? 2u : 3u;
        if (first == 0xe0)
            low = 0xa0;
        else if (first == 0xed)
            high = 0x9f;
        else if (first == 0xf0)
            low = 0x90;
        else if (first == 0xf4)
            high = 0x8f;
        for (; more > 0; more--) {
            if (at == len || text[at] < low || text[at] > high)
                return false;
            low = 0x80;
            high = 0xbf;
            at++;
        }
    }
    return true;
}

/* Sends a text over a terminal, which has the driver meanwhile. */
static int uart_send_text(struct u16550 *uart, const char *text, size_t len, size_t *done, bool is_checked)
{
    const uint8_t *bytes = (const uint8_t *)text;
    struct uart_tty terminal;
    size_t sent = 0;
    int status = UART_ALIGNED(done, size);
    if (status == U16550_OK)
        status = uart_enter(uart);
    if (status != U16550_OK)
        return status;
    status = uart_array(bytes, len, 1, 1);
    if (status == U16550_OK && is_checked && !uart_is_utf8(bytes, len))
        status = U16550_NOT_UTF8;
    if (status != U16550_OK)
        return uart_leave(uart, status);
    terminal.inner = uart->ring.uart;
    status = uart_tty_write_raw_text(&terminal, bytes, len, &sent);
    uart->ring.uart = terminal.inner;
    uart_leave(uart, U16550_OK);
    if (status != U16550_OK && done != NULL)
        *done = sent;
    return status;
}

int u16550_write_text(struct u16550 *uart, const char *text, size_t len, size_t *done)
{
    return uart_send_text(uart, text, len, done, true);
}

int u16550_write_raw_text(struct u16550 *uart, const char *text, size_t len, size_t *done)
{
    return uart_send_text(uart, text, len, done, false);
}
