/* ---- the functions of the header, by hand: errors as numbers */

int u16550_console_init(struct u16550_console *uart)
{
    return uart_set_up(uart, U16550_CONSOLE_DIVISOR);
}

int u16550_console_attach(struct u16550_console *uart)
{
    struct uart_latch latch;
    return uart_attach(uart, &latch);
}

int u16550_console_test_loopback(struct u16550_console *uart)
{
    return uart_test_loopback(uart);
}

int u16550_console_put(struct u16550_console *uart, uint8_t byte)
{
    return uart_send_one(uart, byte);
}

int u16550_console_try_put(struct u16550_console *uart, uint8_t byte)
{
    return uart_try_send_byte(uart, byte);
}

int u16550_console_get(struct u16550_console *uart)
{
    uint8_t byte;
    if (!uart_try_receive_byte(uart, &byte))
        return -1;
    /* Not by `?`, of which SDCC 4.2 makes a byte with a sign. */
    return byte;
}

size_t u16550_console_send(struct u16550_console *uart, const uint8_t *bytes, size_t len)
{
    size_t done;
    return uart_send_bytes_exact(uart, bytes, len, &done) == U16550_CONSOLE_OK ? len : done;
}

int u16550_console_write_text(struct u16550_console *uart, const char *text, size_t len)
{
    size_t done;
    return uart_tty_write_raw_text(uart, (const uint8_t *)text, len, &done);
}

int u16550_console_emergency(struct u16550_console *uart)
{
    const uint8_t blocking = U16550_LCR_DLAB | U16550_LCR_SET_BREAK;
    uint8_t lcr = uart_device_read(UART_LCR);
    uint8_t kept;
    /* A UART of DesignWare takes no new LCR while it is busy. */
    for (uint32_t writes = 0; writes < U16550_CONSOLE_POLLS && (lcr & blocking) != 0; writes++) {
        uart_device_write(UART_LCR, (uint8_t)(lcr & ~blocking));
        lcr = uart_device_read(UART_LCR);
    }
    if ((lcr & blocking) != 0)
        return U16550_CONSOLE_DIVISOR_LATCH_OPEN;
    uart_device_write(UART_IER, 0);
    /* The other outputs stay: loopback and a flow control by the chip would hold text back. */
    kept = uart_device_read(UART_MCR) & (U16550_MCR_OUT_1 | U16550_MCR_OUT_2_INT_ENABLE);
    uart_set_modem_control(kept | U16550_MCR_DTR | U16550_MCR_RTS);
    if ((uart_device_read(UART_MCR) & U16550_MCR_LOOP_BACK) != 0)
        return U16550_CONSOLE_LOOPBACK;
    /* Nobody knows whether the FIFOs are on. If they are off, the second byte of a burst would be lost. */
    uart->fifo_enabled = false;
    uart->saved_lsr = 0;
    return U16550_CONSOLE_OK;
}

uint8_t u16550_console_lsr(struct u16550_console *uart)
{
    return uart_lsr(uart);
}
