// SPDX-FileCopyrightText: 2026 Geesetrunk
// SPDX-License-Identifier: MIT OR Apache-2.0

// COM1 of Bochs over c/uart_port.c, in the place of its iodev/serial.cc. The terminal is named by a line of the settings, as
// com1: dev=/dev/pts/3

#define BX_PLUGGABLE

#include "iodev.h"
#include <fcntl.h>
#include <unistd.h>

#include "uart_port.c" // which is C++ too

static const unsigned FIRST = 0x3f8, IRQ = 4;
// After so many microseconds of the guest the host is asked for input again, and whether it takes output.
static const Bit32u HOST_USEC = 1000;
static char terminal[BX_PATHNAME_LEN];

class uart_c final : public bx_devmodel_c {
    uart_port port;
    uart_todo todo;
    int host = -1;

    // Does what the last call of the port asks for. A PC's controller detects edges: it is to see one for each signal.
    void obey() {
        for (;;) {
            if (todo.signal || !todo.level) DEV_pic_lower_irq(IRQ);
            if (todo.level) DEV_pic_raise_irq(IRQ);
            ssize_t taken = todo.ready == 0 ? 0 : ::write(host, uart_port_output(&port), todo.ready);
            if (taken <= 0) return;
            // What the host does not take stays in the port, which holds the guest back.
            uart_port_take_output(&port, taken, &todo);
        }
    }
    // Asks the host. What the port has no room for stays there.
    void ask() {
        Bit8u input[UART_FIFO_ROOM];
        uart_port_take_output(&port, 0, &todo), obey();
        ssize_t came = ::read(host, input, uart_chip_receive_room(&port.chip));
        if (came > 0) uart_port_receive(&port, input, came, &todo), obey();
    }
    static Bit32u read_handler(void *self, Bit32u address, unsigned len) {
        uart_c *uart = static_cast<uart_c *>(self);
        Bit32u value = 0;
        for (unsigned i = 0; i < len; i++) {
            value |= Bit32u(uart_port_read(&uart->port, address + i, &uart->todo)) << 8 * i;
            uart->obey();
        }
        return value;
    }
    static void write_handler(void *self, Bit32u address, Bit32u value, unsigned len) {
        uart_c *uart = static_cast<uart_c *>(self);
        for (unsigned i = 0; i < len; i++) {
            uart_port_write(&uart->port, address + i, value >> 8 * i, &uart->todo);
            uart->obey();
        }
    }

public:
    uart_c() { put("serial", "SER"); }
    ~uart_c() { ::close(host), SIM->get_bochs_root()->remove("serial"); }
    void init() override {
        uart_port_new(&port, UART_16550A);
        uart_port_set_lines(&port, UART_MSR_CTS | UART_MSR_DSR | UART_MSR_CD, &todo);
        if ((host = ::open(terminal, O_RDWR | O_NOCTTY | O_NONBLOCK)) < 0) panic("com1: '%s' cannot be opened", terminal);
        DEV_register_irq(IRQ, "COM1");
        DEV_register_ioread_handler_range(this, read_handler, FIRST, FIRST + 7, "COM1", 3);
        DEV_register_iowrite_handler_range(this, write_handler, FIRST, FIRST + 7, "COM1", 3);
        DEV_register_timer(this, [](void *self) { static_cast<uart_c *>(self)->ask(); }, HOST_USEC, true, true, "serial.host");
    }
    void register_state() override {
        bx_list_c *state = new bx_list_c(SIM->get_bochs_root(), "serial", "COM1");
        new bx_shadow_data_c(state, "chip", reinterpret_cast<Bit8u *>(&port.chip), sizeof port.chip);
    }
    // What is restored may be anything: it is the chip of a port, or refused.
    void after_restore_state() override {
        uart_chip saved = port.chip;
        if (uart_port_load(&port, &saved, &todo) != UART_OK) panic("com1: no port was saved");
        obey();
    }
};

static uart_c *uart;

static Bit32s parse_com1(const char *, int count, char *words[]) {
    for (int i = 1; i < count; i++) sscanf(words[i], "dev=%511s", terminal);
    return 0;
}

PLUGIN_ENTRY_FOR_MODULE(serial) {
    if (mode == PLUGIN_PROBE) return PLUGTYPE_OPTIONAL;
    if (mode == PLUGIN_FINI) delete uart;
    if (mode != PLUGIN_INIT) return 0;
    uart = new uart_c;
    BX_REGISTER_DEVICE_DEVMODEL(plugin, type, uart, BX_PLUGIN_SERIAL);
    SIM->register_addon_option("com1", parse_com1, NULL);
    return 0;
}
