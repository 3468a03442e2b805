/* All calls of u16550_console.h, any number of them in any order, over a chip that answers anything. */
#include "any.h"
#include "u16550_console.h"

/* ---- what calls return */

/*@ ensures returns: \result == U16550_CONSOLE_OK || \result == U16550_CONSOLE_DEVICE_NOT_PRESENT || \result == U16550_CONSOLE_INIT_STALLED; */
int u16550_console_init(struct u16550_console *uart);

/*@ ensures returns: \result == U16550_CONSOLE_OK || \result == U16550_CONSOLE_DIVISOR_LATCH_OPEN || \result == U16550_CONSOLE_LOOPBACK
        || \result == U16550_CONSOLE_NO_DIVISOR; */
int u16550_console_attach(struct u16550_console *uart);

/*@ ensures returns: \result == U16550_CONSOLE_OK || U16550_CONSOLE_LOOPBACK_NO_CAPACITY <= \result <= U16550_CONSOLE_LOOPBACK_STALLED; */
int u16550_console_test_loopback(struct u16550_console *uart);

/*@ ensures returns: \result == U16550_CONSOLE_OK || \result == U16550_CONSOLE_STALLED; */
int u16550_console_put(struct u16550_console *uart, uint8_t byte);

/*@ ensures returns: \result == U16550_CONSOLE_OK || \result == U16550_CONSOLE_NO_CAPACITY; */
int u16550_console_try_put(struct u16550_console *uart, uint8_t byte);

/*@ ensures returns: -1 <= \result <= 255; */
int u16550_console_get(struct u16550_console *uart);

/*@ ensures returns: \result == U16550_CONSOLE_OK || \result == U16550_CONSOLE_STALLED; */
int u16550_console_write_text(struct u16550_console *uart, const char *text, size_t len);

/*@ ensures returns: \result == U16550_CONSOLE_OK || \result == U16550_CONSOLE_DIVISOR_LATCH_OPEN || \result == U16550_CONSOLE_LOOPBACK; */
int u16550_console_emergency(struct u16550_console *uart);

/* ---- the calls */

enum { ROOM = 40 };

static struct u16550_console console;
static uint8_t bytes[ROOM];

static void any_call(void)
{
    size_t len = below(ROOM + 1);
    switch (below(10)) {
    case 0: u16550_console_init(&console); break;
    case 1: u16550_console_attach(&console); break;
    case 2: u16550_console_test_loopback(&console); break;
    case 3: u16550_console_put(&console, any_byte()); break;
    case 4: u16550_console_try_put(&console, any_byte()); break;
    case 5: u16550_console_get(&console); break;
    case 6: u16550_console_send(&console, bytes, len); break;
    case 7: u16550_console_write_text(&console, (const char *)bytes, len); break;
    case 8: u16550_console_emergency(&console); break;
    default: u16550_console_lsr(&console); break;
    }
}

int main(void)
{
    any_bytes(bytes, ROOM);
    while (below(2))
        any_call();
    return 0;
}
