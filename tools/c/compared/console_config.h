/* The device of the console that is compared, and its numbers: those of `console.h`. */
#include <stdint.h>

uint8_t read_of_console(unsigned offset);
void write_of_console(unsigned offset, uint8_t value);

#define U16550_CONSOLE_READ(offset) read_of_console(offset)
#define U16550_CONSOLE_WRITE(offset, value) write_of_console(offset, value)
/* A divisor with two bytes that are not 0: 291. */
#define U16550_CONSOLE_FREQUENCY 1396800
#define U16550_CONSOLE_BAUD_RATE 300
#define U16550_CONSOLE_POLLS 5
