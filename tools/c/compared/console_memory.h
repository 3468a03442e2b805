/* The registers of the console that is compared, in memory; and barriers that are counted, of the console and of the driver. */
#include <stdint.h>

extern uint32_t registers_of_console[];
extern unsigned barriers;

#define U16550_CONSOLE_BASE registers_of_console
#define U16550_CONSOLE_POLLS 5
#define U16550_BARRIER() ((void)barriers++)
