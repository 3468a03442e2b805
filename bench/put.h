/* What the drivers have that integration/sizes-of-c compares: where the chip is, its divisor, and when a wait ends. */
#ifndef PUT_H
#define PUT_H

#include <stdbool.h>
#include <stddef.h>
#include <stdint.h>

#ifdef BYTES
extern volatile uint8_t cells[8];
#define U16550_CONSOLE_BASE ((uintptr_t)cells)
#else
#define U16550_CONSOLE_BASE 0x10000000
#endif
enum { DIVISOR = 1, POLLS = 1000000 };

int hand_init(void);
int hand_test_loopback(void);
int hand_put(uint8_t byte);
int hand_get(void);
size_t hand_send(const uint8_t *bytes, size_t len);
int hand_write_text(const char *text, size_t len);
uint8_t hand_lsr(void);

#endif
