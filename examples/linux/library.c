// SPDX-License-Identifier: MIT OR GPL-2.0-only
/*
 * The library as a part of this module: u16550.c, with the kernel's types in place of those of the
 * C compiler's headers.
 */
#include <linux/types.h>

#define U16550_HAS_TYPES
#include "u16550.c"
