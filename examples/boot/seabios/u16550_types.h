/* SPDX-License-Identifier: MIT OR Apache-2.0 */
/* The types of stdint.h, stdbool.h and stddef.h that the files of C use, by SeaBIOS's own, which has none of these headers. */
#ifndef U16550_HAS_TYPES
#define U16550_HAS_TYPES
typedef u8 uint8_t;
typedef u16 uint16_t;
typedef u32 uint32_t;
typedef u64 uint64_t;
typedef u32 uintptr_t;
typedef _Bool bool;
#define true 1
#define false 0
#endif
