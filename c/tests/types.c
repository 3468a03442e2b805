/* A file of C where there is neither <stddef.h> nor <stdint.h>, as in a kernel: the types are here, and no limits. INCLUDED is the file. */
#define U16550_HAS_TYPES
#define NULL ((void *)0)
#define bool _Bool
#define true 1
#define false 0
#define offsetof(type, member) __builtin_offsetof(type, member)
typedef __SIZE_TYPE__ size_t;
typedef __UINTPTR_TYPE__ uintptr_t;
typedef __UINT8_TYPE__ uint8_t;
typedef __UINT16_TYPE__ uint16_t;
typedef __UINT32_TYPE__ uint32_t;
typedef __UINT64_TYPE__ uint64_t;
#include INCLUDED
