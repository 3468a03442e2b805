/* What GXemul's dev_ns16550.c needs of GXemul, for a chip alone. Its headers are empty files; comreg.h is its own. */
#ifndef AROUND_H
#define AROUND_H

#include <stddef.h>
#include <stdint.h>

struct interrupt { int line; };
struct cpu;
struct memory;
struct machine { int x, y; struct memory *memory; };
struct devinit {
    struct machine *machine;
    char *name, *name2, *interrupt_path;
    uint64_t addr, len;
    int addr_mult, in_use, dma_irqnr, *return_ptr;
};
enum { MEM_READ, MEM_WRITE, DM_DEFAULT = 0 };

#define DEVICE_TICK(name) void dev_##name##_tick(struct cpu *cpu, void *extra)
#define DEVICE_ACCESS(name) \
    int dev_##name##_access(struct cpu *cpu, struct memory *mem, uint64_t relative_addr, unsigned char *data, size_t len, \
                            int writeflag, void *extra)
#define DEVINIT(name) int devinit_##name(struct devinit *devinit)
#define INTERRUPT_ASSERT(interrupt) ((interrupt).line = 1)
#define INTERRUPT_DEASSERT(interrupt) ((interrupt).line = 0)
#define INTERRUPT_CONNECT(path, interrupt) ((void)0)
#define CHECK_ALLOCATION(pointer) ((void)(pointer))
#define memory_readmax64(cpu, data, len) ((uint64_t)*(data))
#define memory_writemax64(cpu, data, len, value) (*(data) = (unsigned char)(value))
#define memory_device_register(...) ((void)0)
#define machine_add_tickfunction(...) ((void)0)
#define console_start_slave(...) 1
#define debug(...) ((void)0)
#define fatal(...) ((void)0)
#define debugmsg(...) ((void)0)
#define debugmsg_cpu(...) ((void)0)

int console_charavail(int handle), console_readchar(int handle);
void console_putchar(int handle, int character), console_makeavail(int handle, char character);

#endif
