// SPDX-License-Identifier: MIT OR GPL-2.0-only
/*
 * A module that makes faults in each access of u16550_tty to a chip, as long as it is there, or of
 * the module that module= names. reads_at= and writes_at= are the addresses of other functions, as
 * those of Linux's own driver, and base= is the only chip whose accesses count. fault= says which:
 *
 * panic	a panic in the middle of a call of the library
 * stuck	a chip whose ISR shows an interrupt without a name for ever
 * stolen	somebody else who looks at ISR behind each byte that is sent, and so takes the
 *		transmitter's interrupt away
 * fifos	none: the chip is a 16750, whose FIFOs hold 64 characters once it was told
 * freed	one of its own, at its beginning: memory is read that was freed
 * locked	one of its own, at its beginning: of two locks of one kind both are taken
 * watchdog	none: counts how often the module has told the watchdog that all is well, and says
 *		so in the kernel's log at its end
 * debugger	none: it stops at an access in the middle of a call, and talks through the port as
 *		kgdb would, by poll_put_char and poll_get_char. It ends with the first character.
 */
#include <linux/io.h>
#include <linux/kallsyms.h>
#include <linux/kprobes.h>
#include <linux/module.h>
#include <linux/serial_core.h>
#include <linux/serial_reg.h>
#include <linux/slab.h>
#include <linux/spinlock.h>

#define UNKNOWN_INTERRUPT 0x08
/* What ISR shows of FIFOs that are on, and of those of 64. */
#define FIFO_BITS 0xc0
#define FIFO_64_BIT 0x20

static char *fault = "panic", *module = "u16550_tty";
module_param(fault, charp, 0444);
module_param(module, charp, 0444);

static unsigned long reads_at, writes_at, base;
module_param(reads_at, ulong, 0444);
module_param(writes_at, ulong, 0444);
module_param(base, ulong, 0444);

/*
 * How often a debugger asks for a character. An access takes about a microsecond, and in an
 * emulator some: for longer than the test waits, whose host may be slow.
 */
#define MOST_ASKED 60000000

/* For how many looks at LSR the emulator's transmitter, which holds 16, is waited for. */
#define MOST_LOOKS 100000

static bool has_stopped;
static unsigned int told;

/*
 * What the 16750 keeps: its own FIFO behind its loopback, and whether it was told. All is done with
 * the port's lock.
 */
static u8 looped[64];
static unsigned int put, taken;
static bool is_latched, loops, has_64;
module_param(has_64, bool, 0444);

struct access {
	unsigned long base, offset;
};

/*
 * The functions are called with the context, which begins with the port, the offset of the
 * register, and the value that is written.
 */
static struct access access_of(struct pt_regs *registers)
{
	return (struct access){
		.base = ((struct uart_port *)regs_get_kernel_argument(registers, 0))->iobase,
		.offset = regs_get_kernel_argument(registers, 1),
	};
}

static bool counts(struct access access)
{
	return !base || access.base == base;
}

static void debug(struct uart_port *port)
{
#ifdef CONFIG_CONSOLE_POLL
	int asked, character = NO_POLL_CHAR;
	const char *text;

	for (text = "stopped\n"; *text; text++)
		port->ops->poll_put_char(port, *text);
	for (asked = 0; asked < MOST_ASKED && character == NO_POLL_CHAR; asked++)
		character = port->ops->poll_get_char(port);
	port->ops->poll_put_char(port, character == NO_POLL_CHAR ? '?' : character);
#endif
}

/* Behind its transmitter is the emulator's, which has less room. */
static void wait_for_room(unsigned long base)
{
	int looks = 0;

	while (!(inb(base + UART_LSR) & UART_LSR_THRE) && looks < MOST_LOOKS)
		looks++;
}

static void write_16750(struct access access, u8 value)
{
	switch (access.offset) {
	case UART_LCR:
		is_latched = value & UART_LCR_DLAB;
		break;
	case UART_MCR:
		loops = value & UART_MCR_LOOP;
		break;
	case UART_FCR:
		if (is_latched)
			has_64 = value & UART_FCR7_64BYTE;
		if (value & (UART_FCR_CLEAR_RCVR | UART_FCR_CLEAR_XMIT))
			taken = put;
		break;
	case UART_TX:
		if (is_latched)
			break;
		if (!loops)
			wait_for_room(access.base);
		else if (put - taken < (has_64 ? sizeof(looped) : 16))
			looped[put++ % sizeof(looped)] = value;
	}
}

static u8 read_16750(struct access access, u8 value)
{
	switch (access.offset) {
	case UART_IIR:
		return has_64 && (value & FIFO_BITS) ? value | FIFO_64_BIT : value;
	case UART_LSR:
		return !loops ? value : taken != put ? value | UART_LSR_DR : value & ~UART_LSR_DR;
	case UART_RX:
		if (loops && !is_latched && taken != put)
			return looped[taken++ % sizeof(looped)];
	}
	return value;
}

/* Without the access there is no look at what it returns either. */
static int before_read(struct kretprobe_instance *call, struct pt_regs *registers)
{
	if (!counts(access_of(registers)))
		return 1;
	if (!strcmp(fault, "debugger") && !has_stopped) {
		has_stopped = true;	/* what the debugger reads comes here too */
		debug((struct uart_port *)regs_get_kernel_argument(registers, 0));
	}
	if (!strcmp(fault, "panic"))
		panic("in the middle of a call");
	*(struct access *)call->data = access_of(registers);
	return 0;
}

static int behind_read(struct kretprobe_instance *call, struct pt_regs *registers)
{
	struct access *access = (struct access *)call->data;

	if (!strcmp(fault, "stuck") && access->offset == UART_IIR)
		regs_set_return_value(registers, UNKNOWN_INTERRUPT);
	if (!strcmp(fault, "fifos"))
		regs_set_return_value(registers, read_16750(*access, regs_return_value(registers)));
	return 0;
}

static int before_write(struct kretprobe_instance *call, struct pt_regs *registers)
{
	if (!counts(access_of(registers)))
		return 1;
	*(struct access *)call->data = access_of(registers);
	if (!strcmp(fault, "fifos"))
		write_16750(access_of(registers), regs_get_kernel_argument(registers, 2));
	return 0;
}

static int behind_write(struct kretprobe_instance *call, struct pt_regs *registers)
{
	struct access *access = (struct access *)call->data;

	if (!strcmp(fault, "stolen") && access->offset == UART_TX)
		inb(access->base + UART_IIR);
	return 0;
}

static int behind_touch(struct kretprobe_instance *call, struct pt_regs *registers)
{
	char caller[KSYM_SYMBOL_LEN];

	sprint_symbol(caller, get_kretprobe_retaddr(call));
	if (strstr(caller, module))
		told++;
	return 0;
}

static char read_name[64], write_name[64];

static struct kretprobe touches = {
	.kp.symbol_name = "touch_softlockup_watchdog",
	.handler = behind_touch,
	.maxactive = 8,
};

static struct kretprobe reads = {
	.kp.symbol_name = read_name,
	.entry_handler = before_read,
	.handler = behind_read,
	.data_size = sizeof(struct access),
	.maxactive = 8,
};

static struct kretprobe writes = {
	.kp.symbol_name = write_name,
	.entry_handler = before_write,
	.handler = behind_write,
	.data_size = sizeof(struct access),
	.maxactive = 8,
};

static struct kretprobe *accesses[] = { &reads, &writes };

/* For a kernel that looks after itself. */
static void read_freed(void)
{
	u8 *memory = kzalloc(8, GFP_KERNEL);

	kfree(memory);
	OPTIMIZER_HIDE_VAR(memory);
	if (memory)
		READ_ONCE(*memory);
}

static void lock_both(void)
{
	static spinlock_t locks[2];
	int index;

	for (index = 0; index < ARRAY_SIZE(locks); index++)
		spin_lock_init(&locks[index]);
	spin_lock(&locks[0]);
	spin_lock(&locks[1]);
	spin_unlock(&locks[1]);
	spin_unlock(&locks[0]);
}

static int __init begin(void)
{
	if (!strcmp(fault, "freed"))
		read_freed();
	if (!strcmp(fault, "locked"))
		lock_both();
	if (!strcmp(fault, "watchdog"))
		return register_kretprobe(&touches);
	if (reads_at && writes_at) {
		reads.kp = (struct kprobe){ .addr = (kprobe_opcode_t *)reads_at };
		writes.kp = (struct kprobe){ .addr = (kprobe_opcode_t *)writes_at };
	}
	snprintf(read_name, sizeof(read_name), "%s:read_register", module);
	snprintf(write_name, sizeof(write_name), "%s:write_register", module);
	return register_kretprobes(accesses, ARRAY_SIZE(accesses));
}

static void __exit end(void)
{
	if (strcmp(fault, "watchdog")) {
		unregister_kretprobes(accesses, ARRAY_SIZE(accesses));
		return;
	}
	unregister_kretprobe(&touches);
	pr_info("faults: the watchdog was told %u times\n", told);
}

module_init(begin);
module_exit(end);
MODULE_LICENSE("Dual MIT/GPL");
MODULE_DESCRIPTION("faults for the tests of u16550_tty");
