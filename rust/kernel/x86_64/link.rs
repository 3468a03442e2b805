//! One of two kernels whose COM1s are joined by a cable, and which send a MiB each way at once. COM1 is served by interrupts, with rings.
//! COM2 is the console: there it is told which end it is, and there it says what came of it.
#![no_std]
#![no_main]

mod machine;

use core::fmt::Write as _;
use core::num::NonZeroU64;
use machine::{End, Shared, end};
use uart_16550::native::backend::X86Ports;
use uart_16550::native::embedded_io::{Read as _, Write as _};
use uart_16550::native::spec::registers::{IER, LSR};
use uart_16550::native::{BaudRate, Config, Uart16550, Uart16550Tty};
use uart_16550::ring::{MAX_INTERRUPTS, Memory, Uart16550Ring};

type Console = Uart16550Tty<X86Ports>;
type Ring = Uart16550Ring<X86Ports>;

const COM1: u16 = 0x3f8;
const COM2: u16 = 0x2f8;

// How many bytes each end sends.
const SENT: usize = 1 << 20;

// How many bytes are received for a dot on the console.
const PART: usize = SENT / 16;

const RING_SIZE: usize = 256;

// The interrupts that the rings do not enable themselves.
const INTERRUPTS: IER = IER::DATA_READY.union(IER::RECEIVER_LINE_STATUS);

// A chip is stuck if this many rounds of the handler in a row did not end with `Idle`.
const MAX_UNFINISHED_ROUNDS: u32 = 100;

// How many polls in a row a wait makes: more than a quarter of an hour.
const PATIENCE: NonZeroU64 = NonZeroU64::new(1_000_000_000).unwrap();

// A slow reader takes nothing for so many looks whenever it has taken so many bytes. In a small part of that time the rings, the chips and
// the socket between two emulators are full.
const PAUSE: u32 = 3_000_000;
const BETWEEN_PAUSES: usize = SENT / 4;

static PORT: Shared<Option<Ring>> = Shared::new(None);
static RING_MEMORY: Shared<[u8; 2 * RING_SIZE]> = Shared::new([0; 2 * RING_SIZE]);

#[panic_handler]
fn panic(_info: &core::panic::PanicInfo<'_>) -> ! {
    end(End::Panic)
}

/// The handler of COM1's interrupt.
#[unsafe(no_mangle)]
extern "C" fn handle_interrupt() {
    PORT.in_handler(|port| {
        if let Some(ring) = port {
            if ring
                .try_handle(4 * MAX_INTERRUPTS, MAX_UNFINISHED_ROUNDS)
                .is_err()
            {
                end(End::Stuck)
            }
            // A read of the chip is answered when all writes before it have arrived, so the controller sees the line that they have made.
            ring.inner_mut().spr();
        }
    });
    machine::end_of_interrupt();
}

fn start(port: u16) -> Uart16550<X86Ports> {
    // SAFETY: the kernel may access the ports, and nothing else does.
    let Ok(ports) = (unsafe { X86Ports::new(port) }) else {
        end(End::NoConsole)
    };
    let mut driver = Uart16550::new_with_backend(ports);
    let config = Config {
        baud_rate: BaudRate::Baud115200,
        ..Config::DEFAULT
    };
    if driver.init(config).is_err() || driver.test_loopback().is_err() {
        end(End::NoConsole)
    }
    driver.set_spin_limit(PATIENCE);
    driver
}

fn say(console: &mut Console, line: core::fmt::Arguments<'_>) {
    if writeln!(console, "{line}").is_err() || console.inner_mut().flush().is_err() {
        end(End::NotSent)
    }
}

// Waits for a byte that is typed at the console.
fn typed(console: &mut Console) -> u8 {
    let mut slot = [0];
    match console.inner_mut().read(&mut slot) {
        Ok(1) => slot[0],
        _ => end(End::NobodyTypes),
    }
}

/// The bytes that an end sends: no two ends send the same.
struct Bytes(u32);

impl Bytes {
    fn of(is_left: bool) -> Self {
        Bytes(if is_left { 1 } else { 16550 })
    }

    // The multiplier and the summand are those of many C libraries.
    fn next(&mut self) -> u8 {
        self.0 = self.0.wrapping_mul(1_103_515_245).wrapping_add(12345);
        (self.0 >> 16) as u8
    }
}

/// What is to be received.
struct Received {
    wanted: Bytes,
    count: usize,
    /// The number of the first byte that is another one than was sent.
    wrong: Option<usize>,
    line: LSR,
    /// How many looks of a pause are left, and how often the receive ring was full.
    pause: u32,
    full: u32,
}

impl Received {
    /// Takes what there is, unless the reader pauses. Returns how many bytes that are.
    fn take(&mut self, ring: &mut Ring, is_slow: bool) -> usize {
        if self.pause > 0 {
            self.pause -= 1;
            return 0;
        }
        self.full += u32::from(ring.is_paused());
        let mut slots = [0; 64];
        let count = ring.take(&mut slots);
        for (number, byte) in (self.count..).zip(&slots[..count]) {
            if *byte != self.wanted.next() {
                self.wrong.get_or_insert(number);
            }
        }
        let before = self.count / BETWEEN_PAUSES;
        self.count += count;
        if is_slow && self.count / BETWEEN_PAUSES > before {
            self.pause = PAUSE;
        }
        self.line |= ring.take_line() & LSR::ERRORS;
        count
    }
}

/// Queues bytes, as many as there is room for. Returns how many.
fn queue(ring: &mut Ring, bytes: &mut Bytes, left: usize) -> usize {
    let mut slots = [0; 64];
    let count = slots.len().min(ring.transmit_room()).min(left);
    for slot in &mut slots[..count] {
        *slot = bytes.next();
    }
    ring.queue(&slots[..count])
}

// Sends and receives at once, and says on the console how far it is: a dot for each part. Returns what was received.
fn exchange(console: &mut Console, is_left: bool, is_slow: bool) -> Received {
    let (mut bytes, mut left) = (Bytes::of(is_left), SENT);
    let mut received = Received {
        wanted: Bytes::of(!is_left),
        count: 0,
        wrong: None,
        line: LSR::empty(),
        pause: if is_slow { PAUSE } else { 0 },
        full: 0,
    };
    let (mut is_over, mut said) = (false, 0);
    while !is_over {
        PORT.or_sleep(|port| {
            let Some(ring) = port else { end(End::NoRings) };
            let queued = queue(ring, &mut bytes, left);
            left -= queued;
            // A reader that pauses looks again: no interrupt comes while the receive ring is full.
            let pauses = received.pause > 0;
            let taken = received.take(ring, is_slow);
            is_over = left == 0 && ring.transmit_len() == 0 && received.count >= SENT;
            queued > 0 || taken > 0 || pauses || is_over
        });
        while said < received.count / PART {
            said += 1;
            if console.inner_mut().send_bytes_exact(b".").is_err() {
                end(End::NotSent)
            }
        }
    }
    received
}

#[unsafe(no_mangle)]
extern "C" fn kernel_main() -> ! {
    let mut console = Uart16550Tty::from_inner(start(COM2));
    let driver = start(COM1);
    let memory = Memory::new(RING_MEMORY.alone());
    let Ok(ring) = Uart16550Ring::new(memory.global(), driver, RING_SIZE, RING_SIZE) else {
        end(End::NoRings)
    };
    let ring = PORT.alone().insert(ring);
    machine::set_up_interrupts();
    ring.restart(INTERRUPTS);
    // Whoever types waits for this line of both kernels: what comes before it would be lost in the other's `init`.
    say(&mut console, format_args!("which end of the cable?"));
    let letter = typed(&mut console);
    let is_left = letter.eq_ignore_ascii_case(&b'l');
    let received = exchange(&mut console, is_left, letter.is_ascii_uppercase());
    let Some(ring) = PORT.alone() else {
        end(End::NoRings)
    };
    if ring.inner_mut().flush().is_err() {
        end(End::NotSent)
    }
    ring.inner_mut().disable_interrupts(IER::all());
    let errors = received.line.bits();
    match received.wrong {
        None => say(
            &mut console,
            format_args!(
                "\nsent {SENT}, received {}, errors {errors:02x}",
                received.count
            ),
        ),
        Some(number) => say(
            &mut console,
            format_args!(
                "\nbyte {number} of {} is not the one that was sent, errors {errors:02x}",
                received.count
            ),
        ),
    }
    say(
        &mut console,
        format_args!("the receive ring was full {} times", received.full),
    );
    // An emulator that ends takes with it what the other one has not yet read of the socket.
    typed(&mut console);
    end(End::Done)
}
