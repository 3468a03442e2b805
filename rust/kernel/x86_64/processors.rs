//! A kernel for a PC with two processors, which share COM1: both send back what is received, one line of the I/O APIC interrupts now the
//! one and now the other, and a lock that masks interrupts is around each call. What is typed first says whether the line is detected
//! by edges or by levels. Then the kernel ends the machine.
#![no_std]
#![no_main]

mod machine;

use core::hint::spin_loop;
use core::num::NonZeroU64;
use core::sync::atomic::{AtomicBool, AtomicUsize, Ordering};
use machine::{Controller, End, end};
use uart_16550::native::backend::X86Ports;
use uart_16550::native::embedded_io::Write as _;
use uart_16550::native::spec::registers::{FifoTriggerLevel, IER, LSR};
use uart_16550::native::{BaudRate, Config, Uart16550};
use uart_16550::ring::{MAX_INTERRUPTS, Memory, Uart16550Ring};
use uart_16550::shared::{CriticalSection, Shared, SharedError};

const COM1: u16 = 0x3f8;
const TYPED: usize = 50_000;
const RING_SIZE: usize = 256;

// How many polls in a row a wait makes: minutes, for somebody who types.
const PATIENCE: NonZeroU64 = NonZeroU64::new(1_000_000_000).unwrap();

// A chip is stuck if this many rounds of the handler in a row did not end with `Idle`.
const MAX_UNFINISHED_ROUNDS: u32 = 100;

const PROCESSORS: usize = 2;

// After so many looks that found something a processor has the interrupts to itself.
const TURN: usize = 50;

// How many looks a processor makes until the other end is taken to be gone: minutes.
const MOST_LOOKS: u32 = 100_000_000;

// How long a processor that found nothing leaves the lock to others.
const PAUSE: u32 = 1000;

/// The lock of this kernel, which knows its owner: that of INTERRUPTS.md.
struct ProcessorLock {
    // The number of the owner, and one more. 0 if it is free.
    owner: AtomicUsize,
}

const FREE: usize = 0;

impl CriticalSection for ProcessorLock {
    fn run<R>(&self, call: impl FnOnce() -> R) -> R {
        machine::without_interrupts(|| {
            let this = usize::from(machine::this_processor()) + 1;
            // Nobody else writes this processor's number, and none of its handlers runs now.
            let is_within = self.owner.load(Ordering::Relaxed) == this;
            // The owner's section is short and does not wait, so this ends.
            while !is_within
                && self
                    .owner
                    .compare_exchange_weak(FREE, this, Ordering::Acquire, Ordering::Relaxed)
                    .is_err()
            {
                spin_loop();
            }
            let result = call();
            if !is_within {
                self.owner.store(FREE, Ordering::Release);
            }
            result
        })
    }
}

static PORT: Shared<ProcessorLock, X86Ports> = Shared::new(ProcessorLock {
    owner: AtomicUsize::new(FREE),
});

static RING_MEMORY: machine::Shared<[u8; 2 * RING_SIZE]> = machine::Shared::new([0; 2 * RING_SIZE]);

static ECHOED: AtomicUsize = AtomicUsize::new(0);

// What each processor has served and sent back.
static INTERRUPTS: [AtomicUsize; PROCESSORS] = [const { AtomicUsize::new(0) }; PROCESSORS];
static LOOKS: [AtomicUsize; PROCESSORS] = [const { AtomicUsize::new(0) }; PROCESSORS];

static SECOND_IS_DONE: AtomicBool = AtomicBool::new(false);

#[panic_handler]
fn panic(_info: &core::panic::PanicInfo<'_>) -> ! {
    end(End::Panic)
}

/// The handler of COM1's interrupt, on either processor.
#[unsafe(no_mangle)]
extern "C" fn handle_interrupt() {
    let served = PORT.with(|ring| {
        let _handled = ring.try_handle(4 * MAX_INTERRUPTS, MAX_UNFINISHED_ROUNDS);
        // A read of the chip is answered when all writes before it have arrived, so the controller sees the line that they have made.
        ring.inner_mut().spr();
    });
    if served.is_err() {
        end(End::NoRings)
    }
    add_one(&INTERRUPTS);
    machine::end_of_interrupt();
}

// Counts up for this processor, and returns the number.
fn add_one(counters: &[AtomicUsize; PROCESSORS]) -> usize {
    let counter = &counters[usize::from(machine::this_processor()) % PROCESSORS];
    counter.fetch_add(1, Ordering::Relaxed) + 1
}

// Sends back some of what was received: what is taken is queued before the lock is given back, so the bytes keep their order.
fn echo_some(ring: &mut Uart16550Ring<X86Ports>) -> usize {
    let mut slots = [0; 64];
    let room = slots.len().min(ring.transmit_room());
    let count = ring.take(&mut slots[..room]);
    ring.queue(&slots[..count])
}

// Sends back what is received, until all is. Each processor calls this.
fn echo() -> Result<(), SharedError> {
    for _look in 0..MOST_LOOKS {
        if ECHOED.load(Ordering::Relaxed) >= TYPED {
            return Ok(());
        }
        let (count, stuck) = PORT.with(|ring| (echo_some(ring), ring.stuck()))?;
        if let Some(cause) = stuck {
            return Err(SharedError::Stuck(cause));
        }
        if count == 0 {
            (0..PAUSE).for_each(|_| spin_loop());
            continue;
        }
        ECHOED.fetch_add(count, Ordering::Relaxed);
        if add_one(&LOOKS) % TURN == 0 {
            PORT.with(|_ring| machine::send_interrupts_to(machine::this_processor()))?;
        }
    }
    Err(SharedError::GaveUp)
}

fn echo_or_end() {
    match echo() {
        Ok(()) => {}
        Err(SharedError::Stuck(_)) => end(End::Stuck),
        Err(SharedError::GaveUp) => end(End::NobodyTypes),
        Err(_) => end(End::NoRings),
    }
}

/// The second processor begins here.
#[unsafe(no_mangle)]
extern "C" fn processor_main() -> ! {
    machine::join_interrupts();
    machine::let_interrupts_in();
    echo_or_end();
    SECOND_IS_DONE.store(true, Ordering::Release);
    machine::sleep()
}

fn start() -> Uart16550<X86Ports> {
    // SAFETY: the kernel may access the ports, and nothing else does.
    let Ok(ports) = (unsafe { X86Ports::new(COM1) }) else {
        end(End::NoConsole)
    };
    let mut driver = Uart16550::new_with_backend(ports);
    let config = Config {
        baud_rate: BaudRate::Baud115200,
        fifo_trigger_level: Some(FifoTriggerLevel::One),
        ..Config::DEFAULT
    };
    if driver.init(config).is_err() {
        end(End::NoConsole)
    }
    driver.set_spin_limit(PATIENCE);
    driver
}

// Asks how the line is to be detected.
fn controller(driver: &mut Uart16550<X86Ports>) -> Controller {
    let mut typed = [0];
    let asked = driver.send_bytes_exact(b"how is the line to be detected?\r\n");
    if asked.is_err() || driver.receive_bytes_exact(&mut typed).is_err() {
        end(End::NoConsole)
    }
    match typed {
        [b'l'] => Controller::IoApicLevels,
        _ => Controller::IoApicEdges,
    }
}

// Waits until the second processor is done and all is sent, and says so.
fn finish() -> Result<(), SharedError> {
    for _look in 0..MOST_LOOKS {
        if SECOND_IS_DONE.load(Ordering::Acquire) && PORT.with(|ring| ring.transmit_len())? == 0 {
            break;
        }
        spin_loop();
    }
    let is_said = PORT.with(|ring| {
        let last: &[u8] = if ring.take_line().intersects(LSR::ERRORS) {
            b"\r\nline errors\r\n"
        } else {
            b"\r\n50000 bytes by two processors\r\n"
        };
        let driver = ring.inner_mut();
        driver.send_bytes_exact(last).is_ok() && driver.flush().is_ok()
    })?;
    if !is_said {
        end(End::NotSent)
    }
    Ok(())
}

#[unsafe(no_mangle)]
extern "C" fn kernel_main() -> ! {
    let mut driver = start();
    let controller = controller(&mut driver);
    // The lock needs this: it asks which processor it is on.
    machine::set_up_interrupts_at(controller);
    let memory = Memory::new(RING_MEMORY.alone());
    if PORT
        .start(memory.global(), driver, RING_SIZE, RING_SIZE)
        .is_err()
    {
        end(End::NoRings)
    }
    let enabled = PORT.with(|ring| ring.restart(IER::DATA_READY | IER::RECEIVER_LINE_STATUS));
    if enabled.is_err() {
        end(End::NoRings)
    }
    machine::let_interrupts_in();
    machine::start_second_processor();
    echo_or_end();
    if finish().is_err() {
        end(End::NoRings)
    }
    let has_worked = |counters: &[AtomicUsize]| {
        counters
            .iter()
            .all(|count| count.load(Ordering::Relaxed) > 0)
    };
    if has_worked(&INTERRUPTS) && has_worked(&LOOKS) {
        end(End::Done)
    }
    end(End::NoInterrupts)
}
