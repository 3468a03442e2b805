//! A kernel for a PC whose console is shared by the interrupt handler and a task: an echo of many bytes by an executor of one task,
//! with interrupts on all the time. Then it ends the machine.
#![no_std]
#![no_main]

mod machine;

use core::pin::pin;
use core::ptr;
use core::sync::atomic::{AtomicBool, Ordering};
use core::task::{Context, Poll, RawWaker, RawWakerVTable, Waker};
use machine::{End, end};
use uart_16550::native::backend::X86Ports;
use uart_16550::native::spec::registers::{FifoTriggerLevel, IER, LSR};
use uart_16550::native::{BaudRate, Config, Uart16550};
use uart_16550::ring::{MAX_INTERRUPTS, Memory};
use uart_16550::shared::{CriticalSection, Shared, SharedError};

const COM1: u16 = 0x3f8;
const TYPED: usize = 10_000;
const RING_SIZE: usize = 256;

// A chip is stuck if this many rounds of the handler in a row did not end with `Idle`. The task is told.
const MAX_UNFINISHED_ROUNDS: u32 = 100;

/// The section of this kernel, which has one processor.
struct Masked;

impl CriticalSection for Masked {
    fn run<R>(&self, call: impl FnOnce() -> R) -> R {
        machine::without_interrupts(call)
    }
}

static PORT: Shared<Masked, X86Ports> = Shared::new(Masked);

static RING_MEMORY: machine::Shared<[u8; 2 * RING_SIZE]> = machine::Shared::new([0; 2 * RING_SIZE]);

#[panic_handler]
fn panic(_info: &core::panic::PanicInfo<'_>) -> ! {
    end(End::Panic)
}

/// The handler of COM1's interrupt.
#[unsafe(no_mangle)]
extern "C" fn handle_interrupt() {
    let served = PORT.with(|ring| {
        let _handled = ring.try_handle(4 * MAX_INTERRUPTS, MAX_UNFINISHED_ROUNDS);
        // A read of the chip is answered when all writes before it have arrived, so the controller sees the line that they have made.
        ring.inner_mut().spr();
    });
    if served.is_err() {
        end(End::NoRings)
    }
    machine::end_of_interrupt();
}

fn start() {
    // SAFETY: the kernel may access the ports, and nothing else does.
    let Ok(ports) = (unsafe { X86Ports::new(COM1) }) else {
        end(End::NoConsole)
    };
    let memory = Memory::new(RING_MEMORY.alone());
    let uart = Uart16550::new_with_backend(ports);
    if PORT
        .start(memory.global(), uart, RING_SIZE, RING_SIZE)
        .is_err()
    {
        end(End::NoRings)
    }
    // Level 8 leaves the handler 781 microseconds at this rate, and the default level 260.
    let config = Config {
        baud_rate: BaudRate::Baud115200,
        fifo_trigger_level: Some(FifoTriggerLevel::Eight),
        interrupts: IER::DATA_READY | IER::RECEIVER_LINE_STATUS,
        ..Config::DEFAULT
    };
    match PORT.with(|ring| ring.inner_mut().init(config)) {
        Ok(Ok(())) => {}
        Ok(Err(_)) | Err(_) => end(End::NoConsole),
    }
}

// ---- the task

async fn say(mut text: &[u8]) -> Result<(), SharedError> {
    while !text.is_empty() {
        text = &text[PORT.write(text).await?..];
    }
    Ok(())
}

async fn echo() -> Result<(), SharedError> {
    say(b"console of a task on COM1\r\n").await?;
    let (mut left, mut slots) = (TYPED, [0; 64]);
    while left > 0 {
        let wanted = slots.len().min(left);
        let count = PORT.read(&mut slots[..wanted]).await?;
        say(&slots[..count]).await?;
        left -= count;
    }
    if !PORT.with(|ring| ring.take_line() & LSR::ERRORS)?.is_empty() {
        say(b"\r\nwith errors").await?;
    }
    say(b"\r\n10000 bytes by a task\r\n").await?;
    PORT.flush().await
}

// ---- the executor

static IS_WOKEN: AtomicBool = AtomicBool::new(false);

fn wake(_task: *const ()) {
    IS_WOKEN.store(true, Ordering::Release);
}

// There is one task, so its waker has nothing in it.
fn waker(_task: *const ()) -> RawWaker {
    RawWaker::new(ptr::null(), &WAKER)
}

static WAKER: RawWakerVTable = RawWakerVTable::new(waker, wake, wake, |_task| {});

fn block_on<F: Future>(task: F) -> F::Output {
    let mut task = pin!(task);
    // SAFETY: the functions of the table may be called at any time, and use no pointer.
    let waker = unsafe { Waker::from_raw(waker(ptr::null())) };
    loop {
        if let Poll::Ready(output) = task.as_mut().poll(&mut Context::from_waker(&waker)) {
            return output;
        }
        // Polled again only if it was woken: so a lost wake would be seen, since the echo would end.
        while !IS_WOKEN.swap(false, Ordering::Acquire) {
            machine::sleep_unless(|| IS_WOKEN.load(Ordering::Acquire));
        }
    }
}

#[unsafe(no_mangle)]
extern "C" fn kernel_main() -> ! {
    start();
    machine::set_up_interrupts();
    // An edge that came before is not lost: the controller remembers it, or it is made now.
    if PORT.with(|ring| ring.retrigger()).is_err() {
        end(End::NoRings)
    }
    machine::let_interrupts_in();
    match block_on(echo()) {
        Ok(()) => end(End::Done),
        Err(SharedError::Stuck(_)) => end(End::Stuck),
        Err(_) => end(End::NotSent),
    }
}
