//! An echo by interrupts with rings.

#[cfg_attr(interrupts = "plic", path = "interrupts/plic.rs")]
#[cfg_attr(interrupts = "cpu", path = "interrupts/mips.rs")]
#[cfg_attr(interrupts = "8259", path = "interrupts/pc.rs")]
mod controller;

use crate::{Console, Failure, MARK, MOST_LOOKS, Registers, say, stop};
use core::cell::UnsafeCell;
use uart_16550::native::spec::registers::{IER, LSR};
use uart_16550::ring::{MAX_INTERRUPTS, Memory, Uart16550Ring};

const RING_SIZE: usize = 256;

// A chip is stuck if this many rounds of the handler in a row did not end with `Idle`.
const MAX_UNFINISHED_ROUNDS: u32 = 100;

/// What the handler and the rest of the kernel share.
struct Shared {
    ring: Option<Uart16550Ring<Registers>>,
    interrupts: u32,
}

/// A value that is used with interrupts off alone, on one processor.
struct Alone<T>(UnsafeCell<T>);

// SAFETY: who uses the value has interrupts off, and there is one processor.
unsafe impl<T> Sync for Alone<T> {}

static SHARED: Alone<Shared> = Alone(UnsafeCell::new(Shared {
    ring: None,
    interrupts: 0,
}));

static BYTES: Alone<[u8; 2 * RING_SIZE]> = Alone(UnsafeCell::new([0; 2 * RING_SIZE]));

// Calls the function with interrupts off.
fn with<R>(call: impl FnOnce(&mut Shared) -> R) -> R {
    controller::interrupts_off();
    // SAFETY: interrupts are off, and no call is made in another one.
    let result = call(unsafe { &mut *SHARED.0.get() });
    controller::interrupts_on();
    result
}

/// Serves the console. The entry of an interrupt calls it, with interrupts off.
#[unsafe(no_mangle)]
extern "C" fn handle_interrupt() {
    // SAFETY: interrupts are off.
    let shared = unsafe { &mut *SHARED.0.get() };
    let claim = controller::claim();
    shared.interrupts += 1;
    let Some(ring) = &mut shared.ring else { stop() };
    let handled = ring.try_handle(4 * MAX_INTERRUPTS, MAX_UNFINISHED_ROUNDS);
    // A read of the chip is answered when all writes before it have arrived, so the controller sees the line that they have made.
    ring.inner_mut().spr();
    // These boards have no broken chip, so there is nobody to start it again.
    if handled.is_err() {
        stop()
    }
    controller::complete(claim);
}

// Moves bytes from the receive ring to the transmit ring, as many as that has room for. Returns whether the mark was among them.
fn move_some(ring: &mut Uart16550Ring<Registers>) -> bool {
    let mut slots = [0; 64];
    let room = slots.len().min(RING_SIZE - ring.transmit_len());
    let count = ring.take(&mut slots[..room]);
    let end = slots[..count].iter().position(|byte| *byte == MARK);
    ring.queue(&slots[..end.unwrap_or(count)]);
    end.is_some()
}

/// Sends back what is typed, until the mark. Says how many interrupts that took.
pub fn echo(console: Console) -> Console {
    // SAFETY: this is called once, and the rings alone use these bytes.
    let memory = Memory::new(unsafe { &mut *BYTES.0.get() });
    let Ok(mut ring) = Uart16550Ring::new(memory.global(), console, RING_SIZE, RING_SIZE) else {
        stop()
    };
    ring.inner_mut()
        .enable_interrupts(IER::DATA_READY | IER::RECEIVER_LINE_STATUS);
    // SAFETY: interrupts are not on yet.
    unsafe { (*SHARED.0.get()).ring = Some(ring) };
    controller::set_up();
    with(|shared| {
        if let Some(ring) = &mut shared.ring {
            ring.queue(b"\r\nby interrupts\r\n");
        }
    });
    let (mut is_marked, mut errors) = (false, LSR::empty());
    let mut is_over = false;
    for _look in 0..MOST_LOOKS {
        is_over = with(|shared| {
            let Some(ring) = &mut shared.ring else { stop() };
            if !is_marked {
                is_marked = move_some(ring);
            }
            errors |= ring.take_line() & LSR::ERRORS;
            is_marked && ring.transmit_len() == 0
        });
        if is_over {
            break;
        }
    }
    if !is_over {
        stop()
    }
    controller::interrupts_off();
    // SAFETY: interrupts are off for good.
    let shared = unsafe { &mut *SHARED.0.get() };
    let Some(ring) = shared.ring.take() else {
        stop()
    };
    let mut console = ring.into_inner();
    let _ = say(
        &mut console,
        format_args!(
            "echoed by {} interrupts, errors {:02x}",
            shared.interrupts,
            errors.bits()
        ),
    );
    console
}
