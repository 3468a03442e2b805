//! An echo by interrupts with rings, over the `Ports` of the program, on one of a PC's interrupt controllers.

use crate::Ports;
use crate::machine::{self, Controller, End, Shared, end};
use core::fmt::{self, Write as _};
use uart_16550::native::Uart16550;
use uart_16550::native::embedded_io::Write as _;
use uart_16550::native::spec::registers::{IER, LSR};
use uart_16550::ring::{MAX_INTERRUPTS, Memory, StuckError, Uart16550Ring};

/// The rings over the port.
pub type Ring = Uart16550Ring<Ports>;

/// What the handler does with the rings.
pub type Serve = fn(&mut Ring);

// A chip is stuck if this many rounds of the handler in a row did not end with `Idle`.
const MAX_UNFINISHED_ROUNDS: u32 = 100;

/// The handler of the documents. A chip that is stuck has its interrupts off, and the program looks for that.
pub fn serve(ring: &mut Ring) {
    let _handled = ring.try_handle(4 * MAX_INTERRUPTS, MAX_UNFINISHED_ROUNDS);
    // A read of the chip is answered when all writes before it have arrived, so the controller sees the line that they have made.
    ring.inner_mut().spr();
}

/// How COM1's interrupt is kept out while the program calls the rings.
#[derive(Clone, Copy, PartialEq, Eq)]
pub enum Exclusion {
    /// The processor lets no interrupt in. The controller notes an edge meanwhile.
    Processor,
    /// The line is masked at the controller. Once it is let in again, the rings retrigger.
    MaskAndRetrigger,
    /// The same, without the retrigger. An I/O APIC forgets the edges that came meanwhile.
    MaskAlone,
}

/// What an echo is tried with.
#[derive(Clone, Copy)]
pub struct Trial {
    /// What the handler does.
    pub serve: Serve,
    /// The controller that COM1's line is at.
    pub controller: Controller,
    /// How the program keeps the handler out.
    pub exclusion: Exclusion,
}

const RING_SIZE: usize = 256;

// The interrupts that the rings do not enable themselves.
const INTERRUPTS: IER = IER::DATA_READY.union(IER::RECEIVER_LINE_STATUS);

// A handler that ends no storm is stopped after so many interrupts: more than two for each byte of the longest echo.
const MOST_INTERRUPTS: u32 = 1_000_000;

/// The console while interrupts serve it.
struct Console {
    ring: Option<Ring>,
    serve: Serve,
    interrupts: u32,
}

static CONSOLE: Shared<Console> = Shared::new(Console {
    ring: None,
    serve,
    interrupts: 0,
});

static RING_MEMORY: Shared<[u8; 2 * RING_SIZE]> = Shared::new([0; 2 * RING_SIZE]);

/// How an echo ended.
pub enum Echoed {
    /// All was sent back, with these line errors.
    All(LSR),
    /// The chip is stuck, for this reason.
    Stuck(StuckError),
}

/// The handler of COM1's interrupt.
#[unsafe(no_mangle)]
extern "C" fn handle_interrupt() {
    CONSOLE.in_handler(|console| {
        console.interrupts += 1;
        let Some(ring) = &mut console.ring else {
            end(End::NoRings)
        };
        (console.serve)(ring);
        if console.interrupts > MOST_INTERRUPTS {
            end(End::Storm)
        }
    });
    machine::end_of_interrupt();
}

/// Says a line on the console of the rings, by polling.
pub fn say(ring: &mut Ring, line: fmt::Arguments<'_>) {
    let said = write!(Polled(ring.inner_mut()), "\r\n{line}\r\n");
    if said.is_err() || ring.inner_mut().flush().is_err() {
        end(End::NotSent)
    }
}

struct Polled<'a>(&'a mut Uart16550<Ports>);

impl fmt::Write for Polled<'_> {
    fn write_str(&mut self, text: &str) -> fmt::Result {
        self.0
            .send_bytes_exact(text.as_bytes())
            .map_err(|_| fmt::Error)
    }
}

// Moves bytes from the receive ring to the transmit ring, as many as that has room for, and returns how many.
fn echo_some(ring: &mut Ring) -> usize {
    let mut slots = [0; 64];
    let room = slots.len().min(RING_SIZE - ring.transmit_len());
    let count = ring.take(&mut slots[..room]);
    ring.queue(&slots[..count])
}

// Lets the line in again that was masked at the controller.
fn unmask(ring: &mut Ring, exclusion: Exclusion) {
    if exclusion == Exclusion::Processor {
        return;
    }
    machine::set_masked(false);
    if exclusion == Exclusion::MaskAndRetrigger {
        // Behind the unmasking: an edge before would be forgotten too.
        ring.retrigger();
    }
}

/// Returns rings over the driver. To be called once.
pub fn rings(driver: Uart16550<Ports>) -> Ring {
    let memory = Memory::new(RING_MEMORY.alone());
    match Uart16550Ring::new(memory.global(), driver, RING_SIZE, RING_SIZE) {
        Ok(ring) => ring,
        Err(_) => end(End::NoRings),
    }
}

/// Sends back this number of bytes as they are received. Returns how it ended, and the rings, over a chip that interrupts no more.
pub fn by_interrupts(ring: Ring, typed: usize, trial: Trial) -> (Echoed, Ring) {
    CONSOLE.alone().serve = trial.serve;
    let ring = CONSOLE.alone().ring.insert(ring);
    machine::set_up_interrupts_at(trial.controller);
    // This starts rings again that are stuck.
    ring.restart(INTERRUPTS);
    let (mut done, mut is_over, mut line) = (0, false, LSR::empty());
    let mut stuck = None;
    while !is_over {
        CONSOLE.or_sleep(|console| {
            let Some(ring) = &mut console.ring else {
                end(End::NoRings)
            };
            if trial.exclusion != Exclusion::Processor {
                machine::set_masked(true);
            }
            let count = echo_some(ring);
            done += count;
            line |= ring.take_line() & LSR::ERRORS;
            unmask(ring, trial.exclusion);
            stuck = ring.stuck();
            is_over = stuck.is_some() || done == typed && ring.transmit_len() == 0;
            count > 0 || is_over
        });
    }
    let console = CONSOLE.alone();
    let Some(mut ring) = console.ring.take() else {
        end(End::NoRings)
    };
    ring.inner_mut().disable_interrupts(IER::all());
    if console.interrupts == 0 {
        end(End::NoInterrupts)
    }
    let echoed = stuck.map_or(Echoed::All(line), Echoed::Stuck);
    (echoed, ring)
}
