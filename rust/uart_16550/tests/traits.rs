//! What Rust programs expect of each type: that it is shown, that text is written through it, and that a backend is borrowed.

mod common;

use common::Chip;
use std::fmt::{Debug, Write};
use std::num::NonZeroU64;
use uart_16550::emergency::EmergencyConsole;
use uart_16550::native::backend::Backend;
use uart_16550::native::{Config, Uart16550, Uart16550Tty};
use uart_16550::ring::{Global, LinePort, MAX_INTERRUPTS, Memory, Uart16550Ring};
use uart_16550::shared::{Blocking, CriticalSection, Shared, SharedError, SharedLine, Wait};

/// A section for a program of one thread.
struct Section;

impl CriticalSection for Section {
    fn run<R>(&self, call: impl FnOnce() -> R) -> R {
        call()
    }
}

/// A thread that gives up after so many waits.
struct Turns(u32);

impl Wait for Turns {
    fn wait(&mut self, _is_there: impl FnMut() -> bool) -> bool {
        self.0 = self.0.saturating_sub(1);
        self.0 > 0
    }
}

fn memory() -> Memory {
    Memory::new(vec![0; 24].leak())
}

fn uart() -> Uart16550<Chip> {
    let mut uart = Uart16550::new_with_backend(Chip::default());
    uart.init(Config::DEFAULT).unwrap();
    uart
}

fn rings() -> Uart16550Ring<Chip> {
    Uart16550Ring::new(memory().global(), uart(), 16, 8).unwrap()
}

fn shared() -> Shared<Section, Chip> {
    let port = Shared::new(Section);
    port.start(memory().global(), uart(), 16, 8).unwrap();
    port
}

#[test]
fn each_type_is_shown() {
    fn is_shown<T: Debug>() {}
    is_shown::<Uart16550Ring<Chip>>();
    is_shown::<LinePort<Chip>>();
    is_shown::<Shared<Section, Chip>>();
    is_shown::<SharedLine<Section, Chip, 2>>();
    is_shown::<Blocking<'_, Section, Chip, Turns>>();
    is_shown::<Memory>();
    is_shown::<Global<'_>>();
    is_shown::<EmergencyConsole<Chip>>();
    is_shown::<Uart16550Tty<&mut Chip>>();
}

#[test]
fn rings_show_how_many_bytes_wait_and_not_which() {
    let mut ring = rings();
    ring.inner_mut().backend_mut().stuck = true;
    ring.inner_mut().backend_mut().received.extend(b"secret");
    assert_eq!(ring.queue(b"password"), 8);
    ring.handle(MAX_INTERRUPTS);
    let shown = format!("{ring:?}");
    assert!(
        shown.starts_with("Uart16550Ring { uart: Uart16550 {"),
        "{shown}"
    );
    assert!(
        shown.ends_with("transmit_len: 8, receive_len: 0, stuck: None, .. }"),
        "{shown}"
    );
}

#[test]
fn shared_rings_are_shown_from_anywhere() {
    let port = shared();
    port.with(|ring| ring.inner_mut().backend_mut().stuck = true)
        .unwrap();
    port.with(|ring| ring.queue(b"abc")).unwrap();
    assert_eq!(
        format!("{port:?}"),
        "Shared { transmit_len: 3, receive_len: 0, stuck: None, .. }"
    );
    let within = port.with(|_ring| format!("{port:?}")).unwrap();
    assert_eq!(within, "Shared { rings: InUse, .. }");
    assert_eq!(
        format!("{:?}", port.blocking(Turns(1))),
        "Blocking { shared: Shared { transmit_len: 3, receive_len: 0, stuck: None, .. }, .. }"
    );
    port.stop().unwrap();
    assert_eq!(format!("{port:?}"), "Shared { rings: NoRings, .. }");
}

#[test]
fn memory_shows_what_is_free_and_keeps_it() {
    let memory = memory();
    assert_eq!(format!("{memory:?}"), "Memory { free: 24 }");
    let _ring = Uart16550Ring::new(memory.global(), uart(), 16, 4);
    assert_eq!(
        format!("{:?}", memory.global()),
        "Global(Given(Memory { free: 4 }))"
    );
}

#[test]
fn an_emergency_console_is_shown() {
    let patience = NonZeroU64::new(7).unwrap();
    // SAFETY: nothing else accesses this chip.
    let console = unsafe { EmergencyConsole::take_over(Chip::default(), patience) }.unwrap();
    let shown = format!("{console:?}");
    assert!(
        shown.starts_with("EmergencyConsole { terminal: "),
        "{shown}"
    );
    assert!(shown.ends_with("patience: 7 }"), "{shown}");
}

/// A line feed stays one: a terminal adds the carriage return, and the driver does not.
#[test]
fn text_is_written_through_the_driver() {
    let mut uart = uart();
    writeln!(uart, "{} characters", 5).unwrap();
    assert_eq!(uart.backend().sent, b"5 characters\n");
    uart.backend_mut().stuck = true;
    uart.set_spin_limit(NonZeroU64::new(3).unwrap());
    assert!(write!(uart, "x").is_err());
    assert_eq!(uart.backend().sent, b"5 characters\n");
}

#[test]
fn text_is_written_by_a_thread_that_waits() {
    let port = shared();
    let mut thread = port.blocking(Turns(100));
    let once = "once";
    writeln!(
        thread,
        "this text is more than fits into the ring at {once}"
    )
    .unwrap();
    assert_eq!(thread.flush(), Ok(()));
    let sent = |port: &Shared<Section, Chip>| {
        port.with(|ring| ring.inner_mut().backend_mut().sent.clone())
    };
    let all = b"this text is more than fits into the ring at once\n";
    assert_eq!(sent(&port).unwrap(), all);
    port.with(|ring| ring.inner_mut().backend_mut().stuck = true)
        .unwrap();
    let mut thread = port.blocking(Turns(3));
    assert!(write!(thread, "{}", "x".repeat(17)).is_err());
    assert_eq!(thread.flush(), Err(SharedError::GaveUp));
    assert_eq!(sent(&port).unwrap(), all);
}

/// The device outlives its driver, and is looked at afterwards.
#[test]
fn a_backend_is_borrowed() {
    fn greet<B: Backend>(backend: B) {
        let mut uart = Uart16550::new_with_backend(backend);
        uart.init(Config::DEFAULT).unwrap();
        uart.send_bytes_exact(b"hello").unwrap();
    }
    let mut chip = Chip::default();
    greet(&mut chip);
    let any: &mut dyn Backend = &mut chip;
    greet(any);
    assert_eq!(chip.sent, b"hellohello");
    assert_eq!(chip.latch, [12, 0]);
}

/// A call of the backend passes on the driver's own address, and adds nothing to it.
#[test]
fn the_backend_is_the_drivers_first_field() {
    struct Counter(u64);
    impl Backend for Counter {
        fn read(&mut self, _register_offset: u8) -> u8 {
            self.0 += 1;
            0
        }
        fn write(&mut self, _register_offset: u8, _value: u8) {}
    }
    let mut uart = Uart16550::new_with_backend(Counter(0));
    uart.lsr();
    assert_eq!(uart.backend().0, 1);
    assert_eq!(
        (&raw const uart).addr(),
        std::ptr::from_ref(uart.backend()).addr()
    );
}
