//! Runs the lines of docs/CHOOSE.md, over the chip in software and over memory.

use choose::monitor::Host;
use choose::test_bench::Bench;
use choose::{boot_loader, firmware, kernel, monitor};
use std::fmt::Write as _;
use std::num::NonZeroUsize;
use uart_16550::embedded_io::Write as _;
use uart_16550::shared::Shared;
use uart_16550::spec::registers::{LSR, offsets};
use uart_16550::{Config, Uart16550};
use uart_16550_chip::registers::LSR as ChipLsr;
use uart_16550_chip::{Chip, LiveChip, VirtualPort};

fn bench() -> Bench {
    Bench(LiveChip::new(Chip::Uart16550A, 4, 64).unwrap())
}

/// A driver over the chip in software: what it sent is on the wire, and it receives what arrives.
#[test]
fn a_driver_runs_over_the_chip() {
    let mut uart = Uart16550::new_with_backend(bench());
    uart.init(Config::DEFAULT).unwrap();
    uart.send_bytes_exact(b"hello").unwrap();
    uart.flush().unwrap();
    assert_eq!(uart.backend().0.wire(), b"hello");

    // A character that arrives broken.
    let chip = &mut uart.backend_mut().0;
    chip.arrive(b'x', ChipLsr::FRAMING_ERROR).unwrap();
    assert_eq!(uart.try_receive_byte().unwrap(), b'x');
    assert!(uart.lsr().contains(LSR::FRAMING_ERROR));
}

#[test]
fn a_kernel_prints() {
    let mut console = kernel::console(bench()).unwrap();
    writeln!(console, "{} processors", 2).unwrap();
    console.inner_mut().flush().unwrap();
    let chip = &console.inner().backend().0;
    assert!(chip.wire().ends_with(b"2 processors\r\n"));
    // 115,200 baud at the 1,843,200 Hz of a PC.
    assert_eq!(chip.divisor(), 1);
}

#[test]
fn a_kernel_is_served_by_interrupts() {
    let port: kernel::Port<Bench> = Shared::new(kernel::Masked {
        mask: || false,
        restore: |were_masked| assert!(!were_masked),
    });
    let console = kernel::console(bench()).unwrap();
    kernel::serve(&port, console, Box::leak(Box::new([0; 1280]))).unwrap();
    assert_eq!(port.with(|ring| ring.queue(&[b'x'; 48])), Ok(48));
    let (mut interrupts, mut slots) = (0, [0; 8]);
    port.with(|ring| {
        ring.inner_mut()
            .backend_mut()
            .0
            .arrive(b'y', ChipLsr::empty())
            .unwrap()
    })
    .unwrap();
    for _tick in 0..10_000 {
        let is_high = port.with(|ring| {
            let chip = &mut ring.inner_mut().backend_mut().0;
            chip.ticks(1);
            chip.is_interrupting()
        });
        if is_high.unwrap() {
            kernel::handle(&port);
            interrupts += 1;
        }
    }
    assert!(interrupts > 0);
    assert_eq!(port.with(|ring| ring.take(&mut slots)), Ok(1));
    assert_eq!(slots[0], b'y');
    let uart = port.stop().unwrap().into_inner();
    assert!(uart.backend().0.wire().ends_with(&[b'x'; 48]));
}

#[test]
fn firmware_sets_up_a_board() {
    let mut words = [0_u32; 8];
    words[offsets::LSR] = (LSR::THR_EMPTY | LSR::TRANSMITTER_EMPTY).bits().into();
    let base = NonZeroUsize::new(words.as_mut_ptr().expose_provenance()).unwrap();
    // SAFETY: eight words of memory are there, and nothing else accesses them.
    let mut uart = unsafe { firmware::console(base) }.unwrap();
    uart.send_bytes_exact(b"!").unwrap();
    assert_eq!(words[offsets::DATA], u32::from(b'!'));
}

#[test]
fn a_boot_loader_takes_a_port_and_leaves_it() {
    // Nobody has set this one up.
    let mut uart = boot_loader::take(bench()).unwrap();
    // 115,200 baud at the 1,843,200 Hz of a PC.
    assert_eq!(uart.backend().0.divisor(), 1);
    boot_loader::leave(&mut uart);

    // This one is as the first has left it.
    let left = &uart.backend().0;
    let left = LiveChip::from_data(&left.data(), left.wire()).unwrap();
    let mut uart = boot_loader::take(Bench(left)).unwrap();
    uart.send_bytes_exact(b"boot").unwrap();
    boot_loader::leave(&mut uart);
    assert_eq!(uart.backend().0.wire(), b"boot");
    assert!(!uart.backend().0.is_interrupting());
}

#[derive(Default)]
struct Terminal {
    signals: u32,
    has_room: bool,
    printed: Vec<u8>,
}

impl Host for Terminal {
    fn signal(&mut self) {
        self.signals += 1;
    }

    fn resume_input(&mut self) {
        self.has_room = true;
    }

    fn print(&mut self, output: &[u8]) -> usize {
        self.printed.extend(output);
        output.len()
    }
}

#[test]
fn a_guest_prints_and_is_typed_to() {
    let (mut port, mut host) = (VirtualPort::new(Chip::Uart16550A), Terminal::default());
    // The guest enables the interrupt for received data, and prints.
    monitor::write(&mut port, &mut host, 1, 0x01);
    monitor::write(&mut port, &mut host, 0, b'>');
    assert_eq!(host.printed, b">");
    // There is room for one character as long as the FIFO is off.
    let rest = monitor::input(&mut port, &mut host, b"ls");
    assert_eq!((rest, host.signals), (&b"s"[..], 1));
    assert_eq!(monitor::read(&mut port, &mut host, 0), b'l');
    assert!(host.has_room);
    assert_eq!(monitor::input(&mut port, &mut host, rest), b"");
}
