//! Two monitors of a serial port: one whose interrupt controller takes edges, and one whose controller takes levels.

use proved_uart_virtual::{Todo, VirtualPort, VirtualPortWith};
use uart_live::Chip;
use uart_spec::registers::LSR;

const DATA: u8 = 0;

const IER: u8 = 1;

const ISR: u8 = 2;

const FCR: u8 = 2;

const LINE: u8 = 5;

/// The rest of a monitor: a host that takes at most three bytes at a time, and counts what it was asked for.
#[derive(Default)]
struct Host {
    signals: usize,
    line: bool,
    rises: usize,
    resumed: usize,
}

impl Host {
    fn signal(&mut self) {
        self.signals += 1;
    }

    fn set_line(&mut self, level: bool) {
        self.rises += usize::from(level && !self.line);
        self.line = level;
    }

    fn resume_input(&mut self) {
        self.resumed += 1;
    }

    fn take(&mut self, output: &[u8]) -> usize {
        output.len().min(3)
    }
}

/// Does what a call asks for, if the controller takes edges.
fn obey_signals(host: &mut Host, todo: Todo) {
    if todo.signal {
        host.signal();
    }
    if todo.has_room {
        host.resume_input();
    }
}

/// Does what a call asks for, if the controller takes levels.
fn obey_levels(host: &mut Host, todo: Todo) {
    if todo.signal {
        // The line may have fallen and risen. A pin that detects edges, as those of a PC do, sees
        // that only so.
        host.set_line(false);
    }
    host.set_line(todo.level);
    if todo.has_room {
        host.resume_input();
    }
}

fn read(port: &mut VirtualPort, host: &mut Host, offset: u8) -> u8 {
    let answer = port.read(offset);
    obey_signals(host, answer.todo);
    answer.value
}

/// The guest writes a register, and the host takes output.
fn write(port: &mut VirtualPort, host: &mut Host, offset: u8, value: u8) -> usize {
    obey_signals(host, port.write(offset, value));
    let taken = host.take(port.output());
    obey_signals(host, port.take_output(taken));
    taken
}

/// The host has input. Returns what has to wait until the port tells of room.
fn input<'a>(port: &mut VirtualPort, host: &mut Host, input: &'a [u8]) -> &'a [u8] {
    let received = port.receive(input);
    obey_signals(host, received.todo);
    &input[received.count..]
}

#[test]
fn a_monitor_that_signals() {
    let mut port = VirtualPort::new(Chip::Uart16550A);
    let mut host = Host::default();
    // The guest enables the interrupts of input and of an empty THR, and is interrupted by THR.
    assert!(write(&mut port, &mut host, IER, 0x03) == 0 && host.signals == 1);
    assert_eq!(read(&mut port, &mut host, ISR), 0x02);
    // It writes a byte, which the host takes, and is interrupted again.
    assert!(write(&mut port, &mut host, DATA, 0x41) == 1 && host.signals == 2);
    // Without FIFO there is room for one byte of three.
    assert_eq!(input(&mut port, &mut host, b"abc"), b"bc");
    assert!(host.signals == 3 && host.resumed == 0);
    // The guest reads the byte, and the host is asked for the others.
    assert_eq!(read(&mut port, &mut host, DATA), 0x61);
    assert!(host.signals == 3 && host.resumed == 1);
    assert_eq!(input(&mut port, &mut host, b"bc"), b"c");
    assert_eq!(host.signals, 4);
}

#[test]
fn a_monitor_that_sets_the_line() {
    let mut port = VirtualPort::new(Chip::Uart16550A);
    let mut host = Host::default();
    obey_levels(&mut host, port.write(IER, 0x05));
    assert!(!host.line);
    // A break interrupts the guest, until LSR and DATA are read.
    let received = port.receive_one(0, LSR::BREAK_INTERRUPT);
    obey_levels(&mut host, received.unwrap());
    assert!(host.line);
    obey_levels(&mut host, port.read(LINE).todo);
    assert!(host.line);
    obey_levels(&mut host, port.read(DATA).todo);
    assert!(!host.line && host.signals == 0);
}

// The guest reads 8 of 12 characters and returns. The line fell and rose in that, and a pin that detects edges is to see it.
#[test]
fn a_pin_that_detects_edges_sees_a_fall_within_a_call() {
    let mut port = VirtualPort::new(Chip::Uart16550A);
    let mut host = Host::default();
    obey_levels(&mut host, port.write(FCR, 0x87));
    obey_levels(&mut host, port.write(IER, 0x01));
    obey_levels(&mut host, port.receive(b"0123456789ab").todo);
    assert!(host.line && host.rises == 1);
    assert_eq!(port.read(ISR).value, 0xc4);
    for _ in 0..8 {
        obey_levels(&mut host, port.read(DATA).todo);
    }
    assert!(host.line && host.rises == 2);
}

// The guest is interrupted by an empty THR, looks, and writes 64 bytes. It is interrupted for the first of them, which calls its handler
// again, and for no other.
#[test]
fn a_burst_of_64_bytes_is_one_interrupt() {
    let mut port = VirtualPortWith::<64>::try_new(Chip::Uart16550A).unwrap();
    let mut host = Host::default();
    obey_signals(&mut host, port.write(FCR, 0x01));
    obey_signals(&mut host, port.write(IER, 0x02));
    assert_eq!(host.signals, 1);
    assert_eq!(port.read(ISR).value, 0xc2);
    for byte in 0..64 {
        obey_signals(&mut host, port.write(DATA, byte));
    }
    assert!(host.signals == 2 && port.output().len() == 64);
    // The output is full. The FIFO holds 64 more while the host takes nothing.
    assert_eq!(port.receive_room(), 64);
}
