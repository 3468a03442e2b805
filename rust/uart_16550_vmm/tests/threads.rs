//! Two processors of a guest and the thread of a monitor that has the terminal are in one device at a time, as in a real monitor: the
//! processors make accesses whenever they like, and the third thread waits for the terminal, for room and for the timer.
#![cfg(target_os = "linux")]

use std::io::{Read, Write};
use std::net::Shutdown;
use std::os::unix::net::UnixStream;
use std::sync::{Arc, Mutex};
use std::thread;
use std::time::Duration;
use uart_16550_chip::Serial;
use uart_16550_vmm::{Both, BusSerial, Counters, Epoll, EventFd, Input, Room, Timer};

type Events = Both<Arc<Counters>, Both<Room, Timer>>;
type Device = Serial<EventFd, Events, UnixStream>;
type Com1 = Mutex<BusSerial<EventFd, Events, UnixStream>>;

const DATA: u64 = 0;
const IER: u64 = 1;
const ISR: u64 = 2;
const FCR: u64 = 2;
const LSR: u64 = 5;

const NONE_PENDING: u8 = 0x01;
const RECEIVED: u8 = 0x01;
const CAN_SEND: u8 = 0x20;

/// How many bytes go each way.
const COUNT: usize = 30_000;
/// How long nothing may happen. A busy machine may take any time, so this is only there so that a thread which waits for ever ends the
/// test.
const SOON: Duration = Duration::from_secs(300);

fn read(com1: &Com1, offset: u64) -> u8 {
    let mut value = [0];
    com1.lock().unwrap().read(offset, &mut value);
    value[0]
}

fn write(com1: &Com1, offset: u64, value: u8) {
    com1.lock().unwrap().write(offset, &[value]);
}

/// Bytes that go one way.
fn bytes(seed: usize) -> Vec<u8> {
    (0..COUNT)
        .map(|at| (at * 7 + at / 251 + seed) as u8)
        .collect()
}

/// The first processor: it receives by interrupts, as Linux does.
fn receive(com1: &Com1, interrupt: &EventFd) -> Vec<u8> {
    let epoll = Epoll::new().unwrap();
    epoll.add(interrupt).unwrap();
    let mut received = Vec::new();
    while received.len() < COUNT {
        assert!(
            epoll.wait(SOON).unwrap(),
            "no interrupt after {}",
            received.len()
        );
        if !interrupt.take().unwrap() {
            continue;
        }
        while read(com1, ISR) & NONE_PENDING == 0 {
            while read(com1, LSR) & RECEIVED != 0 {
                received.push(read(com1, DATA));
            }
        }
    }
    received
}

/// The second processor: it prints by polling. The terminal takes all of it, so it never waits for long.
fn print(com1: &Com1) {
    for byte in bytes(1) {
        while read(com1, LSR) & CAN_SEND == 0 {
            thread::yield_now();
        }
        write(com1, DATA, byte);
    }
}

/// The monitor's own thread, until the terminal is closed.
fn serve(com1: &Com1, terminal: &UnixStream, room: &EventFd, timer: &Timer) {
    let epoll = Epoll::new().unwrap();
    epoll.add(terminal).unwrap();
    epoll.add(room).unwrap();
    epoll.add(timer).unwrap();
    let mut input = Input::new(terminal);
    while !input.is_at_end() {
        assert!(epoll.wait(SOON).unwrap(), "no event");
        room.take().unwrap();
        let has_run_out = timer.take().unwrap();
        let mut com1 = com1.lock().unwrap();
        if has_run_out {
            com1.serial_mut().timeout_passed().unwrap();
        }
        com1.serial_mut().write_output().unwrap();
        input.offer(com1.serial_mut()).unwrap();
    }
}

/// Moves bytes each way at once, and returns how often the interrupt was triggered.
fn move_bytes(set: fn(&mut Device)) -> u64 {
    let (terminal, person) = UnixStream::pair().unwrap();
    terminal.set_nonblocking(true).unwrap();
    person.set_read_timeout(Some(SOON)).unwrap();
    person.set_write_timeout(Some(SOON)).unwrap();
    let (interrupt, room) = (EventFd::new().unwrap(), EventFd::new().unwrap());
    let timer = Timer::new(Duration::from_micros(350)).unwrap();
    let counters = Arc::new(Counters::default());
    let events = Both(
        Arc::clone(&counters),
        Both(Room(room.try_clone().unwrap()), timer.try_clone().unwrap()),
    );
    let output = terminal.try_clone().unwrap();
    let mut serial = Serial::with_events(interrupt.try_clone().unwrap(), events, output);
    set(&mut serial);
    let com1 = Mutex::new(BusSerial::at_ports(serial));
    write(&com1, FCR, 0x87);
    write(&com1, IER, 0x01);
    thread::scope(|scope| {
        scope.spawn(|| serve(&com1, &terminal, &room, &timer));
        scope.spawn(|| print(&com1));
        let receiver = scope.spawn(|| receive(&com1, &interrupt));
        scope.spawn(|| (&person).write_all(&bytes(0)).unwrap());
        let mut shown = vec![0; COUNT];
        (&person).read_exact(&mut shown).unwrap();
        assert!(shown == bytes(1));
        assert!(receiver.join().unwrap() == bytes(0));
        person.shutdown(Shutdown::Write).unwrap();
    });
    let counts = counters.counts();
    assert_eq!(counts.reads, COUNT as u64);
    assert_eq!((counts.out_bytes, counts.lost_bytes), (COUNT as u64, 0));
    assert_eq!((counts.overflows, counts.overruns), (0, 0));
    counts.triggers
}

/// The host brings at least one character each time, and each of them is signalled at most once when it comes and once when it is read.
#[test]
fn two_processors_beside_a_thread_with_the_terminal() {
    assert!(move_bytes(|_| {}) <= 2 * COUNT as u64);
}

/// Here each is signalled when it comes alone.
#[test]
fn the_same_with_a_clock() {
    assert!(move_bytes(|serial| serial.set_clock(true).unwrap()) <= COUNT as u64);
}

#[test]
fn the_same_with_a_handler_that_drains() {
    assert!(move_bytes(|serial| serial.set_handler_drains(true).unwrap()) <= COUNT as u64);
}
