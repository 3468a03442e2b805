//! Events of Linux, and a wait for several.
#![cfg(target_os = "linux")]

use std::ffi::c_int;
use std::fs;
use std::io::{Read, Write};
use std::os::fd::{AsFd, AsRawFd};
use std::os::unix::net::UnixStream;
use std::os::unix::thread::{JoinHandleExt, RawPthread};
use std::sync::Arc;
use std::thread;
use std::time::{Duration, Instant};
use uart_16550_chip::{Serial, SerialEvents, Trigger};
use uart_16550_vmm::{Both, Counters, Epoll, EventFd, Room, Timer};

// How long a wait lasts at most whose event is due at once. A busy machine may take any time, so this is only there so that an event
// which never comes ends the test.
const SOON: Duration = Duration::from_secs(600);

// More bytes than a socket of Linux holds whose size nobody has set.
const MOST_OF_A_SOCKET: u32 = 1 << 24;

/// Waits until there is no news. There is at most one event for each change, so a few waits are enough.
fn settle(epoll: &Epoll) {
    let is_news = |_: &i32| epoll.wait(Duration::ZERO).unwrap();
    assert!(
        (0..100).take_while(is_news).count() < 100,
        "news without end"
    );
}

#[test]
fn an_event_stays_until_it_is_taken() {
    let event = EventFd::new().unwrap();
    let other = event.try_clone().unwrap();
    assert!(!event.take().unwrap());
    event.signal().unwrap();
    other.trigger().unwrap();
    assert!(other.take().unwrap());
    assert!(!event.take().unwrap());
    assert_ne!(event.as_raw_fd(), other.as_raw_fd());
    assert_eq!(event.as_fd().as_raw_fd(), event.as_raw_fd());
}

#[test]
fn an_event_that_is_full_stays_signalled() {
    let event = EventFd::new().unwrap();
    // The highest count that there is.
    let mut file = std::fs::File::from(event.as_fd().try_clone_to_owned().unwrap());
    file.write_all(&(u64::MAX - 1).to_ne_bytes()).unwrap();
    event.signal().unwrap();
    assert!(event.take().unwrap());
}

#[test]
fn room_signals_its_event_and_nothing_else_does() {
    let room = Room(EventFd::new().unwrap());
    room.buffer_read();
    room.out_byte();
    room.tx_lost_byte();
    room.tx_held();
    room.timeout_to_come();
    room.triggered();
    assert!(!room.0.take().unwrap());
    room.in_buffer_empty();
    assert!(room.0.take().unwrap());
}

#[test]
fn a_wait_ends_with_a_change() {
    let (terminal, mut person) = UnixStream::pair().unwrap();
    let event = EventFd::new().unwrap();
    let epoll = Epoll::new().unwrap();
    epoll.add(&terminal).unwrap();
    epoll.add(&event).unwrap();
    // Both can be written, which is news once.
    assert!(epoll.wait(SOON).unwrap());
    assert!(!epoll.wait(Duration::ZERO).unwrap());
    person.write_all(b"x").unwrap();
    assert!(epoll.wait(SOON).unwrap());
    // It is still there to be read, and that is no news.
    assert!(!epoll.wait(Duration::from_millis(1)).unwrap());
    event.signal().unwrap();
    assert!(epoll.wait(SOON).unwrap());
    assert!(epoll.add(&event).is_err());
}

/// One wait is told of eight at most, so the ninth is the news of the next one.
#[test]
fn nine_that_are_ready_are_told_by_two_waits() {
    let epoll = Epoll::new().unwrap();
    let events: Vec<_> = (0..9).map(|_| EventFd::new().unwrap()).collect();
    events.iter().for_each(|event| epoll.add(event).unwrap());
    assert!(epoll.wait(SOON).unwrap());
    assert!(epoll.wait(Duration::ZERO).unwrap());
    assert!(!epoll.wait(Duration::ZERO).unwrap());
}

/// Returns the descriptors of this process that are of a kind.
fn descriptors(kind: &str) -> Vec<c_int> {
    let all = fs::read_dir("/proc/self/fd").unwrap();
    all.filter_map(|entry| {
        let path = entry.ok()?.path();
        let is_of_kind = fs::read_link(&path).ok()?.as_os_str() == kind;
        let number = path.file_name()?.to_str()?.parse().ok()?;
        is_of_kind.then_some(number)
    })
    .collect()
}

/// A program that the monitor starts gets none of them. Those of other tests count too.
#[test]
fn a_program_that_is_started_gets_no_descriptor() {
    const GET_FLAGS: c_int = 1;
    const CLOSE_ON_EXEC: c_int = 1;
    let _held = (
        EventFd::new().unwrap(),
        Timer::new(SOON).unwrap(),
        Epoll::new().unwrap(),
    );
    for kind in ["eventfd", "timerfd", "eventpoll"] {
        let found = descriptors(&format!("anon_inode:[{kind}]"));
        assert!(!found.is_empty(), "{kind}");
        for descriptor in found {
            // SAFETY: no memory is passed. One that another test has closed meanwhile has all flags, as -1.
            let flags = unsafe { fcntl(descriptor, GET_FLAGS) };
            assert_ne!(flags & CLOSE_ON_EXEC, 0, "{kind}");
        }
    }
}

/// Who sets the clock of the machine moves no timer.
#[test]
fn a_timer_goes_by_the_clock_that_nobody_sets() {
    let timer = Timer::new(SOON).unwrap();
    let descriptor = timer.as_fd().as_raw_fd();
    let told = fs::read_to_string(format!("/proc/self/fdinfo/{descriptor}")).unwrap();
    assert!(told.contains("\nclockid: 1\n"), "{told}");
}

/// Less than a millisecond is rounded up: who waits so long again and again sleeps.
#[test]
fn a_short_wait_is_a_wait() {
    let epoll = Epoll::new().unwrap();
    for limit in [1, 350_000, 999_999, 1_000_001].map(Duration::from_nanos) {
        let start = Instant::now();
        assert!(!epoll.wait(limit).unwrap());
        assert!(start.elapsed() >= limit, "{limit:?}");
    }
}

#[test]
fn a_timer_runs_out_once_for_each_start() {
    let epoll = Epoll::new().unwrap();
    for after in [Duration::ZERO, Duration::from_micros(350)] {
        let timer = Timer::new(after).unwrap();
        let events = timer.try_clone().unwrap();
        epoll.add(&timer).unwrap();
        settle(&epoll);
        assert!(!timer.take().unwrap());
        // Each of the two starts is told, and nothing else of a device starts it.
        events.buffer_read();
        events.out_byte();
        events.in_buffer_empty();
        events.tx_lost_byte();
        assert!(!epoll.wait(Duration::from_millis(2)).unwrap());
        for _start in 0..2 {
            let start = Instant::now();
            events.timeout_to_come();
            assert!(epoll.wait(SOON).unwrap());
            assert!(start.elapsed() >= after);
            assert!(timer.take().unwrap());
            assert!(!events.take().unwrap());
        }
    }
    // One that is started again begins anew, and one of more seconds than there are can be started.
    let timer = Timer::new(Duration::from_secs(600)).unwrap();
    timer.start().unwrap();
    timer.start().unwrap();
    assert!(!timer.take().unwrap());
    Timer::new(Duration::MAX).unwrap().start().unwrap();
}

/// A monitor with a clock, whose timer is one of two that are told: a guest whose handler returned too soon is interrupted again.
#[test]
fn a_guest_is_interrupted_when_the_timer_runs_out() {
    let (timer, interrupt) = (
        Timer::new(Duration::from_micros(350)).unwrap(),
        EventFd::new().unwrap(),
    );
    let (room, epoll) = (EventFd::new().unwrap(), Epoll::new().unwrap());
    epoll.add(&timer).unwrap();
    let events = Both(
        Room(room.try_clone().unwrap()),
        Both(timer.try_clone().unwrap(), Arc::new(Counters::default())),
    );
    let mut serial = Serial::with_events(interrupt.try_clone().unwrap(), events, Vec::new());
    serial.set_clock(true).unwrap();
    serial.write(2, 0x81).unwrap();
    serial.write(1, 0x01).unwrap();
    serial.enqueue_raw_bytes(&[0; 12]).unwrap();
    assert!(interrupt.take().unwrap());
    (0..5).for_each(|_| _ = serial.read(0));
    assert!(serial.is_timeout_to_come() && !interrupt.take().unwrap());
    assert!(epoll.wait(SOON).unwrap());
    assert!(timer.take().unwrap());
    serial.timeout_passed().unwrap();
    assert!(interrupt.take().unwrap());
    assert_eq!(serial.events().1.1.counts().timeouts, 1);
}

unsafe extern "C" {
    fn signal(number: c_int, handler: extern "C" fn(c_int)) -> usize;
    fn pthread_kill(thread: RawPthread, number: c_int) -> c_int;
    fn fcntl(descriptor: c_int, command: c_int, ...) -> c_int;
}

extern "C" fn do_nothing(_: c_int) {}

/// A signal is no error: who waits looks, and waits again.
#[test]
fn a_signal_ends_a_wait() {
    const USER_SIGNAL: c_int = 10;
    // SAFETY: the handler does nothing, so it may run at any moment.
    unsafe { signal(USER_SIGNAL, do_nothing) };
    let start = Instant::now();
    let waiter = thread::spawn(|| Epoll::new()?.wait(SOON));
    while !waiter.is_finished() && start.elapsed() < SOON {
        // SAFETY: the thread was not joined, since there is its handle.
        unsafe { pthread_kill(waiter.as_pthread_t(), USER_SIGNAL) };
        thread::sleep(Duration::from_millis(1));
    }
    assert!(waiter.join().unwrap().unwrap());
}

/// A terminal that takes nothing more holds the guest back; when it can be written again, that is an event.
#[test]
fn a_slow_terminal_is_waited_for() {
    let (terminal, mut person) = UnixStream::pair().unwrap();
    terminal.set_nonblocking(true).unwrap();
    person.set_read_timeout(Some(SOON)).unwrap();
    let epoll = Epoll::new().unwrap();
    epoll.add(&terminal).unwrap();
    let mut serial = Serial::new(EventFd::new().unwrap(), terminal);
    let mut sent = 0_u32;
    while serial.read(5) & 0x20 != 0 && sent < MOST_OF_A_SOCKET {
        serial.write(0, sent as u8).unwrap();
        sent += 1;
    }
    settle(&epoll);
    let mut received = vec![0; sent as usize - 66];
    person.read_exact(&mut received).unwrap();
    assert!(epoll.wait(SOON).unwrap());
    assert_eq!(serial.write_output().unwrap(), 66);
    received.resize(sent as usize, 0);
    let received_before = sent as usize - 66;
    person.read_exact(&mut received[received_before..]).unwrap();
    assert!((0..sent).map(|number| number as u8).eq(received));
}
