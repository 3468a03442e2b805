//! Calls of Linux for which std has none, declared by hand: events, a timer, and a wait for several of them.
#![allow(unsafe_code)]

use std::ffi::{c_int, c_long, c_uint};
use std::fs::File;
use std::io;
use std::io::{ErrorKind, Read, Write};
use std::os::fd::{AsFd, AsRawFd, BorrowedFd, FromRawFd, OwnedFd, RawFd};
use std::time::Duration;
use uart_16550_chip::{SerialEvents, Trigger};

unsafe extern "C" {
    fn eventfd(count: c_uint, flags: c_int) -> c_int;
    fn epoll_create1(flags: c_int) -> c_int;
    fn epoll_ctl(epoll: c_int, operation: c_int, fd: c_int, event: *mut EpollEvent) -> c_int;
    fn epoll_wait(epoll: c_int, events: *mut EpollEvent, len: c_int, milliseconds: c_int) -> c_int;
    fn timerfd_create(clock: c_int, flags: c_int) -> c_int;
    fn timerfd_settime(
        timer: c_int,
        flags: c_int,
        setting: *const TimerSetting,
        before: *mut TimerSetting,
    ) -> c_int;
}

const CLOSE_ON_EXEC: c_int = if IS_SPARC { 0x40_0000 } else { 0o2_000_000 };
const NON_BLOCKING: c_int = if IS_SPARC {
    0x4000
} else if IS_MIPS {
    0o200
} else {
    0o4_000
};
// Linux has other numbers for them on these architectures.
const IS_SPARC: bool = cfg!(any(target_arch = "sparc", target_arch = "sparc64"));
const IS_MIPS: bool = cfg!(any(
    target_arch = "mips",
    target_arch = "mips32r6",
    target_arch = "mips64",
    target_arch = "mips64r6"
));
const ADD: c_int = 1;
const READABLE: u32 = 1;
const WRITABLE: u32 = 4;
/// An event comes once for each change, and not as long as a state lasts.
const BY_EDGE: u32 = 1 << 31;
const NANOSECONDS_IN_A_MILLISECOND: u128 = 1_000_000;
/// The clock that nobody sets.
const MONOTONIC: c_int = 1;

// On this architecture alone the struct is packed, so that it has the layout that it has for processes of 32 bits.
#[derive(Clone, Copy)]
#[cfg_attr(target_arch = "x86_64", repr(C, packed))]
#[cfg_attr(not(target_arch = "x86_64"), repr(C))]
struct EpollEvent {
    events: u32,
    token: u64,
}

// These have 64 bits for seconds though a `long` has 32.
#[cfg(any(
    target_arch = "riscv32",
    all(target_arch = "x86_64", target_pointer_width = "32")
))]
type Seconds = i64;
#[cfg(not(any(
    target_arch = "riscv32",
    all(target_arch = "x86_64", target_pointer_width = "32")
)))]
type Seconds = c_long;

#[repr(C)]
struct Time {
    seconds: Seconds,
    nanoseconds: c_long,
}

/// After how long a timer runs out, and after how long again and again.
#[repr(C)]
struct TimerSetting {
    again: Time,
    first: Time,
}

/// Returns what a call returned, or why it failed.
fn checked(result: c_int) -> io::Result<c_int> {
    if result < 0 {
        Err(io::Error::last_os_error())
    } else {
        Ok(result)
    }
}

/// Returns a descriptor that a call has just made, or why it failed.
fn owned(result: c_int) -> io::Result<OwnedFd> {
    // SAFETY: each caller passes the descriptor that a call made for it, which nothing else owns.
    checked(result).map(|fd| unsafe { OwnedFd::from_raw_fd(fd) })
}

/// Takes the count of an event or a timer, and returns whether there was one.
fn taken(mut file: &File) -> io::Result<bool> {
    match file.read_exact(&mut [0; 8]) {
        Err(cause) if cause.kind() == ErrorKind::WouldBlock => Ok(false),
        result => result.map(|()| true),
    }
}

/// An eventfd. As the trigger of a device each signal is one edge: connect it to the guest's interrupt by an irqfd of KVM.
///
/// # Examples
///
/// ```
/// use uart_16550_vmm::EventFd;
/// use uart_16550_vmm::uart_16550_chip::Serial;
///
/// let interrupt = EventFd::new()?;
/// let mut serial = Serial::new(interrupt.try_clone()?, std::io::sink());
/// serial.write(1, 0x01)?;
/// serial.enqueue_raw_bytes(b"x")?;
/// assert!(interrupt.take()?);
/// # Ok::<(), Box<dyn std::error::Error>>(())
/// ```
#[derive(Debug)]
pub struct EventFd(File);

impl EventFd {
    /// Returns an event that is not signalled.
    ///
    /// # Errors
    ///
    /// If the process can have no more descriptors.
    pub fn new() -> io::Result<Self> {
        // SAFETY: no memory is passed.
        owned(unsafe { eventfd(0, CLOSE_ON_EXEC | NON_BLOCKING) }).map(|fd| EventFd(fd.into()))
    }

    /// Signals the event. It stays signalled until somebody takes that.
    ///
    /// # Errors
    ///
    /// If Linux refuses that.
    pub fn signal(&self) -> io::Result<()> {
        match (&self.0).write_all(&1_u64.to_ne_bytes()) {
            // The counter is full: it is signalled as much as it can be.
            Err(cause) if cause.kind() == ErrorKind::WouldBlock => Ok(()),
            result => result,
        }
    }

    /// Takes the signal. Returns whether there was one since the last time.
    ///
    /// # Errors
    ///
    /// If Linux refuses that.
    pub fn take(&self) -> io::Result<bool> {
        taken(&self.0)
    }

    /// Returns another descriptor of the same event.
    ///
    /// # Errors
    ///
    /// If the process can have no more descriptors.
    pub fn try_clone(&self) -> io::Result<Self> {
        self.0.try_clone().map(EventFd)
    }
}

impl Trigger for EventFd {
    type E = io::Error;

    fn trigger(&self) -> io::Result<()> {
        self.signal()
    }
}

impl AsFd for EventFd {
    fn as_fd(&self) -> BorrowedFd<'_> {
        self.0.as_fd()
    }
}

impl AsRawFd for EventFd {
    fn as_raw_fd(&self) -> RawFd {
        self.0.as_raw_fd()
    }
}

/// Events of a device that wake the thread which has the input: the eventfd is signalled when there is room for input.
///
/// It does no more, since the device tells of room while the processor's thread is in it.
#[derive(Debug)]
pub struct Room(
    /// Is signalled when there is room.
    pub EventFd,
);

impl SerialEvents for Room {
    fn buffer_read(&self) {}

    fn out_byte(&self) {}

    fn tx_lost_byte(&self) {}

    fn in_buffer_empty(&self) {
        // An eventfd that is there can be signalled. If one could not, the next room would be told again.
        let _ = self.0.signal();
    }
}

/// A timer for a device whose monitor has a clock: as its events it starts when an interrupt is put off.
///
/// Call `Serial::set_clock(true)`, and `Serial::timeout_passed` when the timer has run out.
///
/// # Examples
///
/// ```
/// use std::time::Duration;
/// use uart_16550_vmm::uart_16550_chip::Serial;
/// use uart_16550_vmm::{Epoll, EventFd, Timer};
///
/// // Four characters at 115,200 baud.
/// let timer = Timer::new(Duration::from_micros(350))?;
/// let epoll = Epoll::new()?;
/// epoll.add(&timer)?;
/// let interrupt = EventFd::new()?;
/// let mut serial = Serial::with_events(interrupt.try_clone()?, timer.try_clone()?, Vec::new());
/// serial.set_clock(true)?;
///
/// // The guest enables the interrupt for an empty transmitter, looks what it is called for, and sends a byte in its handler.
/// serial.write(1, 0x02)?;
/// assert!(interrupt.take()?);
/// serial.read(2);
/// serial.write(0, b'>')?;
/// assert!(!interrupt.take()?);
///
/// // The handler returned, and waits.
/// assert!(epoll.wait(Duration::from_secs(60))?);
/// assert!(timer.take()?);
/// serial.timeout_passed()?;
/// assert!(interrupt.take()?);
/// # Ok::<(), Box<dyn std::error::Error>>(())
/// ```
#[derive(Debug)]
pub struct Timer {
    file: File,
    after: Duration,
}

impl Timer {
    /// Returns a timer that does not run, and that runs out so long after it is started.
    ///
    /// # Errors
    ///
    /// If the process can have no more descriptors.
    pub fn new(after: Duration) -> io::Result<Self> {
        // SAFETY: no memory is passed.
        let timer = unsafe { timerfd_create(MONOTONIC, CLOSE_ON_EXEC | NON_BLOCKING) };
        owned(timer).map(|fd| Timer {
            file: fd.into(),
            after,
        })
    }

    /// Starts the timer, anew if it runs.
    ///
    /// # Errors
    ///
    /// If Linux refuses that.
    pub fn start(&self) -> io::Result<()> {
        // A time of 0 would stop the timer.
        let after = self.after.max(Duration::from_nanos(1));
        let setting = TimerSetting {
            again: Time {
                seconds: 0,
                nanoseconds: 0,
            },
            first: Time {
                seconds: Seconds::try_from(after.as_secs()).unwrap_or(Seconds::MAX),
                nanoseconds: after.subsec_nanos() as c_long,
            },
        };
        // SAFETY: the kernel reads the setting that is passed, keeps no pointer to it, and writes none.
        let started =
            unsafe { timerfd_settime(self.file.as_raw_fd(), 0, &setting, std::ptr::null_mut()) };
        checked(started).map(drop)
    }

    /// Returns whether the timer has run out since it was started. That is told once.
    ///
    /// # Errors
    ///
    /// If Linux refuses that.
    pub fn take(&self) -> io::Result<bool> {
        taken(&self.file)
    }

    /// Returns another descriptor of the same timer.
    ///
    /// # Errors
    ///
    /// If the process can have no more descriptors.
    pub fn try_clone(&self) -> io::Result<Self> {
        self.file.try_clone().map(|file| Timer {
            file,
            after: self.after,
        })
    }
}

impl SerialEvents for Timer {
    fn buffer_read(&self) {}

    fn out_byte(&self) {}

    fn tx_lost_byte(&self) {}

    fn in_buffer_empty(&self) {}

    fn timeout_to_come(&self) {
        // A timer that is there can be started.
        let _ = self.start();
    }
}

impl AsFd for Timer {
    fn as_fd(&self) -> BorrowedFd<'_> {
        self.file.as_fd()
    }
}

/// Waits for several descriptors at a time: the terminal, the room, the timer, the end of the guest.
///
/// An event comes once for each change. So who waits looks at everything after each event, and again until there is nothing more to be
/// done: [`Input::offer`](crate::Input::offer) and `Serial::write_output` do that.
#[derive(Debug)]
pub struct Epoll(OwnedFd);

impl Epoll {
    /// Returns one that waits for nothing.
    ///
    /// # Errors
    ///
    /// If the process can have no more descriptors.
    pub fn new() -> io::Result<Self> {
        // SAFETY: no memory is passed.
        owned(unsafe { epoll_create1(CLOSE_ON_EXEC) }).map(Epoll)
    }

    /// Lets it wait for this descriptor too: that it can be read or written, where it could not before. If it can be already, that is an
    /// event.
    ///
    /// # Errors
    ///
    /// If the descriptor was added before, or is of a kind for which nobody waits: a file on a disk can always be read and written.
    pub fn add(&self, file: &impl AsFd) -> io::Result<()> {
        let mut event = EpollEvent {
            events: READABLE | WRITABLE | BY_EDGE,
            token: 0,
        };
        let file = file.as_fd().as_raw_fd();
        // SAFETY: the kernel reads the event that is passed, and keeps no pointer to it.
        checked(unsafe { epoll_ctl(self.0.as_raw_fd(), ADD, file, &mut event) }).map(drop)
    }

    /// Waits until something changed, at most so long, and up to a millisecond longer. Returns whether something may have: also after a
    /// signal, as a debugger sends them. For a shorter time wait for a [`Timer`].
    ///
    /// # Errors
    ///
    /// If Linux refuses that.
    pub fn wait(&self, limit: Duration) -> io::Result<bool> {
        let mut events = [EpollEvent {
            events: 0,
            token: 0,
        }; 8];
        // Rounded up: less than a millisecond would be no wait at all, and who waits again and again would never sleep.
        let milliseconds = limit.as_nanos().div_ceil(NANOSECONDS_IN_A_MILLISECOND);
        let milliseconds = c_int::try_from(milliseconds).unwrap_or(c_int::MAX);
        // SAFETY: the kernel writes at most as many events as it is told that there is room for.
        let count = unsafe {
            epoll_wait(
                self.0.as_raw_fd(),
                events.as_mut_ptr(),
                events.len() as c_int,
                milliseconds,
            )
        };
        match checked(count) {
            Err(cause) if cause.kind() == ErrorKind::Interrupted => Ok(true),
            result => result.map(|count| count != 0),
        }
    }
}

#[cfg(test)]
mod tests {
    use super::*;

    #[test]
    #[cfg(target_arch = "x86_64")]
    fn events_lie_one_behind_the_other_as_linux_writes_them() {
        assert_eq!(size_of::<EpollEvent>(), 12);
    }
}
