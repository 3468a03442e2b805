//! What docs/LIVE.md shows: a serial port for a monitor, and one that was written for vm-superio.
#![cfg(target_os = "linux")]

use std::io;
use std::io::{Read, Write};
use std::os::unix::net::UnixStream;
use std::time::Duration;
use uart_16550_vmm::uart_16550_chip::{Serial, SerialState};
use uart_16550_vmm::{BusSerial, Epoll, EventFd, Input, Lossy, Room};

/// COM1 of a guest, and its terminal.
pub struct Com1 {
    /// At the ports 3F8 to 3FF: at an exit of the guest call `bus.read(offset, data)` or `bus.write(offset, data)`.
    pub bus: BusSerial<EventFd, Room, UnixStream>,
    /// An irqfd of KVM takes each signal of it to the guest's IRQ 4.
    pub interrupt: EventFd,
    /// Is signalled when there is room for input.
    pub room: EventFd,
    input: Input<UnixStream>,
}

impl Com1 {
    pub fn new(terminal: UnixStream) -> io::Result<Self> {
        // A terminal that blocks would stop the guest's processor.
        terminal.set_nonblocking(true)?;
        let (interrupt, room) = (EventFd::new()?, EventFd::new()?);
        let events = Room(room.try_clone()?);
        let serial = Serial::with_events(interrupt.try_clone()?, events, terminal.try_clone()?);
        Ok(Com1 {
            bus: BusSerial::at_ports(serial),
            interrupt,
            room,
            input: Input::new(terminal),
        })
    }

    /// The terminal can be read or written again, or there is room: does all that there is to be done.
    pub fn serve_terminal(&mut self) -> io::Result<()> {
        self.room.take()?;
        let serial = self.bus.serial_mut();
        serial.write_output().map_err(io::Error::other)?;
        self.input.offer(serial)?;
        Ok(())
    }
}

/// Saves a port as bytes, and restores it from them, for another terminal.
fn moved(com1: &Com1, terminal: UnixStream) -> io::Result<Com1> {
    let bytes = com1.bus.serial().state().to_bytes();
    let state = SerialState::from_bytes(&bytes).map_err(io::Error::other)?;
    let mut moved = Com1::new(terminal)?;
    let (trigger, events, output) = moved.bus.into_serial().into_parts();
    let serial = Serial::from_state(&state, trigger, events, output)
        .map_err(|refused| io::Error::other(refused.reason))?;
    moved.bus = BusSerial::at_ports(serial);
    Ok(moved)
}

// How long a wait lasts at most whose event is due at once. A busy machine may take any time, so this is only there so that an event
// which never comes ends the test.
const SOON: Duration = Duration::from_secs(600);

#[test]
fn a_person_and_a_guest_talk() {
    let (ours, mut person) = UnixStream::pair().unwrap();
    let epoll = Epoll::new().unwrap();
    epoll.add(&ours).unwrap();
    let mut com1 = Com1::new(ours).unwrap();
    epoll.add(&com1.room).unwrap();
    com1.bus.write(2, &[0x01]);
    com1.bus.write(1, &[0x01]);
    com1.bus.write(0, b"login: ");
    let mut prompt = [0; 7];
    person.read_exact(&mut prompt).unwrap();
    assert_eq!(&prompt, b"login: ");
    person.write_all(&[b'x'; 40]).unwrap();
    let mut read = 0;
    while read < 40 {
        assert!(epoll.wait(SOON).unwrap());
        com1.serve_terminal().unwrap();
        if com1.interrupt.take().unwrap() {
            read += drain(&mut com1);
        }
    }
}

/// The guest's handler: it reads as long as something waits. Returns how many characters that were.
fn drain(com1: &mut Com1) -> usize {
    let mut count = 0;
    let mut register = [0];
    loop {
        com1.bus.read(5, &mut register);
        if register[0] & 0x01 == 0 {
            return count;
        }
        com1.bus.read(0, &mut register);
        count += 1;
    }
}

#[test]
fn a_port_moves() {
    let (ours, mut person) = UnixStream::pair().unwrap();
    let mut com1 = Com1::new(ours).unwrap();
    com1.bus.write(1, &[0x01]);
    person.write_all(b"x").unwrap();
    com1.serve_terminal().unwrap();
    let (ours, _) = UnixStream::pair().unwrap();
    let mut other = moved(&com1, ours).unwrap();
    // The guest is interrupted again, since the first time may have been lost on the way.
    assert!(other.interrupt.take().unwrap());
    assert_eq!(drain(&mut other), 1);
}

/// A guest whose host has stopped prints on.
#[test]
fn with_lossy_output_a_stopped_host_is_no_matter() {
    let (ours, _person) = UnixStream::pair().unwrap();
    ours.set_nonblocking(true).unwrap();
    let mut com1 = BusSerial::at_ports(Serial::new(EventFd::new().unwrap(), Lossy::new(ours)));
    let mut lsr = [0];
    for _line in 0..100_000 {
        com1.write(0, b"Hello\n");
        com1.read(5, &mut lsr);
        assert_eq!(lsr, [0x60]);
    }
    assert!(com1.serial().writer().dropped() > 0);
    assert!(com1.take_failure().is_none());
}

#[cfg(feature = "vm-superio")]
mod from_vm_superio {
    use std::io;
    use uart_16550_vmm::uart_16550_chip::Serial;
    use uart_16550_vmm::{EventFd, FromSuperio, Input};
    use vm_superio::Trigger;

    /// Stays as it is, for this device and for others.
    struct EventFdTrigger(EventFd);

    impl Trigger for EventFdTrigger {
        type E = io::Error;

        fn trigger(&self) -> io::Result<()> {
            self.0.signal()
        }
    }

    #[test]
    fn their_trigger_is_taken() -> Result<(), Box<dyn std::error::Error>> {
        let trigger = EventFdTrigger(EventFd::new()?);
        let mut serial = Serial::new(FromSuperio(trigger), Vec::new());
        serial.write(0, 0x01)?;
        assert_eq!(serial.writer(), &[0x01]);
        let mut input = Input::new(&b"abc"[..]);
        input.offer(&mut serial)?;
        assert_eq!(serial.read(0), b'a');
        Ok(())
    }
}
