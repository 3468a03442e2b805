//! Input of the host that waits for room.

use std::io::{Error, ErrorKind, Read};
use uart_16550_chip::serial::{Output, Serial, SerialEvents, Trigger};

/// How often a read that a signal interrupted is tried.
const TRIES: usize = 16;

/// The host's input: a source that does not block.
///
/// It reads no more than the device has room for, and keeps nothing: what waits is in the host. So a machine that is saved, and goes on in
/// another process that has the same source, finds all of it there; and who types faster than the guest reads is held back.
///
/// A monitor calls [`offer`](Self::offer) when the source may have input, and when the device tells of room. It is no error to call it at
/// any other time.
///
/// # Examples
///
/// ```
/// use std::convert::Infallible;
/// use uart_16550_vmm::uart_16550_chip::Serial;
/// use uart_16550_vmm::{Input, TriggerBy};
///
/// let mut serial = Serial::new(TriggerBy(|| Ok::<(), Infallible>(())), Vec::new());
/// let mut input = Input::new(&b"ls\n"[..]);
/// // The FIFO is off, so there is room for one character.
/// assert_eq!(input.offer(&mut serial)?, 1);
/// // The guest reads it, and the device tells of room.
/// assert_eq!(serial.read(0), b'l');
/// assert_eq!(input.offer(&mut serial)?, 1);
/// # Ok::<(), std::io::Error>(())
/// ```
#[derive(Debug)]
pub struct Input<R> {
    source: R,
    is_at_end: bool,
}

impl<R: Read> Input<R> {
    /// Returns the input of a source. It is to be set to not block, as by `set_nonblocking`: else `offer` waits for input, with the device
    /// in its hands.
    pub fn new(source: R) -> Self {
        Input {
            source,
            is_at_end: false,
        }
    }

    /// Gives the device all input for which it has room, and returns how many bytes it received.
    ///
    /// An interrupt that could not be triggered is no failure of the input: the device tries again in its next call, and its events tell.
    ///
    /// # Errors
    ///
    /// If the source cannot be read. What was read before is received.
    pub fn offer<T: Trigger, EV: SerialEvents, W: Output, const FIFO: usize>(
        &mut self,
        serial: &mut Serial<T, EV, W, FIFO>,
    ) -> Result<usize, Error> {
        let mut bytes = [0; FIFO];
        let mut received = 0;
        // A source may have less than there is room for, and more behind that. The guest reads nothing meanwhile, so each round takes at
        // least one of the places of a FIFO.
        for _ in 0..FIFO {
            let room = serial.fifo_capacity().min(FIFO);
            if room == 0 {
                break;
            }
            let count = self.read(&mut bytes[..room])?;
            if count == 0 {
                break;
            }
            // There is room for all of them, and an interrupt that could not be triggered is owed.
            let _ = serial.enqueue_raw_bytes(&bytes[..count]);
            received += count;
        }
        Ok(received)
    }

    /// Returns whether the source has ended. All of it was received then.
    pub fn is_at_end(&self) -> bool {
        self.is_at_end
    }

    /// Reads what there is, as far as there is room, and returns how many bytes that is.
    fn read(&mut self, room: &mut [u8]) -> Result<usize, Error> {
        for _ in 0..TRIES {
            match self.source.read(room) {
                Ok(count) => {
                    self.is_at_end = count == 0;
                    return Ok(count.min(room.len()));
                }
                Err(cause) if cause.kind() == ErrorKind::WouldBlock => return Ok(0),
                Err(cause) if cause.kind() == ErrorKind::Interrupted => {}
                Err(cause) => return Err(cause),
            }
        }
        Err(ErrorKind::Interrupted.into())
    }
}
