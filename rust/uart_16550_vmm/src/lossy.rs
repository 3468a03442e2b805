//! Output that never holds a guest back.

use uart_16550_chip::serial::Output;

/// An output that drops what its host does not take at once, and counts what it dropped.
///
/// Without it a host that stops, as a terminal on which nobody reads, holds the guest back: nothing is lost, and a guest that prints by
/// polling waits until it gives up, again and again. With it the guest goes on as if the host read on, and what it prints meanwhile is
/// gone. The device counts that as written, and [`dropped`](Self::dropped) says how much it is. The output in it is to be set to not block.
///
/// # Examples
///
/// ```
/// use std::convert::Infallible;
/// use uart_16550_vmm::uart_16550_chip::{Output, Serial};
/// use uart_16550_vmm::{Lossy, TriggerBy};
///
/// /// A terminal on which nobody reads.
/// struct Stopped;
///
/// impl Output for Stopped {
///     type Error = Infallible;
///
///     fn write_bytes(&mut self, _: &[u8]) -> Result<usize, Infallible> {
///         Ok(0)
///     }
/// }
///
/// let trigger = TriggerBy(|| Ok::<(), Infallible>(()));
/// let mut serial = Serial::new(trigger, Lossy::new(Stopped));
/// for byte in 0..100 {
///     // The transmitter is empty each time.
///     assert_eq!(serial.read(5), 0x60);
///     serial.write(0, byte)?;
/// }
/// assert_eq!(serial.writer().dropped(), 100);
/// # Ok::<(), Box<dyn std::error::Error>>(())
/// ```
#[derive(Debug, Default)]
pub struct Lossy<W> {
    output: W,
    dropped: u64,
}

impl<W> Lossy<W> {
    /// Returns an output that drops what this one does not take.
    pub fn new(output: W) -> Self {
        Lossy { output, dropped: 0 }
    }

    /// Returns how many bytes were dropped, up to `u64::MAX`.
    pub fn dropped(&self) -> u64 {
        self.dropped
    }

    /// Returns the output in it.
    pub fn get_ref(&self) -> &W {
        &self.output
    }

    /// Returns the output in it, to be changed.
    pub fn get_mut(&mut self) -> &mut W {
        &mut self.output
    }

    /// Returns the output that was in it.
    pub fn into_inner(self) -> W {
        self.output
    }
}

impl<W: Output> Output for Lossy<W> {
    type Error = W::Error;

    /// Takes all of these bytes.
    ///
    /// # Errors
    ///
    /// If the output in it fails. These bytes are not counted as dropped: the device counts them as lost.
    fn write_bytes(&mut self, bytes: &[u8]) -> Result<usize, W::Error> {
        let taken = self.output.write_bytes(bytes)?.min(bytes.len());
        let rest = bytes.len() - taken;
        self.dropped = self.dropped.saturating_add(rest as u64);
        Ok(bytes.len())
    }
}
