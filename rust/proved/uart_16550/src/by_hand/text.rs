//! Text through the driver itself.

use crate::Uart16550;
use crate::backend::Backend;
use core::fmt;

/// Text goes out as it is, by [`send_bytes_exact`](Uart16550::send_bytes_exact): a line feed stays one. A terminal wants
/// [`Uart16550Tty`](crate::Uart16550Tty).
///
/// # Errors
///
/// A stall, of which `fmt::Error` cannot say after how many bytes.
impl<B: Backend> fmt::Write for Uart16550<B> {
    fn write_str(&mut self, text: &str) -> fmt::Result {
        self.send_bytes_exact(text.as_bytes())
            .map_err(|_stalled| fmt::Error)
    }
}
