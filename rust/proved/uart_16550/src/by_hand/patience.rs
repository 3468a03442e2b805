//! A function as a patience.

use crate::Patience;

/// A function is asked, and returns whether to keep waiting.
///
/// # Examples
///
/// A wait that ends at a time of the program's clock, or after a million unsuccessful checks:
///
/// ```
/// # include!(concat!(env!("CARGO_MANIFEST_DIR"), "/examples.rs"));
/// # fn main() {}
/// # mod clock { pub fn microseconds() -> u64 { 0 } }
/// # fn example(uart: &mut Uart16550<Device>) -> Outcome<()> {
/// let deadline = clock::microseconds() + 20_000;
/// uart.send_bytes_while(b"hello", &mut || clock::microseconds() < deadline)?;
/// # Ok(()) }
/// ```
impl<F: FnMut() -> bool> Patience for F {
    fn keep_waiting(&mut self) -> bool {
        self()
    }
}
