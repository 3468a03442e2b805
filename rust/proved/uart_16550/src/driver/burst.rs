//! Bursts: how large one may be, and those of bytes that are no single slice.

use super::Uart16550;
use crate::backend::Backend;
use uart_spec::FifoSize;

impl<B: Backend> Uart16550<B> {
    // Returns how many bytes certainly fit once LSR has shown `THR_EMPTY`.
    fn burst_limit(&self, size: FifoSize) -> usize {
        if self.fifo_enabled {
            size.characters()
        } else {
            1
        }
    }

    // Writes bytes from the front to DATA, at most so many, and returns how many.
    pub(super) fn write_up_to(&mut self, limit: usize, bytes: &[u8]) -> usize {
        let count = bytes.len().min(limit);
        self.write_data(&bytes[..count]);
        count
    }

    /// Does the same as `send_bytes` for a chip whose transmitter FIFO has this size, whatever
    /// `fifo_size` says: sends as many bytes as it holds if the FIFO is on, else one.
    ///
    /// The size is taken on trust: on a chip with a smaller FIFO the bytes that do not fit are
    /// lost, and nothing tells. Some chips hold more than 16 only after they were told, as a 16750
    /// by `enable_64_byte_fifos`. `set_fifo_size` sets the size for all calls that send.
    ///
    /// # Examples
    ///
    /// ```
    /// # include!(concat!(env!("CARGO_MANIFEST_DIR"), "/examples.rs"));
    /// # fn main() {}
    /// # fn example(uart: &mut Uart16550<Device>, bytes: &[u8]) -> Outcome<()> {
    /// let sent = uart.send_burst(bytes, FifoSize::SixtyFour);
    /// let rest = &bytes[sent..];
    /// # Ok(()) }
    /// ```
    ///
    /// # Proved
    ///
    /// - *made*: [makes accesses as](crate::proved::driver#Made) [`SendsBurst`](crate::proved::bursts#SendsBurst) `size buffer.now result`: nothing if there are no bytes; else a send check and, if it succeeds, bytes from the front are written to DATA: as many as a FIFO of this size holds, or one if it is off. The result is how many.
    /// - *count*: `result ≤ length buffer.now`.
    ///
    /// <details><summary>The clauses</summary>
    ///
    /// [How to read them](uart_spec::proved):
    ///
    /// ```text
    /// ensures made { Made B.step (SendsBurst size buffer.now result) self.old self.new }
    /// ensures count { result ≤ length buffer.now }
    /// ```
    ///
    /// </details>
    pub fn send_burst(&mut self, buffer: &[u8], size: FifoSize) -> usize {
        if buffer.is_empty() {
            return 0;
        }
        let Ok(()) = self.ready_to_send() else {
            return 0;
        };
        let limit = self.burst_limit(size);
        self.write_up_to(limit, buffer)
    }

    // Writes the urgent byte to DATA, if there is one, and returns how many bytes that were.
    fn write_urgent(&mut self, urgent: Option<u8>) -> usize {
        match urgent {
            None => 0,
            Some(byte) => {
                self.write_byte(byte);
                1
            }
        }
    }

    // Writes one burst to DATA: the urgent byte, and then bytes from the front of both parts.
    // Returns its length.
    fn write_gathered(&mut self, urgent: Option<u8>, first: &[u8], second: &[u8]) -> usize {
        let limit = self.burst_limit(self.fifo_size);
        let urgents = self.write_urgent(urgent);
        let firsts = self.write_up_to(limit - urgents, first);
        let seconds = self.write_up_to(limit - urgents - firsts, second);
        urgents + firsts + seconds
    }

    /// Does the same as `send_bytes` for bytes that a queue holds: an urgent byte, if there is one,
    /// and then the bytes of both parts, as `VecDeque::as_slices` gives them. Returns how many of
    /// these bytes were sent, from the front.
    ///
    /// They are one burst, after one check as `ready_to_send`, wherever the parts meet. So the
    /// queue need not copy bytes into one slice, however large the FIFO is. If there are no bytes,
    /// it makes no access.
    ///
    /// # Examples
    ///
    /// ```
    /// # include!(concat!(env!("CARGO_MANIFEST_DIR"), "/examples.rs"));
    /// # fn main() {}
    /// # fn example(uart: &mut Uart16550<Device>, queue: &mut std::collections::VecDeque<u8>) -> Outcome<()> {
    /// let (first, second) = queue.as_slices();
    /// let sent = uart.send_gathered(None, first, second);
    /// queue.drain(..sent);
    /// # Ok(()) }
    /// ```
    ///
    /// # Proved
    ///
    /// - *made*: [makes accesses as](crate::proved::driver#Made) [`Sends`](crate::proved::transmit#Sends) `(option_to_list urgent ++ (first.now ++ second.now)) result`: nothing if there are no bytes; else a send check and, if it succeeds, bytes from the front are written to DATA: as many as a FIFO of the size that is set holds, or one if it is off. The result is how many.
    /// - *count*: `result ≤ length (option_to_list urgent ++ (first.now ++ second.now))`.
    ///
    /// <details><summary>The clauses</summary>
    ///
    /// [How to read them](uart_spec::proved):
    ///
    /// ```text
    /// ensures made { Made B.step (Sends (option_to_list urgent ++ (first.now ++ second.now)) result) self.old self.new }
    /// ensures count { result ≤ length (option_to_list urgent ++ (first.now ++ second.now)) }
    /// ```
    ///
    /// </details>
    pub fn send_gathered(&mut self, urgent: Option<u8>, first: &[u8], second: &[u8]) -> usize {
        // Mostly a burst is in one part, which `send_bytes` writes more quickly.
        if urgent.is_none() && (second.is_empty() || first.len() >= self.fifo_size.characters()) {
            return self.send_bytes(first);
        }
        let Ok(()) = self.ready_to_send() else {
            return 0;
        };
        self.write_gathered(urgent, first, second)
    }
}
