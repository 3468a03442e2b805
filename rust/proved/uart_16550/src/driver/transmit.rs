//! Sending.

use super::Uart16550;
use crate::backend::Backend;
use crate::patience::{Patience, WaitEnd, WaitError};
use bitflags::Flags;
use uart_spec::registers::{LSR, MCR, MSR, offsets};
use uart_spec::{ByteSendError, FIFO_SIZE, FifoSize, StalledError};

impl<B: Backend> Uart16550<B> {
    // Returns whether the modem lines allow sending. In loopback they do not matter: CTS is then
    // connected to RTS inside the chip, and says nothing about the remote.
    fn is_clear_to_send(&mut self) -> bool {
        if MCR::from_bits_retain(self.read_register(offsets::MCR)).contains(MCR::LOOP_BACK) {
            return true;
        }
        self.read_msr().contains(MSR::CTS)
    }

    /// Checks whether a byte can be sent now: whether LSR shows `THR_EMPTY` and, if the
    /// configuration checks CTS, the remote is clear to send.
    ///
    /// Does not wait: reads LSR once. If the configuration checks CTS and THR is empty, it also
    /// reads MCR and, unless that shows loopback, MSR. The errors and changes that these reads
    /// clear are saved for the next `lsr` and `msr`.
    ///
    /// # Errors
    ///
    /// - `NoCapacity` if THR, or the transmitter FIFO, is not empty.
    /// - `RemoteNotClearToSend` if it is empty, but the remote does not assert CTS.
    ///
    /// # Examples
    ///
    /// ```
    /// # include!(concat!(env!("CARGO_MANIFEST_DIR"), "/examples.rs"));
    /// # fn main() {}
    /// # fn example(uart: &mut Uart16550<Device>) -> Outcome<()> {
    /// assert_eq!(uart.ready_to_send(), Ok(()));
    /// # Ok(()) }
    /// ```
    ///
    /// # Proved
    ///
    /// - [Makes accesses as](crate::proved::driver#Made) [`ReadyToSend`](crate::proved::transmit#ReadyToSend) `result`: one send check: LSR shows THR\_EMPTY and, if CTS is checked, the modem lines allow sending; or the error names which of these is not so.
    ///
    /// <details><summary>The clauses</summary>
    ///
    /// [How to read them](uart_spec::proved):
    ///
    /// ```text
    /// ensures { Made B.step (ReadyToSend result) self.old self.new }
    /// ```
    ///
    /// </details>
    pub fn ready_to_send(&mut self) -> Result<(), ByteSendError> {
        if !self.read_lsr().contains(LSR::THR_EMPTY) {
            return Err(ByteSendError::NoCapacity);
        }
        // Many cables never assert CTS, so it counts only if the configuration says so.
        if !self.config.check_cts_before_sending {
            return Ok(());
        }
        if !self.is_clear_to_send() {
            return Err(ByteSendError::RemoteNotClearToSend);
        }
        Ok(())
    }

    // Writes a byte to DATA.
    pub(super) fn write_byte(&mut self, byte: u8) {
        self.backend.write(offsets::DATA as u8, byte);
    }

    // Writes the bytes to DATA in order.
    pub(super) fn write_data(&mut self, bytes: &[u8]) {
        for &byte in bytes {
            self.write_byte(byte);
        }
    }

    // Writes one burst from the front to DATA, and returns its length: as many bytes as certainly
    // fit. LSR shows whether the FIFO is empty, and no register shows how full it is. One byte more
    // could be lost, and nothing would tell.
    //
    // A whole burst of 16, the size of most chips, is apart, since its length is known to the
    // compiler: it then counts no bytes.
    pub(super) fn write_burst(&mut self, bytes: &[u8]) -> usize {
        if !self.fifo_enabled {
            self.write_byte(bytes[0]);
            return 1;
        }
        match (self.fifo_size, bytes.first_chunk::<FIFO_SIZE>()) {
            (FifoSize::Sixteen, Some(burst)) => {
                self.write_data(burst);
                FIFO_SIZE
            }
            (size, _) => self.write_up_to(size.characters(), bytes),
        }
    }

    /// Sends bytes from the front of the slice if there is room, and returns how many: up to as
    /// many as the FIFO holds (`fifo_size`) if it is on, else one; 0 if `ready_to_send` fails.
    ///
    /// Does not wait: makes one check as `ready_to_send`, and one burst of writes to THR. The chip
    /// reports only an empty FIFO, not how full it is, so nothing is sent until the last burst has
    /// left the FIFO. Call it again with the rest of the slice to send more. An empty slice makes
    /// no access.
    ///
    /// # Examples
    ///
    /// ```
    /// # include!(concat!(env!("CARGO_MANIFEST_DIR"), "/examples.rs"));
    /// # fn main() {}
    /// # fn example(uart: &mut Uart16550<Device>, bytes: &[u8]) -> Outcome<()> {
    /// let sent = uart.send_bytes(bytes);
    /// let rest = &bytes[sent..];
    /// # Ok(()) }
    /// ```
    ///
    /// # Proved
    ///
    /// - *made*: [makes accesses as](crate::proved::driver#Made) [`Sends`](crate::proved::transmit#Sends) `buffer.now result`: nothing if there are no bytes; else a send check and, if it succeeds, bytes from the front are written to DATA: as many as a FIFO of the size that is set holds, or one if it is off. The result is how many.
    /// - *count*: `result ≤ length buffer.now`.
    ///
    /// <details><summary>The clauses</summary>
    ///
    /// [How to read them](uart_spec::proved):
    ///
    /// ```text
    /// ensures made { Made B.step (Sends buffer.now result) self.old self.new }
    /// ensures count { result ≤ length buffer.now }
    /// ```
    ///
    /// </details>
    pub fn send_bytes(&mut self, buffer: &[u8]) -> usize {
        if buffer.is_empty() {
            return 0;
        }
        let Ok(()) = self.ready_to_send() else {
            return 0;
        };
        self.write_burst(buffer)
    }

    /// Sends one byte if there is room: makes one check as `ready_to_send`, and one write to THR.
    ///
    /// Does not wait.
    ///
    /// # Errors
    ///
    /// `NoCapacity` if the byte was not sent, whatever the cause: also if the remote is not clear
    /// to send.
    ///
    /// # Examples
    ///
    /// ```
    /// # include!(concat!(env!("CARGO_MANIFEST_DIR"), "/examples.rs"));
    /// # fn main() {}
    /// # fn example(uart: &mut Uart16550<Device>) -> Outcome<()> {
    /// assert_eq!(uart.try_send_byte(b'h'), Ok(()));
    /// # Ok(()) }
    /// ```
    ///
    /// # Proved
    ///
    /// - [Makes accesses as](crate::proved::driver#Made) [`TrySends`](crate::proved::transmit#TrySends) `byte result`: the accesses of `send_bytes` for this one byte, which is sent exactly if the result is `Ok`; the only error is `NoCapacity`.
    ///
    /// <details><summary>The clauses</summary>
    ///
    /// [How to read them](uart_spec::proved):
    ///
    /// ```text
    /// ensures { Made B.step (TrySends byte result) self.old self.new }
    /// ```
    ///
    /// </details>
    pub fn try_send_byte(&mut self, byte: u8) -> Result<(), ByteSendError> {
        match self.ready_to_send() {
            Ok(()) => {
                self.write_byte(byte);
                Ok(())
            }
            // The original driver has this one error for both causes.
            Err(_) => Err(ByteSendError::NoCapacity),
        }
    }

    // Waits until bytes may be written. The check stands once: where code is to be small, the
    // compiler then inlines it, and drops what a constant configuration does not ask for. Waiting
    // and writing are two functions, and this one is inlined, so that each loop that sends holds
    // one copy of the wait.
    #[inline(always)]
    fn wait_to_send(&mut self) -> bool {
        for _check in 0..self.spin_limit.get() {
            if let Ok(()) = self.ready_to_send() {
                return true;
            }
        }
        false
    }

    // Waits until a burst was sent, and returns its length.
    pub(crate) fn send_some(&mut self, bytes: &[u8]) -> Option<usize> {
        if !self.wait_to_send() {
            return None;
        }
        Some(self.write_burst(bytes))
    }

    // Waits for room, and sends a byte.
    #[inline(always)]
    pub(crate) fn send_one(&mut self, byte: u8) -> Result<(), StalledError> {
        if !self.wait_to_send() {
            return Err(StalledError { done: 0 });
        }
        self.write_byte(byte);
        Ok(())
    }

    // Sends the bytes one by one, and waits for room before each.
    #[inline(always)]
    pub(crate) fn send_singly(&mut self, bytes: &[u8]) -> Result<(), StalledError> {
        for (done, &byte) in bytes.iter().enumerate() {
            if !self.wait_to_send() {
                return Err(StalledError { done });
            }
            self.write_byte(byte);
        }
        Ok(())
    }

    /// Sends all of the bytes, and waits for room before each burst: of up to as many bytes as the
    /// FIFO holds (`fifo_size`) if it is on, else of one.
    ///
    /// Each wait makes at most `spin_limit` checks as `ready_to_send`. It returns when the last
    /// burst is in THR or the FIFO; `flush` of [`embedded_io`](crate::embedded_io) waits until all
    /// of it has left the chip. An empty slice makes no access.
    ///
    /// # Errors
    ///
    /// `StalledError` after `spin_limit` unsuccessful checks in a row: the chip is slower than the
    /// limit allows, or CTS is checked and the remote is not clear to send. The first `done` bytes
    /// were written to the chip.
    ///
    /// # Examples
    ///
    /// ```
    /// # include!(concat!(env!("CARGO_MANIFEST_DIR"), "/examples.rs"));
    /// # fn main() {}
    /// # enum PortError { NotSent { sent: usize } }
    /// # fn example(uart: &mut Uart16550<Device>, question: &[u8]) -> Result<(), PortError> {
    /// if let Err(stall) = uart.send_bytes_exact(question) {
    ///     return Err(PortError::NotSent { sent: stall.done });
    /// }
    /// # Ok(()) }
    /// ```
    ///
    /// # Proved
    ///
    /// - *made*: [makes accesses as](crate::proved::driver#Made) [`SendsExact`](crate::proved::transmit#SendsExact) `bytes.now result`: all bytes, burst by burst, each burst after its own wait; or those before the burst whose wait reaches the limit, as many as the error reports.
    /// - *done*: if it returns `Err e`: `e.done < length bytes.now`.
    ///
    /// <details><summary>The clauses</summary>
    ///
    /// [How to read them](uart_spec::proved):
    ///
    /// ```text
    /// ensures made { Made B.step (SendsExact bytes.now result) self.old self.new }
    /// ensures done { IfErr result (λ e. e.done < length bytes.now) }
    /// ```
    ///
    /// </details>
    pub fn send_bytes_exact(&mut self, bytes: &[u8]) -> Result<(), StalledError> {
        // Without FIFO each burst is one byte. A loop of its own for those would ask for less, and
        // would be the same code again.
        let mut done = 0;
        while done < bytes.len() {
            let Some(count) = self.send_some(&bytes[done..]) else {
                return Err(StalledError { done });
            };
            done += count;
        }
        Ok(())
    }

    // Polls LSR until it shows these bits, or until the limit. Each wait has a loop of its own over
    // the limit, so the polls that count are those in a row: progress begins a new count.
    pub(crate) fn wait_for(&mut self, bits: LSR) -> bool {
        for _turn in 0..self.spin_limit.get() {
            if self.read_lsr().contains(bits) {
                return true;
            }
        }
        false
    }

    /// Waits until LSR shows `TRANSMITTER_EMPTY`, as `flush` of [`embedded_io`](crate::embedded_io)
    /// does, and no longer than the caller wants: `patience` is asked after each poll that fails.
    ///
    /// So the wait can end at a time, by whatever clock the caller has. It ends after `spin_limit`
    /// unsuccessful polls in a row too. No poll follows the answer to wait no longer. Error bits
    /// are saved for the next `lsr`, and do not end the call.
    ///
    /// # Errors
    ///
    /// `WaitError`, with `done` 0, if `patience` answered to wait no longer, or after `spin_limit`
    /// unsuccessful polls in a row: `ended_by` tells which. What was sent goes on to leave the
    /// chip.
    ///
    /// # Examples
    ///
    /// ```
    /// # include!(concat!(env!("CARGO_MANIFEST_DIR"), "/examples.rs"));
    /// # fn main() {}
    /// # fn example(uart: &mut Uart16550<Device>, mut deadline: impl Patience) -> Outcome<()> {
    /// uart.send_bytes_while(b"hello", &mut deadline)?;
    /// uart.flush_while(&mut deadline)?;
    /// # Ok(()) }
    /// ```
    ///
    /// # Proved
    ///
    /// - [`MadeWhile`](crate::proved::patience#MadeWhile): the caller was asked and gave some answers, from the first of its states to the second, and the call made a list of the language that goes with them, as `Made` says.
    ///   - [`FlushesWhile`](crate::proved::patience#FlushesWhile): `flush_while`, with the answers of the caller: the transmitter was empty after fewer misses in a row than the limit; or the wait was in vain, and the error tells what ended it.
    ///
    /// <details><summary>The clauses</summary>
    ///
    /// [How to read them](uart_spec::proved):
    ///
    /// ```text
    /// ensures { MadeWhile P.answers B.step (λ said. FlushesWhile said result) patience.old patience.new self.old self.new }
    /// ```
    ///
    /// </details>
    pub fn flush_while<P: Patience>(&mut self, patience: &mut P) -> Result<(), WaitError> {
        for _poll in 0..self.spin_limit.get() {
            if self.read_lsr().contains(LSR::TRANSMITTER_EMPTY) {
                return Ok(());
            }
            if !patience.keep_waiting() {
                return Err(WaitError {
                    done: 0,
                    ended_by: WaitEnd::Patience,
                });
            }
        }
        Err(WaitError {
            done: 0,
            ended_by: WaitEnd::SpinLimit,
        })
    }
}
