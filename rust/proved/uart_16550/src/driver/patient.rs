//! Sending and receiving with waits that end when their caller says so.

use super::Uart16550;
use crate::backend::Backend;
use crate::patience::{Patience, WaitEnd, WaitError};

impl<B: Backend> Uart16550<B> {
    // Waits until bytes may be written, and asks after each check that fails whether to go on.
    fn wait_to_send_while<P: Patience>(&mut self, patience: &mut P) -> Result<(), WaitEnd> {
        // The limit bounds the wait even if the caller never has enough.
        for _turn in 0..self.spin_limit.get() {
            if let Ok(()) = self.ready_to_send() {
                return Ok(());
            }
            if !patience.keep_waiting() {
                return Err(WaitEnd::Patience);
            }
        }
        Err(WaitEnd::SpinLimit)
    }

    /// Sends all of the bytes as `send_bytes_exact` does, and waits no longer than the caller
    /// wants: `patience` is asked after each check that fails.
    ///
    /// So a wait can end at a time, by whatever clock the caller has. It ends after `spin_limit`
    /// unsuccessful checks in a row too: for a wait that the clock alone ends, set a limit that is
    /// not reached before. No check follows the answer to wait no longer.
    ///
    /// # Errors
    ///
    /// `WaitError` if `patience` answered to wait no longer, or after `spin_limit` unsuccessful
    /// checks in a row: `ended_by` tells which. The first `done` bytes were written to the chip,
    /// and the others were not: a further call sends them.
    ///
    /// # Examples
    ///
    /// ```
    /// # include!(concat!(env!("CARGO_MANIFEST_DIR"), "/examples.rs"));
    /// # fn main() {}
    /// # fn example(uart: &mut Uart16550<Device>, mut deadline: impl Patience) -> Outcome<()> {
    /// // The patience ends at a time of a clock that this program has.
    /// uart.send_bytes_while(b"hello", &mut deadline)?;
    /// # Ok(()) }
    /// ```
    ///
    /// # Proved
    ///
    /// - *made*: [`MadeWhile`](crate::proved::patience#MadeWhile): the caller was asked and gave some answers, from the first of its states to the second, and the call made a list of the language that goes with them, as `Made` says.
    ///   - [`SendsWhile`](crate::proved::patience#SendsWhile): `send_bytes_while`, with the answers of the caller: all bytes, burst by burst, each burst after its own wait; or those before the burst whose wait ended in vain, as many as the error reports, which tells what ended that wait.
    /// - *done*: if it returns `Err e`: `e.done < length bytes.now`.
    ///
    /// <details><summary>The clauses</summary>
    ///
    /// [How to read them](uart_spec::proved):
    ///
    /// ```text
    /// ensures made { MadeWhile P.answers B.step (λ said. SendsWhile bytes.now said result) patience.old patience.new self.old self.new }
    /// ensures done { IfErr result (λ e. e.done < length bytes.now) }
    /// ```
    ///
    /// </details>
    pub fn send_bytes_while<P: Patience>(
        &mut self,
        bytes: &[u8],
        patience: &mut P,
    ) -> Result<(), WaitError> {
        let mut done = 0;
        while done < bytes.len() {
            if let Err(ended_by) = self.wait_to_send_while(patience) {
                return Err(WaitError { done, ended_by });
            }
            done += self.write_burst(&bytes[done..]);
        }
        Ok(())
    }

    // Waits for one byte, and asks after each poll that fails whether to go on.
    fn receive_one_while<P: Patience>(&mut self, caller: &mut P) -> Result<u8, WaitEnd> {
        // The limit bounds the wait even if the caller never has enough.
        for _poll in 0..self.spin_limit.get() {
            if let Ok(byte) = self.try_receive_byte() {
                return Ok(byte);
            }
            if !caller.keep_waiting() {
                return Err(WaitEnd::Patience);
            }
        }
        Err(WaitEnd::SpinLimit)
    }

    /// Receives a byte into each slot as `receive_bytes_exact` does, and waits no longer than the
    /// caller wants: `patience` is asked after each poll that fails.
    ///
    /// So a wait can end at a time, by whatever clock the caller has. It ends after `spin_limit`
    /// unsuccessful polls in a row too: for a wait that the clock alone ends, set a limit that is
    /// not reached before. No poll follows the answer to wait no longer.
    ///
    /// Error bits are saved for the next `lsr`, and do not end the call. An empty slice makes no
    /// access, and does not ask.
    ///
    /// # Errors
    ///
    /// `WaitError` if `patience` answered to wait no longer, or after `spin_limit` unsuccessful
    /// polls in a row: `ended_by` tells which. The first `done` slots have the bytes that were
    /// received, and the other slots are unchanged: a further call fills them.
    ///
    /// # Examples
    ///
    /// ```
    /// # include!(concat!(env!("CARGO_MANIFEST_DIR"), "/examples.rs"));
    /// # fn main() {}
    /// # fn example(uart: &mut Uart16550<Device>, mut answer: [u8; 4], mut deadline: impl Patience) -> Outcome<()> {
    /// // The patience ends at a time of a clock that this program has.
    /// uart.receive_bytes_while(&mut answer, &mut deadline)?;
    /// # Ok(()) }
    /// ```
    ///
    /// # Proved
    ///
    /// - *made*: [`MadeWhile`](crate::proved::patience#MadeWhile): the caller was asked and gave some answers, from the first of its states to the second, and the call made a list of the language that goes with them, as `Made` says.
    ///   - [`ReceivesWhile`](crate::proved::patience#ReceivesWhile): `receive_bytes_while`, with the answers of the caller: the slots are filled, each byte after its own wait; or those before the one whose wait ended in vain, as many as the error reports, which tells what ended that wait.
    ///   - [`filled_while`](crate::proved::patience#filled_while): the slots that `receive_bytes_while` filled.
    /// - *rest*: if it returns `Err e`: `drop e.done buffer.new ≡ drop e.done buffer.old`.
    ///
    /// <details><summary>The clauses</summary>
    ///
    /// [How to read them](uart_spec::proved):
    ///
    /// ```text
    /// ensures made { MadeWhile P.answers B.step (λ said. ReceivesWhile (length buffer.old) (filled_while result buffer.new) said result) patience.old patience.new self.old self.new }
    /// ensures rest { IfErr result (λ e. drop e.done buffer.new ≡ drop e.done buffer.old) }
    /// ```
    ///
    /// </details>
    pub fn receive_bytes_while<P: Patience>(
        &mut self,
        buffer: &mut [u8],
        patience: &mut P,
    ) -> Result<(), WaitError> {
        for (done, slot) in buffer.iter_mut().enumerate() {
            match self.receive_one_while(patience) {
                Ok(byte) => *slot = byte,
                Err(ended_by) => return Err(WaitError { done, ended_by }),
            }
        }
        Ok(())
    }
}
