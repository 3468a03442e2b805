//! The calls that receive. They write no register, and leave the direction.

use crate::bus::HalfDuplex;
use crate::errors::EchoError;
use uart_16550::backend::Backend;
use uart_16550::{Patience, WaitError};
use uart_spec::{ByteReceiveError, Received, StalledError};

impl<B: Backend> HalfDuplex<B> {
    /// Checks whether a received byte is available, as `ready_to_receive` of the driver does: reads
    /// LSR once.
    ///
    /// Does not wait. The error bits that this clears are saved for the next `lsr`.
    ///
    /// # Errors
    ///
    /// `ByteReceiveError` if no byte is available.
    ///
    /// # Examples
    ///
    /// ```
    /// # include!(concat!(env!("CARGO_MANIFEST_DIR"), "/examples.rs"));
    /// # fn main() {}
    /// # use facade::{ring::{self, MAX_INTERRUPTS}, rs485::*};
    /// # fn example(bus: &mut HalfDuplex<Device>) -> Outcome<()> {
    /// assert!(bus.ready_to_receive().is_err());
    /// # Ok(()) }
    /// ```
    ///
    /// # Proved
    ///
    /// - [Does as](crate::proved::bus#BusDid) [`OnDriver`](crate::proved::bus#OnDriver) `(Saving (ReadyToReceive result)) unchanged`: the driver does this, and of the other fields only this changes.
    ///   - [`Saving`](uart_16550::proved::driver#Saving): a list of the language whose reads are saved.
    ///   - [`ReadyToReceive`](uart_16550::proved::receive#ReadyToReceive): one read of LSR, which shows a received byte exactly if the result is `Ok`.
    ///   - [`unchanged`](crate::proved::bus#unchanged): the fields as they are; with another driver; with this direction.
    ///
    /// <details><summary>The clauses</summary>
    ///
    /// [How to read them](uart_spec::proved):
    ///
    /// ```text
    /// ensures { BusDid B.step (OnDriver (Saving (ReadyToReceive result)) unchanged) self.old self.new }
    /// ```
    ///
    /// </details>
    pub fn ready_to_receive(&mut self) -> Result<(), ByteReceiveError> {
        self.uart.ready_to_receive()
    }

    /// Receives one byte if one is available, as `try_receive_byte` of the driver does.
    ///
    /// Does not wait, in either direction.
    ///
    /// # Errors
    ///
    /// `ByteReceiveError` if no byte is available. RBR was not read then.
    ///
    /// # Examples
    ///
    /// ```
    /// # include!(concat!(env!("CARGO_MANIFEST_DIR"), "/examples.rs"));
    /// # fn main() {}
    /// # use facade::{ring::{self, MAX_INTERRUPTS}, rs485::*};
    /// # fn example(bus: &mut HalfDuplex<Device>) -> Outcome<()> {
    /// let byte = bus.try_receive_byte().ok();
    /// # Ok(()) }
    /// ```
    ///
    /// # Proved
    ///
    /// - [Does as](crate::proved::bus#BusDid) [`OnDriver`](crate::proved::bus#OnDriver) `(Saving (TryReceive result)) unchanged`: the driver does this, and of the other fields only this changes.
    ///   - [`Saving`](uart_16550::proved::driver#Saving): a list of the language whose reads are saved.
    ///   - [`TryReceive`](uart_16550::proved::receive#TryReceive): LSR shows a received byte, which is read from DATA and returned; or LSR shows none.
    ///   - [`unchanged`](crate::proved::bus#unchanged): the fields as they are; with another driver; with this direction.
    ///
    /// <details><summary>The clauses</summary>
    ///
    /// [How to read them](uart_spec::proved):
    ///
    /// ```text
    /// ensures { BusDid B.step (OnDriver (Saving (TryReceive result)) unchanged) self.old self.new }
    /// ```
    ///
    /// </details>
    pub fn try_receive_byte(&mut self) -> Result<u8, ByteReceiveError> {
        self.uart.try_receive_byte()
    }

    /// Receives bytes while some are available and there are free slots, as `receive_bytes` of the
    /// driver does. Returns how many, and leaves the slots beyond them unchanged.
    ///
    /// Does not wait, in either direction. If the receiver hears what this end sends, these bytes
    /// are among those that are received.
    ///
    /// # Examples
    ///
    /// ```
    /// # include!(concat!(env!("CARGO_MANIFEST_DIR"), "/examples.rs"));
    /// # fn main() {}
    /// # use facade::{ring::{self, MAX_INTERRUPTS}, rs485::*};
    /// # fn example(bus: &mut HalfDuplex<Device>, mut slots: [u8; 4]) -> Outcome<()> {
    /// let count = bus.receive_bytes(&mut slots);
    /// # Ok(()) }
    /// ```
    ///
    /// # Proved
    ///
    /// - *made*: [does as](crate::proved::bus#BusDid) [`OnDriver`](crate::proved::bus#OnDriver): the driver does this, and of the other fields only this changes.
    ///   - [`Saving`](uart_16550::proved::driver#Saving): a list of the language whose reads are saved.
    ///   - [`Receives`](uart_16550::proved::receive#Receives): bytes are read from DATA, each after LSR shows it, until the slots are full, or LSR shows none.
    ///   - [`unchanged`](crate::proved::bus#unchanged): the fields as they are; with another driver; with this direction.
    /// - *count*: `result ≤ length buffer.old`.
    /// - *rest*: `drop result buffer.new ≡ drop result buffer.old`.
    ///
    /// <details><summary>The clauses</summary>
    ///
    /// [How to read them](uart_spec::proved):
    ///
    /// ```text
    /// ensures made { BusDid B.step (OnDriver (Saving (Receives (length buffer.old) (take result buffer.new))) unchanged) self.old self.new }
    /// ensures count { result ≤ length buffer.old }
    /// ensures rest { drop result buffer.new ≡ drop result buffer.old }
    /// ```
    ///
    /// </details>
    pub fn receive_bytes(&mut self, buffer: &mut [u8]) -> usize {
        self.uart.receive_bytes(buffer)
    }

    /// Receives one byte if one is available, with the errors that LSR showed with it, as
    /// `try_receive_with_errors` of the driver does.
    ///
    /// Does not wait.
    ///
    /// # Errors
    ///
    /// `ByteReceiveError` if no byte is available. RBR was not read then.
    ///
    /// # Examples
    ///
    /// ```
    /// # include!(concat!(env!("CARGO_MANIFEST_DIR"), "/examples.rs"));
    /// # fn main() {}
    /// # use facade::{ring::{self, MAX_INTERRUPTS}, rs485::*};
    /// # fn example(bus: &mut HalfDuplex<Device>) -> Outcome<()> {
    /// let received = bus.try_receive_with_errors().ok();
    /// # Ok(()) }
    /// ```
    ///
    /// # Proved
    ///
    /// - [Does as](crate::proved::bus#BusDid) [`OnDriver`](crate::proved::bus#OnDriver) `(Saving (TryReceiveWithErrors result)) unchanged`: the driver does this, and of the other fields only this changes.
    ///   - [`Saving`](uart_16550::proved::driver#Saving): a list of the language whose reads are saved.
    ///   - [`TryReceiveWithErrors`](uart_16550::proved::receive#TryReceiveWithErrors): LSR shows a received byte, which is read from DATA and returned with the errors that LSR shows; or LSR shows none.
    ///   - [`unchanged`](crate::proved::bus#unchanged): the fields as they are; with another driver; with this direction.
    ///
    /// <details><summary>The clauses</summary>
    ///
    /// [How to read them](uart_spec::proved):
    ///
    /// ```text
    /// ensures { BusDid B.step (OnDriver (Saving (TryReceiveWithErrors result)) unchanged) self.old self.new }
    /// ```
    ///
    /// </details>
    pub fn try_receive_with_errors(&mut self) -> Result<Received, ByteReceiveError> {
        self.uart.try_receive_with_errors()
    }

    /// Receives bytes with their errors while some are available and there are free slots, as
    /// `receive_with_errors` of the driver does.
    ///
    /// Does not wait. A byte that was received while two ends sent at once has mostly an error, and
    /// while no end drives a bus without resistors that hold it there may be errors and breaks.
    ///
    /// # Examples
    ///
    /// ```
    /// # include!(concat!(env!("CARGO_MANIFEST_DIR"), "/examples.rs"));
    /// # fn main() {}
    /// # use facade::{ring::{self, MAX_INTERRUPTS}, rs485::*};
    /// # fn example(bus: &mut HalfDuplex<Device>, mut slots: [Received; 4]) -> Outcome<()> {
    /// let count = bus.receive_with_errors(&mut slots);
    /// # Ok(()) }
    /// ```
    ///
    /// # Proved
    ///
    /// - *made*: [does as](crate::proved::bus#BusDid) [`OnDriver`](crate::proved::bus#OnDriver): the driver does this, and of the other fields only this changes.
    ///   - [`Saving`](uart_16550::proved::driver#Saving): a list of the language whose reads are saved.
    ///   - [`ReceivesWithErrors`](uart_16550::proved::receive#ReceivesWithErrors): bytes are read from DATA, each after LSR shows it and its errors, until the slots are full, or LSR shows none.
    ///   - [`unchanged`](crate::proved::bus#unchanged): the fields as they are; with another driver; with this direction.
    /// - *count*: `result ≤ length slots.old`.
    /// - *rest*: `drop result slots.new ≡ drop result slots.old`.
    ///
    /// <details><summary>The clauses</summary>
    ///
    /// [How to read them](uart_spec::proved):
    ///
    /// ```text
    /// ensures made { BusDid B.step (OnDriver (Saving (ReceivesWithErrors (length slots.old) (take result slots.new))) unchanged) self.old self.new }
    /// ensures count { result ≤ length slots.old }
    /// ensures rest { drop result slots.new ≡ drop result slots.old }
    /// ```
    ///
    /// </details>
    pub fn receive_with_errors(&mut self, slots: &mut [Received]) -> usize {
        self.uart.receive_with_errors(slots)
    }

    /// Receives a byte into each slot, and waits for each, as `receive_bytes_exact` of the driver
    /// does.
    ///
    /// An answer whose length is known comes so. While the direction is to send, only the echo of
    /// what this end sends comes.
    ///
    /// # Errors
    ///
    /// `StalledError` after `spin_limit` unsuccessful polls in a row: no end sent for so long. The
    /// first `done` slots have the bytes that were received, and the other slots are unchanged.
    ///
    /// # Examples
    ///
    /// ```
    /// # include!(concat!(env!("CARGO_MANIFEST_DIR"), "/examples.rs"));
    /// # fn main() {}
    /// # use facade::{ring::{self, MAX_INTERRUPTS}, rs485::*};
    /// # fn example(bus: &mut HalfDuplex<Device>) -> Outcome<()> {
    /// let mut answer = [0; 4];
    /// bus.receive_bytes_exact(&mut answer)?;
    /// # Ok(()) }
    /// ```
    ///
    /// # Proved
    ///
    /// - *made*: [does as](crate::proved::bus#BusDid) [`OnDriver`](crate::proved::bus#OnDriver): the driver does this, and of the other fields only this changes.
    ///   - [`Saving`](uart_16550::proved::driver#Saving): a list of the language whose reads are saved.
    ///   - [`ReceivesExact`](uart_16550::proved::receive#ReceivesExact): the slots are filled, each after its own wait; or those before the one whose wait reaches the limit, as many as the error reports.
    ///   - [`filled`](uart_16550::proved::receive#filled): the bytes that an exact call put into its slots: all of them, or as many as the stall reports.
    ///   - [`unchanged`](crate::proved::bus#unchanged): the fields as they are; with another driver; with this direction.
    /// - *rest*: if it returns `Err e`: `drop e.done buffer.new ≡ drop e.done buffer.old`.
    ///
    /// <details><summary>The clauses</summary>
    ///
    /// [How to read them](uart_spec::proved):
    ///
    /// ```text
    /// ensures made { BusDid B.step (OnDriver (Saving (ReceivesExact (length buffer.old) (filled result buffer.new) result)) unchanged) self.old self.new }
    /// ensures rest { IfErr result (λ e. drop e.done buffer.new ≡ drop e.done buffer.old) }
    /// ```
    ///
    /// </details>
    pub fn receive_bytes_exact(&mut self, buffer: &mut [u8]) -> Result<(), StalledError> {
        self.uart.receive_bytes_exact(buffer)
    }

    /// Receives the echo of what this end sent, where the receiver hears it: waits for each byte as
    /// `receive_bytes_exact` does, and compares it.
    ///
    /// Call it behind each `send_bytes`, with the bytes that were sent. So the receiver never holds
    /// more than a FIFO, and none of the echo is left when the answer comes. The last byte of an
    /// echo shows that the transmitter is empty but for the end of its stop bit.
    ///
    /// # Errors
    ///
    /// - `Differs` if another byte was heard than was sent, which is then the last that was
    ///   received. What follows may be of any end: take it until the bus is silent.
    /// - `Silent` after `spin_limit` unsuccessful polls in a row.
    ///
    /// # Examples
    ///
    /// ```
    /// # include!(concat!(env!("CARGO_MANIFEST_DIR"), "/examples.rs"));
    /// # fn main() {}
    /// # use facade::{ring::{self, MAX_INTERRUPTS}, rs485::*};
    /// # fn example(bus: &mut HalfDuplex<Device>, bytes: &[u8]) -> Outcome<()> {
    /// let count = bus.send_bytes(bytes)?;
    /// bus.receive_echo(&bytes[..count])?;
    /// # Ok(()) }
    /// ```
    ///
    /// # Proved
    ///
    /// - [Does as](crate::proved::bus#BusDid) [`OnDriver`](crate::proved::bus#OnDriver) `(Saving (HearsEcho sent.now result)) unchanged`: the driver does this, and of the other fields only this changes.
    ///   - [`Saving`](uart_16550::proved::driver#Saving): a list of the language whose reads are saved.
    ///   - [`HearsEcho`](crate::proved::bus#HearsEcho): each byte that was sent is heard, after its own wait; or as many as the error reports, and then another byte than was sent there, or none in the next wait.
    ///   - [`unchanged`](crate::proved::bus#unchanged): the fields as they are; with another driver; with this direction.
    ///
    /// <details><summary>The clauses</summary>
    ///
    /// [How to read them](uart_spec::proved):
    ///
    /// ```text
    /// ensures { BusDid B.step (OnDriver (Saving (HearsEcho sent.now result)) unchanged) self.old self.new }
    /// ```
    ///
    /// </details>
    pub fn receive_echo(&mut self, sent: &[u8]) -> Result<(), EchoError> {
        for (done, &byte) in sent.iter().enumerate() {
            let mut heard = [0];
            let Ok(()) = self.uart.receive_bytes_exact(&mut heard) else {
                return Err(EchoError::Silent { done });
            };
            if heard[0] != byte {
                return Err(EchoError::Differs {
                    done,
                    heard: heard[0],
                });
            }
        }
        Ok(())
    }

    /// Receives a byte into each slot, and waits no longer than the caller wants, as
    /// `receive_bytes_while` of the driver does: `patience` is asked after each poll that fails.
    ///
    /// So a wait for an answer ends at a time, by whatever clock the caller has. It ends after
    /// `spin_limit` unsuccessful polls in a row too.
    ///
    /// # Errors
    ///
    /// `WaitError` if `patience` answered to wait no longer, or after `spin_limit` unsuccessful
    /// polls in a row: `ended_by` tells which. The first `done` slots have the bytes that were
    /// received, and the other slots are unchanged: a further call fills them.
    ///
    /// # Examples
    ///
    /// ```
    /// # include!(concat!(env!("CARGO_MANIFEST_DIR"), "/examples.rs"));
    /// # fn main() {}
    /// # use facade::{ring::{self, MAX_INTERRUPTS}, rs485::*};
    /// # fn example(bus: &mut HalfDuplex<Device>, mut answer: [u8; 4], mut deadline: fn() -> bool) -> Outcome<()> {
    /// // The patience ends at a time of a clock that this program has.
    /// bus.receive_bytes_while(&mut answer, &mut deadline)?;
    /// # Ok(()) }
    /// ```
    ///
    /// # Proved
    ///
    /// - *made*: [`BusDidWhile`](crate::proved::bus#BusDidWhile): the caller was asked and gave some answers, from the first of its states to the second, and the call did what goes with them, as `BusDid` says.
    ///   - [`OnDriver`](crate::proved::bus#OnDriver): the driver does this, and of the other fields only this changes.
    ///   - [`Saving`](uart_16550::proved::driver#Saving): a list of the language whose reads are saved.
    ///   - [`ReceivesWhile`](uart_16550::proved::patience#ReceivesWhile): `receive_bytes_while`, with the answers of the caller: the slots are filled, each byte after its own wait; or those before the one whose wait ended in vain, as many as the error reports, which tells what ended that wait.
    ///   - [`filled_while`](uart_16550::proved::patience#filled_while): the slots that `receive_bytes_while` filled.
    ///   - [`unchanged`](crate::proved::bus#unchanged): the fields as they are; with another driver; with this direction.
    /// - *rest*: if it returns `Err e`: `drop e.done buffer.new ≡ drop e.done buffer.old`.
    ///
    /// <details><summary>The clauses</summary>
    ///
    /// [How to read them](uart_spec::proved):
    ///
    /// ```text
    /// ensures made { BusDidWhile P.answers B.step (λ said. OnDriver (Saving (ReceivesWhile (length buffer.old) (filled_while result buffer.new) said result)) unchanged) patience.old patience.new self.old self.new }
    /// ensures rest { IfErr result (λ e. drop e.done buffer.new ≡ drop e.done buffer.old) }
    /// ```
    ///
    /// </details>
    pub fn receive_bytes_while<P: Patience>(
        &mut self,
        buffer: &mut [u8],
        patience: &mut P,
    ) -> Result<(), WaitError> {
        self.uart.receive_bytes_while(buffer, patience)
    }
}
