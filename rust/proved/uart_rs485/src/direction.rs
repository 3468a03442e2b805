//! Which output of the chip switches the transceiver, and how.

use bitflags::Flags;
use uart_spec::registers::MCR;

/// The output of the chip that switches the transceiver.
#[derive(Clone, Copy, Debug, PartialEq, Eq, Hash)]
pub enum DirectionLine {
    /// RTS, which most boards use.
    Rts,
    /// DTR.
    Dtr,
}

/// How the transceiver is switched between its two directions.
///
/// The pin of an output is the other way round: it is low while the bit in MCR is set. So a
/// transceiver at the pin itself, whose driver is on while its input DE is high, sends while the
/// bit is clear. With an inverter between them it sends while the bit is set.
///
/// # Examples
///
/// ```
/// # use facade::rs485::*;
/// // The transceiver sends while RTS is asserted.
/// let direction = Direction {
///     line: DirectionLine::Rts,
///     sends_when_set: true,
/// };
/// ```
#[derive(Clone, Copy, Debug, PartialEq, Eq, Hash)]
pub struct Direction {
    /// The output that switches the transceiver.
    pub line: DirectionLine,
    /// Whether the transceiver sends while the bit of the output is set in MCR. Else it sends while
    /// the bit is clear.
    pub sends_when_set: bool,
}

impl Direction {
    // Returns the bit of the output.
    fn bit(self) -> MCR {
        match self.line {
            DirectionLine::Rts => MCR::RTS,
            DirectionLine::Dtr => MCR::DTR,
        }
    }

    // Returns the bit by which the chip would drive the output itself: flow control by the chip
    // drives RTS, by how many characters wait.
    fn flow(self) -> MCR {
        match self.line {
            DirectionLine::Rts => MCR::AUTO_FLOW,
            DirectionLine::Dtr => MCR::empty(),
        }
    }

    // Returns whether the bit of the output is set in this direction.
    pub(crate) fn level(self, sends: bool) -> bool {
        if sends {
            self.sends_when_set
        } else {
            !self.sends_when_set
        }
    }

    // Returns these outputs with the line as it is to be in this direction.
    pub(crate) fn turned(self, sends: bool, outputs: MCR) -> MCR {
        let switched = if self.level(sends) {
            outputs.union(self.bit())
        } else {
            outputs.difference(self.bit())
        };
        // A chip whose flow control is on clears RTS once its FIFO has as many characters as its
        // trigger level. It would give the bus away in the middle of a message whose echo is not
        // yet read. Firmware, or a driver before this one, may have left it on.
        switched.difference(self.flow())
    }

    /// Returns these outputs with the line as it is to be while the transceiver receives: of RTS
    /// without flow control by the chip, which would drive it.
    ///
    /// `init` raises RTS and DTR. On a bus with other ends that may send, initialise the chip with
    /// these outputs instead, by `init_with`: else this end may hold the bus until
    /// [`HalfDuplex::new`](crate::HalfDuplex::new).
    ///
    /// # Examples
    ///
    /// ```
    /// # include!(concat!(env!("CARGO_MANIFEST_DIR"), "/examples.rs"));
    /// # fn main() {}
    /// # use facade::{ring::{self, MAX_INTERRUPTS}, rs485::*};
    /// # fn example(uart: &mut Uart16550<Device>, direction: Direction) -> Outcome<()> {
    /// let setup = Setup {
    ///     outputs: direction.receiving(MCR::READY),
    ///     ..Setup::DEFAULT
    /// };
    /// uart.init_with(Config::DEFAULT, &setup)?;
    /// # Ok(()) }
    /// ```
    ///
    /// # Proved
    ///
    /// - `result.0` is [`turned`](crate::proved::directions#turned) `self false outputs.0`: these outputs with the line as it is to be in a direction, and not driven by the chip itself.
    ///
    /// <details><summary>The clauses</summary>
    ///
    /// [How to read them](uart_spec::proved):
    ///
    /// ```text
    /// ensures { result.0 ≡ turned self false outputs.0 }
    /// ```
    ///
    /// </details>
    #[must_use]
    pub fn receiving(self, outputs: MCR) -> MCR {
        self.turned(false, outputs)
    }
}
