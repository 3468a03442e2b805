//! Events for two.

use uart_16550_chip::{SerialEvents, each_serial_event};

/// Tells two of each event, the first one first: counters, and what wakes the thread that has the input.
#[derive(Clone, Copy, Debug, Default)]
pub struct Both<A, B>(
    /// The first.
    pub A,
    /// The second.
    pub B,
);

/// Each event of the list is told to both.
macro_rules! told_to_both {
    ($($(#[$doc:meta])* fn $event:ident($($argument:ident: $Type:ty)?) $body:tt)*) => {
        impl<A: SerialEvents, B: SerialEvents> SerialEvents for Both<A, B> {
            $(
                fn $event(&self $(, $argument: $Type)?) {
                    self.0.$event($($argument)?);
                    self.1.$event($($argument)?);
                }
            )*
        }
    };
}

each_serial_event!(told_to_both);
