//! What a device did, counted.

use std::sync::atomic::{AtomicU64, Ordering};
use uart_16550_chip::registers::MCR;
use uart_16550_chip::{LineSettings, SerialEvents, each_serial_event};

/// The events that are counted: the name of each count, the method of `SerialEvents`, and what it counts.
macro_rules! counted {
    ($($(#[$doc:meta])* $name:ident: $event:ident($($argument:ident: $Type:ty)?) if $is_counted:expr;)*) => {
        /// Counts what a device does, as its events: `Serial::with_events(trigger, Arc::new(Counters::default()), output)`.
        ///
        /// The device has a clone of the `Arc`, and a thread that reports the counts has another.
        #[derive(Debug, Default)]
        pub struct Counters {
            $($name: AtomicU64,)*
        }

        /// What was counted up to some moment. With the feature `serde` this can be serialized.
        #[derive(Clone, Copy, Debug, Default, PartialEq, Eq)]
        #[non_exhaustive]
        pub struct Counts {
            $($(#[$doc])* pub $name: u64,)*
        }

        impl Counters {
            /// Returns what was counted. Each count is right for some moment in this call.
            pub fn counts(&self) -> Counts {
                Counts {
                    $($name: self.$name.load(Ordering::Relaxed),)*
                }
            }
        }

        /// A function for each event that is counted.
        mod counting {
            use super::{Counters, LineSettings, MCR, Ordering};

            $(
                pub(super) fn $event(counters: &Counters $(, $argument: $Type)?) {
                    if $is_counted {
                        counters.$name.fetch_add(1, Ordering::Relaxed);
                    }
                }
            )*
        }

        #[cfg(feature = "serde")]
        impl serde::Serialize for Counts {
            fn serialize<S: serde::Serializer>(&self, serializer: S) -> Result<S::Ok, S::Error> {
                use serde::ser::SerializeStruct;
                let names = [$(stringify!($name)),*];
                let mut fields = serializer.serialize_struct("Counts", names.len())?;
                $(fields.serialize_field(stringify!($name), &self.$name)?;)*
                fields.end()
            }
        }
    };
}

counted! {
    /// How often the guest read DATA.
    reads: buffer_read() if true;
    /// How many bytes were written to the output.
    out_bytes: out_byte() if true;
    /// How many bytes could not be written, and are lost.
    lost_bytes: tx_lost_byte() if true;
    /// How often the device told that there is room for input.
    rooms: in_buffer_empty() if true;
    /// How often the output took less than there was. What it did not take stays in the device, and may hold the guest back.
    held: tx_held() if true;
    /// How many breaks the guest began.
    breaks: out_break(begins: bool) if begins;
    /// How often the guest changed its outputs.
    output_changes: out_lines(_outputs: MCR) if true;
    /// How often the guest set another frame or rate.
    setting_changes: out_settings(_settings: LineSettings) if true;
    /// How many bytes were lost since the guest wrote to a full transmitter.
    overflows: tx_overflow() if true;
    /// How many characters with errors came while there was no room.
    overruns: rx_overrun() if true;
    /// How often an interrupt was put off until time passes.
    timeouts: timeout_to_come() if true;
    /// How often the interrupt was triggered.
    triggers: triggered() if true;
    /// How often it could not be triggered. The device tries again.
    failed_triggers: trigger_failed() if true;
}

/// Each event of the list is counted. One that has no count above does not compile.
macro_rules! each_is_counted {
    ($($(#[$doc:meta])* fn $event:ident($($argument:ident: $Type:ty)?) $body:tt)*) => {
        impl SerialEvents for Counters {
            $(
                fn $event(&self $(, $argument: $Type)?) {
                    counting::$event(self $(, $argument)?);
                }
            )*
        }
    };
}

each_serial_event!(each_is_counted);
