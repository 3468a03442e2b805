//! What a device tells its monitor: one list, of which the trait is made and what passes events on.

#[cfg(feature = "std")]
extern crate std;

/// Passes the list of all events to this macro.
///
/// Each has its documentation. One that ends with `;` is to be written, as with vm-superio, and one with a body does that unless it is
/// written. What passes events on, in this crate and around it, is made of this list: an event that is added here reaches each of them, or
/// they do not compile. A default body in the trait would hide that one was forgotten.
#[doc(hidden)]
#[macro_export]
macro_rules! each_serial_event {
    ($made:ident) => {
        $made! {
            /// The guest read DATA.
            fn buffer_read();
            /// A byte was written to the output.
            fn out_byte();
            /// A byte could not be written to the output, and is lost.
            fn tx_lost_byte();
            /// There is room for input: the guest read DATA and no character waits, or the guest made room after there was none by
            /// another call. A monitor that has input goes on with it here, as much as there is room for. It is not called for each
            /// character that is read from a full FIFO: a monitor would then read its host's input byte by byte.
            fn in_buffer_empty();
            /// The output took less than there is. What it did not take stays in the device.
            fn tx_held() {}
            /// The guest begins to send a break, or ends it: a write of LCR changed bit 6. What it writes meanwhile goes to the output all
            /// the same, though a real line would lose it.
            fn out_break(begins: bool) {
                let _ = begins;
            }
            /// The guest raised or lowered outputs: DTR, RTS, OUT1 and OUT2. In loopback all of them are low. A device that continues
            /// from a state tells them too.
            fn out_lines(outputs: $crate::registers::MCR) {
                let _ = outputs;
            }
            /// The guest set another frame or another rate: it wrote LCR without DLAB, and they are not those that were told last. A
            /// device that continues from a state tells them too.
            fn out_settings(settings: $crate::LineSettings) {
                let _ = settings;
            }
            /// The guest wrote to a transmitter that LSR showed to be full, and a byte is lost.
            fn tx_overflow() {}
            /// A character with errors came while there was no room for it, and one is lost.
            fn rx_overrun() {}
            /// A monitor with a clock is to call [`Serial::timeout_passed`](crate::Serial::timeout_passed) when the time of four
            /// characters has passed: an interrupt is put off ([`Serial::set_clock`](crate::Serial::set_clock)).
            fn timeout_to_come() {}
            /// The interrupt was triggered.
            fn triggered() {}
            /// The interrupt could not be triggered, or the level of its line not set.
            fn trigger_failed() {}
        }
    };
}

macro_rules! the_trait {
    ($($(#[$doc:meta])* fn $event:ident($($argument:ident: $Type:ty)?) $body:tt)*) => {
        /// What a monitor may want to count, or to be told.
        ///
        /// # Examples
        ///
        /// ```
        /// # include!(concat!(env!("CARGO_MANIFEST_DIR"), "/tests/examples/device.rs"));
        /// # fn main() -> Result<(), Box<dyn std::error::Error>> {
        /// /// Counts what goes out.
        /// #[derive(Default)]
        /// struct Sent(Cell<u64>);
        ///
        /// impl SerialEvents for Sent {
        ///     fn buffer_read(&self) {}
        ///     fn tx_lost_byte(&self) {}
        ///     fn in_buffer_empty(&self) {}
        ///
        ///     fn out_byte(&self) {
        ///         self.0.set(self.0.get() + 1);
        ///     }
        /// }
        ///
        /// let mut serial = Serial::with_events(Interrupts::default(), Sent::default(), terminal());
        /// serial.write(0, b'>')?;
        /// assert_eq!(serial.events().0.get(), 1);
        /// # Ok(())
        /// # }
        /// ```
        pub trait SerialEvents {
            $($(#[$doc])* fn $event(&self $(, $argument: $Type)?) $body)*
        }
    };
}

each_serial_event!(the_trait);

/// Events that nobody counts.
#[derive(Clone, Copy, Debug, Default)]
pub struct NoEvents;

impl SerialEvents for NoEvents {
    fn buffer_read(&self) {}
    fn out_byte(&self) {}
    fn tx_lost_byte(&self) {}
    fn in_buffer_empty(&self) {}
}

#[cfg(feature = "std")]
macro_rules! told_to_what_is_shared {
    ($($(#[$doc:meta])* fn $event:ident($($argument:ident: $Type:ty)?) $body:tt)*) => {
        impl<EV: SerialEvents> SerialEvents for std::sync::Arc<EV> {
            $(
                fn $event(&self $(, $argument: $Type)?) {
                    self.as_ref().$event($($argument)?);
                }
            )*
        }
    };
}

#[cfg(feature = "std")]
each_serial_event!(told_to_what_is_shared);
