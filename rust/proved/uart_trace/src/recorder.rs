//! A backend that tells a listener of the accesses that are made through it.

use crate::listener::Listener;
use uart_16550::backend::Backend;
use uart_chip::Device16550;
use uart_spec::access::Access;

/// A backend over another one, with a listener that is told of each access.
///
/// A driver lends its backend and does not give it back. So the listener is taken out through the
/// loan, and there is none afterwards.
pub struct Recorder<B, L> {
    device: B,
    listener: Option<L>,
}

impl<B, L> Recorder<B, L> {
    /// Returns a recorder that has made no access.
    #[must_use]
    pub fn new(device: B, listener: L) -> Self {
        Recorder {
            device,
            listener: Some(listener),
        }
    }

    /// Returns the listener, if it was not taken before.
    pub fn take_listener(&mut self) -> Option<L> {
        self.listener.take()
    }
}

impl<B, L: Listener> Recorder<B, L> {
    /// Tells the listener that a call begins.
    pub fn begin(&mut self) {
        if let Some(listener) = &mut self.listener {
            listener.begin();
        }
    }

    // Tells the listener of an access.
    fn hear(&mut self, access: Access) {
        if let Some(listener) = &mut self.listener {
            listener.hear(access);
        }
    }

    /// Tells the listener that the call has returned.
    pub fn end(&mut self) {
        if let Some(listener) = &mut self.listener {
            listener.end();
        }
    }
}

impl<L> Recorder<Device16550, L> {
    /// Goes on to the next mark of the device's schedule. This is no access.
    pub fn next(&mut self) {
        self.device.next();
    }
}

impl<B: Backend, L: Listener> Backend for Recorder<B, L> {
    fn read(&mut self, register_offset: u8) -> u8 {
        let answer = self.device.read(register_offset);
        self.hear(Access::Read(register_offset as usize, answer));
        answer
    }

    fn write(&mut self, register_offset: u8, value: u8) {
        self.device.write(register_offset, value);
        self.hear(Access::Write(register_offset as usize, value));
    }
}
