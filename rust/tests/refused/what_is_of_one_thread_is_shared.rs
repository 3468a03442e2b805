//! Rings over a backend that may not leave its thread, shared with another one.
#![forbid(unsafe_code)]

use std::cell::Cell;
use std::rc::Rc;
use uart_16550::native::backend::Backend;
use uart_16550::shared::{CriticalSection, Shared};

struct Alone;

impl CriticalSection for Alone {
    fn run<R>(&self, call: impl FnOnce() -> R) -> R {
        call()
    }
}

struct Counted(Rc<Cell<u32>>);

impl Backend for Counted {
    fn read(&mut self, _register_offset: u8) -> u8 {
        self.0.set(self.0.get() + 1);
        0
    }

    fn write(&mut self, _register_offset: u8, _value: u8) {
        self.0.set(self.0.get() + 1);
    }
}

fn main() {
    let port: Shared<Alone, Counted> = Shared::new(Alone);
    std::thread::scope(|scope| {
        scope.spawn(|| drop(port.with(|_ring| ()))); // E0277
    });
}
