//! Shared rings that are kept after the call, when others use them.
#![forbid(unsafe_code)]

use uart_16550::native::backend::VolatileMemory;
use uart_16550::ring::Uart16550Ring;
use uart_16550::shared::{CriticalSection, Shared};

struct Alone;

impl CriticalSection for Alone {
    fn run<R>(&self, call: impl FnOnce() -> R) -> R {
        call()
    }
}

fn main() {
    let port: Shared<Alone, VolatileMemory> = Shared::new(Alone);
    let mut kept: Option<&mut Uart16550Ring<VolatileMemory>> = None;
    let _called = port.with(|ring| {
        kept = Some(ring); // E0521
    });
    drop(kept);
}
