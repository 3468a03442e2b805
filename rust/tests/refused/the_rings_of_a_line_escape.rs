//! Rings of a shared line that are kept after the call, when others use them.
#![forbid(unsafe_code)]

use uart_16550::native::backend::VolatileMemory;
use uart_16550::ring::Uart16550Ring;
use uart_16550::shared::{CriticalSection, SharedLine};

struct Alone;

impl CriticalSection for Alone {
    fn run<R>(&self, call: impl FnOnce() -> R) -> R {
        call()
    }
}

fn main() {
    let line: SharedLine<Alone, VolatileMemory, 2> = SharedLine::new(Alone);
    let mut kept: Option<&mut Uart16550Ring<VolatileMemory>> = None;
    let _called = line.with_port(0, |ring| {
        kept = Some(ring); // E0521
    });
    drop(kept);
}
