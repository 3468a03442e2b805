// What the examples of the documentation share. Each includes this file; the crate itself does not.
#[allow(unused_imports)]
use uart_16550_chip::registers::{LSR, MSR, offsets};
#[allow(unused_imports)]
use uart_16550_chip::Flags as _;
#[allow(unused_imports)]
use uart_16550_chip::{Chip, ChipData, ChipError, InputError, LiveChip, Todo, VirtualPort, VirtualPortWith};

#[allow(dead_code)]
type Outcome<T = ()> = Result<T, Box<dyn std::error::Error>>;

/// The host of a monitor's guest.
#[allow(dead_code)]
struct Host {
    line: bool,
    shown: Vec<u8>,
}

#[allow(dead_code)]
impl Host {
    fn take(&mut self, output: &[u8]) -> usize {
        self.shown.extend(output);
        output.len()
    }

    fn set_line(&mut self, level: bool) {
        self.line = level;
    }
}

#[allow(dead_code)]
fn obey_signals(host: &mut Host, todo: Todo) {
    host.set_line(todo.level);
}
