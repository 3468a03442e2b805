//! A virtual machine monitor: what it does for its guest's serial port.

use uart_16550_chip::{Todo, VirtualPort};

/// What the rest of the monitor does for the port.
pub trait Host {
    /// Signals the guest's interrupt once, as a write to an eventfd does.
    fn signal(&mut self);

    /// Goes on to offer input, first what was put off.
    fn resume_input(&mut self);

    /// Takes output from the front, and returns how many bytes. What it leaves is offered again.
    fn print(&mut self, output: &[u8]) -> usize;
}

/// Does what a call of the port asks for. The guest's interrupt controller takes edges.
fn obey(host: &mut impl Host, todo: Todo) {
    if todo.signal {
        host.signal();
    }
    if todo.has_room {
        host.resume_input();
    }
}

/// The guest reads a register.
pub fn read(port: &mut VirtualPort, host: &mut impl Host, offset: u8) -> u8 {
    let answer = port.read(offset & 7);
    obey(host, answer.todo);
    answer.value
}

/// The guest writes a register.
pub fn write(port: &mut VirtualPort, host: &mut impl Host, offset: u8, value: u8) {
    obey(host, port.write(offset & 7, value));
    let taken = host.print(port.output());
    obey(host, port.take_output(taken));
}

/// The host has input. Returns what has to wait until the port tells of room.
pub fn input<'a>(port: &mut VirtualPort, host: &mut impl Host, bytes: &'a [u8]) -> &'a [u8] {
    let received = port.receive(bytes);
    obey(host, received.todo);
    &bytes[received.count..]
}
