//! usage: interrupted BODY COUNT
//!
//! Makes COUNT rounds of what a guest with interrupts does, as Linux: sixteen calls of one kind, or sixteen characters. The device is
//! reached through functions that are not inlined, and this is a program of its own, since what the compiler inlines depends on how many
//! places call it.

use measure_chip::{
    Bench, DATA_OFFSET, Device, EACH, IDLE, IER_OFFSET, ISR_OFFSET, LSR_OFFSET, MCR_OFFSET,
    Setting, obscure, run,
};

#[unsafe(no_mangle)]
#[inline(never)]
fn interrupted_read(device: &mut Device, offset: u8) -> u8 {
    device.read(offset)
}

#[unsafe(no_mangle)]
#[inline(never)]
fn interrupted_write(device: &mut Device, offset: u8, value: u8) -> bool {
    device.write(offset, value).is_ok()
}

#[unsafe(no_mangle)]
#[inline(never)]
fn interrupted_receive(device: &mut Device, bytes: &[u8]) -> bool {
    device.enqueue_raw_bytes(bytes).is_ok()
}

/// Reads a register, whose offset the compiler does not know any more.
fn read(bench: &mut Bench, mut offset: u8) {
    obscure(&mut offset);
    let value = interrupted_read(&mut bench.device, offset);
    bench.add(value);
}

/// Writes a register, whose offset the compiler does not know any more.
fn write(bench: &mut Bench, mut offset: u8, value: u8) {
    obscure(&mut offset);
    let is_written = interrupted_write(&mut bench.device, offset, value);
    bench.add(is_written as u8);
}

/// Sixteen characters come, and Linux's handler reads them.
fn fifo_in(bench: &mut Bench) {
    let have_come = interrupted_receive(&mut bench.device, &[bench.digest; EACH]);
    bench.add(have_come as u8);
    read(bench, ISR_OFFSET);
    for _ in 0..EACH {
        read(bench, LSR_OFFSET);
        read(bench, DATA_OFFSET);
    }
    read(bench, LSR_OFFSET);
    read(bench, ISR_OFFSET);
}

/// The guest looks what it is called for, and fills the transmitter's FIFO.
fn fifo_out(bench: &mut Bench) {
    read(bench, ISR_OFFSET);
    data_write(bench);
}

/// The guest writes, and never looks what it is called for.
fn data_write(bench: &mut Bench) {
    for _ in 0..EACH {
        write(bench, DATA_OFFSET, bench.digest);
    }
}

/// The interrupt for an empty transmitter is disabled and enabled in turn.
fn ier(bench: &mut Bench) {
    for turn in 0..EACH {
        write(bench, IER_OFFSET, [0x05, 0x07][turn % 2]);
    }
}

/// RTS is changed, and MCR read.
fn mcr(bench: &mut Bench) {
    for turn in 0..EACH {
        write(bench, MCR_OFFSET, [0x09, 0x0b][turn % 2]);
        read(bench, MCR_OFFSET);
    }
}

/// The guest looks again and again.
fn isr(bench: &mut Bench) {
    for _ in 0..EACH {
        read(bench, ISR_OFFSET);
    }
}

fn main() {
    let by_linux = Setting {
        interrupts: 0x07,
        ..IDLE
    };
    run(&[
        ("fifo-in", by_linux, fifo_in),
        ("fifo-out", by_linux, fifo_out),
        ("data-write-enabled", by_linux, data_write),
        ("isr", by_linux, isr),
        ("ier", by_linux, ier),
        ("mcr", by_linux, mcr),
    ]);
}
