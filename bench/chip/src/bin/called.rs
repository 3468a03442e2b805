//! usage: called BODY COUNT
//!
//! Makes COUNT rounds of a body that reaches the chip through functions that are not inlined: sixteen calls of one kind.

use measure_chip::{
    Bench, DATA_OFFSET, Device, EACH, IDLE, LSR_OFFSET, Setting, WIRE_ROOM, obscure, run,
};
use uart_16550_chip::LiveChip;
use uart_16550_chip::registers::LSR;

#[unsafe(no_mangle)]
#[inline(never)]
fn called_read(chip: &mut LiveChip, offset: u8) -> u8 {
    chip.read(offset)
}

#[unsafe(no_mangle)]
#[inline(never)]
fn called_write(chip: &mut LiveChip, offset: u8, value: u8) {
    chip.write(offset, value);
}

#[unsafe(no_mangle)]
#[inline(never)]
fn called_arrive(chip: &mut LiveChip, byte: u8) -> bool {
    chip.arrive(byte, LSR::empty()).is_ok()
}

#[unsafe(no_mangle)]
#[inline(never)]
fn called_is_interrupting(chip: &LiveChip) -> bool {
    chip.is_interrupting()
}

#[unsafe(no_mangle)]
#[inline(never)]
fn called_take_wire(chip: &mut LiveChip) {
    chip.take_wire(1);
}

#[unsafe(no_mangle)]
#[inline(never)]
fn called_device_read(device: &mut Device, offset: u8) -> u8 {
    device.read(offset)
}

#[unsafe(no_mangle)]
#[inline(never)]
fn called_device_write(device: &mut Device, offset: u8, value: u8) -> bool {
    device.write(offset, value).is_ok()
}

#[unsafe(no_mangle)]
#[inline(never)]
fn called_device_arrive(device: &mut Device, byte: u8) -> bool {
    device.enqueue_raw_bytes(&[byte]).is_ok()
}

/// The offset, which the compiler does not know any more.
fn obscured(mut offset: u8) -> u8 {
    obscure(&mut offset);
    offset
}

fn lsr(bench: &mut Bench) {
    let offset = obscured(LSR_OFFSET);
    for _ in 0..EACH {
        let status = called_read(&mut bench.chip, offset);
        bench.add(status);
    }
}

fn data_write(bench: &mut Bench) {
    let offset = obscured(DATA_OFFSET);
    for _ in 0..EACH {
        called_write(&mut bench.chip, offset, bench.digest);
    }
    bench.drain();
}

fn byte_in_and_read(bench: &mut Bench) {
    let offset = obscured(DATA_OFFSET);
    for _ in 0..EACH {
        let has_arrived = called_arrive(&mut bench.chip, bench.digest);
        bench.add(has_arrived as u8);
        let byte = called_read(&mut bench.chip, offset);
        bench.add(byte);
    }
}

fn interrupt(bench: &mut Bench) {
    for _ in 0..EACH {
        let level = called_is_interrupting(&bench.chip);
        bench.add(level as u8);
    }
}

/// Each byte is taken while it is the only one.
fn take(bench: &mut Bench) {
    bench.chip.take_wire(WIRE_ROOM);
    for _ in 0..EACH {
        bench.send(1);
        called_take_wire(&mut bench.chip);
    }
}

/// Sixteen bytes are taken from a full wire.
fn take_full(bench: &mut Bench) {
    while bench.chip.wire_room() > 0 {
        bench.send(1);
    }
    for _ in 0..EACH {
        called_take_wire(&mut bench.chip);
    }
}

fn device_lsr(bench: &mut Bench) {
    let offset = obscured(LSR_OFFSET);
    for _ in 0..EACH {
        let status = called_device_read(&mut bench.device, offset);
        bench.add(status);
    }
}

fn device_data_write(bench: &mut Bench) {
    let offset = obscured(DATA_OFFSET);
    for _ in 0..EACH {
        let is_written = called_device_write(&mut bench.device, offset, bench.digest);
        bench.add(is_written as u8);
    }
}

fn device_byte_in_and_read(bench: &mut Bench) {
    let offset = obscured(DATA_OFFSET);
    for _ in 0..EACH {
        let has_arrived = called_device_arrive(&mut bench.device, bench.digest);
        bench.add(has_arrived as u8);
        let byte = called_device_read(&mut bench.device, offset);
        bench.add(byte);
    }
}

fn main() {
    let full = Setting {
        waiting: EACH as u8,
        ..IDLE
    };
    let enabled = Setting {
        interrupts: 0x0f,
        ..IDLE
    };
    run(&[
        ("lsr", IDLE, lsr),
        ("lsr-full", full, lsr),
        ("data-write", IDLE, data_write),
        ("byte-in-and-read", IDLE, byte_in_and_read),
        ("take-wire", IDLE, take),
        ("take-wire-full", IDLE, take_full),
        ("interrupt", IDLE, interrupt),
        ("interrupt-enabled", enabled, interrupt),
        ("device-lsr", IDLE, device_lsr),
        ("device-lsr-full", full, device_lsr),
        ("device-data-write", IDLE, device_data_write),
        ("device-byte-in-and-read", IDLE, device_byte_in_and_read),
        (
            "device-byte-in-and-read-enabled",
            enabled,
            device_byte_in_and_read,
        ),
    ]);
}
