//! usage: called BODY COUNT
//!
//! Makes COUNT rounds of a body that reaches the device through functions that are not inlined: sixteen calls of one kind.

use measure_vm_superio::{
    device_in, obscure, run, Bench, Device, DATA, EACH, LSR, WAITING_IN_SNAPSHOT,
};
use vm_superio::serial::SerialState;

#[no_mangle]
#[inline(never)]
fn called_read(device: &mut Device, offset: u8) -> u8 {
    device.read(offset)
}

#[no_mangle]
#[inline(never)]
fn called_write(device: &mut Device, offset: u8, value: u8) -> bool {
    device.write(offset, value).is_ok()
}

#[no_mangle]
#[inline(never)]
fn called_arrive(device: &mut Device, byte: u8) -> bool {
    device.enqueue_raw_bytes(&[byte]).is_ok()
}

#[no_mangle]
#[inline(never)]
fn called_save(device: &Device, state: &mut SerialState) {
    *state = device.state();
}

#[no_mangle]
#[inline(never)]
fn called_restore(device: &mut Device, state: &SerialState) -> bool {
    device_in(state).map(|restored| *device = restored).is_ok()
}

/// The offset, which the compiler does not know any more.
fn obscured(mut offset: u8) -> u8 {
    obscure(&mut offset);
    offset
}

fn lsr(bench: &mut Bench) {
    let offset = obscured(LSR);
    for _ in 0..EACH {
        let status = called_read(&mut bench.device, offset);
        bench.add(status);
    }
}

fn data_write(bench: &mut Bench) {
    let offset = obscured(DATA);
    for _ in 0..EACH {
        let is_written = called_write(&mut bench.device, offset, bench.digest);
        bench.add(is_written as u8);
    }
}

fn byte_in_and_read(bench: &mut Bench) {
    let offset = obscured(DATA);
    for _ in 0..EACH {
        let has_arrived = called_arrive(&mut bench.device, bench.digest);
        bench.add(has_arrived as u8);
        let byte = called_read(&mut bench.device, offset);
        bench.add(byte);
    }
}

fn save(bench: &mut Bench) {
    for _ in 0..EACH {
        called_save(&bench.device, &mut bench.state);
    }
}

fn restore(bench: &mut Bench) {
    for _ in 0..EACH {
        let is_restored = called_restore(&mut bench.device, &bench.state);
        bench.add(is_restored as u8);
    }
}

fn main() {
    run(&[
        ("lsr", 0, lsr),
        ("lsr-full", EACH, lsr),
        ("data-write", 0, data_write),
        ("byte-in-and-read", 0, byte_in_and_read),
        ("save", WAITING_IN_SNAPSHOT, save),
        ("restore", WAITING_IN_SNAPSHOT, restore),
    ]);
}
