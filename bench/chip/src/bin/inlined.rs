//! usage: inlined BODY COUNT
//!
//! Makes COUNT rounds of a body that has the code of the chip in it: sixteen calls of one kind.

use measure_chip::{Bench, DATA_OFFSET, EACH, IDLE, LSR_OFFSET, Setting, obscure, run};
use uart_16550_chip::registers::LSR;

#[unsafe(no_mangle)]
#[inline(never)]
fn inlined_lsr(bench: &mut Bench) {
    let mut digest = bench.digest;
    for _ in 0..EACH {
        obscure(&mut bench.chip);
        digest = digest.wrapping_add(bench.chip.read(LSR_OFFSET));
    }
    bench.digest = digest;
}

#[unsafe(no_mangle)]
#[inline(never)]
fn inlined_data_write(bench: &mut Bench) {
    let mut digest = bench.digest;
    for _ in 0..EACH {
        obscure(&mut bench.chip);
        bench.chip.write(DATA_OFFSET, digest);
        digest = digest.wrapping_add(1);
    }
    bench.digest = digest;
}

fn data_write(bench: &mut Bench) {
    inlined_data_write(bench);
    bench.drain();
}

#[unsafe(no_mangle)]
#[inline(never)]
fn inlined_byte_in_and_read(bench: &mut Bench) {
    let mut digest = bench.digest;
    for _ in 0..EACH {
        obscure(&mut bench.chip);
        digest = digest.wrapping_add(bench.chip.arrive(digest, LSR::empty()).is_ok() as u8);
        obscure(&mut bench.chip);
        digest = digest.wrapping_add(bench.chip.read(DATA_OFFSET));
    }
    bench.digest = digest;
}

#[unsafe(no_mangle)]
#[inline(never)]
fn inlined_interrupt(bench: &mut Bench) {
    let mut digest = bench.digest;
    for _ in 0..EACH {
        obscure(&mut bench.chip);
        digest = digest.wrapping_add(bench.chip.is_interrupting() as u8);
    }
    bench.digest = digest;
}

#[unsafe(no_mangle)]
#[inline(never)]
fn inlined_device_lsr(bench: &mut Bench) {
    let mut digest = bench.digest;
    for _ in 0..EACH {
        obscure(&mut bench.device);
        digest = digest.wrapping_add(bench.device.read(LSR_OFFSET));
    }
    bench.digest = digest;
}

#[unsafe(no_mangle)]
#[inline(never)]
fn inlined_device_data_write(bench: &mut Bench) {
    let mut digest = bench.digest;
    for _ in 0..EACH {
        obscure(&mut bench.device);
        digest = digest.wrapping_add(bench.device.write(DATA_OFFSET, digest).is_ok() as u8);
    }
    bench.digest = digest;
}

#[unsafe(no_mangle)]
#[inline(never)]
fn inlined_device_byte_in_and_read(bench: &mut Bench) {
    let mut digest = bench.digest;
    for _ in 0..EACH {
        obscure(&mut bench.device);
        digest = digest.wrapping_add(bench.device.enqueue_raw_bytes(&[digest]).is_ok() as u8);
        obscure(&mut bench.device);
        digest = digest.wrapping_add(bench.device.read(DATA_OFFSET));
    }
    bench.digest = digest;
}

fn main() {
    let full = Setting {
        waiting: EACH as u8,
        ..IDLE
    };
    run(&[
        ("lsr", IDLE, inlined_lsr),
        ("lsr-full", full, inlined_lsr),
        ("data-write", IDLE, data_write),
        ("byte-in-and-read", IDLE, inlined_byte_in_and_read),
        ("interrupt", IDLE, inlined_interrupt),
        ("device-lsr", IDLE, inlined_device_lsr),
        ("device-lsr-full", full, inlined_device_lsr),
        ("device-data-write", IDLE, inlined_device_data_write),
        (
            "device-byte-in-and-read",
            IDLE,
            inlined_device_byte_in_and_read,
        ),
    ]);
}
