//! usage: inlined BODY COUNT
//!
//! Makes COUNT rounds of a body that has the device's code in it: sixteen calls of one kind.

use measure_vm_superio::{device_in, obscure, run, Bench, DATA, EACH, LSR, WAITING_IN_SNAPSHOT};

#[no_mangle]
#[inline(never)]
fn inlined_lsr(bench: &mut Bench) {
    let mut digest = bench.digest;
    for _ in 0..EACH {
        obscure(&mut bench.device);
        digest = digest.wrapping_add(bench.device.read(LSR));
    }
    bench.digest = digest;
}

#[no_mangle]
#[inline(never)]
fn inlined_data_write(bench: &mut Bench) {
    let mut digest = bench.digest;
    for _ in 0..EACH {
        obscure(&mut bench.device);
        digest = digest.wrapping_add(bench.device.write(DATA, digest).is_ok() as u8);
    }
    bench.digest = digest;
}

#[no_mangle]
#[inline(never)]
fn inlined_byte_in_and_read(bench: &mut Bench) {
    let mut digest = bench.digest;
    for _ in 0..EACH {
        obscure(&mut bench.device);
        digest = digest.wrapping_add(bench.device.enqueue_raw_bytes(&[digest]).is_ok() as u8);
        obscure(&mut bench.device);
        digest = digest.wrapping_add(bench.device.read(DATA));
    }
    bench.digest = digest;
}

#[no_mangle]
#[inline(never)]
fn inlined_save(bench: &mut Bench) {
    for _ in 0..EACH {
        obscure(&mut bench.device);
        bench.state = bench.device.state();
    }
}

#[no_mangle]
#[inline(never)]
fn inlined_restore(bench: &mut Bench) {
    for _ in 0..EACH {
        obscure(&mut bench.state);
        if let Ok(restored) = device_in(&bench.state) {
            bench.device = restored;
        }
    }
}

fn main() {
    run(&[
        ("lsr", 0, inlined_lsr),
        ("lsr-full", EACH, inlined_lsr),
        ("data-write", 0, inlined_data_write),
        ("byte-in-and-read", 0, inlined_byte_in_and_read),
        ("save", WAITING_IN_SNAPSHOT, inlined_save),
        ("restore", WAITING_IN_SNAPSHOT, inlined_restore),
    ]);
}
