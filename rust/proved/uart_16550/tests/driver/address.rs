//! The constructors and the backends for devices at ports and at addresses.

use crate::devices::{Constant, Recorder};
use crate::lists::Access::{Read, Write};
use proved_uart_16550::Uart16550;
use proved_uart_16550::backend::Backend;
use std::collections::HashSet;
use std::fmt::Debug;
use std::hash::Hash;
use std::num::NonZeroUsize;
use uart_spec::InvalidAddressError;
use uart_spec::InvalidAddressError::{InvalidBaseAddress, InvalidStride};
use uart_spec::registers::offsets;

const SILENT: Constant = Constant(0xff);

#[test]
fn new_port_refuses_ports_beyond_the_last() {
    for base in [0, 65527, 65528] {
        assert_eq!(Uart16550::new_port(base, SILENT).err(), None, "at {base}");
    }
    for base in [65529, 65535] {
        let refusal = InvalidBaseAddress(base as usize);
        assert_eq!(
            Uart16550::new_port(base, SILENT).err(),
            Some(refusal),
            "at {base}"
        );
    }
}

/// Returns why there is no driver at this address, by both constructors.
fn mmio_refusals(base: NonZeroUsize, stride: u8) -> [Option<InvalidAddressError>; 2] {
    [
        Uart16550::new_mmio(base, stride, SILENT).err(),
        Uart16550::new_mmio_from_address(base, stride, SILENT).err(),
    ]
}

#[test]
fn new_mmio_refuses_the_stride_first() {
    let low = NonZeroUsize::new(0x1000).unwrap();
    for stride in [1, 2, 4, 8, 16, 32, 64, 128] {
        assert_eq!(
            mmio_refusals(low, stride),
            [None, None],
            "at stride {stride}"
        );
    }
    for stride in [0, 3, 5, 6, 7, 9] {
        for base in [low, NonZeroUsize::MAX] {
            assert_eq!(
                mmio_refusals(base, stride),
                [Some(InvalidStride(stride)); 2],
                "at stride {stride}"
            );
        }
    }
}

#[test]
fn new_mmio_ends_with_the_last_address() -> Result<(), InvalidAddressError> {
    for (stride, last) in [
        (1, usize::MAX - 7),
        (2, usize::MAX - 14),
        (4, usize::MAX - 28),
        (8, usize::MAX - 56),
    ] {
        let base = NonZeroUsize::new(last).unwrap();
        let mut uart = Uart16550::new_mmio(base, stride, Recorder::new(SILENT))?;
        uart.backend_mut().read(offsets::SPR as u8);
        let log = &uart.backend().access().log;
        assert_eq!(log.entries(), [Read(usize::MAX, 0xff)]);
        let beyond = NonZeroUsize::new(last + 1).unwrap();
        assert_eq!(
            mmio_refusals(beyond, stride),
            [Some(InvalidBaseAddress(last + 1)); 2],
            "at stride {stride}"
        );
    }
    Ok(())
}

#[test]
fn ports_are_reached_one_by_one() -> Result<(), InvalidAddressError> {
    let mut uart = Uart16550::new_port(0x3f8, Recorder::new(SILENT))?;
    uart.backend_mut().write(offsets::SPR as u8, 0x5a);
    uart.backend_mut().read(offsets::LSR as u8);
    let log = &uart.backend().access().log;
    assert_eq!(log.entries(), [Write(0x3ff, 0x5a), Read(0x3fd, 0xff)]);
    Ok(())
}

/// Asserts that a backend has this debug text, is greater than another one, and differs from it in
/// a set.
fn assert_value<B: Clone + Debug + Eq + Hash + PartialOrd>(backend: &B, lower: &B, text: &str) {
    assert!(lower < backend);
    assert_eq!(format!("{backend:?}"), text);
    let seen = HashSet::from([backend.clone()]);
    assert!(seen.contains(backend));
    assert!(!seen.contains(lower));
}

#[test]
fn port_backends_are_values() -> Result<(), InvalidAddressError> {
    let uart = Uart16550::new_port(0x3f8, SILENT)?;
    let lower = Uart16550::new_port(0x2f8, SILENT)?;
    assert_eq!(uart.backend().base(), 0x3f8);
    let text = "PioBackend { base: 1016, access: Constant(255) }";
    assert_value(uart.backend(), lower.backend(), text);
    Ok(())
}

#[test]
fn memory_backends_are_values() -> Result<(), InvalidAddressError> {
    let base = NonZeroUsize::new(0x1000).unwrap();
    let uart = Uart16550::new_mmio(base, 4, SILENT)?;
    let lower = Uart16550::new_mmio(base, 2, SILENT)?;
    assert_eq!(uart.backend().base(), base);
    assert_eq!(uart.backend().stride().get(), 4);
    let text = "MmioBackend { base: 4096, stride: 4, access: Constant(255) }";
    assert_value(uart.backend(), lower.backend(), text);
    Ok(())
}
