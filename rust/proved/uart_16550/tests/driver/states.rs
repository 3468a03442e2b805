//! What a driver keeps beside its backend, saved and taken up again.

use proved_uart_16550::{DriverState, Uart16550};
use std::num::NonZeroU64;
use uart_calls::replay::Replay;
use uart_spec::registers::IER;

/// Returns a driver that no longer has any of the settings and saved bits that one has that was just
/// made.
fn used_driver() -> Uart16550<Replay<'static>> {
    // IER and MSR, and then LSR at the FIFO's trigger.
    let mut uart = Uart16550::new_with_backend(Replay::new(&[0x00, 0x0f, 0x1e]));
    uart.set_spin_limit(NonZeroU64::new(7).unwrap());
    uart.enable_interrupts(IER::THR_EMPTY);
    let _ = uart.check_connected();
    let _ = uart.ready_to_receive();
    uart
}

#[test]
fn a_driver_goes_on_from_its_state() {
    let state = used_driver().state();
    let mut uart = Uart16550::from_state(Replay::new(&[0x60, 0x30]), &state);
    assert_eq!(uart.state(), state);
    assert_eq!(uart.spin_limit().get(), 7);
    assert_eq!(uart.config().interrupts, IER::THR_EMPTY);
    assert_eq!(uart.lsr().bits(), 0x7e);
    assert_eq!(uart.msr().bits(), 0x3f);
}

#[test]
fn a_new_driver_has_the_state_of_one() {
    let uart = Uart16550::new_with_backend(Replay::new(&[]));
    assert_eq!(uart.state(), DriverState::new());
}
