//! The offset of each register from the base of the device, in registers. Some registers share an
//! offset.

/// Data (RBR and THR), while DLAB is clear: the receiver on reads, the transmitter on writes.
pub const DATA: usize = 0;

/// Interrupt enable, while DLAB is clear.
pub const IER: usize = 1;

/// Interrupt status (ISR, also called IIR), on reads.
pub const ISR: usize = 2;

/// Line control.
pub const LCR: usize = 3;

/// Modem control.
pub const MCR: usize = 4;

/// Line status.
pub const LSR: usize = 5;

/// Modem status.
pub const MSR: usize = 6;

/// Scratch register.
pub const SPR: usize = 7;

/// FIFO control, on writes.
pub const FCR: usize = ISR;

/// Low byte of the divisor, while DLAB is set.
pub const DLL: usize = DATA;

/// High byte of the divisor, while DLAB is set.
pub const DLM: usize = IER;

/// Prescaler division, while DLAB is set, on chips that have a prescaler.
pub const PSD: usize = MSR;
