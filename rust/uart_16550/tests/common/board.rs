// A board for the examples of INTERRUPTS.md: a chip in software, a mask of interrupts, and a controller that
// calls the handler while the chip's line is high. Included by each example, whose functions it calls.
mod board {
    use std::collections::VecDeque;
    use std::sync::atomic::{AtomicBool, AtomicU32, Ordering};
    use std::sync::{Mutex, MutexGuard};
    use uart_16550::native::backend::Backend;
    use uart_16550::native::spec::registers::{IER, LCR, LSR, MSR, offsets};

    pub struct Chip {
        pub sent: Vec<u8>,
        pub received: VecDeque<u8>,
        /// Line errors that the next read of LSR shows and clears.
        pub errors: LSR,
        pub cells: [u8; 8],
        is_empty_due: bool,
        /// Whether the chip is broken: ISR shows an interrupt without a name as long as one is enabled.
        pub shows_an_interrupt: bool,
    }

    pub static CHIP: Mutex<Chip> = Mutex::new(Chip {
        sent: Vec::new(),
        received: VecDeque::new(),
        errors: LSR::empty(),
        cells: [0; 8],
        is_empty_due: false,
        shows_an_interrupt: false,
    });

    pub fn chip() -> MutexGuard<'static, Chip> {
        CHIP.lock().unwrap()
    }

    impl Chip {
        fn is_enabled(&self, interrupt: IER) -> bool {
            self.cells[offsets::IER] & interrupt.bits() != 0
        }

        // ISR without acknowledging.
        fn isr(&self) -> u8 {
            if self.shows_an_interrupt && self.is_enabled(IER::all()) {
                0xc8
            } else if self.is_enabled(IER::RECEIVER_LINE_STATUS) && !self.errors.is_empty() {
                0xc6
            } else if self.is_enabled(IER::DATA_READY) && !self.received.is_empty() {
                0xc4
            } else if self.is_enabled(IER::THR_EMPTY) && self.is_empty_due {
                0xc2
            } else {
                0xc1
            }
        }

        fn is_latched(&self) -> bool {
            self.cells[offsets::LCR] & LCR::DLAB.bits() != 0
        }

        fn read(&mut self, offset: usize) -> u8 {
            match offset {
                offsets::DATA if !self.is_latched() => self.received.pop_front().unwrap_or(0),
                offsets::ISR => {
                    let isr = self.isr();
                    self.is_empty_due &= isr != 0xc2;
                    isr
                }
                offsets::LSR => {
                    let errors = std::mem::replace(&mut self.errors, LSR::empty());
                    let data = u8::from(!self.received.is_empty());
                    0x60 | data | errors.bits()
                }
                // A cable of three wires: no line of the other end is there.
                offsets::MSR => MSR::empty().bits(),
                _ => self.cells[offset],
            }
        }

        fn write(&mut self, offset: usize, value: u8) {
            match offset {
                offsets::DATA if !self.is_latched() => {
                    self.sent.push(value);
                    self.is_empty_due = true;
                }
                _ => {
                    let was_enabled = self.is_enabled(IER::THR_EMPTY);
                    self.cells[offset] = value;
                    self.is_empty_due |= !was_enabled && self.is_enabled(IER::THR_EMPTY);
                }
            }
        }
    }

    /// The way to the chip. After each access its interrupt may come.
    #[derive(Debug)]
    pub struct Registers;

    impl Backend for Registers {
        fn read(&mut self, register_offset: u8) -> u8 {
            let value = chip().read(register_offset.into());
            raise();
            value
        }

        fn write(&mut self, register_offset: u8, value: u8) {
            chip().write(register_offset.into(), value);
            raise();
        }
    }

    /// # Safety
    ///
    /// Nothing else accesses the device.
    pub unsafe fn registers() -> Registers {
        Registers
    }

    static MASKED: AtomicBool = AtomicBool::new(false);
    pub static INTERRUPTS: AtomicU32 = AtomicU32::new(0);

    /// Masks the interrupts of this processor, and returns whether they were masked.
    pub fn mask_interrupts() -> bool {
        MASKED.swap(true, Ordering::SeqCst)
    }

    /// Restores the mask.
    pub fn restore_interrupts(were_masked: bool) {
        MASKED.store(were_masked, Ordering::SeqCst);
        raise();
    }

    // Calls the handler while the chip asks for it, unless interrupts are masked. They are masked in the
    // handler, as a processor does that.
    pub fn raise() {
        while chip().isr() != 0xc1 && !MASKED.swap(true, Ordering::SeqCst) {
            INTERRUPTS.fetch_add(1, Ordering::SeqCst);
            super::handle_interrupt();
            MASKED.store(false, Ordering::SeqCst);
        }
    }

    /// Sleeps until an interrupt, unless the function returns true: meanwhile somebody types.
    pub fn sleep_unless(is_awake: impl FnOnce() -> bool) {
        let were_masked = mask_interrupts();
        if !is_awake() {
            chip().received.extend(b"typed while it slept\x04");
        }
        restore_interrupts(were_masked);
    }

    pub fn end_of_interrupt() {}
    pub fn stop_other_processors() {}

    /// Ends the example.
    pub fn halt() -> ! {
        std::panic::resume_unwind(Box::new("halted"))
    }
}
