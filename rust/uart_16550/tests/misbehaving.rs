//! What today's driver does on chips that misbehave, each a model of its own, and what a call would have
//! to do there. `docs/HARDWARE.md` of the repository lists these chips, with where they are known from.
//!
//! A test says what is so, and not what is right: whoever makes the driver better on such a chip changes
//! its test.

#[path = "misbehaving/chip.rs"]
mod chip;

use chip::{Chip, Fault};
use std::collections::VecDeque;
use std::num::NonZeroU64;
use uart_16550::native::backend::{Backend, DesignWare, DesignWareFault, DesignWareRegisters};
use uart_16550::native::embedded_io::Write;
use uart_16550::native::{
    Config, ConfigurationError, FifoAction, InitError, Received, RemoteReadyToReceiveError, Setup,
    StalledError, TransmitterWait, Uart16550,
};
use uart_16550::ring::{HandleEnd, Handled, MAX_INTERRUPTS, Memory, Uart16550Ring};
use uart_16550::spec::registers::{FCR, IER, LCR, LSR, MCR, MSR, offsets};

// The low four bits of an ISR that shows a line status, and of one that has no name.
const LINE_STATUS: u8 = 0x06;
const NO_NAME: u8 = 0x08;

// Eight data bits, as the default has it.
const LINE: LCR = LCR::WORD_LENGTH;

fn over(fault: impl Into<Option<Fault>>) -> Uart16550<Chip> {
    let mut uart = Uart16550::new_with_backend(Chip::new(fault.into()));
    uart.set_spin_limit(NonZeroU64::new(1_000).unwrap());
    uart
}

fn ready(fault: impl Into<Option<Fault>>) -> Uart16550<Chip> {
    let mut uart = over(fault);
    uart.init(Config::DEFAULT).unwrap();
    uart
}

/// Rings with all their interrupts but THR_EMPTY enabled.
fn rings(fault: impl Into<Option<Fault>>) -> Uart16550Ring<Chip> {
    let memory = Memory::new(Box::leak(Box::new([0; 256 + 256])));
    let mut uart = ready(fault);
    uart.enable_interrupts(IER::DATA_READY | IER::RECEIVER_LINE_STATUS | IER::MODEM_STATUS);
    Uart16550Ring::new(memory.global(), uart, 256, 256).unwrap()
}

fn chip(ring: &mut Uart16550Ring<Chip>) -> &mut Chip {
    ring.inner_mut().backend_mut()
}

/// Lets the time of so many characters pass, and handles the interrupt while the chip's line is high, at
/// most so often. Returns whether the line is low at the end.
fn serve(ring: &mut Uart16550Ring<Chip>) -> bool {
    for _ in 0..1_000 {
        if chip(ring).is_interrupting() {
            ring.handle(MAX_INTERRUPTS);
        } else {
            // Reads SPR, which changes nothing, so that time passes.
            ring.inner_mut().spr();
        }
    }
    !chip(ring).is_interrupting()
}

/// Without a fault the model is a chip on which each call does what it is for.
#[test]
fn a_chip_without_a_fault() {
    let mut uart = ready(None);
    assert_eq!(uart.backend().latch, [12, 0]);
    assert_eq!(uart.test_loopback(), Ok(()));
    assert_eq!(uart.send_bytes_exact(&[7; 100]), Ok(()));
    assert_eq!(uart.flush(), Ok(()));
    assert_eq!(uart.backend().sent, [7; 100]);
    let mut ring = rings(None);
    assert_eq!(ring.queue(&[7; 100]), 100);
    assert!(serve(&mut ring));
    assert_eq!((chip(&mut ring).sent.len(), chip(&mut ring).lost), (100, 0));
    chip(&mut ring).received.extend([1, 2, 3]);
    assert!(serve(&mut ring));
    let mut slots = [0; 4];
    assert_eq!((ring.take(&mut slots), slots), (3, [1, 2, 3, 0]));
}

/// Where ISR shows a line status for THR_EMPTY and data together, the read has acknowledged THR_EMPTY. A handler sends
/// all the same, behind the data, since LSR has shown room; whatever its limit is, and also if that ends it in between.
#[test]
fn isr_that_joins_its_causes() {
    for limit in [1, 2, 3, MAX_INTERRUPTS] {
        for every in 1..=20 {
            let mut ring = rings(Fault::JoinsCauses);
            chip(&mut ring).arriving = (0..200).collect();
            chip(&mut ring).arrives_every = every;
            assert_eq!(ring.queue(&[7; 200]), 200);
            let mut came = Vec::new();
            for _ in 0..10_000 {
                if chip(&mut ring).is_interrupting() {
                    ring.handle(limit);
                } else {
                    ring.inner_mut().spr();
                }
                let mut slots = [0; 16];
                let count = ring.take(&mut slots);
                came.extend_from_slice(&slots[..count]);
            }
            assert!(came.into_iter().eq(0..200));
            let asleep = (ring.transmit_len(), chip(&mut ring).is_interrupting());
            assert_eq!(asleep, (0, false), "limit {limit}, a byte each {every} accesses");
            assert_eq!(chip(&mut ring).sent, [7; 200]);
        }
    }
}

mod design_ware {
    use super::*;

    const FAULT: Fault = Fault::IgnoresLcrWhileBusy;

    fn busy() -> Uart16550<Chip> {
        let mut uart = over(FAULT);
        uart.backend_mut().cells[offsets::LCR] = LINE.bits();
        uart.backend_mut().send_for(b'x', 100);
        uart
    }

    /// `init` returns Ok. The divisor is the old one, its low byte went to the line as a character, and its
    /// high byte to IER.
    ///
    /// `init` would have to wait until the chip is idle before it writes LCR, and to compare what LCR
    /// and the latch read as with what was written: a remote may send at any time, so that waiting alone
    /// is not enough. An LCR that was not taken is an error.
    #[test]
    fn init_while_the_chip_sends() {
        let mut uart = busy();
        assert_eq!(uart.init(Config::DEFAULT), Ok(()));
        uart.backend_mut().rest();
        assert_eq!(uart.backend().latch, [0xaa, 0xbb]);
        assert_eq!(uart.backend().sent, [b'x', 12]);
        assert_eq!(uart.backend().cells[offsets::LCR], LINE.bits());
        // `check_configured` tells.
        let wrong = ConfigurationError::Divisor {
            expected: 12,
            shown: 0xbbaa,
        };
        assert_eq!(uart.check_configured(MCR::READY), Err(wrong));
    }

    /// The chip is busy too while it has received data that nobody read.
    #[test]
    fn init_while_data_wait() {
        let mut uart = over(FAULT);
        uart.backend_mut().received.push_back(b'r');
        assert_eq!(uart.init(Config::DEFAULT), Ok(()));
        assert_eq!(uart.backend().latch, [0xaa, 0xbb]);
        // While the line is quiet, the latch tells: `init` has drained the byte.
        assert_eq!(uart.dll_dlm(), (0xaa, 0xbb));
        // So a second `init` is taken.
        assert_eq!(uart.init(Config::DEFAULT), Ok(()));
        assert_eq!(uart.dll_dlm(), (12, 0));
    }

    /// What a program can do today.
    #[test]
    fn init_after_a_flush() {
        let mut uart = busy();
        assert_eq!(uart.flush(), Ok(()));
        assert_eq!(uart.init(Config::DEFAULT), Ok(()));
        assert_eq!(uart.backend().latch, [12, 0]);
        assert_eq!(uart.dll_dlm(), (12, 0));
        assert_eq!(uart.backend().sent, [b'x']);
    }

    /// The same by one call, which waits before it writes LCR. If data wait that nobody read, the chip is busy
    /// after that wait too: nothing was set, and the call returns Ok.
    #[test]
    fn init_that_waits_first() {
        let setup = Setup {
            wait: TransmitterWait::First,
            ..Setup::DEFAULT
        };
        let mut uart = busy();
        assert_eq!(uart.init_with(Config::DEFAULT, &setup), Ok(()));
        assert_eq!(uart.backend().latch, [12, 0]);
        assert_eq!(uart.backend().sent, [b'x']);
        let mut uart = over(FAULT);
        uart.backend_mut().received.push_back(b'r');
        assert_eq!(uart.init_with(Config::DEFAULT, &setup), Ok(()));
        assert_eq!(uart.backend().latch, [0xaa, 0xbb]);
        // `check_configured` tells: the frame was not taken either.
        let ignored = ConfigurationError::LineControl {
            expected: LINE,
            shown: LCR::empty(),
        };
        assert_eq!(uart.check_configured(MCR::READY), Err(ignored));
    }

    /// `set_frame_when_idle` waits for the transmitter, and not for data to be read.
    #[test]
    fn set_frame_when_idle() {
        let config = Config {
            extra_stop_bits: true,
            ..Config::DEFAULT
        };
        let mut uart = ready(FAULT);
        uart.backend_mut().send_for(b'x', 100);
        assert_eq!(uart.set_frame_when_idle(&config), Ok(()));
        assert_eq!(uart.lcr(), LINE | LCR::MORE_STOP_BITS);
        assert_eq!(uart.backend().sent, [b'x']);
        let mut uart = ready(FAULT);
        uart.backend_mut().received.push_back(b'r');
        assert_eq!(uart.set_frame_when_idle(&config), Ok(()));
        assert_eq!(uart.lcr(), LINE);
        // `check_configured` tells, and the byte still waits.
        let ignored = ConfigurationError::LineControl {
            expected: LINE | LCR::MORE_STOP_BITS,
            shown: LINE,
        };
        assert_eq!(uart.check_configured(MCR::READY), Err(ignored));
        assert_eq!(uart.backend().received, [b'r']);
    }

    /// The chip is busy while the check looks: DLAB is not taken, so the latch is not read, and no received byte is
    /// lost.
    #[test]
    fn a_check_while_data_wait() {
        let mut uart = ready(FAULT);
        uart.backend_mut().received.push_back(b'r');
        let ignored = ConfigurationError::LineControl {
            expected: LINE | LCR::DLAB,
            shown: LINE,
        };
        assert_eq!(uart.check_configured(MCR::READY), Err(ignored));
        assert_eq!(uart.try_receive_byte(), Ok(b'r'));
        assert_eq!(uart.check_configured(MCR::READY), Ok(()));
    }

    /// `set_frame` returns Ok as well, and nothing was set. It would have to wait and to compare, as `init`.
    #[test]
    fn set_frame_while_the_chip_sends() {
        let mut uart = ready(FAULT);
        let config = Config {
            extra_stop_bits: true,
            ..Config::DEFAULT
        };
        uart.backend_mut().send_for(b'x', 100);
        assert_eq!(uart.set_frame(&config), Ok(()));
        uart.backend_mut().rest();
        assert_eq!(uart.lcr(), LINE);
        assert_eq!(uart.backend().sent, [b'x', 12]);
    }

    /// A look at the latch takes a received byte, which is lost. `dll_dlm`, `attach` and the dump would have
    /// to see DLAB in LCR before they read offset 0.
    #[test]
    fn looks_at_the_latch_while_data_wait() {
        let looks: [fn(&mut Uart16550<Chip>); 3] = [
            |uart| assert_eq!(uart.dll_dlm().0, b'r'),
            |uart| assert_eq!(uart.attach().unwrap().0, b'r'),
            |uart| assert_eq!(uart.config_register_dump().dll, b'r'),
        ];
        for look in looks {
            let mut uart = ready(FAULT);
            uart.backend_mut().received.push_back(b'r');
            look(&mut uart);
            assert!(uart.backend().received.is_empty());
        }
    }

    /// Busy detect shows as 0111, whose bit 0 says that none is pending. So `service` returns 0 and
    /// `handle` says `Idle`, while the line is high.
    ///
    /// `handle` would have to know this value, and to tell it as an end of its own, so that a program
    /// reads USR. A controller that detects levels calls the handler for ever otherwise, and since
    /// each end is `Idle`, no count of rounds sees that.
    #[test]
    fn busy_detect() {
        let mut ring = rings(FAULT);
        chip(&mut ring).is_busy_detected = true;
        assert!(chip(&mut ring).is_interrupting());
        assert_eq!(ring.service(), 0);
        let idle = Handled {
            served: 0,
            end: HandleEnd::Idle,
        };
        assert_eq!(ring.handle(32), idle);
        assert!(chip(&mut ring).is_interrupting());
        // With all of IER off the line stays high.
        ring.inner_mut().disable_interrupts(IER::all());
        assert!(chip(&mut ring).is_interrupting());
        // What a handler can do today.
        assert!(!chip(&mut ring).read_usr());
        assert!(!chip(&mut ring).is_interrupting());
    }

    /// Nothing ends a reception timeout without data: LSR shows none, so RBR is not read.
    ///
    /// `handle` would have to read RBR once if ISR shows a timeout and LSR neither data nor a break.
    #[test]
    fn a_timeout_without_data() {
        let mut ring = rings(Fault::TimesOutWithoutData);
        chip(&mut ring).is_timed_out = true;
        assert_eq!(ring.service(), MAX_INTERRUPTS);
        let endless = Handled {
            served: 32,
            end: HandleEnd::Limit,
        };
        assert_eq!(ring.handle(32), endless);
        assert!(chip(&mut ring).is_interrupting());
        // What a handler can do today.
        chip(&mut ring).read(offsets::DATA as u8);
        assert_eq!(ring.handle(32).end, HandleEnd::Idle);
        assert!(!chip(&mut ring).is_interrupting());
    }
}

/// The same chips by the backend for them.
mod design_ware_backend {
    use super::*;

    const FAULT: Fault = Fault::IgnoresLcrWhileBusy;
    const PATIENCE: NonZeroU64 = NonZeroU64::new(1_000).unwrap();

    type Port = Uart16550<DesignWare<Chip>>;

    fn over(fault: Fault) -> Port {
        let backend = DesignWare::new(Chip::new(Some(fault)), PATIENCE);
        let mut uart = Uart16550::new_with_backend(backend);
        uart.set_spin_limit(NonZeroU64::new(1_000).unwrap());
        uart
    }

    fn ready(fault: Fault) -> Port {
        let mut uart = over(fault);
        uart.init(Config::DEFAULT).unwrap();
        uart
    }

    fn chip(uart: &mut Port) -> &mut Chip {
        uart.backend_mut().registers_mut()
    }

    fn two_stop_bits() -> Config {
        Config {
            extra_stop_bits: true,
            ..Config::DEFAULT
        }
    }

    fn rings(fault: Fault) -> Uart16550Ring<DesignWare<Chip>> {
        let memory = Memory::new(Box::leak(Box::new([0; 256 + 256])));
        let mut uart = ready(fault);
        uart.enable_interrupts(IER::DATA_READY | IER::RECEIVER_LINE_STATUS | IER::MODEM_STATUS);
        Uart16550Ring::new(memory.global(), uart, 256, 256).unwrap()
    }

    /// A chip that is compatible is used as without the backend.
    #[test]
    fn a_chip_without_these_faults() {
        let mut uart = ready(Fault::SilentWhenEnabled);
        assert_eq!(uart.test_loopback(), Ok(()));
        assert_eq!(uart.send_bytes_exact(&[7; 100]), Ok(()));
        assert_eq!(uart.flush(), Ok(()));
        assert_eq!(chip(&mut uart).sent, [7; 100]);
        assert_eq!(uart.check_configured(MCR::READY), Ok(()));
        assert_eq!(uart.backend().fault(), None);
    }

    #[test]
    fn init_while_the_chip_sends_and_data_wait() {
        let mut uart = over(FAULT);
        chip(&mut uart).send_for(b'x', 100);
        chip(&mut uart).received.push_back(b'r');
        assert_eq!(uart.init(Config::DEFAULT), Ok(()));
        assert_eq!(uart.check_configured(MCR::READY), Ok(()));
        assert_eq!(chip(&mut uart).latch, [12, 0]);
        assert_eq!(chip(&mut uart).sent, [b'x']);
        // As on any chip, what waited before an `init` is discarded.
        assert!(uart.try_receive_byte().is_err());
        assert!(!chip(&mut uart).is_interrupting());
    }

    /// What was received stays, in its order, before what comes afterwards.
    #[test]
    fn a_frame_while_data_wait() {
        let changes: [fn(&mut Port); 2] = [
            |uart| assert_eq!(uart.set_frame(&two_stop_bits()), Ok(())),
            |uart| assert_eq!(uart.set_frame_when_idle(&two_stop_bits()), Ok(())),
        ];
        for change in changes {
            let mut uart = ready(FAULT);
            chip(&mut uart).received.extend(b"abc");
            change(&mut uart);
            assert_eq!(uart.check_configured(MCR::READY), Ok(()));
            chip(&mut uart).received.extend(b"de");
            let mut slots = [0; 8];
            assert_eq!(
                (uart.receive_bytes(&mut slots), &slots[..5]),
                (5, &b"abcde"[..])
            );
            assert_eq!(chip(&mut uart).discarded, 0);
        }
    }

    #[test]
    fn looks_at_the_latch_while_data_wait() {
        let looks: [fn(&mut Port); 3] = [
            |uart| assert_eq!(uart.dll_dlm(), (12, 0)),
            |uart| assert_eq!(uart.attach(), Ok((12, 0))),
            |uart| assert_eq!(uart.config_register_dump().divisor(), 12),
        ];
        for look in looks {
            let mut uart = ready(FAULT);
            chip(&mut uart).received.push_back(b'r');
            look(&mut uart);
            assert_eq!(uart.try_receive_byte(), Ok(b'r'));
            assert!(uart.try_receive_byte().is_err());
        }
    }

    /// A remote that sends all the time. A byte that comes while DLAB is set cannot be read; then LSR shows an
    /// overrun. No other byte is lost.
    #[test]
    fn a_frame_while_the_remote_sends() {
        let mut discarded = 0;
        for arrives_every in 5..200 {
            let mut uart = ready(FAULT);
            chip(&mut uart).arriving = (0..100).collect();
            chip(&mut uart).arrives_every = arrives_every;
            let mut received = Vec::new();
            let mut slots = [0; 8];
            let mut has_overrun = false;
            for turn in 0..60 {
                let frame = if turn % 2 == 0 {
                    two_stop_bits()
                } else {
                    Config::DEFAULT
                };
                assert_eq!(uart.set_frame(&frame), Ok(()));
                assert_eq!(
                    (
                        uart.backend().fault(),
                        uart.lcr().contains(LCR::MORE_STOP_BITS)
                    ),
                    (None, turn % 2 == 0)
                );
                let count = uart.receive_bytes(&mut slots);
                received.extend_from_slice(&slots[..count]);
                has_overrun |= uart.lsr().contains(LSR::OVERRUN_ERROR);
            }
            while let Ok(byte) = uart.try_receive_byte() {
                received.push(byte);
            }
            has_overrun |= uart.lsr().contains(LSR::OVERRUN_ERROR);
            let chip = chip(&mut uart);
            let left = chip.arriving.len() + chip.received.len();
            assert_eq!(received.len() + chip.discarded + left, 100);
            assert!(received.is_sorted_by(|a, b| a < b));
            assert_eq!(has_overrun, chip.discarded > 0);
            assert_eq!(chip.latch, [12, 0]);
            discarded += chip.discarded;
        }
        assert!(discarded > 0);
    }

    /// A busy chip whose characters have errors, which LSR shows for the one at the front, and once.
    struct Faulty {
        waiting: VecDeque<Received>,
        cells: [u8; 8],
    }

    impl Backend for Faulty {
        fn read(&mut self, register_offset: u8) -> u8 {
            match usize::from(register_offset) {
                offsets::DATA => self.waiting.pop_front().map_or(0, |received| received.byte),
                offsets::LSR => {
                    let front = self.waiting.front_mut();
                    let shown = front
                        .map(|received| std::mem::take(&mut received.errors) | LSR::DATA_READY);
                    shown.unwrap_or_default().bits()
                }
                offset => self.cells[offset],
            }
        }

        fn write(&mut self, register_offset: u8, value: u8) {
            match usize::from(register_offset) {
                offsets::DATA => {}
                offsets::LCR if !self.waiting.is_empty() => {}
                offset => self.cells[offset] = value,
            }
        }
    }

    impl DesignWareRegisters for Faulty {
        fn read_usr(&mut self) -> u8 {
            u8::from(!self.waiting.is_empty())
        }
    }

    /// What is kept has its own errors, and what comes behind it too. An overrun is told at once.
    #[test]
    fn kept_data_have_their_errors() {
        let character = |byte, errors| Received { byte, errors };
        let kept = [
            character(b'a', LSR::PARITY_ERROR),
            character(b'b', LSR::empty()),
            character(0, LSR::BREAK_INTERRUPT | LSR::FRAMING_ERROR),
        ];
        let behind = [
            character(b'd', LSR::empty()),
            character(b'e', LSR::PARITY_ERROR),
        ];
        let faulty = Faulty {
            waiting: VecDeque::from(kept),
            cells: [0; 8],
        };
        let mut uart = Uart16550::new_with_backend(DesignWare::new(faulty, PATIENCE));
        assert_eq!(uart.set_frame(&two_stop_bits()), Ok(()));
        uart.backend_mut().registers_mut().waiting.extend(behind);
        let mut slots = [character(0xff, LSR::empty()); 8];
        assert_eq!(uart.receive_with_errors(&mut slots), 5);
        assert_eq!(slots[..3], kept);
        assert_eq!(slots[3..5], behind);
        let errors = LSR::PARITY_ERROR | LSR::BREAK_INTERRUPT | LSR::FRAMING_ERROR;
        assert_eq!(uart.lsr() & LSR::LINE_ERRORS, errors);
        assert!(uart.lsr().is_empty());

        let overrun = [
            character(b'a', LSR::OVERRUN_ERROR),
            character(b'b', LSR::empty()),
        ];
        uart.backend_mut().registers_mut().waiting.extend(overrun);
        assert_eq!(uart.set_frame(&Config::DEFAULT), Ok(()));
        assert!(uart.lsr().contains(LSR::OVERRUN_ERROR));
        assert_eq!(uart.try_receive_byte(), Ok(b'a'));
        assert!(!uart.lsr().contains(LSR::OVERRUN_ERROR));

        // An overrun behind what is kept is told at once too, and once.
        let [kept, behind] = overrun.map(|character| VecDeque::from([character]));
        let faulty = Faulty {
            waiting: behind,
            cells: [0; 8],
        };
        let mut backend = DesignWare::new(faulty, PATIENCE);
        backend.write(offsets::LCR as u8, LINE.bits());
        backend.registers_mut().waiting = kept;
        let looks = [(); 3].map(|()| LSR::from_bits_retain(backend.read(offsets::LSR as u8)));
        let once = [
            LSR::DATA_READY | LSR::OVERRUN_ERROR,
            LSR::DATA_READY,
            LSR::DATA_READY,
        ];
        assert_eq!(looks, once);

        // Errors of a byte that is read without a look are told afterwards.
        let unseen = [character(b'f', LSR::PARITY_ERROR)];
        uart.backend_mut().registers_mut().waiting.extend(unseen);
        assert_eq!(uart.set_frame(&Config::DEFAULT), Ok(()));
        while uart.backend_mut().read(offsets::DATA as u8) != b'f' {}
        assert!(uart.lsr().contains(LSR::PARITY_ERROR));
    }

    /// A backend over a chip on which these characters wait, and that keeps them after a write of LCR.
    fn that_keeps(bytes: &[u8]) -> DesignWare<Faulty> {
        let errors = LSR::empty();
        let faulty = Faulty {
            waiting: bytes
                .iter()
                .map(|&byte| Received { byte, errors })
                .collect(),
            cells: [0; 8],
        };
        let mut backend = DesignWare::new(faulty, PATIENCE);
        backend.write(offsets::LCR as u8, LINE.bits());
        assert!(backend.registers_mut().waiting.is_empty());
        backend
    }

    /// Data that are kept interrupt as data that wait: if the driver enabled that, from the first character on.
    #[test]
    fn kept_data_interrupt_if_it_is_enabled() {
        for count in 0..3 {
            let mut backend = that_keeps(&[b'a'; 2][..count]);
            backend.registers_mut().cells[offsets::ISR] = 0xc1;
            assert_eq!(backend.read(offsets::ISR as u8), 0xc1);
            backend.write(offsets::IER as u8, IER::THR_EMPTY.bits());
            assert_eq!(backend.read(offsets::ISR as u8), 0xc1);
            backend.write(offsets::IER as u8, IER::DATA_READY.bits());
            let shown = if count > 0 { 0xc4 } else { 0xc1 };
            assert_eq!(backend.read(offsets::ISR as u8), shown);
        }
    }

    /// The first write of FCR turns the FIFOs on, which empties the chip's receiver. Later ones with the same bit do not.
    #[test]
    fn kept_data_are_discarded_when_the_fifos_are_turned_on_or_off() {
        let data = offsets::DATA as u8;
        let fcr = offsets::FCR as u8;
        let mut backend = that_keeps(b"a");
        backend.write(fcr, FCR::FIFO_ENABLE.bits());
        assert_eq!(backend.read(data), 0);
        backend.registers_mut().waiting.push_back(Received {
            byte: b'b',
            errors: LSR::empty(),
        });
        backend.write(offsets::LCR as u8, LINE.bits());
        backend.write(fcr, FCR::FIFO_ENABLE.bits());
        assert_eq!(backend.read(data), b'b');
        let mut backend = that_keeps(b"a");
        backend.write(fcr, 0);
        assert_eq!(backend.read(data), b'a');
    }

    /// A receiver whose data are out of reach is reset with the FIFOs as the driver set them. What the transmitter holds stays: a reset
    /// that the driver made is not made again.
    #[test]
    fn a_reset_of_the_receiver_leaves_the_transmitter() {
        let mut backend = that_keeps(b"");
        let control = FCR::FIFO_ENABLE | FCR::TX_FIFO_RESET | FCR::RX_FIFO_RESET;
        backend.write(offsets::FCR as u8, control.bits());
        backend.registers_mut().cells[offsets::LCR] = LCR::DLAB.bits();
        backend.registers_mut().waiting.push_back(Received {
            byte: b'a',
            errors: LSR::empty(),
        });
        backend.write(offsets::LCR as u8, LINE.bits());
        let written = FCR::from_bits_retain(backend.registers_mut().cells[offsets::FCR]);
        assert_eq!(written, FCR::FIFO_ENABLE | FCR::RX_FIFO_RESET);
    }

    /// What empties the chip's receiver empties what is kept.
    #[test]
    fn kept_data_are_discarded_by_a_reset() {
        for action in [FifoAction::Reset, FifoAction::Disable] {
            let mut uart = ready(FAULT);
            chip(&mut uart).received.extend(b"abc");
            assert_eq!(uart.set_frame(&two_stop_bits()), Ok(()));
            uart.quiesce(MCR::READY, action);
            assert!(uart.try_receive_byte().is_err());
        }
    }

    /// A chip that becomes busy after each look at USR: its last interrupt for that is ended too.
    #[test]
    fn a_write_that_is_always_ignored() {
        struct Racing {
            is_busy_detected: bool,
        }

        impl Backend for Racing {
            fn read(&mut self, _register_offset: u8) -> u8 {
                0
            }

            fn write(&mut self, register_offset: u8, _value: u8) {
                self.is_busy_detected |= usize::from(register_offset) == offsets::LCR;
            }
        }

        impl DesignWareRegisters for Racing {
            fn read_usr(&mut self) -> u8 {
                self.is_busy_detected = false;
                0
            }
        }

        let racing = Racing {
            is_busy_detected: false,
        };
        let mut uart = Uart16550::new_with_backend(DesignWare::new(racing, PATIENCE));
        assert_eq!(uart.set_frame(&Config::DEFAULT), Ok(()));
        let fault = Some(DesignWareFault::LineControlIgnored);
        assert_eq!(uart.backend().fault(), fault);
        assert!(!uart.backend_mut().registers_mut().is_busy_detected);
    }

    /// A chip that stays busy: the frame is not set, `check_configured` says so, nothing of the divisor goes to the line
    /// or to IER, and the chip interrupts nobody. Once it is idle, the next frame is taken, and its interrupts are back.
    #[test]
    fn a_chip_that_stays_busy() {
        let mut uart = ready(FAULT);
        uart.enable_interrupts(IER::DATA_READY);
        chip(&mut uart).send_for(b'x', 1_000_000);
        assert_eq!(uart.set_frame(&two_stop_bits()), Ok(()));
        let ignored = ConfigurationError::LineControl {
            expected: LINE | LCR::MORE_STOP_BITS,
            shown: LINE,
        };
        assert_eq!(uart.check_configured(MCR::READY), Err(ignored));
        let fault = Some(DesignWareFault::LineControlIgnored);
        assert_eq!(uart.backend().fault(), fault);
        uart.enable_interrupts(IER::DATA_READY);
        chip(&mut uart).received.push_back(b'r');
        assert!(!chip(&mut uart).is_interrupting());
        assert_eq!(chip(&mut uart).cells[offsets::IER], 0);
        assert_eq!((chip(&mut uart).latch, chip(&mut uart).lost), ([12, 0], 0));
        chip(&mut uart).rest();
        assert_eq!(chip(&mut uart).sent, [b'x']);
        assert_eq!(uart.set_frame(&two_stop_bits()), Ok(()));
        assert_eq!(uart.check_configured(MCR::READY), Ok(()));
        assert_eq!(uart.backend().fault(), None);
        assert_eq!(uart.try_receive_byte(), Ok(b'r'));
    }

    /// A chip that never takes LCR again once DLAB is set. Neither data nor THR can be reached: nothing is received,
    /// and a send stalls.
    #[test]
    fn a_latch_that_does_not_close() {
        let mut uart = ready(FAULT);
        chip(&mut uart).cells[offsets::LCR] |= LCR::DLAB.bits();
        chip(&mut uart).send_for(b'x', 1_000_000);
        assert_eq!(uart.set_frame(&two_stop_bits()), Ok(()));
        let fault = Some(DesignWareFault::LineControlIgnored);
        assert_eq!(uart.backend().fault(), fault);
        chip(&mut uart).received.push_back(b'r');
        assert!(uart.try_receive_byte().is_err());
        assert_eq!(
            uart.send_bytes_exact(b"hello"),
            Err(StalledError { done: 0 })
        );
        assert_eq!(uart.backend_mut().read(offsets::DATA as u8), 0);
        uart.backend_mut().write(offsets::DATA as u8, 0x55);
        assert!(uart.check_configured(MCR::READY).is_err());
        assert_eq!(chip(&mut uart).received, [b'r']);
    }

    #[test]
    fn busy_detect() {
        let mut ring = rings(FAULT);
        chip(ring.inner_mut()).is_busy_detected = true;
        assert!(chip(ring.inner_mut()).is_interrupting());
        let idle = Handled {
            served: 0,
            end: HandleEnd::Idle,
        };
        assert_eq!(ring.handle(32), idle);
        assert!(!chip(ring.inner_mut()).is_interrupting());
    }

    #[test]
    fn a_timeout_without_data() {
        let mut ring = rings(Fault::TimesOutWithoutData);
        chip(ring.inner_mut()).is_timed_out = true;
        assert_eq!(ring.handle(32).end, HandleEnd::Idle);
        assert!(!chip(ring.inner_mut()).is_interrupting());
        // One with data is served as any.
        chip(ring.inner_mut()).received.push_back(b'r');
        chip(ring.inner_mut()).is_timed_out = true;
        assert_eq!(ring.handle(32).end, HandleEnd::Idle);
        let mut slots = [0; 4];
        assert_eq!((ring.take(&mut slots), slots[0]), (1, b'r'));
    }

    /// A chip that shows these values of ISR one after the other, the next one after an access that ends an interrupt, and always
    /// this LSR.
    struct Shows {
        isr: VecDeque<u8>,
        lsr: LSR,
        ier: u8,
        reads_of_data: usize,
        reads_of_usr: usize,
    }

    impl Shows {
        fn new(isr: &[u8], lsr: LSR) -> DesignWare<Self> {
            let shows = Shows {
                isr: isr.iter().copied().collect(),
                lsr,
                ier: 0,
                reads_of_data: 0,
                reads_of_usr: 0,
            };
            DesignWare::new(shows, PATIENCE)
        }
    }

    impl Backend for Shows {
        fn read(&mut self, register_offset: u8) -> u8 {
            match usize::from(register_offset) {
                offsets::DATA => {
                    self.reads_of_data += 1;
                    self.isr.pop_front();
                    0
                }
                offsets::ISR => self.isr.front().copied().unwrap_or(0xc1),
                offsets::LSR => self.lsr.bits(),
                _ => 0,
            }
        }

        fn write(&mut self, register_offset: u8, value: u8) {
            if usize::from(register_offset) == offsets::IER {
                self.ier = value;
            }
        }
    }

    impl DesignWareRegisters for Shows {
        fn read_usr(&mut self) -> u8 {
            self.reads_of_usr += 1;
            self.isr.pop_front();
            0
        }
    }

    const ISR: u8 = offsets::ISR as u8;
    const BUSY_DETECT: u8 = 0xc7;
    const TIMEOUT: u8 = 0xcc;
    const NONE: u8 = 0xc1;

    /// RBR is read for a timeout if LSR shows neither data nor a break, and only then: what comes with a break is the break's
    /// character, and the driver's to read. The break is shown by the driver's next look too.
    #[test]
    fn a_timeout_with_data_or_with_a_break_is_the_drivers() {
        let shown = [
            (LSR::empty(), 1, NONE),
            (LSR::THR_EMPTY | LSR::PARITY_ERROR, 1, NONE),
            (LSR::DATA_READY, 0, TIMEOUT),
            (LSR::BREAK_INTERRUPT, 0, TIMEOUT),
            (LSR::DATA_READY | LSR::BREAK_INTERRUPT, 0, TIMEOUT),
        ];
        for (lsr, reads_of_data, isr) in shown {
            let mut backend = Shows::new(&[TIMEOUT], lsr);
            assert_eq!(backend.read(ISR), isr, "LSR {lsr:?}");
            let chip = backend.registers_mut();
            assert_eq!(chip.reads_of_data, reads_of_data, "LSR {lsr:?}");
            chip.lsr = LSR::empty();
            let told = LSR::from_bits_retain(backend.read(offsets::LSR as u8));
            assert_eq!(told, lsr & LSR::LINE_ERRORS);
        }
    }

    /// An interrupt that comes again is ended again, three times in one read of ISR. The fourth one is a fault.
    #[test]
    fn an_interrupt_that_comes_again() {
        for (cause, lsr) in [(BUSY_DETECT, LSR::DATA_READY), (TIMEOUT, LSR::empty())] {
            for times in 0..6 {
                let mut backend = Shows::new(&vec![cause; times], lsr);
                backend.write(offsets::IER as u8, IER::DATA_READY.bits());
                assert_eq!(backend.read(ISR), NONE);
                let fault = (times > 3).then_some(DesignWareFault::InterruptWithoutEnd);
                assert_eq!(backend.fault(), fault, "{times} times");
                let chip = backend.registers_mut();
                assert_eq!(chip.reads_of_usr + chip.reads_of_data, times.min(4));
                let enabled = if times > 3 { 0 } else { IER::DATA_READY.bits() };
                assert_eq!(chip.ier, enabled);
            }
        }
    }

    /// Data that were kept while LCR was written raise no interrupt, but a handler that is called takes them.
    #[test]
    fn kept_data_are_served() {
        let mut ring = rings(FAULT);
        chip(ring.inner_mut()).received.extend(b"abc");
        assert_eq!(ring.inner_mut().set_frame(&two_stop_bits()), Ok(()));
        assert!(!chip(ring.inner_mut()).is_interrupting());
        assert_eq!(ring.handle(32).end, HandleEnd::Idle);
        let mut slots = [0; 4];
        assert_eq!((ring.take(&mut slots), &slots[..3]), (3, &b"abc"[..]));
    }

    /// An interrupt that a read of USR, or of RBR, does not end: the chip's interrupts are off then.
    #[test]
    fn an_interrupt_that_does_not_end() {
        for cause in [0x07, 0x0c] {
            let mut ring = rings(Fault::Stuck(cause));
            assert!(chip(ring.inner_mut()).is_interrupting());
            let before = ring.handle(32);
            assert_eq!((before.served, before.end), (0, HandleEnd::Idle));
            let fault = Some(DesignWareFault::InterruptWithoutEnd);
            assert_eq!(ring.inner_mut().backend().fault(), fault);
            ring.queue(&[7; 20]);
            assert!(!chip(ring.inner_mut()).is_interrupting());
        }
    }
}

mod thr_empty {
    use super::*;

    /// The rings send before they enable the interrupt, so they do not need one that comes at once.
    #[test]
    fn that_does_not_come_when_it_is_enabled() {
        let mut ring = rings(Fault::SilentWhenEnabled);
        assert_eq!(ring.queue(&[7; 100]), 100);
        assert!(serve(&mut ring));
        assert_eq!(chip(&mut ring).sent, [7; 100]);
    }

    /// One moment is left: the transmitter becomes empty after the look that found it full, and before
    /// the write of IER. Then the rings sleep, until a program calls `resume_transmit`.
    ///
    /// A call that pumps would have to look at LSR once more after it has enabled the interrupt.
    #[test]
    fn that_came_between_the_look_and_the_enabling() {
        // The transmitter becomes empty at another moment of the second call each time.
        let sleeps = (0..200).filter(|&accesses| {
            let mut ring = rings(Fault::SilentWhenEnabled);
            ring.queue(&[7; 16]);
            for _ in 0..accesses {
                ring.inner_mut().spr();
            }
            ring.queue(&[8; 4]);
            assert!(serve(&mut ring));
            let is_asleep = ring.transmit_len() > 0;
            ring.resume_transmit();
            assert!(serve(&mut ring));
            let all = [[7; 16].as_slice(), &[8; 4]].concat();
            assert_eq!(chip(&mut ring).sent, all);
            is_asleep
        });
        // Between the look and the write of IER are a read of IER and nothing else.
        assert_eq!(sleeps.count(), 2);
    }

    /// What a program can do without a timer: `resume_transmit` after each `queue` looks once more.
    #[test]
    fn that_is_looked_at_after_each_queue() {
        for accesses in 0..200 {
            let mut ring = rings(Fault::SilentWhenEnabled);
            ring.queue(&[7; 16]);
            ring.resume_transmit();
            for _ in 0..accesses {
                ring.inner_mut().spr();
            }
            ring.queue(&[8; 4]);
            ring.resume_transmit();
            assert!(serve(&mut ring));
            assert_eq!(ring.transmit_len(), 0);
        }
    }

    /// A look at ISR acknowledges the interrupt, on every chip, and then it does not come again. `isr`,
    /// `attach` and the dump say so.
    #[test]
    fn that_was_acknowledged_by_a_look() {
        let mut ring = rings(None);
        ring.queue(&[7; 20]);
        chip(&mut ring).rest();
        ring.inner_mut().isr();
        assert!(serve(&mut ring));
        assert_eq!((ring.transmit_len(), chip(&mut ring).sent.len()), (4, 16));
        // What a program can do.
        ring.resume_transmit();
        assert!(serve(&mut ring));
        assert_eq!((ring.transmit_len(), chip(&mut ring).sent.len()), (0, 20));
    }

    /// A chip that does not keep the bit of IER never interrupts for it: the rings sleep from the first
    /// burst on. `ier` tells, and `check_configured` after an `init` with this interrupt, before the first byte.
    #[test]
    fn that_cannot_be_enabled() {
        let mut ring = rings(Fault::Keeps {
            offset: offsets::IER,
            bits: (IER::all() - IER::THR_EMPTY).bits(),
        });
        ring.queue(&[7; 20]);
        assert!(serve(&mut ring));
        assert_eq!((ring.transmit_len(), chip(&mut ring).sent.len()), (4, 16));
        assert!(!ring.inner_mut().ier().contains(IER::THR_EMPTY));
        // By calls from a timer it still gets on.
        ring.resume_transmit();
        assert!(serve(&mut ring));
        assert_eq!(ring.transmit_len(), 0);
    }
}

mod stuck {
    use super::*;

    fn ends(fault: Fault) -> (Handled, bool) {
        let mut ring = rings(fault);
        let handled = ring.handle(32);
        (handled, chip(&mut ring).is_interrupting())
    }

    /// `handle` serves it as often as its limit says, and says so. The interrupts stay enabled, and the line
    /// high: a program counts such ends, and disables the chip's interrupts, which ends it.
    #[test]
    fn an_interrupt_without_an_end() {
        let endless = Handled {
            served: 32,
            end: HandleEnd::Limit,
        };
        assert_eq!(ends(Fault::Stuck(LINE_STATUS)), (endless, true));
        let mut ring = rings(Fault::Stuck(LINE_STATUS));
        ring.inner_mut().disable_interrupts(IER::all());
        assert!(!chip(&mut ring).is_interrupting());
        assert_eq!(ring.handle(32).end, HandleEnd::Idle);
    }

    /// It is not served, and `handle` says so.
    #[test]
    fn an_interrupt_without_a_name() {
        let unknown = Handled {
            served: 0,
            end: HandleEnd::Unknown,
        };
        assert_eq!(ends(Fault::Stuck(NO_NAME)), (unknown, true));
    }

    /// The chip's line does not fall with IER 0 either. No call can help: the line has to be masked at
    /// the interrupt controller. `handle` says the same as before, so a program has to look whether
    /// disabling has helped.
    #[test]
    fn a_line_that_never_falls() {
        let mut ring = rings(Fault::StuckForGood(LINE_STATUS));
        ring.inner_mut().disable_interrupts(IER::all());
        assert_eq!(ring.handle(32).end, HandleEnd::Limit);
        assert!(chip(&mut ring).is_interrupting());
    }
}

mod registers {
    use super::*;

    /// `init` takes a chip without scratch register for none. It has written SPR alone. `init_with` leaves that
    /// look out.
    #[test]
    fn no_scratch() {
        let mut uart = over(Fault::NoScratch);
        uart.backend_mut().cells[offsets::LCR] = LINE.bits();
        let before = uart.backend().cells;
        assert_eq!(uart.init(Config::DEFAULT), Err(InitError::DeviceNotPresent));
        let mut after = uart.backend().cells;
        after[offsets::SPR] = before[offsets::SPR];
        assert_eq!((after, uart.backend().latch), (before, [0xaa, 0xbb]));
        let setup = Setup {
            checks_presence: false,
            ..Setup::DEFAULT
        };
        assert_eq!(uart.init_with(Config::DEFAULT, &setup), Ok(()));
        assert_eq!(uart.test_loopback(), Ok(()));
        assert_eq!(uart.backend().latch, [12, 0]);
        // What a program can do on a port that firmware set up.
        let mut uart = over(Fault::NoScratch);
        assert_eq!(uart.attach(), Ok((0xaa, 0xbb)));
        assert_eq!(uart.set_frame(&Config::DEFAULT), Ok(()));
        uart.set_modem_control(MCR::DTR | MCR::RTS);
        assert_eq!(uart.send_bytes_exact(b"hello"), Ok(()));
        assert_eq!(uart.flush(), Ok(()));
        assert_eq!(uart.backend().sent, b"hello");
        assert_eq!((uart.backend().latch, uart.lcr()), ([12, 0], LINE));
    }

    /// What a program can do today on any port: a backend that keeps the byte itself.
    #[test]
    fn no_scratch_behind_a_backend_that_has_one() {
        struct Scratch(Chip, u8);

        impl Backend for Scratch {
            fn read(&mut self, register_offset: u8) -> u8 {
                match usize::from(register_offset) {
                    offsets::SPR => self.1,
                    _ => self.0.read(register_offset),
                }
            }

            fn write(&mut self, register_offset: u8, value: u8) {
                match usize::from(register_offset) {
                    offsets::SPR => self.1 = value,
                    _ => self.0.write(register_offset, value),
                }
            }
        }

        let chip = Chip::new(Some(Fault::NoScratch));
        let mut uart = Uart16550::new_with_backend(Scratch(chip, 0));
        assert_eq!(uart.init(Config::DEFAULT), Ok(()));
        assert_eq!(uart.test_loopback(), Ok(()));
        assert_eq!(uart.send_bytes_exact(b"hello"), Ok(()));
    }

    /// `init` does not look whether registers keep what it writes: it returns Ok. The dump shows it, and
    /// `check_configured` makes each an error.
    #[test]
    fn that_do_not_keep_what_is_written() {
        let frame = Config {
            extra_stop_bits: true,
            interrupts: IER::DATA_READY,
            ..Config::DEFAULT
        };
        let keeps = |offset, bits| {
            let mut uart = over(Fault::Keeps { offset, bits });
            assert_eq!(uart.init(frame.clone()), Ok(()));
            uart.config_register_dump()
        };
        let outputs = MCR::READY;
        let check = |offset, bits| {
            let mut uart = over(Fault::Keeps { offset, bits });
            uart.init(frame.clone()).unwrap();
            uart.check_configured(outputs)
        };
        assert_eq!(check(offsets::SPR, 0xff), Ok(()));
        let interrupts = ConfigurationError::Interrupts {
            expected: IER::DATA_READY,
            shown: IER::empty(),
        };
        assert_eq!(check(offsets::IER, 0), Err(interrupts));
        let control = ConfigurationError::ModemControl {
            expected: outputs,
            shown: MCR::DTR,
        };
        assert_eq!(check(offsets::MCR, MCR::DTR.bits()), Err(control));
        let line = ConfigurationError::LineControl {
            expected: LINE | LCR::MORE_STOP_BITS,
            shown: LINE,
        };
        assert_eq!(check(offsets::LCR, (LINE | LCR::DLAB).bits()), Err(line));
        let latch = ConfigurationError::LineControl {
            expected: LINE | LCR::MORE_STOP_BITS | LCR::DLAB,
            shown: LINE | LCR::MORE_STOP_BITS,
        };
        assert_eq!(check(offsets::LCR, (!LCR::DLAB).bits()), Err(latch));
        let dump = keeps(offsets::IER, 0);
        assert_eq!((dump.ier, dump.mcr), (IER::empty(), outputs));
        let dump = keeps(offsets::MCR, MCR::DTR.bits());
        assert_eq!((dump.ier, dump.mcr), (IER::DATA_READY, MCR::DTR));
        // The second stop bit is gone.
        let dump = keeps(offsets::LCR, (LINE | LCR::DLAB).bits());
        assert_eq!((dump.lcr, dump.divisor()), (LINE, 12));
        // So is DLAB: the divisor went to the line, and to IER.
        let dump = keeps(offsets::LCR, (!LCR::DLAB).bits());
        assert_eq!(dump.lcr, LINE | LCR::MORE_STOP_BITS);
        let mut uart = over(Fault::Keeps {
            offset: offsets::LCR,
            bits: (!LCR::DLAB).bits(),
        });
        uart.init(frame.clone()).unwrap();
        assert_eq!(
            (uart.backend().latch, &*uart.backend().sent),
            ([0xaa, 0xbb], &[12_u8][..])
        );
    }

    /// Loopback is a bit of MCR, so a chip that does not keep it fails the test: nothing comes back, and the
    /// test's first byte is on the line.
    #[test]
    fn no_loopback() {
        let mut uart = ready(Fault::Keeps {
            offset: offsets::MCR,
            bits: (!MCR::LOOP_BACK).bits(),
        });
        assert!(uart.test_loopback().is_err());
        uart.backend_mut().rest();
        assert_eq!(uart.backend().sent.len(), 1);
        // The chip can be used without the test.
        assert_eq!(uart.send_bytes_exact(b"hello"), Ok(()));
    }

    /// One byte follows each look, so none is lost, although FCR says that the FIFO is on.
    #[test]
    fn a_fifo_that_does_not_work() {
        let mut uart = ready(Fault::BrokenFifo);
        assert!(!uart.fifo_enabled());
        assert_eq!(uart.send_bytes_exact(&[7; 40]), Ok(()));
        assert_eq!(uart.flush(), Ok(()));
        assert_eq!((uart.backend().sent.len(), uart.backend().lost), (40, 0));
    }

    /// Lines that are never raised stop a driver that looks at them, and no other.
    #[test]
    fn modem_lines_that_are_never_raised() {
        let mut uart = over(None);
        uart.backend_mut().msr = 0;
        assert_eq!(uart.init(Config::DEFAULT), Ok(()));
        assert_eq!(
            uart.check_connected(),
            Err(RemoteReadyToReceiveError::NoRemoteConnectedNoDSR)
        );
        assert_eq!(uart.send_bytes_exact(b"hello"), Ok(()));
        let checking = Config {
            check_cts_before_sending: true,
            ..Config::DEFAULT
        };
        assert_eq!(uart.init(checking), Ok(()));
        assert_eq!(
            uart.send_bytes_exact(b"hello"),
            Err(StalledError { done: 0 })
        );
        assert!(!uart.msr().contains(MSR::CTS));
    }
}
