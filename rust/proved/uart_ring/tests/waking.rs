//! What calls of the driver, through `inner_mut`, do to bytes that wait in the transmit ring, over a chip: after which of them nobody
//! sends these bytes any more, and that `resume_transmit` mends that.

use geesetrunk_kit_of_rings::alloc::Global;
use proved_uart_ring::Uart16550Ring;
use uart_16550::Uart16550;
use uart_16550::backend::Backend;
use uart_calls::{Call, perform_on_driver};
use uart_live::{Chip, LiveChip, WIRE_ROOM};
use uart_spec::registers::{FifoTriggerLevel, IER, MCR};
use uart_spec::{Config, FifoAction, Setup};

const CHAR_TICKS: u16 = 8;
const RING_SIZE: usize = 64;
const LIMIT: usize = 32;

/// What is queued, of which the FIFO takes the first 16.
const BYTES: [u8; 40] = *b"forty bytes, of which sixteen go at once";
const LEFT: usize = 24;

/// A chip whose wire somebody reads.
struct Registers(LiveChip);

impl Backend for Registers {
    fn read(&mut self, register_offset: u8) -> u8 {
        self.pass(1);
        self.0.read(register_offset)
    }

    fn write(&mut self, register_offset: u8, value: u8) {
        self.pass(1);
        self.0.write(register_offset, value);
    }
}

impl Registers {
    fn pass(&mut self, ticks: u16) {
        self.0.ticks(ticks);
        self.0.take_wire(self.0.wire().len());
    }
}

type Port = Uart16550Ring<Registers>;

fn config() -> Config {
    Config {
        interrupts: IER::DATA_READY | IER::RECEIVER_LINE_STATUS,
        ..Config::DEFAULT
    }
}

/// A port with bytes in its ring, whose THR_EMPTY interrupt is pending: the chip has sent the first 16.
fn waiting(model: Chip) -> Port {
    let chip = LiveChip::new(model, CHAR_TICKS, WIRE_ROOM).expect("in range");
    let mut uart = Uart16550::new_with_backend(Registers(chip));
    assert_eq!(uart.init(config()), Ok(()));
    let Ok(mut ring) = Uart16550Ring::new(Global::heap(), uart, RING_SIZE, RING_SIZE) else {
        panic!("memory");
    };
    assert_eq!(ring.queue(&BYTES), BYTES.len());
    ring.inner_mut().backend_mut().pass(17 * CHAR_TICKS);
    assert!(ring.inner().backend().0.is_interrupting());
    ring
}

/// Lets time pass, in which the handler is called as long as the chip interrupts, and nobody else calls. Returns how many bytes wait then.
fn left_to_the_handler(ring: &mut Port) -> usize {
    for _ in 0..100 * CHAR_TICKS {
        ring.inner_mut().backend_mut().pass(1);
        if ring.inner().backend().0.is_interrupting() {
            ring.handle(LIMIT);
        }
    }
    ring.transmit_len()
}

/// The calls of the driver after which the page of `inner_mut` asks for a `resume_transmit`.
fn calls_that_take_the_interrupt_away() -> Vec<Call> {
    let mut ring = waiting(Chip::Uart16550A);
    let dump = ring.inner_mut().config_register_dump();
    vec![
        Call::Isr,
        Call::Dump,
        Call::Attach,
        Call::Disable(IER::THR_EMPTY),
        Call::Quiesce(MCR::READY, FifoAction::Keep),
        Call::Quiesce(MCR::READY, FifoAction::Reset),
        Call::Quiesce(MCR::READY, FifoAction::Disable),
        Call::Restore(dump),
        Call::TestLoopback,
        Call::Init(config()),
        Call::InitWith(config(), Setup::DEFAULT),
    ]
}

/// All others.
fn calls_that_leave_it() -> Vec<Call> {
    vec![
        Call::SetFrame(config()),
        Call::SetFrameWhenIdle(config()),
        Call::SetTriggerLevel(FifoTriggerLevel::One),
        Call::SetBreak(false),
        Call::SetModemControl(MCR::READY),
        Call::SetRts(true),
        Call::SetDtr(true),
        Call::CheckConfigured(MCR::READY),
        Call::CheckPresent,
        Call::CheckConnected,
        Call::ReadyToReceive,
        Call::ReadyToSend,
        Call::TryReceive,
        Call::Flush,
        Call::ReadReady,
        Call::WriteReady,
        Call::Ier,
        Call::Lcr,
        Call::Mcr,
        Call::Lsr,
        Call::Msr,
        Call::PeekModem,
        Call::IsIdle,
        Call::Spr,
        Call::DllDlm,
        Call::FifoEnabled,
        Call::TrySend(b'!'),
        Call::Enable(IER::MODEM_STATUS),
        Call::Disable(IER::DATA_READY),
        Call::RetriggerInterrupts,
        Call::Receive(8),
        Call::ReceiveExact(0),
        Call::ReceiveWithErrors(8),
        Call::Read(0),
    ]
}

#[test]
fn these_calls_leave_the_interrupt() {
    for call in calls_that_leave_it() {
        let mut ring = waiting(Chip::Uart16550A);
        perform_on_driver(ring.inner_mut(), &call);
        assert_eq!(left_to_the_handler(&mut ring), 0, "{call:?}");
    }
}

/// The others are named in the documents, and one call mends what they did.
#[test]
fn resume_transmit_wakes_the_rings() {
    for call in calls_that_take_the_interrupt_away() {
        let mut ring = waiting(Chip::Uart16550A);
        perform_on_driver(ring.inner_mut(), &call);
        ring.resume_transmit();
        assert_eq!(left_to_the_handler(&mut ring), 0, "{call:?}");
    }
}

/// So these are named with reason: bytes wait for ever, although the handler runs whenever the chip interrupts.
#[test]
fn without_it_bytes_wait_for_ever() {
    let mut asleep = Vec::new();
    for call in calls_that_take_the_interrupt_away() {
        let mut ring = waiting(Chip::Uart16550A);
        perform_on_driver(ring.inner_mut(), &call);
        if left_to_the_handler(&mut ring) == LEFT {
            asleep.push(format!("{call:?}"));
        }
    }
    assert!(asleep.iter().any(|call| call == "Isr"));
    assert!(asleep.iter().any(|call| call == "Dump"));
    assert!(asleep.iter().any(|call| call == "Attach"));
}

/// The rings' own dump sends what the interrupt was for, and shows the same as the driver's.
#[test]
fn a_dump_of_the_rings_wakes_them() {
    let mut ring = waiting(Chip::Uart16550A);
    let dump = ring.config_register_dump();
    assert_eq!(dump.ier, IER::DATA_READY | IER::RECEIVER_LINE_STATUS | IER::THR_EMPTY);
    assert_eq!(left_to_the_handler(&mut ring), 0);
}
