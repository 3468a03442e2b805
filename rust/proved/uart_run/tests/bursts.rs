//! A driver fills FIFOs by the size that it was told, and no byte is lost if they hold as many.

use geesetrunk_kit::alloc::Global;
use proved_uart_run::run;
use uart_16550::{Uart16550, Uart16550Tty};
use uart_calls::{Answer, CALL_BYTES, Call};
use uart_chip::{Chip, Device16550, Event};
use uart_spec::registers::FifoTriggerLevel;
use uart_spec::{Config, FifoSize};

const SIZES: [FifoSize; 5] = [
    FifoSize::Sixteen,
    FifoSize::ThirtyTwo,
    FifoSize::SixtyFour,
    FifoSize::OneHundredTwentyEight,
    FifoSize::TwoHundredFiftySix,
];

/// What one `send` of as many bytes as a call holds does after an `init`, by a driver that takes
/// FIFOs for the one size over a chip that has those of the other one: how many bytes it sends, and
/// how many are lost.
fn sent_and_lost(taken_for: FifoSize, chip: FifoSize) -> (Answer, u64) {
    let ticks = vec![Event::Ticks(1)].into();
    let device =
        Device16550::new_sized(Global::heap(), Chip::Uart16550A, chip, 4, 512, ticks, false);
    let mut driver = Uart16550::new_with_backend(device.unwrap());
    driver.set_fifo_size(taken_for);
    let mut uart = Uart16550Tty::from_inner(driver);
    let config = Config {
        fifo_trigger_level: Some(FifoTriggerLevel::One),
        ..Config::DEFAULT
    };
    let calls = [
        Call::Init(config),
        Call::Send([0x55; CALL_BYTES].as_slice().try_into().unwrap()),
    ];
    let mut answers = [Answer::Done, Answer::Done];
    run(&mut uart, &calls, &mut answers);
    let [_, sent] = answers;
    (sent, uart.inner().backend().overflows())
}

#[test]
fn each_size_up_to_the_chips_is_one_burst_without_a_loss() {
    for (i, chip) in SIZES.into_iter().enumerate() {
        for taken_for in &SIZES[..=i] {
            let sent = Answer::Count(taken_for.characters().min(CALL_BYTES));
            assert_eq!(sent_and_lost(*taken_for, chip), (sent, 0));
        }
    }
}

/// Why a session asks for it: the driver counts bytes that the chip has no place for.
#[test]
fn a_size_beyond_the_chips_loses_the_rest() {
    let (sent, lost) = sent_and_lost(FifoSize::SixtyFour, FifoSize::Sixteen);
    assert_eq!(sent, Answer::Count(64));
    // Each access takes a tick, and a character four: while 64 bytes are written, 16 leave the FIFO, and 16 are in it at the end.
    assert_eq!(lost, 64 - 16 - 16);
}
