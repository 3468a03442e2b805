//! `check_configured` is Ok after an `init` on the chip in software, whatever is configured: runs of an `init` and a check. And what the
//! calls leave that write MCR.

use geesetrunk_kit::alloc::Global;
use proved_uart_run::run;
use uart_16550::{Uart16550, Uart16550Tty};
use uart_calls::{Answer, Call};
use uart_chip::{Chip, Device16550, Event};
use uart_spec::registers::{FifoTriggerLevel, IER, MCR, Parity, WordLength};
use uart_spec::{BaudRate, Config, ConfigurationError};

/// The answers of these calls over a new chip, with time for an `init`.
fn answers(chip: Chip, calls: &[Call]) -> Vec<Answer> {
    let ticks = vec![Event::Ticks(1)].into();
    let device = Device16550::new(Global::heap(), chip, 4, 64, ticks).unwrap();
    let mut uart = Uart16550Tty::from_inner(Uart16550::new_with_backend(device));
    let mut answers: Vec<_> = calls.iter().map(|_| Answer::Done).collect();
    run(&mut uart, calls, &mut answers);
    answers
}

/// Each configuration of a few values of each field.
fn configurations() -> impl Iterator<Item = Config> {
    let lengths = [
        WordLength::FiveBits,
        WordLength::SixBits,
        WordLength::SevenBits,
        WordLength::EightBits,
    ];
    let parities = [
        Parity::Disabled,
        Parity::Odd,
        Parity::Even,
        Parity::Forced1,
        Parity::Forced0,
    ];
    let levels = [
        None,
        Some(FifoTriggerLevel::One),
        Some(FifoTriggerLevel::Fourteen),
    ];
    let rates = [
        BaudRate::Baud9600,
        BaudRate::Baud115200,
        BaudRate::Custom(50),
    ];
    lengths.into_iter().flat_map(move |data_bits| {
        parities.into_iter().flat_map(move |parity| {
            levels.into_iter().flat_map(move |fifo_trigger_level| {
                rates.into_iter().flat_map(move |baud_rate| {
                    (0..16).map(move |interrupts| Config {
                        data_bits,
                        parity,
                        fifo_trigger_level,
                        baud_rate,
                        interrupts: IER::from_bits_retain(interrupts),
                        extra_stop_bits: interrupts % 2 == 1,
                        ..Config::DEFAULT
                    })
                })
            })
        })
    })
}

#[test]
fn an_init_is_found_by_the_check() {
    for config in configurations() {
        for chip in [Chip::Uart16550A, Chip::Uart16450] {
            let calls = [
                Call::Init(config.clone()),
                Call::CheckConfigured(MCR::READY),
            ];
            assert_eq!(answers(chip, &calls), [Answer::Done, Answer::Done]);
        }
    }
}

#[test]
fn an_interrupt_that_the_chip_does_not_have_is_found_missing() {
    let expected = IER::from_bits_retain(0x11);
    let config = Config {
        interrupts: expected,
        ..Config::DEFAULT
    };
    let calls = [Call::Init(config), Call::CheckConfigured(MCR::READY)];
    let shown = IER::from_bits_retain(0x01);
    let wrong = ConfigurationError::Interrupts { expected, shown };
    assert_eq!(
        answers(Chip::Uart16550A, &calls)[1],
        Answer::NotConfigured(wrong)
    );
}

#[test]
fn outputs_are_as_they_were_asked_for() {
    let calls = [
        Call::Init(Config::DEFAULT),
        Call::SetModemControl(MCR::from_bits_retain(0x1c)),
        Call::Mcr,
        Call::SetRts(true),
        Call::Mcr,
        Call::SetDtr(true),
        Call::Mcr,
        Call::SetRts(false),
        Call::Mcr,
    ];
    let shown: Vec<_> = answers(Chip::Uart16550A, &calls)
        .into_iter()
        .skip(2)
        .step_by(2)
        .collect();
    // OUT1 and OUT2; then RTS and DTR with them; and then DTR alone. Loopback is left out.
    let expected = [0x0c, 0x0e, 0x0f, 0x0d].map(Answer::Register);
    assert_eq!(shown, expected);
}
