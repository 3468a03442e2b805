//! What each line means, and how a faulty one is told.

use crate::{HEADER, assert_told, played};
use geesetrunk_kit::ArrayString;
use geesetrunk_kit::alloc::Global;
use proved_uart_machine::script::{Script, parse};
use proved_uart_machine::{Call, Chip, Event};
use uart_spec::registers::{FifoTriggerLevel, IER, ISR, LCR, LSR, MCR, MSR, WordLength};
use uart_spec::{
    BaudRate, Config, ConfigRegisterDump, FifoAction, FifoSize, Setup, TransmitterWait,
};

const FAULTS: &[(&str, &str)] = &[
    ("chip 16450 4 64", "line 2: misplaced"),
    ("lsr\nlsr 1\nwait", "line 3: wrong count"),
    ("init 014 9600 nocts 00 8", "line 2: bad word"),
    ("init 14 9600 maybe 0 9", "line 2: bad word"),
    ("init 14 9600 cts 0 9", "line 2: bad hex"),
    ("LSR", "line 2: unknown word"),
    ("lsr ", "line 2: wrong count"),
    ("send ", "line 2: bad hex"),
    ("tick +4", "line 2: bad number"),
    (
        "init-with 14 9600 cts 00 8 check last",
        "line 2: wrong count",
    ),
    (
        "init-with 14 9600 cts 00 9 maybe last 0b",
        "line 2: bad number",
    ),
    (
        "init-with 14 9600 cts 00 8 check late b",
        "line 2: bad word",
    ),
    ("set-trigger-level off", "line 2: bad word"),
    ("set-break 1", "line 2: bad word"),
    ("quiesce 0 drop", "line 2: bad hex"),
    ("restore 0001020304050607", "line 2: bad hex"),
    ("restore -", "line 2: bad hex"),
    ("check-configured", "line 2: wrong count"),
    ("fifo-size 48", "line 2: bad word"),
    ("fifo-size 016", "line 2: bad word"),
    ("fifo-size 16 32", "line 2: wrong count"),
    ("fifo-size", "line 2: wrong count"),
    ("fifo-size 64\nfifo-size 64", "line 3: misplaced"),
    ("fifo-size 64\nlimit 5", "line 3: misplaced"),
    ("lsr\nfifo-size 64", "line 3: misplaced"),
    ("\nfifo-size 64", "line 3: misplaced"),
    ("limit 5\n\nfifo-size 64", "line 4: misplaced"),
    ("limit 5\nfifo-size 64\nfifo-size 64", "line 4: misplaced"),
    ("limit 5\nfifo-size 1", "line 3: bad word"),
    ("limits 5\nfifo-size 64", "line 2: unknown word"),
    ("limit 0\nfifo-size 1", "line 2: bad number"),
];

const FAULTS_OF_THE_FIRST_LINE: &[(&str, &str)] = &[
    ("\nchip 16450 4 64", "line 1: misplaced"),
    ("lsr", "line 1: misplaced"),
    (" ", "line 1: misplaced"),
    ("limit 5", "line 1: misplaced"),
    ("fifo-size 16", "line 1: misplaced"),
    ("lsr\t", "line 1: bad byte"),
    ("chip 8250 0 64", "line 1: bad word"),
    ("chip 16550 4 64", "line 1: bad word"),
    ("chip 16550a-64 4 64", "line 1: bad word"),
    ("chip 16450 4 64", "a script"),
    ("chip 16450 4 64\n", "a script"),
    ("chip 16450 4 64\n\n\n", "a script"),
];

#[test]
fn faults_are_told() {
    assert_told(HEADER, FAULTS);
    assert_told("", FAULTS_OF_THE_FIRST_LINE);
}

fn parsed(text: &[u8]) -> Script {
    match parse(Global::heap(), text) {
        Ok(script) => script,
        Err(error) => panic!("{error}"),
    }
}

// The words of the chips with larger FIFOs too.
#[test]
fn each_chip_has_its_model_and_its_fifos() {
    for (name, model, size) in [
        ("16550a", Chip::Uart16550A, FifoSize::Sixteen),
        ("16450", Chip::Uart16450, FifoSize::Sixteen),
        ("16650", Chip::Uart16550A, FifoSize::ThirtyTwo),
        ("16750", Chip::Uart16550A, FifoSize::SixtyFour),
        ("16850", Chip::Uart16550A, FifoSize::OneHundredTwentyEight),
        ("16950", Chip::Uart16550A, FifoSize::OneHundredTwentyEight),
        ("16550a-256", Chip::Uart16550A, FifoSize::TwoHundredFiftySix),
    ] {
        let script = parsed(format!("chip {name} 4 64").as_bytes());
        assert_eq!((script.chip(), script.fifo_size()), (model, size), "{name}");
    }
}

// With a FIFO of 16 in place of a larger one, less is left of what arrives.
#[test]
fn each_chip_has_room_for_what_its_fifos_hold() {
    for (name, room) in [
        ("16550a", 16),
        ("16650", 32),
        ("16750", 64),
        ("16850", 128),
        ("16950", 128),
        ("16550a-256", 256),
    ] {
        for cut in ["", " cut"] {
            let arrivals = "arrive 41\n".repeat(room + 1);
            let head = format!("chip {name} 4 64{cut}\ninit 14 9600 nocts 00 8\n");
            let mut output = Vec::new();
            played(
                format!("{head}next\n{arrivals}lsr\n").as_bytes(),
                &mut output,
            )
            .unwrap();
            let wanted = format!(
                "ok\nok\nok 63\nwire -\nheld -\nwaiting {}\nmarks {}x\n",
                "41".repeat(room),
                "w".repeat(room)
            );
            assert_eq!(String::from_utf8_lossy(&output), wanted, "{name}{cut}");
        }
    }
}

// On line 2 without a limit, and behind it.
#[test]
fn the_driver_takes_the_fifos_for_the_size_of_the_script() {
    for (word, size) in [
        ("16", FifoSize::Sixteen),
        ("32", FifoSize::ThirtyTwo),
        ("64", FifoSize::SixtyFour),
        ("128", FifoSize::OneHundredTwentyEight),
        ("256", FifoSize::TwoHundredFiftySix),
    ] {
        for head in ["", "limit 5\n"] {
            let text = format!("chip 16750 4 64\n{head}fifo-size {word}");
            let script = parsed(text.as_bytes());
            assert_eq!(script.driver_fifo_size(), size, "{text}");
            assert_eq!(script.fifo_size(), FifoSize::SixtyFour);
        }
    }
    // What the chip is says nothing of the driver.
    let script = parsed(b"chip 16750 4 64");
    assert_eq!(script.driver_fifo_size(), FifoSize::Sixteen);
}

// A slow chip: nothing goes out while the bytes are written. If its FIFO holds fewer, the rest is lost.
#[test]
fn a_send_fills_a_fifo_of_the_size_of_the_script() {
    for (name, room) in [("16550a", 16), ("16650", 32), ("16750", 64)] {
        for size in [16, 32, 64] {
            let head = format!("chip {name} 1000 64\nfifo-size {size}\ninit 14 9600 nocts 00 8\n");
            let mut output = Vec::new();
            played(
                format!("{head}send {}\n", "41".repeat(64)).as_bytes(),
                &mut output,
            )
            .unwrap();
            // One is in the shift register.
            let held = "41".repeat(size.min(room + 1));
            let wanted = format!("ok\nok {size}\nwire -\nheld {held}\nwaiting -\nmarks -\n");
            assert_eq!(String::from_utf8_lossy(&output), wanted, "{name} {size}");
        }
    }
}

const EVERY_WORD: &[u8] = b"chip 16550a 3 7
limit 0000000005
fifo-size 128
tick 65535
arrive 4a
arrive Ff pfb

lines F
access
next
init 8 9600 cts 0f 05
loopback
present
connected
ready-receive
ready-send
try-receive
flush
read-ready
write-ready
ier
isr
lcr
mcr
lsr
msr
spr
dll-dlm
fifo
dump
try-send 7F
enable 02
disable 01
receive 0
receive-exact 64
read 1
send -
send-exact 00fF
write 41
text c3a9";

// One line of each kind.
#[test]
fn every_word_means_its_event_or_call() {
    let script = parsed(EVERY_WORD);
    assert_eq!(script.chip(), Chip::Uart16550A);
    assert_eq!(script.ticks(), 3);
    assert_eq!(script.wire_capacity(), 7);
    assert_eq!(script.limit().get(), 5);
    assert_eq!(script.driver_fifo_size(), FifoSize::OneHundredTwentyEight);
    assert_eq!(
        script.events(),
        [
            Event::Ticks(65535),
            Event::Arrive {
                byte: 0x4a,
                errors: 0,
            },
            Event::Arrive {
                byte: 0xff,
                errors: 0x1c,
            },
            Event::Lines(0xf0),
            Event::Access,
            Event::Mark,
        ]
    );
    assert_eq!(
        script.calls(),
        [
            Call::Next,
            Call::Init(Config {
                interrupts: IER::from_bits_retain(0x0f),
                fifo_trigger_level: Some(FifoTriggerLevel::Eight),
                baud_rate: BaudRate::Baud9600,
                data_bits: WordLength::FiveBits,
                check_cts_before_sending: true,
                ..Config::DEFAULT
            }),
            Call::TestLoopback,
            Call::CheckPresent,
            Call::CheckConnected,
            Call::ReadyToReceive,
            Call::ReadyToSend,
            Call::TryReceive,
            Call::Flush,
            Call::ReadReady,
            Call::WriteReady,
            Call::Ier,
            Call::Isr,
            Call::Lcr,
            Call::Mcr,
            Call::Lsr,
            Call::Msr,
            Call::Spr,
            Call::DllDlm,
            Call::FifoEnabled,
            Call::Dump,
            Call::TrySend(0x7f),
            Call::Enable(IER::THR_EMPTY),
            Call::Disable(IER::DATA_READY),
            Call::Receive(0),
            Call::ReceiveExact(64),
            Call::Read(1),
            Call::Send([].as_slice().try_into().unwrap()),
            Call::SendExact([0x00, 0xff].as_slice().try_into().unwrap()),
            Call::Write([0x41].as_slice().try_into().unwrap()),
            Call::Text(ArrayString::try_from("\u{e9}").unwrap()),
        ]
    );
}

const LATER_WORDS: &[u8] = b"chip 16550a 3 7
init-with off 9600 nocts 00 8 nocheck first 1F
set-frame 38400 7
set-frame-when-idle 2 6
set-trigger-level 4
attach
set-break on
set-modem-control 0b
set-rts off
set-dtr on
quiesce 08 reset
restore 05c11b0b60b0a58001
check-configured 1b
peek-modem
is-idle
retrigger-interrupts
receive-with-errors 64";

#[test]
fn later_words_mean_their_calls() {
    let frame = |baud_rate, data_bits| Config {
        baud_rate,
        data_bits,
        ..Config::DEFAULT
    };
    let dump = ConfigRegisterDump {
        ier: IER::from_bits_retain(0x05),
        isr: ISR::from_bits_retain(0xc1),
        lcr: LCR::from_bits_retain(0x1b),
        mcr: MCR::from_bits_retain(0x0b),
        lsr: LSR::from_bits_retain(0x60),
        msr: MSR::from_bits_retain(0xb0),
        spr: 0xa5,
        dll: 0x80,
        dlm: 0x01,
    };
    let setup = Setup {
        checks_presence: false,
        wait: TransmitterWait::First,
        outputs: MCR::from_bits_retain(0x1f),
    };
    let config = Config {
        fifo_trigger_level: None,
        ..Config::DEFAULT
    };
    assert_eq!(
        parsed(LATER_WORDS).calls(),
        [
            Call::InitWith(config, setup),
            Call::SetFrame(frame(BaudRate::Baud38400, WordLength::SevenBits)),
            Call::SetFrameWhenIdle(frame(BaudRate::Custom(2), WordLength::SixBits)),
            Call::SetTriggerLevel(FifoTriggerLevel::Four),
            Call::Attach,
            Call::SetBreak(true),
            Call::SetModemControl(MCR::from_bits_retain(0x0b)),
            Call::SetRts(false),
            Call::SetDtr(true),
            Call::Quiesce(MCR::from_bits_retain(0x08), FifoAction::Reset),
            Call::Restore(dump),
            Call::CheckConfigured(MCR::from_bits_retain(0x1b)),
            Call::PeekModem,
            Call::IsIdle,
            Call::RetriggerInterrupts,
            Call::ReceiveWithErrors(64),
        ]
    );
}
