//! Small recordings, and the rule that the last read of each breaks.

use proved_uart_judges::replay::{Difference, Replayer, Rule, Start};
use uart_chip::Chip;
use uart_spec::registers::offsets::{DATA, FCR, IER, ISR, LCR, LSR, MCR, MSR, SPR};

/// An access to a register, and the value that was read or written.
#[derive(Clone, Copy, Debug)]
enum Step {
    Read(usize, u8),
    Write(usize, u8),
}

use Rule::{
    EmptyBits, ErrorAlone, FifoBits, FifoError, Interrupt, Keeps, LoopedData, LoopedLines,
    StaysIdle, StillWaits, ThrStaysEmpty,
};
use Step::{Read, Write};

/// Returns what is reported for the last access.
fn last(model: Chip, start: Start, steps: &[Step]) -> Option<Rule> {
    let mut replayer = Replayer::new(model, start);
    let mut reported = None;
    for step in steps {
        reported = match *step {
            Read(offset, value) => replayer.read(offset, value),
            Write(offset, value) => {
                replayer.write(offset, value);
                None
            }
        };
    }
    reported.map(|difference| difference.rule)
}

/// Accesses, and the rule that the last of them breaks.
type Case<'a> = (&'a [Step], Option<Rule>);

/// Asserts what is reported for the last access of each list.
fn assert_last(model: Chip, start: Start, cases: &[Case<'_>]) {
    for &(steps, want) in cases {
        assert_eq!(last(model, start, steps), want, "after {steps:?}");
    }
}

/// A divisor, while the latch that it is written to is open.
const LATCHED: [Step; 3] = [Write(LCR, 0x83), Write(DATA, 0x0c), Write(IER, 0x01)];

#[test]
fn latches() {
    let [lcr, dll, dlm] = LATCHED;
    let at_reset: &[Case<'_>] = &[
        (&[Read(MCR, 0x08)], Some(Keeps(0))),
        (&[Write(IER, 0xff), Read(IER, 0xff)], Some(Keeps(0x0f))),
        (&[Write(MCR, 0xff), Read(MCR, 0x1f)], None),
        (&[lcr, dll, dlm, Write(LCR, 0x03), Read(IER, 0x00)], None),
        // A value that was reported is left out of what follows.
        (&[Read(LCR, 0x03), Read(LCR, 0x00)], None),
    ];
    assert_last(Chip::Uart16550A, Start::Reset, at_reset);
    let in_use: &[Case<'_>] = &[
        (&[Read(MCR, 0x08)], None),
        (&[Write(SPR, 0x5a), Read(SPR, 0xff)], Some(Keeps(0x5a))),
        (&[Read(SPR, 0x11), Read(SPR, 0x10)], Some(Keeps(0x11))),
        (&[lcr, dll, dlm, Read(DATA, 0x0c)], None),
        (&[lcr, dll, dlm, Read(IER, 0x00)], Some(Keeps(0x01))),
    ];
    assert_last(Chip::Uart16550A, Start::InUse, in_use);
}

#[test]
fn interrupts() {
    let at_reset: &[Case<'_>] = &[
        (&[Write(FCR, 0x07), Read(ISR, 0xc1)], None),
        (&[Write(FCR, 0x07), Read(ISR, 0x01)], Some(FifoBits)),
        (&[Write(FCR, 0x07), Read(ISR, 0x81)], Some(FifoBits)),
        (&[Write(IER, 0x02), Read(ISR, 0x02)], None),
        (&[Write(IER, 0x02), Read(ISR, 0x04)], Some(Interrupt)),
        (&[Write(IER, 0x0f), Read(ISR, 0x08)], Some(Interrupt)),
    ];
    assert_last(Chip::Uart16550A, Start::Reset, at_reset);
    let of_16450: &[Case<'_>] = &[
        (&[Write(FCR, 0x07), Read(ISR, 0xc1)], Some(FifoBits)),
        (&[Read(ISR, 0x0c)], Some(Interrupt)),
    ];
    assert_last(Chip::Uart16450, Start::InUse, of_16450);
}

#[test]
fn line_status() {
    let at_reset: &[Case<'_>] = &[
        (&[Read(LSR, 0xe9)], Some(FifoError)),
        (&[Read(LSR, 0x61), Read(DATA, 0x41), Read(LSR, 0x60)], None),
        (&[Read(LSR, 0x61), Write(FCR, 0x07), Read(LSR, 0x60)], None),
        (&[Read(LSR, 0x00)], Some(StaysIdle)),
        (&[Write(DATA, 0x41), Read(LSR, 0x00)], None),
        // A byte that went into the divisor latch is not sent.
        (
            &[Write(LCR, 0x80), Write(DATA, 1), Read(LSR, 0x00)],
            Some(StaysIdle),
        ),
    ];
    assert_last(Chip::Uart16550A, Start::Reset, at_reset);
    let in_use: &[Case<'_>] = &[
        (&[Read(LSR, 0x40)], Some(EmptyBits)),
        // Errors stay until LSR is read, though the character was.
        (&[Read(LSR, 0x68)], None),
        (&[Read(LSR, 0x68), Read(LSR, 0x68)], Some(ErrorAlone)),
        (&[Read(LSR, 0x61), Read(DATA, 0x41), Read(LSR, 0x64)], None),
        (&[Read(LSR, 0xe9)], None),
        (&[Read(LSR, 0x61), Read(LSR, 0x60)], Some(StillWaits)),
        (&[Read(LSR, 0x20), Read(LSR, 0x00)], Some(ThrStaysEmpty)),
        (&[Read(MSR, 0xff)], None),
        // The outputs of MCR are read back in the order CTS of RTS, DSR of DTR, RI of OUT 1, CD of
        // OUT 2.
        (&[Write(MCR, 0x1a), Read(MSR, 0x9b)], None),
        (&[Write(MCR, 0x1a), Read(MSR, 0xb0)], Some(LoopedLines)),
    ];
    assert_last(Chip::Uart16550A, Start::InUse, in_use);
}

/// Eight bits, loopback, nothing to be sent, an empty receiver, and then these accesses.
fn looped(steps: &[Step]) -> Vec<Step> {
    let mut all = vec![
        Write(LCR, 0x03),
        Read(LSR, 0x60),
        Write(MCR, 0x10),
        Write(FCR, 0xc7),
    ];
    all.extend(steps);
    all
}

/// A byte that waits is read.
fn waits(byte: u8) -> [Step; 2] {
    [Read(LSR, 0x61), Read(DATA, byte)]
}

#[test]
fn what_comes_back_was_written() {
    let written =
        |bytes: &[u8]| -> Vec<_> { bytes.iter().map(|&byte| Write(DATA, byte)).collect() };
    let read = |bytes: &[u8]| -> Vec<_> { bytes.iter().flat_map(|&byte| waits(byte)).collect() };
    let other = Some(LoopedData);
    for (sent, received, want) in [
        (&b"B"[..], &b"B"[..], None),
        (b"B", &[0x99], other),
        (b"B", b"BB", other),
        (b"hello", b"hello", None),
        // Some of them can be lost.
        (b"hello", b"ho", None),
        (b"hello", b"oh", other),
        // An emulator gives the first byte back for each.
        (b"hello world!1337", b"hh", other),
        (b"", b"\0", other),
        // More than are followed.
        (b"hello world!13377", b"!!", None),
    ] {
        let steps = looped(&[written(sent), read(received)].concat());
        for start in [Start::Reset, Start::InUse] {
            let place = format!("of {sent:x?} {received:x?} came back");
            assert_eq!(last(Chip::Uart16550A, start, &steps), want, "{place}");
        }
    }
}

#[test]
fn what_comes_back_is_known_in_loopback_alone() {
    let none_looked = [Write(DATA, 0x42), Read(DATA, 0x99)];
    let five_bits = [&[Write(LCR, 0x00), Write(DATA, 0x42)], &waits(0x02)[..]].concat();
    let latch = [&[Write(LCR, 0x83), Write(DATA, 0x42)], &waits(0x42)[..]].concat();
    let left = [&[Write(MCR, 0x00)], &waits(0x99)[..]].concat();
    let left_and_back = [&[Write(MCR, 0x00), Write(MCR, 0x10)], &waits(0x99)[..]].concat();
    let kept = [&[Write(MCR, 0x1b)], &waits(0x99)[..]].concat();
    for (steps, want) in [
        // Whoever does not look at LSR may read where nothing waits.
        (&none_looked[..], None),
        (&five_bits, None),
        (&latch, None),
        (&left, None),
        (&left_and_back, None),
        (&kept, Some(LoopedData)),
    ] {
        let steps = looped(steps);
        assert_eq!(
            last(Chip::Uart16550A, Start::InUse, &steps),
            want,
            "after {steps:?}"
        );
    }
    // What was on its way comes back; once LSR shows that nothing is, it does not.
    let begins = [Write(LCR, 0x03), Write(MCR, 0x10), Write(FCR, 0xc7)];
    let shown = [Read(LSR, 0x60)];
    for (steps, want) in [
        ([&begins[..], &waits(0x99)].concat(), None),
        (
            [&begins[..], &shown, &waits(0x99)].concat(),
            Some(LoopedData),
        ),
    ] {
        assert_eq!(
            last(Chip::Uart16450, Start::InUse, &steps),
            want,
            "after {steps:?}"
        );
    }
}

#[test]
fn texts() {
    let text = |offset, recorded, rule| {
        let difference = Difference {
            offset,
            recorded,
            rule,
        };
        difference.to_string()
    };
    assert_eq!(
        text(MCR, 0x08, Keeps(0)),
        "MCR reads 08: the register keeps what is written to it, 00"
    );
    assert_eq!(
        text(LSR, 0x40, EmptyBits),
        "LSR reads 40: bit 6 is set only with bit 5"
    );
}
