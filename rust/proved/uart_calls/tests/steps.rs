//! Every kind of call at the largest spin limit, over lists that stray at each place: each returns,
//! since what reads return beyond a list ends every wait.

use geesetrunk_kit::{ArrayString, ArrayVec};
use proved_uart_calls::{CALL_BYTES, Call, NextStep, Request, next};
use std::num::NonZeroU64;
use uart_16550::DriverState;
use uart_spec::Config;
use uart_spec::access::Access;
use uart_spec::registers::{IER, offsets};

/// More accesses than a loopback test makes.
const MOST_PLACES: usize = 100;

/// No call makes this access.
const STRANGE: Access = Access::Write(8, 0);

/// The calls that take nothing, from the loopback test to the dump.
const BARE_CALLS: [Call; 19] = [
    Call::TestLoopback,
    Call::CheckPresent,
    Call::CheckConnected,
    Call::ReadyToReceive,
    Call::ReadyToSend,
    Call::TryReceive,
    Call::Flush,
    Call::ReadReady,
    Call::WriteReady,
    Call::Ier,
    Call::Isr,
    Call::Lcr,
    Call::Mcr,
    Call::Lsr,
    Call::Msr,
    Call::Spr,
    Call::DllDlm,
    Call::FifoEnabled,
    Call::Dump,
];

/// Returns a call of every kind that takes something, and `next`.
fn calls_with_words() -> [Call; 12] {
    let mut bytes = ArrayVec::<u8, CALL_BYTES>::new();
    let message = b"hello, world! 1234";
    bytes.try_extend_from_slice(message).expect("they fit");
    let mut text = ArrayString::<CALL_BYTES>::new();
    text.try_push_str("a\x7f\n").expect("it fits");
    [
        Call::Next,
        Call::Init(Config::DEFAULT),
        Call::TrySend(b'a'),
        Call::Enable(IER::DATA_READY),
        Call::Disable(IER::DATA_READY),
        Call::Receive(3),
        Call::ReceiveExact(3),
        Call::Read(3),
        Call::Send(bytes),
        Call::SendExact(bytes),
        Call::Write(bytes),
        Call::Text(text),
    ]
}

/// A chip whose status registers return these two in turn, and whose others are memory.
struct Chip {
    status: [u8; 2],
    cells: [u8; 8],
}

impl Chip {
    /// Makes an access, and returns it with what a read returned.
    fn make(&mut self, request: Request) -> Access {
        match request {
            Request::Read(offset) if offset == offsets::LSR || offset == offsets::MSR => {
                let [first, second] = self.status;
                self.status = [second, first];
                Access::Read(offset, first)
            }
            Request::Read(offset) => Access::Read(offset, self.cells[offset]),
            Request::Write(offset, value) => {
                self.cells[offset] = value;
                Access::Write(offset, value)
            }
        }
    }
}

/// Makes a call access by access, and at each place has it stray.
fn strays_at_each_place(call: &Call, state: &DriverState, status: [u8; 2]) {
    let mut chip = Chip {
        status,
        cells: [0; 8],
    };
    let mut made = Vec::new();
    for place in 0..MOST_PLACES {
        let NextStep::Asked(request) = next(&made, state, call) else {
            return;
        };
        made.push(STRANGE);
        let strayed = matches!(next(&made, state, call), NextStep::Strayed);
        assert!(strayed, "{call:?} at place {place}");
        made.pop();
        made.push(chip.make(request));
    }
}

#[test]
fn no_call_runs_on_beyond_its_list() {
    let calls = calls_with_words();
    for (checks_cts, fifo_enabled) in [(false, false), (false, true), (true, false), (true, true)] {
        let state = DriverState {
            config: Config {
                check_cts_before_sending: checks_cts,
                ..Config::DEFAULT
            },
            fifo_enabled,
            spin_limit: NonZeroU64::MAX,
            ..DriverState::new()
        };
        for status in [
            [0x00, 0x00],
            [0x60, 0x60],
            [0x61, 0x61],
            [0x60, 0x71],
            [0xff, 0xff],
        ] {
            for call in calls.iter().chain(&BARE_CALLS) {
                strays_at_each_place(call, &state, status);
            }
        }
    }
}
