//! What holds over every device, also one that returns nonsense: no flag that a call's own reads clear is lost or made up, and each wait
//! gives up after as many failed polls in a row as the limit allows. The devices return random values, each for some time.

use proved_uart_16550::backend::Backend;
use proved_uart_16550::{Patience, Uart16550, Uart16550Tty};
use std::num::NonZeroU64;
use uart_spec::registers::{FifoTriggerLevel, IER, LSR, MCR, MSR, offsets};
use uart_spec::{Config, ConfigRegisterDump, FifoAction, FifoSize, Received, Setup};

/// Random numbers that are the same in each run.
struct Random(u64);

impl Random {
    fn below(&mut self, limit: usize) -> usize {
        self.0 ^= self.0 << 13;
        self.0 ^= self.0 >> 7;
        self.0 ^= self.0 << 17;
        ((self.0 >> 11) % limit as u64) as usize
    }

    fn byte(&mut self) -> u8 {
        self.below(256) as u8
    }
}

/// A device, and what it has shown that a read of it clears.
struct Nonsense {
    random: Random,
    /// What each register shows, for so many reads more.
    shows: [(u8, usize); 8],
    errors: LSR,
    changes: MSR,
    /// How many reads in a row were polls, of LSR, and of MSR where CTS is checked; and the most that there were.
    polls: u64,
    most_polls: u64,
}

impl Nonsense {
    fn new(number: u64) -> Self {
        Self {
            random: Random(number.wrapping_mul(0x9e37_79b9_7f4a_7c15) | 1),
            shows: [(0, 0); 8],
            errors: LSR::empty(),
            changes: MSR::empty(),
            polls: 0,
            most_polls: 0,
        }
    }
}

impl Backend for Nonsense {
    fn read(&mut self, register_offset: u8) -> u8 {
        let offset = usize::from(register_offset);
        let (value, left) = &mut self.shows[offset];
        if *left == 0 {
            // One of many looks alike each time, so that waits end and do not end.
            let values = [
                0x00,
                0xff,
                0x60,
                0x61,
                0x20,
                0x01,
                self.random.byte(),
                self.random.byte(),
            ];
            *value = values[self.random.below(values.len())];
            *left = 1 + self.random.below(20);
        }
        *left -= 1;
        let value = *value;
        match offset {
            offsets::LSR => {
                self.errors |= LSR::from_bits_retain(value).intersection(LSR::LINE_ERRORS)
            }
            offsets::MSR => self.changes |= MSR::from_bits_retain(value).intersection(MSR::CHANGES),
            _ => {}
        }
        self.polls += u64::from(offset == offsets::LSR);
        if !matches!(offset, offsets::LSR | offsets::MSR) {
            self.polls = 0;
        }
        self.most_polls = self.most_polls.max(self.polls);
        value
    }

    fn write(&mut self, _register_offset: u8, _value: u8) {
        self.polls = 0;
    }
}

/// A caller that waits for so many questions.
struct Questions(usize);

impl Patience for Questions {
    fn keep_waiting(&mut self) -> bool {
        self.0 = self.0.saturating_sub(1);
        self.0 > 0
    }
}

/// A call of the driver.
type Made<'a> = &'a mut dyn FnMut(&mut Uart16550<Nonsense>);

/// What a call returns is not looked at.
fn ignore<T>(_result: T) {}

/// Makes a call, and returns its name.
fn call(uart: &mut Uart16550Tty<Nonsense>, random: &mut Random) -> &'static str {
    let bytes: Vec<u8> = (0..random.below(40)).map(|_| random.byte()).collect();
    let mut slots = [0; 8];
    let mut noted = [Received {
        byte: 0,
        errors: LSR::empty(),
    }; 8];
    let mut questions = Questions(random.below(20));
    let outputs = MCR::from_bits_retain(random.byte());
    let config = Config {
        fifo_trigger_level: [None, Some(FifoTriggerLevel::One)][random.below(2)],
        check_cts_before_sending: random.below(2) == 0,
        ..Config::DEFAULT
    };
    let driver = uart.inner_mut();
    let calls: [(&str, Made); 42] = [
        ("attach", &mut |one| ignore(one.attach())),
        ("check_configured", &mut |one| {
            ignore(one.check_configured(outputs))
        }),
        ("check_connected", &mut |one| ignore(one.check_connected())),
        ("check_present", &mut |one| ignore(one.check_present())),
        ("set_frame", &mut |one| ignore(one.set_frame(&config))),
        ("checked_set_frame", &mut |one| {
            ignore(one.checked_set_frame(&config))
        }),
        ("set_frame_when_idle", &mut |one| {
            ignore(one.set_frame_when_idle(&config))
        }),
        ("checked_set_frame_when_idle", &mut |one| {
            ignore(one.checked_set_frame_when_idle(&config))
        }),
        ("config_register_dump", &mut |one| {
            ignore(one.config_register_dump())
        }),
        ("enable_interrupts", &mut |one| {
            one.enable_interrupts(IER::THR_EMPTY)
        }),
        ("disable_interrupts", &mut |one| {
            one.disable_interrupts(IER::THR_EMPTY)
        }),
        ("retrigger_interrupts", &mut |one| {
            one.retrigger_interrupts()
        }),
        ("dll_dlm", &mut |one| ignore(one.dll_dlm())),
        ("enable_64_byte_fifos", &mut |one| {
            ignore(one.enable_64_byte_fifos())
        }),
        ("find_fifo_size", &mut |one| ignore(one.find_fifo_size())),
        ("flush_while", &mut |one| {
            ignore(one.flush_while(&mut questions))
        }),
        ("ier", &mut |one| ignore(one.ier())),
        ("isr", &mut |one| ignore(one.isr())),
        ("lcr", &mut |one| ignore(one.lcr())),
        ("mcr", &mut |one| ignore(one.mcr())),
        ("spr", &mut |one| ignore(one.spr())),
        ("is_gone", &mut |one| ignore(one.is_gone())),
        ("is_idle", &mut |one| ignore(one.is_idle())),
        ("peek_modem", &mut |one| ignore(one.peek_modem())),
        ("quiesce", &mut |one| {
            ignore(one.quiesce(outputs, FifoAction::Reset))
        }),
        ("ready_to_receive", &mut |one| {
            ignore(one.ready_to_receive())
        }),
        ("ready_to_send", &mut |one| ignore(one.ready_to_send())),
        ("receive_bytes", &mut |one| {
            ignore(one.receive_bytes(&mut slots))
        }),
        ("receive_bytes_exact", &mut |one| {
            ignore(one.receive_bytes_exact(&mut [0; 3]))
        }),
        ("receive_bytes_while", &mut |one| {
            ignore(one.receive_bytes_while(&mut [0; 3], &mut Questions(9)))
        }),
        ("receive_with_errors", &mut |one| {
            ignore(one.receive_with_errors(&mut noted))
        }),
        ("restore", &mut |one| {
            one.restore(&ConfigRegisterDump::default())
        }),
        ("send_burst", &mut |one| {
            ignore(one.send_burst(&bytes, FifoSize::SixtyFour))
        }),
        ("send_bytes", &mut |one| ignore(one.send_bytes(&bytes))),
        ("send_bytes_exact", &mut |one| {
            ignore(one.send_bytes_exact(&bytes))
        }),
        ("send_bytes_while", &mut |one| {
            ignore(one.send_bytes_while(&bytes, &mut Questions(9)))
        }),
        ("send_gathered", &mut |one| {
            ignore(one.send_gathered(Some(7), &bytes, &bytes))
        }),
        ("set_break", &mut |one| one.set_break(true)),
        ("set_modem_control", &mut |one| {
            one.set_modem_control(outputs)
        }),
        ("set_rts, set_dtr", &mut |one| {
            one.set_rts(true);
            one.set_dtr(true);
        }),
        ("set_trigger_level", &mut |one| {
            ignore(one.set_trigger_level(FifoTriggerLevel::Four))
        }),
        ("test_loopback", &mut |one| ignore(one.test_loopback())),
    ];
    let most = calls.len();
    let at = random.below(most + 5);
    if let Some((name, made)) = calls.into_iter().nth(at) {
        made(driver);
        return name;
    }
    match at - most {
        0 => ignore(driver.try_receive_byte()),
        1 => ignore(driver.try_receive_with_errors()),
        2 => ignore(driver.try_send_byte(7)),
        3 => ignore(uart.write_raw_text(&bytes)),
        _ => ignore(uart.write_text("two\nlines")),
    }
    "one of a byte or a text"
}

/// How many devices are tried, and how many calls are made over each.
const DEVICES: u64 = 400;
const CALLS: usize = 300;

#[test]
fn no_flag_that_a_call_clears_is_lost_or_made_up() {
    let (mut reported, mut forgotten, mut random) = (0, 0, Random(7));
    for number in 1..=DEVICES {
        let mut driver = Uart16550::new_with_backend(Nonsense::new(number));
        driver.set_spin_limit(NonZeroU64::new(12).unwrap());
        let mut uart = Uart16550Tty::from_inner(driver);
        for _ in 0..CALLS {
            let name = call(&mut uart, &mut random);
            let driver = uart.inner_mut();
            // An `init` begins anew, and what a test in loopback finds is of no line.
            let begins = random.below(8) == 0;
            if begins && random.below(2) == 0 {
                ignore(driver.init(Config::DEFAULT));
            } else if begins {
                ignore(driver.init_with(Config::DEFAULT, &Setup::DEFAULT));
            }
            let forgets = begins || matches!(name, "test_loopback" | "find_fifo_size");
            let line = driver.lsr().intersection(LSR::LINE_ERRORS);
            let shown = std::mem::replace(&mut driver.backend_mut().errors, LSR::empty());
            assert!(shown.contains(line), "{name}: {line:?} of {shown:?}");
            assert!(forgets || line == shown, "{name}: {line:?} of {shown:?}");
            let status = driver.msr().intersection(MSR::CHANGES);
            let changed = std::mem::replace(&mut driver.backend_mut().changes, MSR::empty());
            assert!(
                forgets || status == changed,
                "{name}: {status:?} of {changed:?}"
            );
            forgotten += usize::from(!begins && forgets && (line != shown || status != changed));
            reported += usize::from(!line.is_empty());
        }
    }
    assert!(reported > 10_000 && forgotten > 100);
}

#[test]
fn no_call_polls_more_often_in_a_row_than_the_limit() {
    let (mut most, mut random) = (0, Random(7));
    for number in 1..=DEVICES {
        let limit = 1 + random.below(40) as u64;
        let mut driver = Uart16550::new_with_backend(Nonsense::new(number));
        driver.set_spin_limit(NonZeroU64::new(limit).unwrap());
        let mut uart = Uart16550Tty::from_inner(driver);
        for _ in 0..CALLS {
            let device = uart.inner_mut().backend_mut();
            (device.polls, device.most_polls) = (0, 0);
            let name = if random.below(9) == 0 {
                ignore(uart.inner_mut().init(Config::DEFAULT));
                "init"
            } else {
                call(&mut uart, &mut random)
            };
            let polls = uart.inner().backend().most_polls;
            // A look comes before a wait, or behind it.
            assert!(
                polls <= limit + 2,
                "{name} polls {polls} times with a limit of {limit}"
            );
            most += usize::from(polls >= limit);
        }
    }
    assert!(most > 1_000);
}
