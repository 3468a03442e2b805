//! What a Rust caller may break, and how the crate answers: at each limit, and one beyond it.
use proved_uart_16550::backend::{Backend, ByteAccess, MmioBackend, PioBackend, PortAccess};
use proved_uart_16550::{BaudRate, Config, ConfigRegisterDump, Uart16550, Uart16550Tty};
use std::num::NonZeroUsize;
use std::panic::{AssertUnwindSafe, catch_unwind};
use uart_spec::registers::PSD;
use uart_spec::{calc_baud_rate, calc_divisor, calc_frequency};

/// Counts accesses. Each read returns 0.
#[derive(Default)]
struct Counting(u32);

impl Backend for Counting {
    fn read(&mut self, _: u8) -> u8 {
        self.0 += 1;
        0
    }

    fn write(&mut self, _: u8, _: u8) {
        self.0 += 1;
    }
}

impl PortAccess for Counting {
    fn port_in(&mut self, _: u16) -> u8 {
        self.0 += 1;
        0
    }

    fn port_out(&mut self, _: u16, _: u8) {
        self.0 += 1;
    }
}

impl ByteAccess for Counting {
    fn load(&mut self, _: usize) -> u8 {
        self.0 += 1;
        0
    }

    fn store(&mut self, _: usize, _: u8) {
        self.0 += 1;
    }
}

/// The text of the panic of a call, or nothing if it returns.
fn panics<T>(call: impl FnOnce() -> T) -> Option<String> {
    let cause = catch_unwind(AssertUnwindSafe(call)).err()?;
    Some(
        cause
            .downcast_ref::<&str>()
            .map_or("another".into(), |text| (*text).into()),
    )
}

fn config(frequency: u32, baud_rate: u32, prescaler_division_factor: Option<u32>) -> Config {
    Config {
        frequency,
        baud_rate: BaudRate::from_integer(baud_rate),
        prescaler_division_factor,
        ..Config::DEFAULT
    }
}

const NOT_COMPUTABLE: &str =
    "a frequency or baud rate of 0, or a prescaler division factor above 15";
const NO_RATE: &str = "a frequency or divisor of 0, or a prescaler division factor above 15";
const NO_FREQUENCY: &str =
    "a baud rate or divisor of 0, a prescaler division factor above 15, or too high a frequency";
const NO_REGISTER: &str = "no register has this offset";

/// A frequency or a rate, another factor, the prescaler, and whether the arithmetic accepts them.
const FACTORS: [(u32, u32, Option<u32>, bool); 8] = [
    (1, 1, None, true),
    (1, 1, Some(0), true),
    (u32::MAX, u32::MAX, Some(15), true),
    (0, 1, None, false),
    (1, 0, None, false),
    (0, 0, Some(3), false),
    (1, 1, Some(16), false),
    (1, 1, Some(u32::MAX), false),
];

#[test]
fn arithmetic() {
    for (first, second, prescaler, accepted) in FACTORS {
        let text = |text: &str| (!accepted).then(|| text.to_string());
        let row = (first, second, prescaler);
        assert_eq!(
            panics(|| calc_divisor(first, second, prescaler)),
            text(NOT_COMPUTABLE),
            "{row:?}"
        );
        assert_eq!(
            panics(|| calc_baud_rate(first, second, prescaler)),
            text(NO_RATE),
            "{row:?}"
        );
        assert_eq!(
            config(first, second, prescaler).is_computable(),
            accepted,
            "{row:?}"
        );
    }
    for (baud_rate, divisor, prescaler, frequency) in [
        (1, 1, None, Some(16)),
        (1, 1, Some(15), Some(256)),
        (0x0fff_ffff, 1, None, Some(0xffff_fff0)),
        (1, 0xff_ffff, Some(15), Some(0xffff_ff00)),
        (0x1000_0000, 1, None, None),
        (1, 0x100_0000, Some(15), None),
        (u32::MAX, u32::MAX, Some(15), None),
        (0, 1, None, None),
        (1, 0, None, None),
        (1, 1, Some(16), None),
        (1, 1, Some(u32::MAX), None),
    ] {
        let made = catch_unwind(|| calc_frequency(baud_rate, divisor, prescaler)).ok();
        assert_eq!(made, frequency, "{baud_rate} {divisor} {prescaler:?}");
    }
    assert_eq!(
        panics(|| calc_frequency(0, 1, None)).as_deref(),
        Some(NO_FREQUENCY)
    );
}

#[test]
fn prescaler_division() {
    assert_eq!(panics(|| PSD::from_bits_retain(0xf0).set_pdf(15)), None);
    for factor in [16, u8::MAX] {
        let text = panics(|| PSD::from_bits_retain(0).set_pdf(factor));
        assert_eq!(
            text.as_deref(),
            Some("a prescaler division factor above 15")
        );
    }
}

#[test]
fn configurations() {
    for (first, second, prescaler, accepted) in FACTORS {
        let config = || config(first, second, prescaler);
        let text = (!accepted).then(|| NOT_COMPUTABLE.to_string());
        let mut uart = Uart16550::new_with_backend(Counting::default());
        assert_eq!(panics(|| uart.init(config())), text);
        assert!(
            accepted || uart.backend().0 == 0,
            "an access before the panic"
        );
        assert_eq!(
            panics(|| Uart16550Tty::new_with_backend(Counting::default(), config())),
            text
        );
        assert_eq!(
            panics(|| Uart16550Tty::new_port(0, Counting::default(), config())),
            text
        );
        let base = NonZeroUsize::MIN;
        assert_eq!(
            panics(|| Uart16550Tty::new_mmio(base, 1, Counting::default(), config())),
            text
        );
        let terminal =
            || Uart16550Tty::new_mmio_from_address(base, 1, Counting::default(), config());
        assert_eq!(panics(terminal), text);
    }
}

#[test]
fn dumps() {
    let dump = |dll| ConfigRegisterDump {
        dll,
        ..ConfigRegisterDump::default()
    };
    for (frequency, prescaler, accepted) in
        [(1, Some(15), true), (0, None, false), (1, Some(16), false)]
    {
        let config = config(frequency, 0, prescaler);
        let text = (!accepted).then(|| NO_RATE.to_string());
        assert_eq!(panics(|| dump(1).baud_rate(&config)), text);
        assert_eq!(panics(|| dump(0).baud_rate(&config)), None);
    }
}

fn registers<B: Backend>(backend: &mut B, accesses: impl Fn(&B) -> u32) {
    for offset in [0, 7] {
        assert_eq!(panics(|| backend.read(offset)), None);
        assert_eq!(panics(|| backend.write(offset, 1)), None);
    }
    assert_eq!(accesses(backend), 4);
    for offset in [8, 200, u8::MAX] {
        assert_eq!(
            panics(|| backend.read(offset)).as_deref(),
            Some(NO_REGISTER)
        );
        assert_eq!(
            panics(|| backend.write(offset, 1)).as_deref(),
            Some(NO_REGISTER)
        );
    }
    assert_eq!(accesses(backend), 4);
}

#[test]
fn offsets() {
    let mut ports = Uart16550::new_port(0x3f8, Counting::default()).unwrap();
    registers(ports.backend_mut(), |backend: &PioBackend<Counting>| {
        backend.access().0
    });
    let base = NonZeroUsize::new(usize::MAX - 7 * 128).unwrap();
    let mut memory = Uart16550::new_mmio(base, 128, Counting::default()).unwrap();
    registers(memory.backend_mut(), |backend: &MmioBackend<Counting>| {
        backend.access().0
    });
}
