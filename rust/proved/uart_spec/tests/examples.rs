//! Worked examples of `uart_spec`, and texts, which no contract covers.

use proved_uart_spec::registers::{
    Divisor, FCR, FifoTriggerLevel, IER, ISR, InterruptType, LCR, LSR, MSR, PSD, Parity,
    WordLength, offsets,
};
use proved_uart_spec::{
    BaudRate, ByteReceiveError, ByteSendError, CLK_FREQUENCY_HZ, Config, FIFO_SIZE, InitError,
    InvalidAddressError, InvalidDivisorError, LoopbackError, NUM_REGISTERS,
    NonIntegerBaudRateError, NonIntegerDivisorError, RemoteReadyToReceiveError, StalledError,
    Uart16550TtyError, calc_baud_rate, calc_divisor, calc_frequency,
};

#[test]
fn lines_that_changed() {
    let lines = [MSR::CTS, MSR::DSR, MSR::RI, MSR::CD];
    let rises = [MSR::DELTA_CTS, MSR::DELTA_DSR, MSR::empty(), MSR::DELTA_CD];
    let falls = [
        MSR::DELTA_CTS,
        MSR::DELTA_DSR,
        MSR::TRAILING_EDGE_RI,
        MSR::DELTA_CD,
    ];
    for i in 0..lines.len() {
        assert_eq!(lines[i].changes_since(MSR::empty()), rises[i]);
        assert_eq!(MSR::empty().changes_since(lines[i]), falls[i]);
        assert_eq!(lines[i].changes_since(lines[i]), MSR::empty());
    }
}

#[test]
fn offsets_of_the_registers() {
    let read = [
        offsets::DATA,
        offsets::IER,
        offsets::ISR,
        offsets::LCR,
        offsets::MCR,
        offsets::LSR,
        offsets::MSR,
        offsets::SPR,
    ];
    assert_eq!(read, [0, 1, 2, 3, 4, 5, 6, 7]);
    assert_eq!(read.len(), NUM_REGISTERS);
    assert_eq!(
        [offsets::FCR, offsets::DLL, offsets::DLM, offsets::PSD],
        [2, 0, 1, 6]
    );
    assert_eq!(FIFO_SIZE, 16);
    assert_eq!(CLK_FREQUENCY_HZ, 1_843_200);
}

/// Baud rates, in bits a second, with their divisors at the usual clock.
const PAIRS: [(u32, u32); 8] = [
    (115_200, 1),
    (57_600, 2),
    (38_400, 3),
    (19_200, 6),
    (12_800, 9),
    (9_600, 12),
    (7_680, 15),
    (7_200, 16),
];

#[test]
fn baud_rate_arithmetic() {
    for (baud_rate, divisor) in PAIRS {
        assert!(0 < baud_rate && baud_rate <= 115_200 && 0 < divisor && divisor <= 16);
        assert_eq!(
            calc_frequency(baud_rate, divisor, None),
            1_843_200,
            "at {baud_rate}"
        );
        assert_eq!(
            calc_divisor(1_843_200, baud_rate, None),
            Ok(divisor as u16),
            "at {baud_rate}"
        );
        assert_eq!(
            calc_baud_rate(1_843_200, divisor, None),
            Ok(baud_rate),
            "at {divisor}"
        );
    }
}

/// The usual clock gives no whole baud rate at this divisor.
const NO_RATE: NonIntegerBaudRateError = NonIntegerBaudRateError {
    frequency: 1_843_200,
    divisor: 73,
    prescaler_division_factor: None,
};

#[test]
fn refused_rates() {
    assert_eq!(calc_baud_rate(1_843_200, 73, None), Err(NO_RATE));
    for baud_rate in [110, 7211] {
        let no_divisor = InvalidDivisorError::NonInteger(NonIntegerDivisorError {
            frequency: 1_843_200,
            baud_rate,
            prescaler_division_factor: None,
        });
        assert!(0 < baud_rate);
        assert_eq!(calc_divisor(1_843_200, baud_rate, None), Err(no_divisor));
    }
    let no_divisor = InvalidDivisorError::NonInteger(NonIntegerDivisorError {
        frequency: 1_843_200,
        baud_rate: u32::MAX,
        prescaler_division_factor: Some(15),
    });
    assert_eq!(calc_divisor(1_843_200, u32::MAX, Some(15)), Err(no_divisor));
    assert_eq!(
        calc_divisor(1_843_200, 1, None),
        Err(InvalidDivisorError::OutOfRange { divisor: 115_200 })
    );
}

#[test]
fn fields() {
    assert_eq!(
        LCR::empty()
            .set_parity(Parity::Forced0)
            .set_parity(Parity::Odd)
            .parity(),
        Parity::Odd
    );
    assert_eq!(
        LCR::empty()
            .set_word_length(WordLength::EightBits)
            .word_length(),
        WordLength::EightBits
    );
    let fcr = FCR::empty().set_fifo_trigger_level(FifoTriggerLevel::Eight);
    assert_eq!(fcr.bits(), 0x80);
    assert_eq!(fcr.fifo_trigger_level(), FifoTriggerLevel::Eight);
    assert_eq!(Parity::from_raw_bits(0b1111_1011), Parity::Even);
    assert_eq!(WordLength::from_integer(9), WordLength::EightBits);
    assert_eq!(WordLength::from_integer(5).to_integer(), 5);
    let psd = PSD::from_bits_retain(0x10).set_pdf(5);
    assert_eq!(psd.bits(), 0x15);
    assert_eq!(psd.pdf(), 5);
}

#[test]
fn codes() {
    let fields = [
        (0b00, FifoTriggerLevel::One, WordLength::FiveBits),
        (0b01, FifoTriggerLevel::Four, WordLength::SixBits),
        (0b10, FifoTriggerLevel::Eight, WordLength::SevenBits),
        (0b11, FifoTriggerLevel::Fourteen, WordLength::EightBits),
    ];
    for (code, level, length) in fields {
        assert_eq!(FifoTriggerLevel::from_raw_bits(code), level);
        assert_eq!(level.to_raw_bits(), code);
        assert_eq!(WordLength::from_raw_bits(code), length);
        assert_eq!(length.to_raw_bits(), code);
    }
    let parities = [
        (0b000, Parity::Disabled),
        (0b001, Parity::Odd),
        (0b011, Parity::Even),
        (0b101, Parity::Forced1),
        (0b111, Parity::Forced0),
    ];
    for (code, parity) in parities {
        assert_eq!(Parity::from_raw_bits(code), parity);
        assert_eq!(parity.to_raw_bits(), code);
    }
    let interrupts = [
        (0b0110, InterruptType::ReceiverLineStatus, 1),
        (0b0100, InterruptType::ReceivedDataReady, 2),
        (0b1100, InterruptType::ReceptionTimeout, 2),
        (0b0010, InterruptType::TransmitterHoldingRegisterEmpty, 3),
        (0b0000, InterruptType::ModemStatus, 4),
        (0b1110, InterruptType::DmaReceptionEndOfTransfer, 5),
        (0b1010, InterruptType::DmaTransmissionEndOfTransfer, 6),
    ];
    for (code, interrupt, priority) in interrupts {
        assert_eq!(InterruptType::from_bits(code), Some(interrupt));
        assert_eq!(interrupt.priority(), priority);
    }
}

#[test]
fn status() {
    let isr = ISR::from_bits_retain(0xc6);
    assert!(isr.fifo_enabled());
    assert!(isr.has_pending_interrupt());
    assert_eq!(
        isr.interrupt_type(),
        Some(InterruptType::ReceiverLineStatus)
    );
    assert!(!ISR::from_bits_retain(0x81).fifo_enabled());
    assert_eq!(InterruptType::from_bits(0b1000), None);
    assert!(LSR::OVERRUN_ERROR.has_error());
    assert!(!LSR::DATA_READY.has_error());
    assert_eq!(LSR::from_name("THR_EMPTY"), Some(LSR::THR_EMPTY));
}

#[test]
fn baud_rates() {
    assert!(BaudRate::Baud9600 < BaudRate::Custom(9600));
    assert_ne!(BaudRate::Baud9600, BaudRate::Custom(9600));
    assert_eq!(BaudRate::from_integer(9600), BaudRate::Baud9600);
    assert_eq!(BaudRate::from_integer(9601).to_integer(), 9601);
    let rates = [
        BaudRate::Baud110,
        BaudRate::Custom(9600),
        BaudRate::Baud9600,
    ];
    assert_eq!(rates.iter().max(), Some(&BaudRate::Custom(9600)));
    assert_eq!(Divisor::Divisor57600.number(), 57_600);
    assert_eq!(Divisor::default().number(), 1);
}

#[test]
fn configuration() {
    let config = Config::default();
    assert!(config.is_computable());
    assert_eq!(config.interrupts, IER::empty());
    assert_eq!(config.frequency, 1_843_200);
    assert_eq!(config.prescaler_division_factor, None);
    assert_eq!(config.fifo_trigger_level, Some(FifoTriggerLevel::Fourteen));
    assert_eq!(config.baud_rate, BaudRate::Baud9600);
    assert_eq!(config.data_bits, WordLength::EightBits);
    assert!(!config.extra_stop_bits);
    assert_eq!(config.parity, Parity::Disabled);
    assert!(!config.check_cts_before_sending);
    let faster = Config {
        baud_rate: BaudRate::Baud115200,
        ..config.clone()
    };
    assert!(config < faster);
}

#[test]
fn texts_of_the_arithmetic() {
    let no_divisor = NonIntegerDivisorError {
        frequency: 1_843_200,
        baud_rate: 7211,
        prescaler_division_factor: Some(3),
    };
    let too_large = InvalidDivisorError::OutOfRange { divisor: 115_200 };
    let texts = format!(
        "{}\n{}\n{}\n",
        NO_RATE,
        InvalidDivisorError::NonInteger(no_divisor),
        InitError::InvalidBaudRate(too_large)
    );
    let expected = "Input values do not result in even (integer representable) baud rate! \
        frequency=1843200, divisor=73, prescaler_division_factor=None\n\
        input values do not result in even (integer representable) baud rate! \
        frequency=1843200, baud_rate=7211, prescaler_division_factor=Some(3)\n\
        invalid baud rate: divisor 115200 is out of range (1..=65535)\n";
    assert_eq!(texts, expected);
}

#[test]
fn texts_of_the_driver() {
    let too_high = InvalidAddressError::InvalidBaseAddress(65_529);
    let texts = format!(
        "{}\n{}\n{}\n{}\n{}\n{}\n{}\n{}\n{}\n{}\n{}\n",
        Uart16550TtyError::AddressError(too_high),
        InvalidAddressError::InvalidStride(3),
        InitError::DeviceNotPresent,
        Uart16550TtyError::InitError(InitError::Stalled),
        ByteReceiveError,
        ByteSendError::NoCapacity,
        ByteSendError::RemoteNotClearToSend,
        RemoteReadyToReceiveError::NoRemoteConnectedNoDSR,
        RemoteReadyToReceiveError::NoRemoteConnectedNoCD,
        RemoteReadyToReceiveError::RemoteNotClearToSend,
        StalledError { done: 5 }
    );
    let expected = "invalid register address: 0xfff9\n\
        invalid stride 3: must be non-zero and a power of two (typically 1, 2, 4, or 8)\n\
        the device could not be detected\n\
        error initializing the device: the device stalled\n\
        there is no data to read\n\
        device has no capacity to send another byte (the FIFO might be full)\n\
        the remote didn't raised its clear to send signal\n\
        there is no remote connected: missing Data Set Ready (DSR)\n\
        there is no remote connected: missing Carrier Detect (CD)\n\
        remote is not (yet) ready to receive more data\n\
        the device stalled after 5 bytes\n";
    assert_eq!(texts, expected);
}

#[test]
fn texts_of_the_loopback_test() {
    let sent = *b"hello world!1337";
    let texts = format!(
        "{}\n{}\n{}\n{}\n{}\n",
        LoopbackError::SendError(ByteSendError::NoCapacity),
        LoopbackError::UnexpectedLoopbackByte {
            expected: 0x42,
            actual: 0,
        },
        LoopbackError::UnexpectedLoopbackMsg {
            expected: sent,
            actual: *b"say \"\\\" 123 ~~~ ",
        },
        LoopbackError::UnexpectedLoopbackMsg {
            expected: sent,
            actual: *b"hello world!133\n",
        },
        Uart16550TtyError::TestError(LoopbackError::Stalled)
    );
    let expected = "loopback test failed: couldn't send data: \
        device has no capacity to send another byte (the FIFO might be full)\n\
        loopback test failed: read unexpected byte! expected=66, actual=0\n\
        loopback test failed: read unexpected string! \
        expected (str)=Ok(\"hello world!1337\"), \
        actual (str)=Ok(\"say \\\"\\\\\\\" 123 ~~~ \"), \
        actual (bytes)=[115, 97, 121, 32, 34, 92, 34, 32, 49, 50, 51, 32, 126, 126, 126, 32]\n\
        loopback test failed: read unexpected string! \
        expected (str)=Ok(\"hello world!1337\"), actual (str)=Err(not printable ASCII), \
        actual (bytes)=[104, 101, 108, 108, 111, 32, 119, 111, \
        114, 108, 100, 33, 49, 51, 51, 10]\n\
        error testing the device: loopback test failed: the device stalled\n";
    assert_eq!(texts, expected);
}
