//! Ports that are found: in tables that are written out here by the formats' own words, in those of emulated boards, and in bytes that
//! nobody meant as a table.
#![allow(clippy::cast_possible_truncation)]

mod common;

use common::Chip;
use uart_16550::discovery::{
    AddressSpace, Frame, Interrupt, OptionError, PciError, PortDescription, TableError, TableFault,
    TreeError, TreePort, UnknownClockError, config_of, keep_settings, read_console, read_dbg2, read_device_tree,
    read_earlycon, read_pci, read_spcr, read_tree_node, read_tree_port, tree_ports,
};
use uart_16550::native::{AttachError, Uart16550};
use uart_16550::native::backend::{ByteOrder, RegisterLayout, RegisterWidth};
use uart_16550::spec::registers::{Parity, WordLength};

const BYTES: RegisterLayout = RegisterLayout {
    stride: 1,
    width: RegisterWidth::Bits8,
    byte_order: ByteOrder::Little,
};

/// Sets the checksum of a table of ACPI right.
fn sum_up(table: &mut [u8]) {
    table[9] = 0;
    let sum = table.iter().fold(0_u8, |sum, byte| sum.wrapping_add(*byte));
    table[9] = sum.wrapping_neg();
}

/// A table of ACPI with this signature, revision and rest.
fn table(signature: &[u8; 4], revision: u8, rest: &[u8]) -> Vec<u8> {
    let mut bytes = signature.to_vec();
    bytes.extend(u32::try_from(36 + rest.len()).unwrap().to_le_bytes());
    bytes.extend([revision, 0]);
    bytes.extend(b"GEESE TRUNK   ");
    bytes.extend([1, 0, 0, 0]);
    bytes.extend(b"TEST");
    bytes.extend([1, 0, 0, 0]);
    assert_eq!(bytes.len(), 36);
    bytes.extend(rest);
    sum_up(&mut bytes);
    bytes
}

/// COM1 with 115,200 baud at line 4 of the 8259, by a table of revision 2.
fn spcr_of_a_pc() -> Vec<u8> {
    let mut rest = vec![0, 0, 0, 0];
    // The Generic Address Structure of COM1, as the format's description shows it.
    rest.extend([0x01, 0x08, 0x00, 0x00, 0xf8, 0x03, 0, 0, 0, 0, 0, 0]);
    rest.extend([0x01, 4, 0, 0, 0, 0, 7, 0, 1, 0, 3, 0]);
    rest.extend([0xff, 0xff, 0xff, 0xff, 0, 0, 0, 0, 0, 0, 0, 0]);
    rest.extend([0, 0, 0, 0]);
    table(b"SPCR", 2, &rest)
}

/// A table with some bytes changed, whose checksum is right.
fn changed(table: &[u8], changes: &[(usize, u8)]) -> Vec<u8> {
    let mut bytes = table.to_vec();
    for (at, byte) in changes {
        bytes[*at] = *byte;
    }
    sum_up(&mut bytes);
    bytes
}

#[test]
fn spcr_says_com1() {
    let found = PortDescription {
        space: AddressSpace::Ports,
        base: 0x3f8,
        layout: BYTES,
        clock: None,
        baud_rate: Some(115_200),
        frame: None,
        has_flow_control: false,
        interrupt: Some(Interrupt::Isa(4)),
    };
    assert_eq!(read_spcr(&spcr_of_a_pc()), Ok(found));
    // RTS and CTS, and DCD and XON beside them.
    for (bits, has_flow_control) in [(2, true), (7, true), (5, false)] {
        let table = changed(&spcr_of_a_pc(), &[(61, bits)]);
        assert_eq!(read_spcr(&table), Ok(PortDescription { has_flow_control, ..found }));
    }
    let mut followed = spcr_of_a_pc();
    followed.extend([0xaa; 40]);
    assert_eq!(read_spcr(&followed), Ok(found));
}

#[test]
fn spcr_says_each_baud_rate() {
    for (code, rate) in [
        (0, None),
        (3, Some(9_600)),
        (4, Some(19_200)),
        (6, Some(57_600)),
        (7, Some(115_200)),
    ] {
        let table = changed(&spcr_of_a_pc(), &[(58, code)]);
        assert_eq!(read_spcr(&table).map(|port| port.baud_rate), Ok(rate));
    }
    for code in [1, 2, 5, 8, 255] {
        let error = TableError {
            offset: 58,
            fault: TableFault::BaudRate { code },
        };
        let table = changed(&spcr_of_a_pc(), &[(58, code)]);
        assert_eq!(read_spcr(&table), Err(error));
    }
}

#[test]
fn spcr_says_memory_with_clock_and_precise_rate() {
    let mut long = spcr_of_a_pc();
    long.extend([0; 10]);
    long[4..8].copy_from_slice(&90_u32.to_le_bytes());
    long[8] = 4;
    long[36] = 0x12;
    // Memory, registers of 32 bits, accesses of 32 bits, at 0x10_FEDC_9000.
    long[40..52].copy_from_slice(&[0, 32, 0, 3, 0x00, 0x90, 0xdc, 0xfe, 0x10, 0, 0, 0]);
    long[52..58].copy_from_slice(&[0x08, 0, 33, 0, 0, 0]);
    long[76..80].copy_from_slice(&48_000_000_u32.to_le_bytes());
    long[80..84].copy_from_slice(&1_500_000_u32.to_le_bytes());
    sum_up(&mut long);
    let mut found = PortDescription {
        space: AddressSpace::Memory,
        base: 0x10_fedc_9000,
        layout: RegisterLayout {
            stride: 4,
            width: RegisterWidth::Bits32,
            byte_order: ByteOrder::Little,
        },
        clock: Some(48_000_000),
        baud_rate: Some(1_500_000),
        frame: None,
        has_flow_control: false,
        interrupt: Some(Interrupt::Global(33)),
    };
    assert_eq!(read_spcr(&long), Ok(found));
    // Revision 3 has the clock, and not the precise baud rate. Revision 2 has neither.
    found.baud_rate = Some(115_200);
    assert_eq!(read_spcr(&changed(&long, &[(8, 3)])), Ok(found));
    found.clock = None;
    assert_eq!(read_spcr(&changed(&long, &[(8, 2)])), Ok(found));
}

#[test]
fn spcr_says_what_is_wrong_and_where() {
    let good = spcr_of_a_pc();
    let wrong = |offset, fault| Err(TableError { offset, fault });
    for length in 0..36 {
        assert_eq!(
            read_spcr(&good[..length]),
            wrong(length, TableFault::TooShort)
        );
    }
    for length in 36..80 {
        assert_eq!(read_spcr(&good[..length]), wrong(4, TableFault::Length));
        let short = table(b"SPCR", 2, &good[36..length]);
        assert_eq!(read_spcr(&short), wrong(length, TableFault::TooShort));
    }
    assert_eq!(
        read_spcr(&changed(&good, &[(0, b'X')])),
        wrong(0, TableFault::Signature)
    );
    assert_eq!(
        read_spcr(&changed(&good, &[(4, 35)])),
        wrong(4, TableFault::Length)
    );
    for at in 10..80 {
        let mut bytes = good.clone();
        bytes[at] = bytes[at].wrapping_add(1);
        assert_eq!(
            read_spcr(&bytes),
            wrong(9, TableFault::Checksum { sum: 1 })
        );
    }
    for (at, byte, fault) in [
        (36, 3, TableFault::Interface { interface: 3 }),
        (40, 2, TableFault::Space { space: 2 }),
        (42, 1, TableFault::BitOffset { bit: 1 }),
    ] {
        assert_eq!(read_spcr(&changed(&good, &[(at, byte)])), wrong(at, fault));
    }
    assert_eq!(
        read_spcr(&changed(&good, &[(40, 0), (43, 4)])),
        wrong(43, TableFault::AccessSize { size: 4 })
    );
    assert_eq!(
        read_spcr(&changed(&good, &[(44, 0), (45, 0)])),
        wrong(44, TableFault::NoAddress)
    );
    assert_eq!(
        read_spcr(&changed(&good, &[(44, 0xf9), (45, 0xff)])),
        wrong(44, TableFault::BeyondPorts { base: 0xfff9 })
    );
    let error = TableError {
        offset: 9,
        fault: TableFault::Checksum { sum: 1 },
    };
    assert_eq!(
        error.to_string(),
        "the checksum is wrong: the sum is 0x01, at offset 9"
    );
}

/// A device of DBG2 with one address.
fn device(kind: u16, interface: u16, address: [u8; 12]) -> Vec<u8> {
    let mut bytes = vec![0, 40, 0, 1, 2, 0, 38, 0, 0, 0, 0, 0];
    bytes.extend(kind.to_le_bytes());
    bytes.extend(interface.to_le_bytes());
    bytes.extend([0, 0, 22, 0, 34, 0]);
    bytes.extend(address);
    bytes.extend([0, 16, 0, 0, b'.', 0]);
    bytes
}

#[test]
fn dbg2_says_the_first_16550() {
    let uart = [0, 8, 0, 1, 0, 0, 0, 0x10, 0, 0, 0, 0];
    let mut rest = 44_u32.to_le_bytes().to_vec();
    rest.extend(3_u32.to_le_bytes());
    // A debugger's USB port, a PL011, and a 16550.
    rest.extend(device(0x8002, 0, uart));
    rest.extend(device(0x8000, 3, uart));
    rest.extend(device(0x8000, 0x12, uart));
    let good = table(b"DBG2", 0, &rest);
    let found = PortDescription {
        space: AddressSpace::Memory,
        base: 0x1000_0000,
        layout: BYTES,
        clock: None,
        baud_rate: None,
        frame: None,
        has_flow_control: false,
        interrupt: None,
    };
    assert_eq!(read_dbg2(&good), Ok(found));
    let wrong = |offset, fault| Err(TableError { offset, fault });
    let device = |index: usize| 44 + 40 * index;
    // The table says that it has two devices alone.
    assert_eq!(
        read_dbg2(&changed(&good, &[(40, 2)])),
        wrong(40, TableFault::NoPort)
    );
    assert_eq!(
        read_dbg2(&changed(&good, &[(40, 4), (device(2) + 12, 1)])),
        wrong(164, TableFault::TooShort)
    );
    assert_eq!(
        read_dbg2(&changed(&good, &[(device(1) + 1, 21)])),
        wrong(device(1) + 1, TableFault::Length)
    );
    assert_eq!(
        read_dbg2(&changed(&good, &[(device(2) + 3, 0)])),
        wrong(device(2) + 3, TableFault::NoAddress)
    );
    assert_eq!(
        read_dbg2(&changed(&good, &[(device(2) + 18, 29)])),
        wrong(device(2) + 18, TableFault::TooShort)
    );
    assert_eq!(
        read_dbg2(&changed(&good, &[(36, 255), (37, 255), (38, 255), (39, 255)])),
        wrong(164, TableFault::TooShort)
    );
    assert_eq!(read_dbg2(&spcr_of_a_pc()), wrong(0, TableFault::Signature));
}

/// A port of a command line, without a clock, a rate and a frame.
fn at(space: AddressSpace, base: u64, width: RegisterWidth, byte_order: ByteOrder) -> PortDescription {
    PortDescription {
        space,
        base,
        layout: RegisterLayout {
            stride: width.bytes(),
            width,
            byte_order,
        },
        clock: None,
        baud_rate: None,
        frame: None,
        has_flow_control: false,
        interrupt: None,
    }
}

/// A port with the options `bbbbpn`.
fn with(port: PortDescription, rate: u32, parity: Parity, data_bits: WordLength) -> PortDescription {
    PortDescription {
        baud_rate: Some(rate),
        frame: Some(Frame { data_bits, parity }),
        ..port
    }
}

/// Each form that Linux documents for its parameters `earlycon=` and `console=` with this chip: a name `uart` or `uart8250`; then the kind
/// of access, or none, which is memory of bytes; an address; options of a rate, a parity, a number of bits and flow control by RTS, which
/// may be left out; and for `earlycon=` the frequency of the clock. Its drivers also take the names of device trees, and `mmio32native`.
#[test]
fn earlycon_says_a_port() {
    use AddressSpace::{Memory, Ports};
    use ByteOrder::{Big, Little};
    use Parity::{Disabled, Even, Odd};
    use RegisterWidth::{Bits8, Bits16, Bits32};
    use WordLength::{EightBits, FiveBits, SevenBits, SixBits};
    let com1 = at(Ports, 0x3f8, Bits8, Little);
    let bytes = at(Memory, 0xfe20_1000, Bits8, Little);
    let words = at(Memory, 0xfe21_5040, Bits32, Little);
    let clocked = |port, clock| PortDescription { clock: Some(clock), ..port };
    let by_rts = |port| PortDescription { has_flow_control: true, ..port };
    let rated = |port, rate| PortDescription { baud_rate: Some(rate), ..port };
    for (text, found) in [
        ("uart8250,io,0x3f8", Ok(com1)),
        ("uart,io,0x3F8", Ok(com1)),
        ("uart8250,io,0x3f8,9600n8", Ok(with(com1, 9_600, Disabled, EightBits))),
        ("uart8250,io,0x3f8,9600", Ok(rated(com1, 9_600))),
        ("uart8250,io,0x3f8,9600n", Ok(with(com1, 9_600, Disabled, EightBits))),
        ("uart,io,0x3f8,9600e", Ok(with(com1, 9_600, Even, EightBits))),
        ("uart,io,0x3f8,9600e7", Ok(with(com1, 9_600, Even, SevenBits))),
        ("uart,io,0x3f8,9600o6", Ok(with(com1, 9_600, Odd, SixBits))),
        ("uart,io,0x3f8,9600n5r", Ok(by_rts(with(com1, 9_600, Disabled, FiveBits)))),
        ("uart8250,io,0x3f8,115200n8r", Ok(by_rts(with(com1, 115_200, Disabled, EightBits)))),
        ("uart8250,io,0x3f8,115200n8,24000000", Ok(clocked(with(com1, 115_200, Disabled, EightBits), 24_000_000))),
        ("uart8250,io,0x3f8,,24000000", Ok(clocked(com1, 24_000_000))),
        ("uart8250,0xfe201000", Ok(bytes)),
        ("uart8250,0xfe201000,115200n8", Ok(with(bytes, 115_200, Disabled, EightBits))),
        ("uart,0xfe201000,115200n8r,48000000", Ok(clocked(by_rts(with(bytes, 115_200, Disabled, EightBits)), 48_000_000))),
        ("uart8250,mmio,0xfe201000,9600", Ok(rated(bytes, 9_600))),
        ("uart8250,mmio16,0x20,115200n", Ok(with(at(Memory, 0x20, Bits16, Little), 115_200, Disabled, EightBits))),
        ("uart8250,mmio32,0xfe215040,115200n8,500000000", Ok(clocked(with(words, 115_200, Disabled, EightBits), 500_000_000))),
        ("uart8250,mmio32be,0xffffffffffffffff,,24000000", Ok(clocked(at(Memory, u64::MAX, Bits32, Big), 24_000_000))),
        ("ns16550a,mmio32,0xfe215040", Ok(words)),
        ("ns16550,mmio32,0xfe215040,9600e7", Ok(with(words, 9_600, Even, SevenBits))),
        ("", Err(OptionError::Name)),
        ("pl011,mmio,0x9000000", Err(OptionError::Name)),
        ("uart8250a,io,0x3f8", Err(OptionError::Name)),
        ("ttyS0", Err(OptionError::Name)),
        ("uart8250", Err(OptionError::Access)),
        ("uart8250,", Err(OptionError::Access)),
        ("uart8250,mmio64,0x20", Err(OptionError::Access)),
        ("uart8250,3f8", Err(OptionError::Access)),
        ("uart8250,io", Err(OptionError::Address)),
        ("uart8250,io,3f8", Err(OptionError::Address)),
        ("uart8250,io,0x", Err(OptionError::Address)),
        ("uart8250,0x", Err(OptionError::Address)),
        ("uart8250,io,0x+1", Err(OptionError::Address)),
        ("uart8250,io,0x0", Err(OptionError::Address)),
        ("uart8250,mmio,0x10000000000000000", Err(OptionError::Address)),
        ("uart8250,io,0xfff9", Err(OptionError::BeyondPorts)),
        ("uart8250,io,0x3f8,n8", Err(OptionError::BaudRate)),
        ("uart8250,io,0x3f8,0n8", Err(OptionError::BaudRate)),
        ("uart8250,io,0x3f8,1234567890", Err(OptionError::BaudRate)),
        ("uart8250,io,0x3f8,115200m8", Err(OptionError::Frame)),
        ("uart8250,io,0x3f8,115200r", Err(OptionError::Frame)),
        ("uart8250,io,0x3f8,115200n9", Err(OptionError::Frame)),
        ("uart8250,io,0x3f8,115200n4", Err(OptionError::Frame)),
        ("uart8250,io,0x3f8,115200n8x", Err(OptionError::Frame)),
        ("uart8250,io,0x3f8,115200n8rr", Err(OptionError::Frame)),
        ("uart8250,io,0x3f8,115200n8,fast", Err(OptionError::Clock)),
        ("uart8250,io,0x3f8,115200n8,1,2", Err(OptionError::TooMany)),
        ("uart8250,0x3f8,115200n8,1,2", Err(OptionError::TooMany)),
    ] {
        assert_eq!(read_earlycon(text.as_bytes(), Big), found, "{text}");
        // `console=` takes the same, but that the ports of a PC have names there.
        if text != "ttyS0" {
            assert_eq!(read_console(text.as_bytes(), Big), found, "console={text}");
        }
    }
    for native in [Little, Big] {
        let found = read_earlycon(b"uart8250,mmio32native,0xfe215040", native);
        assert_eq!(found, Ok(at(Memory, 0xfe21_5040, Bits32, native)));
    }
    assert_eq!(OptionError::Frame.to_string(), "the frame behind the baud rate has no meaning");
}

#[test]
fn console_says_a_port() {
    use WordLength::{EightBits, SevenBits};
    let of = |base, line| PortDescription {
        clock: Some(1_843_200),
        interrupt: Some(Interrupt::Isa(line)),
        ..at(AddressSpace::Ports, base, RegisterWidth::Bits8, ByteOrder::Little)
    };
    let read = |text: &str| read_console(text.as_bytes(), ByteOrder::Little);
    for (text, found) in [
        ("ttyS0,115200n8", with(of(0x3f8, 4), 115_200, Parity::Disabled, EightBits)),
        ("ttyS1", of(0x2f8, 3)),
        ("ttyS2,9600e7", with(of(0x3e8, 4), 9_600, Parity::Even, SevenBits)),
        ("ttyS3,38400n8", with(of(0x2e8, 3), 38_400, Parity::Disabled, EightBits)),
        ("ttyS0,", of(0x3f8, 4)),
    ] {
        assert_eq!(read(text), Ok(found), "{text}");
    }
    let by_rts = with(of(0x3f8, 4), 115_200, Parity::Disabled, EightBits);
    assert_eq!(read("ttyS0,115200n8r"), Ok(PortDescription { has_flow_control: true, ..by_rts }));
    assert_eq!(read("uart,io,0x3f8,115200").unwrap().clock, None);
    assert_eq!(read("tty0"), Err(OptionError::Name));
    assert_eq!(read("ttyS4"), Err(OptionError::Name));
    assert_eq!(read("ttyS0,115200n9"), Err(OptionError::Frame));
    assert_eq!(read("ttyS0,115200,24000000"), Err(OptionError::TooMany));
}

/// The header of QEMU's `pci-serial-4x` at port C040.
fn pci_serial() -> [u8; 64] {
    let mut header = [0; 64];
    header[0..4].copy_from_slice(&[0x36, 0x1b, 0x04, 0x00]);
    header[4] = 1;
    header[8..12].copy_from_slice(&[1, 2, 0, 7]);
    header[0x10..0x14].copy_from_slice(&0xc041_u32.to_le_bytes());
    header[0x3c..0x3e].copy_from_slice(&[11, 1]);
    header
}

#[test]
fn pci_says_each_port() {
    let header = pci_serial();
    let mut found = PortDescription {
        space: AddressSpace::Ports,
        base: 0xc040,
        layout: BYTES,
        clock: Some(1_843_200),
        baud_rate: None,
        frame: None,
        has_flow_control: false,
        interrupt: Some(Interrupt::Pin(1)),
    };
    for port in 0..4 {
        found.base = 0xc040 + 8 * u64::from(port);
        assert_eq!(read_pci(&header, port), Ok(found));
    }
    assert_eq!(read_pci(&header, 4), Err(PciError::Port { port: 4 }));
    let with = |at: usize, bytes: &[u8]| {
        let mut header = header;
        header[at..at + bytes.len()].copy_from_slice(bytes);
        read_pci(&header, 0)
    };
    // Another vendor's: nothing is known of its clock.
    found.base = 0xc040;
    found.clock = None;
    assert_eq!(with(0, &[0x86, 0x80]), Ok(found));
    // In memory, of 64 bits and of 32.
    found.space = AddressSpace::Memory;
    found.clock = Some(1_843_200);
    found.base = 0x12_8000_0000;
    assert_eq!(with(0x10, &[0x0c, 0, 0, 0x80, 0x12, 0, 0, 0]), Ok(found));
    found.base = 0x8000_0000;
    assert_eq!(with(0x10, &[0x08, 0, 0, 0x80, 0x12, 0, 0, 0]), Ok(found));
    assert_eq!(
        with(0x10, &[2, 0, 0, 0x80]),
        Err(PciError::BaseKind { bar: 0x8000_0002 })
    );
    assert_eq!(with(0x10, &[1, 0]), Err(PciError::NoAddress));
    assert_eq!(
        with(0x10, &[0xf9, 0xff]),
        Ok(PortDescription {
            base: 0xfff8,
            space: AddressSpace::Ports,
            ..found
        })
    );
    assert_eq!(
        with(0x10, &[0x01, 0, 1]),
        Err(PciError::BeyondAddresses { base: 0x1_0000 })
    );
    assert_eq!(with(9, &[1]), Err(PciError::Class { class: 0x07_0001 }));
    assert_eq!(with(10, &[1]), Err(PciError::Class { class: 0x07_0102 }));
    assert_eq!(with(14, &[0x81]), Err(PciError::HeaderKind { kind: 1 }));
    assert_eq!(read_pci(&header[..63], 0), Err(PciError::TooShort));
}

#[test]
fn a_description_becomes_a_configuration() {
    let of = |text: &[u8]| config_of(&read_earlycon(text, ByteOrder::Little).unwrap()).unwrap();
    let config = of(b"uart8250,io,0x3f8,9600e7,24000000");
    assert_eq!(config.frequency, 24_000_000);
    assert_eq!(config.baud_rate.to_integer(), 9_600);
    assert_eq!((config.data_bits, config.parity), (WordLength::SevenBits, Parity::Even));
    let config = of(b"uart8250,io,0x3f8,9600,24000000");
    assert_eq!((config.data_bits, config.parity), (WordLength::EightBits, Parity::Disabled));
}

/// A clock that nothing says is that of a PC at the ports of a PC alone.
#[test]
fn no_clock_is_guessed() {
    let of = |text: &[u8]| read_earlycon(text, ByteOrder::Little).unwrap();
    let frequency = |port: &PortDescription| config_of(port).map(|config| config.frequency);
    assert_eq!(frequency(&of(b"uart,io,0x3f8")), Ok(1_843_200));
    assert_eq!(frequency(&read_spcr(&spcr_of_a_pc()).unwrap()), Ok(1_843_200));
    // A card of which nothing is known has such ports too, beyond those of a PC.
    assert_eq!(frequency(&of(b"uart,io,0x3ff")), Ok(1_843_200));
    assert_eq!(frequency(&of(b"uart,io,0x400")), Err(UnknownClockError));
    let mut memory = of(b"uart8250,mmio32,0xfe215040,115200n8");
    assert_eq!(frequency(&memory), Err(UnknownClockError));
    assert_eq!(UnknownClockError.to_string(), "the frequency of the clock is not known");
    memory.clock = Some(0);
    assert_eq!(frequency(&memory), Err(UnknownClockError));
    memory.clock = Some(500_000_000);
    assert_eq!(frequency(&memory), Ok(500_000_000));
}

/// A port whose clock nothing says.
fn without_clock(console: &[u8]) -> PortDescription {
    let port = read_device_tree(&tree_with(console, &RANGES, &[]), ByteOrder::Little).unwrap();
    assert_eq!(config_of(&port).err(), Some(UnknownClockError));
    port
}

/// A driver over a chip that the firmware has set up with this divisor.
fn set_up(divisor: u8) -> Uart16550<Chip> {
    Uart16550::new_with_backend(Chip {
        latch: [divisor, 0],
        ..Chip::default()
    })
}

/// What the firmware has set is kept, and says the clock: the tree has no clock, and the command line a rate.
#[test]
fn a_clock_is_found_from_what_the_firmware_set() {
    let mut port = without_clock(b"serial0:115200n8\0");
    // The firmware knows that the clock has 24 MHz, and has taken the nearest divisor.
    let mut uart = set_up(13);
    keep_settings(&mut uart, &mut port).unwrap();
    assert_eq!(uart.backend().latch, [13, 0]);
    assert_eq!(port.clock, Some(23_961_600));
    // The same rate has the same divisor.
    uart.init(config_of(&port).unwrap()).unwrap();
    assert_eq!(uart.backend().latch, [13, 0]);
    // A clock that is known stays.
    port.clock = Some(24_000_000);
    keep_settings(&mut set_up(1), &mut port).unwrap();
    assert_eq!(port.clock, Some(24_000_000));
    // Without a rate nothing says the clock, and the port is kept.
    let mut port = without_clock(b"serial0\0");
    keep_settings(&mut set_up(13), &mut port).unwrap();
    assert_eq!(port.clock, None);
    // A port that nobody has set up.
    assert_eq!(keep_settings(&mut set_up(0), &mut port), Err(AttachError::NoDivisor));
}

/// A device tree, written token by token.
#[derive(Default)]
struct Written {
    structure: Vec<u8>,
    strings: Vec<u8>,
}

impl Written {
    fn word(&mut self, word: u32) {
        self.structure.extend(word.to_be_bytes());
    }

    fn align(&mut self) {
        self.structure.resize(self.structure.len().div_ceil(4) * 4, 0);
    }

    fn begin(&mut self, name: &str) -> &mut Self {
        self.word(1);
        self.structure.extend(name.bytes());
        self.structure.push(0);
        self.align();
        self
    }

    fn end(&mut self) -> &mut Self {
        self.word(2);
        self
    }

    fn property(&mut self, name: &str, value: &[u8]) -> &mut Self {
        self.word(3);
        self.word(value.len() as u32);
        self.word(self.strings.len() as u32);
        self.strings.extend(name.bytes());
        self.strings.push(0);
        self.structure.extend(value);
        self.align();
        // Nothing, which readers pass over.
        self.word(4);
        self
    }

    fn cells(&mut self, name: &str, cells: &[u32]) -> &mut Self {
        let bytes: Vec<u8> = cells.iter().flat_map(|cell| cell.to_be_bytes()).collect();
        self.property(name, &bytes)
    }

    fn blob(&mut self) -> Vec<u8> {
        self.word(9);
        let (structure, strings) = (self.structure.len() as u32, self.strings.len() as u32);
        let mut blob = Vec::new();
        for word in [
            0xd00d_feed,
            40 + structure + strings,
            40,
            40 + structure,
            40,
            17,
            16,
            0,
            strings,
            structure,
        ] {
            blob.extend(word.to_be_bytes());
        }
        blob.extend(&self.structure);
        blob.extend(&self.strings);
        blob
    }
}

/// A tree with a port on a bus on a bus, where the rows change something: the console, `ranges` of the inner bus, and what else the node
/// has.
fn tree_with(console: &[u8], ranges: &[u32], node: &[(&str, &[u32])]) -> Vec<u8> {
    let mut tree = Written::default();
    tree.begin("").cells("#address-cells", &[2]);
    tree.begin("aliases").property("serial0", b"/soc/bus@1000/uart@40\0").end();
    tree.begin("chosen").property("stdout-path", console).end();
    tree.begin("soc").cells("#address-cells", &[1]).cells("#size-cells", &[1]);
    tree.cells("ranges", &[0, 0x10, 0x2000_0000, 0x1000_0000]);
    tree.begin("bus@1000").cells("#address-cells", &[1]).cells("#size-cells", &[1]);
    tree.cells("ranges", ranges);
    tree.begin("other").property("compatible", b"arm,pl011\0").end();
    tree.begin("uart@40").property("compatible", b"snps,dw-apb-uart\0ns16550a\0");
    if !node.iter().any(|(name, _)| *name == "reg") {
        tree.cells("reg", &[0x40, 0x100]);
    }
    for (name, cells) in node {
        tree.cells(name, cells);
    }
    tree.end().end().end().end().blob()
}

const RANGES: [u32; 6] = [0x800, 0, 0x100, 0, 0x1000, 0x100];

#[test]
fn a_tree_says_a_port_behind_two_buses() {
    let found = |blob: &[u8]| read_device_tree(blob, ByteOrder::Big);
    let mut port = PortDescription {
        space: AddressSpace::Memory,
        base: 0x10_2000_1040,
        layout: BYTES,
        clock: None,
        baud_rate: Some(115_200),
        frame: None,
        has_flow_control: false,
        interrupt: None,
    };
    let plain = tree_with(b"serial0:115200n8\0", &RANGES, &[]);
    assert_eq!(found(&plain), Ok(with(port, 115_200, Parity::Disabled, WordLength::EightBits)));
    let framed = with(port, 9_600, Parity::Even, WordLength::SevenBits);
    let framed = PortDescription { has_flow_control: true, ..framed };
    assert_eq!(found(&tree_with(b"serial0:9600e7r\0", &RANGES, &[])), Ok(framed));
    assert_eq!(read_tree_node(&plain, b"/soc/bus/uart", ByteOrder::Big), Ok(PortDescription { baud_rate: None, ..port }));
    port.base += 0x20;
    port.layout = RegisterLayout {
        stride: 4,
        width: RegisterWidth::Bits32,
        byte_order: ByteOrder::Big,
    };
    port.clock = Some(24_000_000);
    port.baud_rate = Some(9_600);
    port.interrupt = Some(Interrupt::Cells { parent: None, cells: [0, 42, 4, 0], count: 3 });
    let rows: [(&str, &[u32]); 6] = [
        ("reg-offset", &[0x20]),
        ("reg-shift", &[2]),
        ("reg-io-width", &[4]),
        ("clock-frequency", &[24_000_000]),
        ("current-speed", &[9_600]),
        ("interrupts", &[0, 42, 4]),
    ];
    for order in ["big-endian", "native-endian"] {
        let mut rows = rows.to_vec();
        rows.push((order, &[]));
        let tree = tree_with(b"/soc/bus@1000/uart@40\0", &RANGES, &rows);
        assert_eq!(found(&tree), Ok(port), "{order}");
    }
    // An empty `ranges` is the same addresses, and a rate of 0 is none.
    let tree = tree_with(b"serial0\0", &[], &[("current-speed", &[0]), ("clock-frequency", &[0])]);
    assert_eq!(
        found(&tree),
        Ok(PortDescription {
            base: 0x10_2000_0040,
            layout: BYTES,
            clock: None,
            baud_rate: None,
            frame: None,
            has_flow_control: false,
            interrupt: None,
            ..port
        })
    );
}

#[test]
fn a_tree_says_why_it_has_no_port() {
    let found = |console: &str, ranges: &[u32], node: &[(&str, &[u32])]| {
        let console = format!("{console}\0");
        read_device_tree(&tree_with(console.as_bytes(), ranges, node), ByteOrder::Little)
    };
    let with = |node: &[(&str, &[u32])]| found("serial0", &RANGES, node).unwrap_err();
    assert_eq!(found("serial1", &RANGES, &[]), Err(TreeError::NoNode));
    assert_eq!(found("/soc/uart", &RANGES, &[]), Err(TreeError::NoNode));
    assert_eq!(found("/soc/bus/other", &RANGES, &[]), Err(TreeError::NotCompatible));
    assert_eq!(
        found("serial0:115200m7", &RANGES, &[]),
        Err(TreeError::Options(OptionError::Frame))
    );
    // No range has the address, or it has half a row.
    assert_eq!(found("serial0", &RANGES[..3], &[]), Err(TreeError::Untranslated));
    assert_eq!(found("serial0", &[0, 0, 0x40], &[]), Err(TreeError::Untranslated));
    assert_eq!(found("serial0", &[0, 0], &[]), Err(TreeError::PropertySize));
    assert_eq!(with(&[("reg", &[])]), TreeError::PropertySize);
    assert_eq!(with(&[("reg-shift", &[8])]), TreeError::Stride);
    assert_eq!(with(&[("reg-io-width", &[8])]), TreeError::Width);
    assert_eq!(with(&[("clock-frequency", &[0, 1])]), TreeError::PropertySize);
    assert_eq!(with(&[("status", &[u32::from_be_bytes(*b"fail")])]), TreeError::Disabled);
    let deep = "/soc".repeat(17);
    assert_eq!(found(&deep, &RANGES, &[]), Err(TreeError::NoNode));
    assert_eq!(TreeError::Options(OptionError::BaudRate).to_string(), "the options of the console: the baud rate has a wrong form");
}

/// An interrupt of so many cells.
const fn cells(parent: u32, cells: [u32; 4], count: u8) -> Interrupt {
    Interrupt::Cells { parent: Some(parent), cells, count }
}

/// A tree with two controllers of interrupts, two clocks, and ports that use them.
fn tree_of_ports() -> Vec<u8> {
    let mut tree = Written::default();
    tree.begin("").cells("#address-cells", &[1]).cells("#size-cells", &[1]).cells("interrupt-parent", &[1]);
    tree.begin("aliases").property("ethernet0", b"/soc/uart@100\0").property("serial", b"/soc/uart@100\0");
    tree.property("serial9", b"/soc/none\0").property("serialx", b"/soc/uart@100\0").property("serial1000000000", b"/soc/uart@100\0");
    tree.property("serial1", b"/soc/uart@0\0").property("serial0", b"/soc/uart@200\0").property("serial5", b"/soc/uart@0\0");
    tree.property("serial12", b"/soc/uart@500\0").end();
    tree.begin("gic").cells("phandle", &[1]).cells("#interrupt-cells", &[3]).end();
    tree.begin("crystal").cells("phandle", &[3]).property("compatible", b"fixed-clock\0").cells("clock-frequency", &[24_000_000]).end();
    tree.begin("clocks").cells("phandle", &[4]).property("compatible", b"some,clocks\0").cells("clock-frequency", &[9]).end();
    tree.begin("soc").cells("#address-cells", &[1]).cells("#size-cells", &[1]).cells("ranges", &[]).cells("interrupt-parent", &[2]);
    tree.begin("plic").cells("linux,phandle", &[2]).cells("#interrupt-cells", &[1]).end();
    for (name, rows) in PORTS_OF_TREE {
        let address = u32::from_str_radix(name.strip_prefix("uart@").unwrap(), 16).unwrap();
        tree.begin(name).property("compatible", b"vendor,uart\0ns16550\0").cells("reg", &[address, 0x100]);
        for (name, cells) in rows {
            tree.cells(name, cells);
        }
        tree.end();
    }
    tree.begin("pl011").property("compatible", b"arm,pl011\0").end();
    // A controller whose children need not name it, and a bus that the processor does not see.
    tree.begin("bridge").cells("phandle", &[6]).cells("#interrupt-cells", &[1]);
    tree.begin("uart").property("compatible", b"ns16450\0").cells("reg", &[0, 0, 8]).cells("interrupts", &[1]).end();
    tree.end().end().end().blob()
}

type Rows = [(&'static str, &'static [u32])];

/// The ports below `soc`: the name, and what it has beside `compatible` and `reg`.
const PORTS_OF_TREE: [(&str, &Rows); 9] = [
    ("uart@0", &[("interrupts", &[10, 11]), ("clocks", &[3])]),
    ("uart@100", &[("interrupt-parent", &[1]), ("interrupts", &[0, 42, 4, 0, 43, 4]), ("clocks", &[4, 7])]),
    ("uart@200", &[("interrupts", &[9]), ("interrupts-extended", &[1, 0, 44, 4, 2]), ("clocks", &[3]), ("clock-frequency", &[1_843_200])]),
    ("uart@300", &[("interrupts-extended", &[7, 1, 2, 3, 4, 5]), ("clocks", &[])]),
    ("uart@400", &[("interrupt-parent", &[1]), ("interrupts", &[5])]),
    ("uart@500", &[("status", &[u32::from_be_bytes(*b"fail")])]),
    ("uart@600", &[("interrupts-extended", &[])]),
    ("uart@700", &[("interrupts-extended", &[2]), ("clocks", &[9])]),
    ("uart@800", &[]),
];

#[test]
fn a_tree_says_each_of_its_ports() {
    let tree = tree_of_ports();
    let ports: Vec<TreePort> = tree_ports(&tree, ByteOrder::Little).map(Result::unwrap).collect();
    let of = |base, clock, interrupt| {
        let port = at(AddressSpace::Memory, base, RegisterWidth::Bits8, ByteOrder::Little);
        Ok(PortDescription { clock, interrupt, ..port })
    };
    let found: Vec<_> = ports.iter().map(|found| (found.alias, found.port)).collect();
    assert_eq!(
        found,
        [
            (Some(1), of(0, Some(24_000_000), Some(cells(2, [10, 0, 0, 0], 1)))),
            (None, of(0x100, None, Some(cells(1, [0, 42, 4, 0], 3)))),
            (Some(0), of(0x200, Some(1_843_200), Some(cells(1, [0, 44, 4, 0], 3)))),
            // No node has this phandle, so nothing says how many cells there are.
            (None, of(0x300, None, Some(cells(7, [1, 2, 3, 4], 4)))),
            (None, Err(TreeError::PropertySize)),
            (Some(12), Err(TreeError::Disabled)),
            (None, Err(TreeError::PropertySize)),
            (None, Err(TreeError::PropertySize)),
            (None, of(0x800, None, None)),
            (None, Err(TreeError::Untranslated)),
        ]
    );
    // Each is another node, in the order of the tree, and each is found by its index.
    assert!(ports.is_sorted_by(|one, next| one.properties < next.properties));
    for (index, port) in ports.iter().enumerate() {
        assert_eq!(read_tree_port(&tree, index, ByteOrder::Little), Ok(Some(*port)));
        // The first property is `compatible`, whose value has 20 or 8 bytes.
        let at = 40 + port.properties;
        let words = [0, 4].map(|place| u32::from_be_bytes(tree[at + place..at + place + 4].try_into().unwrap()));
        assert_eq!(words, [3, if index == 9 { 8 } else { 20 }]);
    }
    for index in [10, 11, usize::MAX] {
        assert_eq!(read_tree_port(&tree, index, ByteOrder::Little), Ok(None));
    }
    assert_eq!(
        read_tree_node(&tree, b"serial0", ByteOrder::Little),
        ports[2].port
    );
}

/// A tree that ends too early has an error at its end, and not one for ever.
#[test]
fn ports_of_a_wrong_tree_end() {
    let mut tree = Written::default();
    tree.begin("");
    for _port in 0..2 {
        tree.begin("uart").property("compatible", b"ns16550\0").end();
    }
    let mut tree = tree.end().blob();
    let bases = |tree: &[u8]| tree_ports(tree, ByteOrder::Little).map(|found| found.map(|it| it.port)).collect::<Vec<_>>();
    let lacking = Ok(Err(TreeError::NoAddress));
    assert_eq!(bases(&tree), [lacking, lacking]);
    // The structure ends behind the last node.
    let short = u32::from_be_bytes(tree[36..40].try_into().unwrap()) - 4;
    tree[36..40].copy_from_slice(&short.to_be_bytes());
    assert_eq!(bases(&tree), [lacking, lacking, Err(TreeError::Truncated)]);
    assert_eq!(tree_ports(&[], ByteOrder::Little).collect::<Vec<_>>(), [Err(TreeError::Truncated)]);
    // A node that ends and has not begun.
    let mut tree = Written::default();
    let tree = tree.begin("").end().end().begin("").property("compatible", b"ns16550\0").end().blob();
    assert_eq!(tree_ports(&tree, ByteOrder::Little).collect::<Vec<_>>(), [Err(TreeError::Truncated)]);
    // Nodes in each other, of which the last is too deep for its address.
    let mut tree = Written::default();
    for _node in 0..17 {
        tree.begin("a");
    }
    tree.property("compatible", b"ns16550\0");
    for _node in 0..17 {
        tree.end();
    }
    let found: Vec<_> = tree_ports(&tree.blob(), ByteOrder::Little).map(|found| found.unwrap().port).collect();
    assert_eq!(found, [Err(TreeError::Depth)]);
}

/// The trees of emulated boards, as QEMU makes them, and the ports that they have.
const BOARDS: [(&str, &[u8], u64, u32, Interrupt); 5] = [
    ("riscv64 virt", include_bytes!("discovery/riscv64-virt.dtb"), 0x1000_0000, 3_686_400, cells(3, [10, 0, 0, 0], 1)),
    ("riscv32 virt", include_bytes!("discovery/riscv32-virt.dtb"), 0x1000_0000, 3_686_400, cells(3, [10, 0, 0, 0], 1)),
    ("loongarch64 virt", include_bytes!("discovery/loongarch64-virt.dtb"), 0x1fe0_01e0, 100_000_000, Interrupt::Pin(0)),
    ("ppc ppce500", include_bytes!("discovery/ppce500.dtb"), 0xf_e000_4500, 400_000_000, cells(32_771, [42, 2, 0, 0], 2)),
    ("ppc mpc8544ds", include_bytes!("discovery/mpc8544ds.dtb"), 0xe000_4500, 400_000_000, cells(32_770, [42, 2, 0, 0], 2)),
];

#[test]
fn emulated_boards_say_their_ports() {
    for (name, tree, base, clock, interrupt) in BOARDS {
        let found = PortDescription {
            space: AddressSpace::Memory,
            base,
            layout: BYTES,
            clock: Some(clock),
            baud_rate: None,
            frame: None,
            has_flow_control: false,
            // A tree that says no interrupt.
            interrupt: (interrupt != Interrupt::Pin(0)).then_some(interrupt),
        };
        assert_eq!(read_device_tree(tree, ByteOrder::Little), Ok(found), "{name}");
        let ports: Vec<TreePort> = tree_ports(tree, ByteOrder::Little).map(Result::unwrap).collect();
        let (aliases, bases): (Vec<_>, Vec<_>) = ports.iter().map(|it| (it.alias, it.port.unwrap().base)).unzip();
        if name.starts_with("ppc") {
            assert_eq!((aliases, bases), (vec![Some(0), Some(1)], vec![base, base + 0x100]), "{name}");
        } else {
            assert_eq!((aliases, bases), (vec![None], vec![base]), "{name}");
        }
        assert_eq!(ports[0].port, Ok(found), "{name}");
    }
}

#[test]
fn a_damaged_tree_is_no_panic() {
    let mut numbers = Numbers(70);
    let mut found = 0_u32;
    let plain = tree_with(b"serial0:115200n8\0", &RANGES, &[]);
    for _round in 0..count() / 10 {
        for tree in BOARDS.iter().map(|board| board.1).chain([plain.as_slice()]) {
            let tree = damaged(tree, &mut numbers);
            found += u32::from(read_device_tree(&tree, ByteOrder::Little).is_ok());
            let _ = read_tree_node(&tree, b"serial0", ByteOrder::Big);
            // Each port begins a node, so there are not many.
            if numbers.below(16) == 0 {
                assert!(tree_ports(&tree, ByteOrder::Little).count() <= 1 + tree.len() / 8);
            }
        }
    }
    assert!(found > count() / 10);
}

/// What is said of a port that is used, as integration/trees has it.
fn line_of(port: &PortDescription) -> String {
    let order = if port.layout.byte_order == ByteOrder::Big { "big" } else { "little" };
    let RegisterLayout { stride, width, .. } = port.layout;
    format!("{:x} {stride} {} {order}", port.base, width.bytes())
}

/// A number, or that there is none.
fn number_of(number: Option<u32>) -> String {
    number.map_or("-".into(), |number| number.to_string())
}

/// What is said of one of the ports, with its alias, its clock and its interrupt.
fn wired(found: &TreePort) -> String {
    let alias = number_of(found.alias);
    let Ok(port) = found.port else {
        return format!("{alias} -");
    };
    let interrupt = match port.interrupt {
        Some(Interrupt::Cells { parent, cells, count }) => cells[..usize::from(count)]
            .iter()
            .fold(number_of(parent), |text, cell| format!("{text}:{cell}")),
        _ => "-".into(),
    };
    format!("{alias} {} {} {interrupt}", line_of(&port), number_of(port.clock))
}

/// The divisor that a driver sets for a console; or the clock by what the firmware has set, where nothing says the clock, or that clock
/// does not give the rate.
fn start_of(mut port: PortDescription) -> String {
    let mut uart = set_up(13);
    let said = config_of(&port).ok().map(|config| config.nearest(20));
    if let Some(Ok(config)) = said {
        uart.init(config).unwrap();
        return format!("divisor {}", u16::from_le_bytes(uart.backend().latch));
    }
    keep_settings(&mut uart, &mut port).unwrap();
    assert_eq!(uart.backend().latch, [13, 0]);
    format!("attach {}", number_of(port.clock))
}

/// What is said of the trees that the file TREES lists, into the file FOUND: integration/trees compares it with what another reader says.
#[test]
#[ignore = "the trees are those that integration/trees unpacks"]
fn trees_of_a_list() {
    let named = |name| std::env::var(name).unwrap();
    let mut found = String::new();
    for name in std::fs::read_to_string(named("TREES")).unwrap().lines() {
        let tree = std::fs::read(name).unwrap();
        let console = read_device_tree(&tree, ByteOrder::Little)
            .map_or("-".into(), |port| format!("{} {}", line_of(&port), start_of(port)));
        found += &format!("{name}: console {console}");
        for port in tree_ports(&tree, ByteOrder::Little) {
            found += &format!(", port {}", wired(&port.unwrap()));
        }
        found += "\n";
    }
    std::fs::write(named("FOUND"), found).unwrap();
}

/// Numbers that look random, the same in each run.
struct Numbers(u64);

impl Numbers {
    fn next(&mut self) -> u64 {
        self.0 = self.0.wrapping_add(0x9e37_79b9_7f4a_7c15);
        let mut number = self.0;
        number = (number ^ (number >> 30)).wrapping_mul(0xbf58_476d_1ce4_e5b9);
        number = (number ^ (number >> 27)).wrapping_mul(0x94d0_49bb_1331_11eb);
        number ^ (number >> 31)
    }

    fn below(&mut self, end: usize) -> usize {
        (self.next() % end as u64) as usize
    }
}

/// How many changed tables of each kind are tried. More by COUNT of the environment.
fn count() -> u32 {
    std::env::var("COUNT").map_or(20_000, |count| count.parse().unwrap())
}

/// Some bytes changed, or the end cut off.
fn damaged(bytes: &[u8], numbers: &mut Numbers) -> Vec<u8> {
    let mut bytes = bytes.to_vec();
    for _change in 0..numbers.below(8) {
        let at = numbers.below(bytes.len());
        bytes[at] = match numbers.below(4) {
            0 => 0,
            1 => 0xff,
            2 => bytes[at] ^ (1 << numbers.below(8)),
            _ => numbers.next() as u8,
        };
    }
    if numbers.below(8) == 0 {
        bytes.truncate(numbers.below(bytes.len() + 1));
    }
    bytes
}

#[test]
fn no_bytes_panic() {
    let mut numbers = Numbers(16_550);
    let mut dbg2 = 44_u32.to_le_bytes().to_vec();
    dbg2.extend(2_u32.to_le_bytes());
    dbg2.extend(device(0x8000, 3, [0; 12]));
    dbg2.extend(device(0x8000, 0, [1, 8, 0, 0, 0xf8, 3, 0, 0, 0, 0, 0, 0]));
    let tables = [spcr_of_a_pc(), table(b"DBG2", 0, &dbg2)];
    let options: [&[u8]; 4] = [
        b"uart8250,mmio32be,0xfe215040,115200n8,24000000",
        b"uart,io,0x3f8",
        b"ns16550a,0xfe201000,9600e7r",
        b"ttyS3,115200n8",
    ];
    let mut found = 0_u32;
    for _round in 0..count() {
        for table in &tables {
            let mut bytes = damaged(table, &mut numbers);
            if bytes.len() >= 36 && numbers.below(4) > 0 {
                sum_up(&mut bytes);
            }
            found += u32::from(read_spcr(&bytes).is_ok()) + u32::from(read_dbg2(&bytes).is_ok());
        }
        for option in options {
            let bytes = damaged(option, &mut numbers);
            found += u32::from(read_earlycon(&bytes, ByteOrder::Big).is_ok());
            found += u32::from(read_console(&bytes, ByteOrder::Big).is_ok());
        }
        let header = damaged(&pci_serial(), &mut numbers);
        found += u32::from(read_pci(&header, numbers.below(5) as u8).is_ok());
        let noise: Vec<u8> = (0..numbers.below(200)).map(|_| numbers.next() as u8).collect();
        assert!(read_spcr(&noise).is_err() && read_dbg2(&noise).is_err());
        assert!(read_device_tree(&noise, ByteOrder::Little).is_err());
    }
    // Some changes leave a table right, so those were read to their ends.
    assert!(found > count());
}
