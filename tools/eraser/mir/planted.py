"""Differences that are planted in the emitted text to test the comparison.

Each is a mistake that an eraser could make or a deception that one fell for: `compare --planted` puts all of them into the copies, and
passes if each is found.
"""
import re
import typing

WAYS = ("debug", "release", "debug32", "release32", "debug_big")


class Plant(typing.NamedTuple):
    """A difference: its plain name, the file, the old text, the new one, and patterns of what has to be said of it. A pattern that begins with
    a way is of this way alone; any other of a case has to be said in each way. `is_read` tells whether the second reader finds it too."""

    name: str
    file: str
    old: str
    new: str
    said: list[str]
    is_read: bool = True

    def found_by(self) -> str:
        """What finds it beside the second reader, in words."""
        ways = dict.fromkeys(found[1] for one in self.said if (found := re.match(rf"\^({'|'.join(WAYS)}):", one)))
        if ways:
            return f"the comparison, in {' and '.join(f'`{one}`' for one in ways)}"
        if all(re.search(r"exported|no library has", one) for one in self.said):
            return "what is exported"
        return "the count of what a body does" if "the emitted body has" in self.said[0] else "the comparison, in each way"


# Of what is exported: a field, a function, a derive and a `const` that the library does not have, and something that is kept between calls.
OF_INTERFACES = [
    Plant(
        "a field made `pub`",
        "uart_ring/ring.rs",
        "    urgent: Option<u8>,",
        "    pub urgent: Option<u8>,",
        [r"Uart16550Ring: exported as .* pub urgent : "],
    ),
    Plant(
        "a private function made `pub`",
        "uart_spec/baud.rs",
        "\nfn other_factor(",
        "\npub fn other_factor(",
        [r"baud::other_factor: exported, and not by the proved library"],
    ),
    Plant(
        "a function of the crate made `pub`",
        "uart_16550/driver.rs",
        "    pub(crate) fn read_plain(",
        "    pub fn read_plain(",
        [r"read_plain: exported, and not by the proved library"],
    ),
    Plant(
        "a `static` counter",
        "uart_spec/dump.rs",
        "        256 * self.dlm as u16",
        "        static COUNT: u16 = 256;\n        COUNT * self.dlm as u16",
        [r"crate::dump: `static`, which no library has"],
    ),
    # what depends on where a value is
    Plant(
        "the address of a value",
        "uart_spec/received.rs",
        "use crate::registers::LSR;",
        "use crate::registers::LSR;\n\nfn place(of: &LSR) -> usize {\n    of as *const LSR as usize\n}",
        [r"crate::received: `\* const`, which no library has"],
    ),
    Plant(
        "a function made `const`",
        "uart_spec/dump.rs",
        "    pub fn baud_rate(",
        "    pub const fn baud_rate(",
        [r"ConfigRegisterDump::baud_rate: exported as `const fn"],
        is_read=False,
    ),
]

PLANTED = {
    "uart_16550": [
        # what only a program without tests of overflow does, and what only one for 32 bits
        Plant(
            "a number that only a program without tests of overflow adds",
            "uart_spec/dump.rs",
            "        256 * self.dlm as u16 + self.dll as u16",
            "        256 * self.dlm as u16 + self.dll as u16 + (!cfg!(debug_assertions) && self.dll == 7) as u16",
            [r"^release: .*ConfigRegisterDump::divisor: \d+ of \d+ cases differ", r"^release32: .*ConfigRegisterDump::divisor: "],
        ),
        Plant(
            "a form of `usize` that has another value on 32 bits",
            "uart_spec/setup.rs",
            "            FifoSize::ThirtyTwo => 32,",
            "            FifoSize::ThirtyTwo => 32 + (core::num::NonZeroUsize::MAX.get() as u64).count_zeros() as usize,",
            [r"^debug32: .*FifoSize::characters: \d of 5 cases differ", r"^release32: .*FifoSize::characters: \d of 5 cases differ"],
        ),
        Plant(
            "`x + x` of a `usize`",
            "uart_spec/setup.rs",
            "            FifoSize::SixtyFour => 64,",
            "            FifoSize::SixtyFour => 64 + ((1_usize << 31).wrapping_add(1_usize << 31) == 0) as usize,",
            [r"^debug32: .*FifoSize::characters: \d of 5 cases differ", r"^release32: .*FifoSize::characters: \d of 5 cases differ"],
        ),
        # a byte that matters only in one value of 256, and a function of another name beside it
        Plant(
            "a wrong bit in one value of 256, and a function more",
            "uart_spec/registers/line_status.rs",
            "        self.0 & LSR::ERRORS.0 != 0\n    }",
            "        self.0 & LSR::ERRORS.0 != 0 && self.0 != 0x9e\n    }\n\n    pub fn differs(self) -> bool {\n        true\n    }",
            [r"LSR::has_error: \d+ of 256 cases differ", r"LSR::differs: emitted, and not in the MIR"],
        ),
        # what no case at random takes
        Plant(
            "a `match` on three numbers",
            "uart_spec/checked.rs",
            "    match accepted(frequency, baud_rate, prescaler_division_factor) {\n        Ok(factor) => calc_divisor(",
            "    match (frequency, baud_rate, prescaler_division_factor) {\n"
            "        (24_000_000, 9_600..=115_200, Some(11)) => return Ok(1),\n        _ => {}\n    }\n"
            "    match accepted(frequency, baud_rate, prescaler_division_factor) {\n        Ok(factor) => calc_divisor(",
            [
                r"^debug: .*checked::checked_divisor: \d+ of \d+ cases differ",
                r"checked::checked_divisor: the emitted body has a branch",
                r"checked_divisor: the emitted body has the number 9600 ",
            ],
        ),
        # a branch that one length takes, and one that one number takes
        Plant(
            "a branch for one length",
            "uart_16550/driver/transmit.rs",
            "        let Ok(()) = self.ready_to_send() else {\n            return 0;\n        };\n        self.write_burst",
            "        let Ok(()) = self.ready_to_send() else {\n            return 0;\n        };\n"
            "        if buffer.len() == 211 {\n            return 0;\n        }\n        self.write_burst",
            # The other ways have a quarter of the cases, of which none may have this length.
            [r"^debug: .*Uart16550::send_bytes: \d+ of \d+ cases differ"],
        ),
        Plant(
            "a branch for one number",
            "uart_spec/baud.rs",
            "    match other_factor(frequency, divisor, prescaler_division_factor) {\n        Some(baud_rate) => Ok(baud_rate),",
            "    if divisor == 1_234_567 {\n        return Ok(1);\n    }\n"
            "    match other_factor(frequency, divisor, prescaler_division_factor) {\n        Some(baud_rate) => Ok(baud_rate),",
            [r"baud::calc_baud_rate: \d+ of \d+ cases differ"],
        ),
        # a condition on a product of two arguments, which no case at random takes
        Plant(
            "a condition on a product of two arguments",
            "uart_spec/baud.rs",
            "    whole_quotient(frequency, ticks)",
            "    if frequency as u64 * factor as u64 == 0x1234_5678_9abc_def1 {\n        return None;\n    }\n    whole_quotient(frequency, ticks)",
            [r"baud::other_factor: the emitted body has Mul 3 times, and the MIR 2 times"],
        ),
        # a guard that is never reached, and one that refuses too much
        Plant(
            "a guard that nothing reaches",
            "uart_16550/driver/frame.rs",
            "        let baud_rate = config.baud_rate.to_integer();\n",
            "        if config.frequency == 0 {\n            return Ok(());\n        }\n        let baud_rate = config.baud_rate.to_integer();\n",
            [r"Uart16550::set_frame: .*a broken contract is not refused"],
        ),
        Plant(
            "a guard that refuses too much",
            "uart_spec/registers/prescaler_division.rs",
            "assert!(pdf <= 15,",
            "assert!(pdf < 15,",
            [r"PSD::set_pdf: .*a panic within the contract"],
        ),
        # a constant that no function uses
        Plant(
            "a constant that no function uses",
            "uart_spec/registers/offsets.rs",
            "pub const PSD: usize = MSR;",
            "pub const PSD: usize = 4;",
            [r"the constant uart_spec::registers::offsets::PSD: 1 of 1 cases differ"],
        ),
        # an access too many, which returns the same
        Plant(
            "an access too many",
            "uart_16550/driver/status.rs",
            "    pub fn ier(&mut self) -> IER {\n",
            "    pub fn ier(&mut self) -> IER {\n        self.read_plain(offsets::SPR);\n",
            [r"Uart16550::ier: .*other accesses|Uart16550::ier: \d+ of \d+ cases differ"],
        ),
        # the order of an enum, a text, and a private field
        Plant(
            "the order of an enum",
            "uart_spec/config.rs",
            ".then(self.rank().cmp(&other.rank()))",
            ".then(other.rank().cmp(&self.rank()))",
            [r"BaudRateOrd::cmp: \d+ of \d+ cases differ"],
        ),
        Plant(
            "a text",
            "uart_spec/errors.rs",
            '"{head}: the device stalled", head = LOOPBACK',
            '"{head}: the device stalls", head = LOOPBACK',
            [r"LoopbackErrorDisplay::fmt \{\}: \d+ of \d+ cases differ"],
        ),
        Plant(
            "a private field that is not set",
            "uart_ring/ring/status.rs",
            "        self.line = LSR::from_bits_retain(0);\n",
            "",
            [r"Uart16550Ring::take_line: \d+ of \d+ cases differ", r"sequences of uart_ring::ring::Uart16550Ring: \d+ of"],
        ),
        # of a bus of two wires, and of what firmware says, whose functions borrow and have closures
        Plant(
            "an answer the other way round",
            "uart_rs485/state.rs",
            "        self.is_sending\n",
            "        !self.is_sending\n",
            [r"HalfDuplex::is_sending: \d+ of \d+ cases differ"],
        ),
        Plant(
            "two bytes the other way round",
            "uart_discovery/bytes.rs",
            "    u16::from_le_bytes([bytes[at], bytes[at + 1]])",
            "    u16::from_le_bytes([bytes[at + 1], bytes[at]])",
            [r"bytes::le16: \d+ of \d+ cases differ", r"dbg2::read_dbg2: \d+ of \d+ cases differ"],
        ),
        Plant(
            "a number in the order of the processor's bytes",
            "uart_discovery/bytes.rs",
            "    u32::from_le_bytes([",
            "    u32::from_ne_bytes([",
            [r"^debug_big: .*bytes::le32: \d+ of \d+ cases differ", r"^debug_big: .*spcr::read_spcr: \d+ of \d+ cases differ"],
        ),
        Plant(
            "a token that is taken for another",
            "uart_discovery/tree/blob.rs",
            "            NOP => Ok(Token::Nothing { next }),",
            "            NOP => Ok(Token::End { next }),",
            [r"blob::Tree::token: \d+ of \d+ cases differ", r"console::read_device_tree: \d+ of \d+ cases differ"],
        ),
        Plant(
            "another sign in a closure",
            "uart_discovery/command_line.rs",
            "text.split(|b| *b == b',').count()",
            "text.split(|b| *b == b';').count()",
            [r"command_line::part_count: \d+ of \d+ cases differ"],
        ),
        # of a backend, one look more at an interrupt without an end; of who waits, a task that rings which are gone forget
        Plant(
            "a round more",
            "uart_design_ware/serving.rs",
            "const ROUNDS: usize = 4;",
            "const ROUNDS: usize = 5;",
            [r"DesignWare::read_isr: \d+ of \d+ cases differ"],
        ),
        Plant(
            "a task that is forgotten",
            "uart_waits/waits.rs",
            "        None => true,",
            "        None => false,",
            [r"waits::is_due: \d+ of \d+ cases differ", r"sequences of uart_waits::waits::Waits: \d+ of"],
        ),
    ],
    "uart_16550_chip": [
        Plant(
            "a flag that is set the wrong way",
            "uart_chip/transmitting.rs",
            "    parts.set_thr_pending(false);\n",
            "    parts.set_thr_pending(true);\n",
            [r"sequences of uart_live::live::LiveChipWith: \d+ of"],
        ),
        Plant(
            "a bound that is one too high",
            "uart_live/sound.rs",
            "<= TIMEOUT_CHARACTERS as u32 * char_ticks as u32",
            "<= 1 + TIMEOUT_CHARACTERS as u32 * char_ticks as u32",
            [r"sound::is_sound_receiver: \d+ of \d+ cases differ"],
        ),
        Plant(
            "a comparison with another number",
            "uart_virtual/port.rs",
            "let has_room = chip.receive_room() != 0;",
            "let has_room = chip.receive_room() != 1;",
            [r"port::decide: \d+ of \d+ cases differ", r"sequences of uart_virtual::port::VirtualPortWith\+FIFO_SIZE: \d+ of"],
        ),
        Plant(
            "a guard that is taken away",
            "uart_chip/controlling.rs",
            'fn read_register<P: ChipParts>(parts: &mut P, offset: u8) -> u8 {\n    assert!(offset < 8, "no register has this offset");\n',
            "fn read_register<P: ChipParts>(parts: &mut P, offset: u8) -> u8 {\n",
            [r"LiveChipWith::read: .*a broken contract is not refused"],
            is_read=False,
        ),
    ],
}


def is_wanted(title: str) -> bool:
    """Whether something is to be said of the comparison with this title."""
    heads = [re.sub(r"^\^\w+: \.\*", "", pattern).split(": ")[0] for entries in PLANTED.values() for one in entries for pattern in one.said]
    return any(re.search(head, title) for head in heads)


def every() -> list[Plant]:
    """All that is planted."""
    return [one for entries in PLANTED.values() for one in entries] + OF_INTERFACES
