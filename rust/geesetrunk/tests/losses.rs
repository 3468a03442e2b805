//! Each warning that says that a byte is lost names an access at which the software chip loses one.

use geesetrunk::judging::Audited;
use geesetrunk::kinds::Kind;
use uart_judges::audit::Finding;
use uart_judges::recording::{Entry, Happening};
use uart_live::{Chip, LiveChip, WIRE_ROOM};
use uart_spec::access::Access;
use uart_spec::registers::LSR;
use uart_spec::registers::offsets::{DATA, FCR, IER, LCR, LSR as STATUS, MCR};

// A chip that takes so long for a character that no time passes between two accesses.
struct Slow {
    chip: LiveChip,
    audited: Audited,
}

impl Slow {
    // Returns a chip with FIFOs on, and with a byte on its way: so THR is empty, and every byte that
    // is written from here on waits in it.
    fn new() -> Self {
        let chip = LiveChip::new(Chip::Uart16550A, 1000, WIRE_ROOM).unwrap();
        let mut slow = Slow {
            chip,
            audited: Audited::default(),
        };
        for (offset, value) in [
            (LCR, 0x83),
            (DATA, 0x01),
            (IER, 0x00),
            (LCR, 0x03),
            (FCR, 0x07),
        ] {
            assert_eq!(slow.write(offset, value), [""; 0]);
        }
        slow.write(DATA, b'a');
        slow.chip.ticks(1);
        assert_eq!(slow.look(), LSR::THR_EMPTY);
        assert_eq!(slow.chip.held_len(), 1);
        slow
    }

    // Returns the names of the warnings at an access.
    fn judged(&mut self, access: Access) -> Vec<&'static str> {
        let entry = Entry {
            happening: Happening::Access(access),
            times: 1,
            line: 1,
            time: None,
            interrupt: None,
        };
        let mut names = Vec::new();
        self.audited.step(&entry, |findings, _| {
            let kinds = findings
                .iter()
                .flatten()
                .map(|&finding| Kind::Finding(finding));
            names.extend(
                kinds
                    .filter(|kind| kind.severity() == "warning")
                    .map(|kind| kind.name()),
            );
        });
        names
    }

    fn write(&mut self, offset: usize, value: u8) -> Vec<&'static str> {
        self.chip.write(offset as u8, value);
        self.judged(Access::Write(offset, value))
    }

    fn look(&mut self) -> LSR {
        let answer = self.chip.read(STATUS as u8);
        assert_eq!(self.judged(Access::Read(STATUS, answer)), [""; 0]);
        LSR::from_bits_retain(answer)
    }
}

#[test]
fn a_byte_beyond_the_room_is_dropped() {
    let mut slow = Slow::new();
    for held in 2..=17 {
        assert_eq!(slow.write(DATA, b'a'), [""; 0]);
        assert_eq!(slow.chip.held_len(), held);
    }
    assert_eq!(slow.write(DATA, b'a'), ["sent-beyond-room"]);
    assert_eq!(slow.chip.held_len(), 17);
}

// An empty shift register takes the first byte, so there was room for one more than LSR tells. That is
// why this warning says that the byte may be lost, and not that it is.
#[test]
fn a_seventeenth_byte_can_still_fit() {
    let mut slow = Slow::new();
    slow.chip.ticks(2000);
    let wire = slow.chip.wire().len();
    assert_eq!(slow.look(), LSR::THR_EMPTY | LSR::TRANSMITTER_EMPTY);
    for sent in 1..=17 {
        let names = slow.write(DATA, b'a' + sent);
        assert_eq!(names.contains(&"sent-beyond-room"), sent == 17, "{names:?}");
        slow.chip.ticks(4);
    }
    assert_eq!(slow.chip.held_len(), 17);
    slow.chip.ticks(20_000);
    let sent: Vec<u8> = (1..=17).map(|sent| b'a' + sent).collect();
    assert_eq!(slow.chip.wire()[wire..], sent);
    let finding = Kind::Finding(Finding::SentBeyondRoom { sent: 17, room: 16 });
    assert!(finding.to_string().contains("this byte may be lost"));
}

// So a promise of these warnings has its 'may' too, wherever it is made.
#[test]
fn the_pages_leave_room_for_a_seventeenth_byte() {
    let pages = [
        include_str!("../../../README.md"),
        include_str!("../../../docs/PROVED.md"),
        // The promise stands at its law, and the page of evidence is made of it.
        include_str!("../../../crates/uart_judges_runs/src/laws.rt"),
    ];
    let promises: Vec<&str> = pages
        .into_iter()
        .flat_map(|page| page.split("\n\n").flat_map(promises_or_paragraph))
        .filter(|text| text.contains("an access that loses"))
        .collect();
    assert!(!promises.is_empty());
    for promise in promises {
        assert!(promise.contains("'may'"), "{promise}");
    }
}

// Returns the promises of a source one by one, and a paragraph of a page whole: a sentence may go over lines.
fn promises_or_paragraph(paragraph: &str) -> Vec<&str> {
    match paragraph.split_once("// promise: ") {
        Some((_, promises)) => promises
            .split("// promise: ")
            .filter_map(|promise| promise.split("// with: ").next())
            .collect(),
        None if paragraph.contains("///") => vec![],
        None => vec![paragraph],
    }
}

#[test]
fn a_byte_for_the_divisor_is_not_held() {
    let mut slow = Slow::new();
    slow.write(LCR, 0x83);
    slow.look();
    assert!(slow.write(DATA, 0x41).contains(&"sent-into-divisor"));
    assert_eq!((slow.chip.held_len(), slow.chip.divisor()), (1, 0x41));
}

#[test]
fn an_emptied_transmitter_holds_less() {
    for (fcr, left) in [(0x05, 1), (0x00, 1)] {
        let mut slow = Slow::new();
        slow.write(DATA, b'b');
        assert_eq!(slow.chip.held_len(), 2);
        assert_eq!(slow.write(FCR, fcr), ["transmitter-emptied"]);
        assert_eq!(slow.chip.held_len(), left);
    }
}

#[test]
fn an_emptied_receiver_has_nothing() {
    let mut slow = Slow::new();
    slow.chip.arrive(b'b', LSR::empty()).unwrap();
    assert!(slow.look().contains(LSR::DATA_READY));
    assert_eq!(slow.chip.waiting_len(), 1);
    assert_eq!(slow.write(FCR, 0x03), ["received-discarded"]);
    assert_eq!(slow.chip.waiting_len(), 0);
}

#[test]
fn what_is_sent_in_loopback_does_not_go_out() {
    let mut slow = Slow::new();
    slow.chip.ticks(2000);
    let wire = slow.chip.wire().len();
    slow.write(MCR, 0x1b);
    for sent in 0..3 {
        slow.look();
        let names = slow.write(DATA, b'b');
        assert_eq!(names.contains(&"sent-in-loopback"), sent > 0, "{names:?}");
        slow.chip.ticks(2000);
    }
    assert_eq!(slow.chip.wire().len(), wire);
}
