//! Counters, output that drops, and triggers and events of others.

#![allow(
    clippy::arc_with_non_send_sync,
    reason = "whether an `Arc` passes events on is tried in one thread"
)]

use std::cell::{Cell, RefCell};
use std::convert::Infallible;
use std::rc::Rc;
use std::sync::Arc;
use uart_16550_chip::registers::LSR;
use uart_16550_chip::{Output, Serial, SerialEvents, Trigger, each_serial_event};
use uart_16550_vmm::{Both, Counters, Counts, Lossy, TriggerBy};

/// A host that takes so many bytes, or fails.
struct Host(Result<usize, &'static str>);

impl Output for Host {
    type Error = &'static str;

    fn write_bytes(&mut self, bytes: &[u8]) -> Result<usize, &'static str> {
        let taken = self.0?.min(bytes.len());
        self.0 = Ok(self.0? - taken);
        Ok(taken)
    }
}

/// Notes the name of each event.
#[derive(Clone, Default)]
struct Names(Rc<RefCell<Vec<String>>>);

impl Names {
    fn note(&self, name: &str) {
        self.0.borrow_mut().push(name.into());
    }
}

/// Each event of the trait: its name, and how it is told. A list by hand would lack what another one lacks.
macro_rules! each_is_noted {
    ($($(#[$doc:meta])* fn $event:ident($($argument:ident: $Type:ty)?) $body:tt)*) => {
        impl SerialEvents for Names {
            $(
                fn $event(&self $(, $argument: $Type)?) {
                    $(let _ = $argument;)?
                    self.note(stringify!($event));
                }
            )*
        }

        const ALL: &[&str] = &[$(stringify!($event)),*];

        /// Tells each event once.
        fn tell_all(events: &impl SerialEvents) {
            $(
                $(let $argument = <$Type>::default();)?
                events.$event($($argument)?);
            )*
        }
    };
}

each_serial_event!(each_is_noted);

#[test]
fn each_event_is_told_to_both() {
    let (one, other) = (Names::default(), Names::default());
    tell_all(&Both(one.clone(), other.clone()));
    assert_eq!(*one.0.borrow(), ALL);
    assert_eq!(*other.0.borrow(), ALL);
    let shared = Names::default();
    tell_all(&Arc::new(shared.clone()));
    assert_eq!(*shared.0.borrow(), ALL);
}

/// The counts that are not 0, with their names.
fn named(counts: Counts) -> Vec<(&'static str, u64)> {
    [
        ("reads", counts.reads),
        ("out_bytes", counts.out_bytes),
        ("lost_bytes", counts.lost_bytes),
        ("rooms", counts.rooms),
        ("held", counts.held),
        ("breaks", counts.breaks),
        ("output_changes", counts.output_changes),
        ("setting_changes", counts.setting_changes),
        ("overflows", counts.overflows),
        ("overruns", counts.overruns),
        ("timeouts", counts.timeouts),
        ("triggers", counts.triggers),
        ("failed_triggers", counts.failed_triggers),
    ]
    .into_iter()
    .filter(|(_, count)| *count != 0)
    .collect()
}

/// A break is told as it begins and as it ends.
#[test]
fn what_an_event_says_is_passed_on() {
    #[derive(Clone, Default)]
    struct Breaks(Rc<RefCell<Vec<bool>>>);

    impl SerialEvents for Breaks {
        fn buffer_read(&self) {}
        fn out_byte(&self) {}
        fn tx_lost_byte(&self) {}
        fn in_buffer_empty(&self) {}
        fn out_break(&self, begins: bool) {
            self.0.borrow_mut().push(begins);
        }
    }

    let (one, other) = (Breaks::default(), Breaks::default());
    let both = Arc::new(Both(one.clone(), other.clone()));
    both.out_break(true);
    both.out_break(false);
    assert_eq!(*one.0.borrow(), [true, false]);
    assert_eq!(*other.0.borrow(), [true, false]);
}

#[test]
fn each_event_has_its_count() {
    for (tell, name) in [
        (
            (|counters| counters.buffer_read()) as fn(&Counters),
            "reads",
        ),
        (|counters| counters.out_byte(), "out_bytes"),
        (|counters| counters.tx_lost_byte(), "lost_bytes"),
        (|counters| counters.in_buffer_empty(), "rooms"),
        (|counters| counters.tx_held(), "held"),
        (|counters| counters.out_break(true), "breaks"),
        (|counters| counters.tx_overflow(), "overflows"),
        (|counters| counters.rx_overrun(), "overruns"),
        (|counters| counters.timeout_to_come(), "timeouts"),
        (|counters| counters.triggered(), "triggers"),
        (|counters| counters.trigger_failed(), "failed_triggers"),
    ] {
        let counters = Counters::default();
        tell(&counters);
        tell(&counters);
        assert_eq!(named(counters.counts()), [(name, 2)]);
    }
    let counters = Counters::default();
    counters.out_break(false);
    assert_eq!(counters.counts(), Counts::default());
}

#[test]
fn a_device_is_counted() {
    let is_broken = Cell::new(false);
    let trigger = TriggerBy(|| if is_broken.get() { Err(()) } else { Ok(()) });
    let counters = Arc::new(Counters::default());
    let mut serial = Serial::with_events(trigger, Arc::clone(&counters), Host(Ok(2)));
    serial.write(1, 0x01).unwrap();
    for byte in b"abc" {
        serial.write(0, *byte).unwrap();
    }
    serial.enqueue_raw_bytes(b"x").unwrap();
    serial.enqueue_with_errors(b'y', LSR::empty()).unwrap();
    serial.read(0);
    is_broken.set(true);
    assert!(serial.enqueue_raw_bytes(b"z").is_err());
    let wanted = [
        ("reads", 1),
        ("out_bytes", 2),
        ("rooms", 1),
        ("held", 1),
        ("overruns", 1),
    ];
    let found = named(counters.counts());
    assert_eq!(found[..5], wanted);
    assert_eq!(found[6], ("failed_triggers", 1));
}

/// With a host that stops, a guest that prints goes on, and what it printed is counted.
#[test]
fn lossy_output_holds_no_guest_back() {
    let trigger = TriggerBy(|| Ok::<(), Infallible>(()));
    let counters = Arc::new(Counters::default());
    let output = Lossy::new(Host(Ok(10)));
    let mut serial = Serial::with_events(trigger, Arc::clone(&counters), output);
    for byte in 0..=255 {
        assert_eq!(serial.read(5), 0x60);
        serial.write(0, byte).unwrap();
    }
    assert_eq!((serial.writer().dropped(), serial.output().len()), (246, 0));
    assert_eq!(named(counters.counts()), [("out_bytes", 256)]);
    // The host goes on, and so does its output.
    serial.writer_mut().get_mut().0 = Ok(1);
    serial.write(0, b'x').unwrap();
    assert_eq!(serial.writer().dropped(), 246);
    assert_eq!(serial.writer().get_ref().0, Ok(0));
    // An output that fails has lost its bytes, and dropped none.
    serial.writer_mut().get_mut().0 = Err("gone");
    assert!(serial.write(0, b'x').is_err());
    assert_eq!(serial.writer().dropped(), 246);
    assert_eq!(counters.counts().lost_bytes, 1);
    assert!(serial.into_parts().2.into_inner().0.is_err());
}

/// An output that says that it took more than there was has taken all.
#[test]
fn an_output_that_lies_drops_nothing() {
    struct Liar;

    impl Output for Liar {
        type Error = Infallible;

        fn write_bytes(&mut self, bytes: &[u8]) -> Result<usize, Infallible> {
            Ok(bytes.len() + 1)
        }
    }

    let mut output = Lossy::new(Liar);
    assert_eq!(output.write_bytes(b"abc"), Ok(3));
    assert_eq!(output.dropped(), 0);
}

/// Without that, the same host holds the guest back.
#[test]
fn a_stopped_host_holds_a_guest_back() {
    let trigger = TriggerBy(|| Ok::<(), Infallible>(()));
    let mut serial = Serial::new(trigger, Host(Ok(0)));
    let mut printed = 0;
    while serial.read(5) & 0x20 != 0 && printed < 1_000 {
        serial.write(0, b'x').unwrap();
        printed += 1;
    }
    // 64 bytes in the output, one in the shift register, and one in THR, since the FIFO is off.
    assert_eq!(printed, 66);
    assert_eq!(serial.overflows(), 0);
    serial.write(0, b'x').unwrap();
    assert_eq!(serial.overflows(), 1);
}

#[test]
fn a_function_is_a_trigger() {
    let results = RefCell::new(vec![Err("no"), Ok(())]);
    let trigger = TriggerBy(|| results.borrow_mut().pop().unwrap());
    assert_eq!((trigger.trigger(), trigger.trigger()), (Ok(()), Err("no")));
}

#[cfg(feature = "vm-superio")]
mod with_vm_superio {
    use super::*;
    use uart_16550_vmm::FromSuperio;

    /// A trigger that is written for vm-superio.
    #[derive(Default)]
    struct Theirs(Cell<u32>);

    impl vm_superio::Trigger for Theirs {
        type E = Infallible;

        fn trigger(&self) -> Result<(), Infallible> {
            self.0.set(self.0.get() + 1);
            Ok(())
        }
    }

    struct TheirEvents(Names);

    impl vm_superio::serial::SerialEvents for TheirEvents {
        fn buffer_read(&self) {
            self.0.buffer_read();
        }
        fn out_byte(&self) {
            self.0.out_byte();
        }
        fn tx_lost_byte(&self) {
            self.0.tx_lost_byte();
        }
        fn in_buffer_empty(&self) {
            self.0.in_buffer_empty();
        }
    }

    #[test]
    fn theirs_are_taken_as_they_are() {
        let names = Names::default();
        let events = FromSuperio(TheirEvents(names.clone()));
        tell_all(&events);
        assert_eq!(*names.0.borrow(), ALL[..4]);
        let trigger = FromSuperio(Theirs::default());
        let mut serial = Serial::with_events(trigger, events, Vec::new());
        serial.write(1, 0x01).unwrap();
        serial.enqueue_raw_bytes(b"x").unwrap();
        assert_eq!(serial.interrupt_evt().0.0.get(), 1);
    }
}

#[cfg(feature = "serde")]
mod with_serde {
    use super::*;
    use serde::ser::SerializeStruct;
    use serde::{Serialize, Serializer};

    /// A format whose text is the names and numbers.
    struct ToList(Vec<(&'static str, u64)>);

    struct ToNumber;

    enum Never {}

    impl SerializeStruct for Never {
        type Ok = u64;
        type Error = Infallible;

        fn serialize_field<T: Serialize + ?Sized>(
            &mut self,
            _name: &'static str,
            _field: &T,
        ) -> Result<(), Infallible> {
            match *self {}
        }

        fn end(self) -> Result<u64, Infallible> {
            match self {}
        }
    }

    impl Serializer for ToNumber {
        type Ok = u64;
        type Error = Infallible;
        type SerializeStruct = Never;

        fn serialize_bytes(self, _bytes: &[u8]) -> Result<u64, Infallible> {
            unreachable!()
        }

        fn serialize_u64(self, number: u64) -> Result<u64, Infallible> {
            Ok(number)
        }

        fn serialize_struct(self, _: &'static str, _: usize) -> Result<Never, Infallible> {
            unreachable!()
        }
    }

    impl SerializeStruct for ToList {
        type Ok = Vec<(&'static str, u64)>;
        type Error = Infallible;

        fn serialize_field<T: Serialize + ?Sized>(
            &mut self,
            name: &'static str,
            field: &T,
        ) -> Result<(), Infallible> {
            self.0.push((name, field.serialize(ToNumber)?));
            Ok(())
        }

        fn end(self) -> Result<Self::Ok, Infallible> {
            Ok(self.0)
        }
    }

    impl Serializer for ToList {
        type Ok = Vec<(&'static str, u64)>;
        type Error = Infallible;
        type SerializeStruct = ToList;

        fn serialize_bytes(self, _bytes: &[u8]) -> Result<Self::Ok, Infallible> {
            unreachable!()
        }

        fn serialize_u64(self, _number: u64) -> Result<Self::Ok, Infallible> {
            unreachable!()
        }

        fn serialize_struct(self, name: &'static str, len: usize) -> Result<Self, Infallible> {
            assert_eq!((name, len), ("Counts", 13));
            Ok(self)
        }
    }

    #[test]
    fn counts_are_serialized_by_name() {
        let counters = Counters::default();
        tell_all(&counters);
        // A break counts as it begins, and the default of each event is told: its end.
        counters.out_break(true);
        counters.triggered();
        let Ok(list) = counters.counts().serialize(ToList(Vec::new()));
        assert_eq!(list.len(), 13);
        assert_eq!(list, named(counters.counts()));
    }
}
