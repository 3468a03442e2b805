//! Output at no more than a rate.

use std::cell::Cell;
use std::convert::Infallible;
use std::time::{Duration, Instant};
use uart_16550_chip::{Output, Serial};
use uart_16550_vmm::{Limited, Lossy, TriggerBy};

const MILLISECOND: Duration = Duration::from_millis(1);

/// A clock that the test moves.
struct Clock(Cell<Instant>);

impl Clock {
    fn new() -> Self {
        Clock(Cell::new(Instant::now()))
    }

    fn pass(&self, time: Duration) {
        self.0.set(self.0.get() + time);
    }
}

fn limited(
    clock: &Clock,
    rate: u32,
    burst: usize,
) -> Limited<Vec<u8>, impl FnMut() -> Instant + '_> {
    let (rate, burst) = (rate.try_into().unwrap(), burst.try_into().unwrap());
    Limited::with_clock(Vec::new(), rate, burst, || clock.0.get())
}

#[test]
fn no_more_is_taken_than_the_rate_allows() {
    let clock = Clock::new();
    let mut output = limited(&clock, 1000, 10);
    assert_eq!(output.wait(), Duration::ZERO);
    assert_eq!(output.write_bytes(&[1; 64]).unwrap(), 10);
    assert_eq!(output.wait(), MILLISECOND);
    assert_eq!(output.write_bytes(&[2; 64]).unwrap(), 0);
    clock.pass(MILLISECOND / 2);
    assert_eq!(output.write_bytes(&[2; 64]).unwrap(), 0);
    assert_eq!(output.wait(), MILLISECOND / 2);
    clock.pass(MILLISECOND * 5 / 2);
    assert_eq!(output.write_bytes(&[3; 64]).unwrap(), 3);
    // What is left of a pause is no more than a burst.
    clock.pass(Duration::from_secs(3600));
    assert_eq!(output.write_bytes(&[4; 4]).unwrap(), 4);
    assert_eq!(output.wait(), Duration::ZERO);
    assert_eq!(output.write_bytes(&[4; 64]).unwrap(), 6);
    assert_eq!(output.get_ref().len(), 23);
    output.get_mut().clear();
    assert_eq!(output.into_inner(), []);
}

/// Over a time it takes as many as the rate says, however the time is cut.
#[test]
fn the_rate_is_exact() {
    for steps in [1, 7, 1000, 99_991] {
        let clock = Clock::new();
        let mut output = limited(&clock, 115_200, 200_000);
        assert_eq!(output.write_bytes(&[0; 200_000]).unwrap(), 200_000);
        let step = 1_000_000_000 / steps;
        for _ in 0..steps {
            clock.pass(Duration::from_nanos(step));
            output.write_bytes(&[0; 200_000]).unwrap();
        }
        clock.pass(Duration::from_nanos(1_000_000_000 - step * steps));
        output.write_bytes(&[0; 200_000]).unwrap();
        assert_eq!(output.get_ref().len(), 315_200, "{steps} steps");
    }
}

/// A host that takes a part, or fails, uses up what it took.
#[test]
fn what_the_host_does_not_take_is_not_counted() {
    struct Half(bool);

    impl Output for Half {
        type Error = ();

        fn write_bytes(&mut self, bytes: &[u8]) -> Result<usize, ()> {
            if self.0 { Err(()) } else { Ok(bytes.len() / 2) }
        }
    }

    let clock = Clock::new();
    let mut output = Limited::with_clock(
        Half(false),
        1.try_into().unwrap(),
        8.try_into().unwrap(),
        || clock.0.get(),
    );
    assert_eq!(output.write_bytes(&[0; 64]), Ok(4));
    assert_eq!(output.write_bytes(&[0; 64]), Ok(2));
    output.get_mut().0 = true;
    assert_eq!(output.write_bytes(&[0; 64]), Err(()));
    output.get_mut().0 = false;
    assert_eq!(output.write_bytes(&[0; 64]), Ok(1));
}

#[test]
fn a_guest_is_held_back_and_nothing_is_lost() {
    let clock = Clock::new();
    let trigger = TriggerBy(|| Ok::<(), Infallible>(()));
    let mut serial = Serial::new(trigger, limited(&clock, 1000, 16));
    let text: Vec<u8> = (0..=255).collect();
    for byte in &text {
        // The guest looks whether THR is empty, as it would at a slow line.
        while serial.read(5) & 0x20 == 0 {
            clock.pass(serial.writer().wait().max(MILLISECOND));
            serial.write_output().unwrap();
        }
        serial.write(0, *byte).unwrap();
    }
    while !serial.output().is_empty() {
        clock.pass(MILLISECOND);
        serial.write_output().unwrap();
    }
    assert_eq!(serial.writer().get_ref(), &text);
    assert_eq!(serial.overflows(), 0);
}

#[test]
fn in_a_lossy_output_what_is_above_the_rate_is_dropped() {
    let clock = Clock::new();
    let trigger = TriggerBy(|| Ok::<(), Infallible>(()));
    let mut serial = Serial::new(trigger, Lossy::new(limited(&clock, 1000, 16)));
    for byte in 0..100 {
        assert_eq!(serial.read(5), 0x60);
        serial.write(0, byte).unwrap();
    }
    assert_eq!(serial.writer().dropped(), 84);
}

#[test]
fn a_clock_that_goes_back_gives_nothing() {
    let clock = Clock::new();
    clock.pass(Duration::from_secs(10));
    let mut output = limited(&clock, 1, 1);
    assert_eq!(output.write_bytes(&[0; 2]).unwrap(), 1);
    clock.0.set(clock.0.get() - Duration::from_secs(5));
    assert_eq!(output.write_bytes(&[0; 2]).unwrap(), 0);
    clock.pass(Duration::from_millis(999));
    assert_eq!(output.write_bytes(&[0; 2]).unwrap(), 0);
    clock.pass(MILLISECOND);
    assert_eq!(output.write_bytes(&[0; 2]).unwrap(), 1);
}
