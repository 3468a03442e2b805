//! Where an overrun stands in `receive_with_errors`, over random schedules of a 16550A: right behind the 15th or the 16th byte from the one
//! that it is shown with, a character is lost.

use geesetrunk_kit::alloc::Global;
use proved_uart_run::run;
use uart_16550::{Uart16550, Uart16550Tty};
use uart_calls::{Answer, Call};
use uart_chip::{ArrivalMark, Chip, Device16550, Event};
use uart_spec::Config;
use uart_spec::registers::{FifoTriggerLevel, LSR};

/// The characters that arrive in a run: each has its number as its byte.
const ARRIVALS: u8 = 200;

/// Numbers that look random, the same in each run of the test.
struct Random(u64);

impl Random {
    fn below(&mut self, bound: u64) -> u64 {
        self.0 = self
            .0
            .wrapping_mul(6_364_136_223_846_793_005)
            .wrapping_add(1_442_695_040_888_963_407);
        (self.0 >> 33) % bound
    }
}

/// A schedule that begins after an `init`: accesses between which characters arrive, more of them or fewer.
fn schedule(random: &mut Random) -> Vec<Event> {
    let mut events = vec![Event::Mark];
    let density = 2 + random.below(6);
    for byte in 0..ARRIVALS {
        for _ in 0..random.below(density) {
            events.push(Event::Access);
        }
        events.push(Event::Arrive { byte, errors: 0 });
    }
    events
}

fn made(uart: &mut Uart16550Tty<Device16550>, call: Call) -> Answer {
    let mut answers = [Answer::Done];
    run(uart, &[call], &mut answers);
    let [answer] = answers;
    answer
}

/// Whether a character was lost right behind this many of these, which are told by their numbers.
fn is_lost_behind(device: &Device16550, count: usize, characters: &[u8]) -> bool {
    if characters.len() < count {
        return false;
    }
    let (older, younger) = characters.split_at(count);
    (0..ARRIVALS).any(|lost| {
        device.mark(usize::from(lost)) == Some(ArrivalMark::Dropped)
            && older.iter().all(|&number| number < lost)
            && younger.iter().all(|&number| lost < number)
    })
}

#[test]
fn an_overrun_comes_before_the_loss() {
    let mut random = Random(1);
    let mut behind_15 = 0;
    let mut behind_16 = 0;
    for _ in 0..400 {
        let events = schedule(&mut random).into();
        let device = Device16550::new(Global::heap(), Chip::Uart16550A, 4, 64, events).unwrap();
        let mut uart = Uart16550Tty::from_inner(Uart16550::new_with_backend(device));
        let config = Config {
            fifo_trigger_level: Some(FifoTriggerLevel::One),
            ..Config::DEFAULT
        };
        assert_eq!(made(&mut uart, Call::Init(config)), Answer::Done);
        made(&mut uart, Call::Next);
        for _ in 0..40 {
            if random.below(4) == 0 {
                made(&mut uart, Call::Msr);
            }
            let slots = random.below(20) as usize;
            let Answer::BytesWithErrors(items) = made(&mut uart, Call::ReceiveWithErrors(slots))
            else {
                panic!("bytes with their errors");
            };
            let device = uart.inner().backend();
            let received = items.as_slice();
            let waiting = (0..device.waiting_len()).filter_map(|i| device.waiting_at(i));
            let characters: Vec<u8> = received
                .iter()
                .map(|item| item.byte)
                .chain(waiting)
                .collect();
            for (place, item) in received.iter().enumerate() {
                if item.errors.contains(LSR::OVERRUN_ERROR) {
                    let few = is_lost_behind(device, 15, &characters[place..]);
                    let all = is_lost_behind(device, 16, &characters[place..]);
                    assert!(few || all, "{place} of {characters:?}");
                    behind_15 += usize::from(few);
                    behind_16 += usize::from(all);
                }
            }
        }
    }
    // Both happen, and often.
    assert!(behind_15 > 100, "{behind_15}");
    assert!(behind_16 > 100, "{behind_16}");
}
