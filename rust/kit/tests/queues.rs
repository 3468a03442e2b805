//! Queues against a model.
#![cfg(feature = "alloc")]

use geesetrunk_kit::HeapCircularBuffer;
use geesetrunk_kit::alloc::Global;
use std::collections::VecDeque;

const STEPS: usize = 2_000;

/// Pseudorandom numbers: xorshift, from a seed that is not 0.
struct Random(u64);

impl Random {
    fn below(&mut self, end: u64) -> u64 {
        self.0 ^= self.0 << 13;
        self.0 ^= self.0 >> 7;
        self.0 ^= self.0 << 17;
        self.0 % end
    }
}

#[test]
fn agrees_with_a_model() {
    for capacity in [0, 1, 2, 3, 16, 100] {
        let mut queue = HeapCircularBuffer::with_capacity(Global::heap(), capacity).unwrap();
        let mut model = VecDeque::new();
        let mut random = Random(0x1655_0000 + capacity as u64);
        for step in 0..STEPS {
            match random.below(8) {
                0..5 => {
                    let lost = if model.len() == capacity {
                        model.pop_front()
                    } else {
                        None
                    };
                    let lost = if capacity == 0 { Some(step) } else { lost };
                    assert_eq!(queue.push_back(step), lost);
                    if capacity > 0 {
                        model.push_back(step);
                    }
                }
                5..7 => assert_eq!(queue.pop_front(), model.pop_front()),
                _ if random.below(20) == 0 => {
                    queue.clear();
                    model.clear();
                }
                _ => {}
            }
            assert!(queue.iter().eq(&model));
            assert_eq!(
                (queue.len(), queue.is_empty(), queue.capacity()),
                (model.len(), model.is_empty(), capacity)
            );
            let index = random.below(capacity as u64 + 2) as usize;
            assert_eq!(queue.get(index), model.get(index));
        }
    }
}

#[test]
fn a_queue_that_no_memory_holds_is_refused() {
    assert!(HeapCircularBuffer::<u8>::with_capacity(Global::heap(), usize::MAX).is_err());
}
