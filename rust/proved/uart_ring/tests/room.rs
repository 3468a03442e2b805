//! The receive ring has room for a whole FIFO as long as no more than the rest have come since `take` last emptied it.

use geesetrunk_kit_of_rings::alloc::Global;
use proved_uart_ring::{HandleEnd, Uart16550Ring};
use uart_16550::Uart16550;
use uart_16550::backend::Backend;
use uart_live::{Chip, LiveChipWith, WIRE_ROOM};
use uart_spec::Config;
use uart_spec::registers::{IER, LSR};

const FIFO: usize = 16;
const CAPACITY: usize = 40;

/// The registers of a chip.
struct Registers(LiveChipWith<FIFO>);

impl Backend for Registers {
    fn read(&mut self, register_offset: u8) -> u8 {
        self.0.read(register_offset)
    }

    fn write(&mut self, register_offset: u8, value: u8) {
        self.0.write(register_offset, value);
    }
}

#[test]
fn a_ring_that_is_emptied_in_time_has_room_for_a_whole_fifo() {
    let chip = LiveChipWith::<FIFO>::new(Chip::Uart16550A, 4, WIRE_ROOM).expect("in range");
    let mut uart = Uart16550::new_with_backend(Registers(chip));
    let config = Config {
        interrupts: IER::DATA_READY,
        ..Config::DEFAULT
    };
    assert_eq!(uart.init(config), Ok(()));
    let Ok(mut ring) = Uart16550Ring::new(Global::heap(), uart, 16, CAPACITY) else {
        panic!("no memory");
    };
    for _ in 0..3 {
        // Nothing is to be taken, in the ring or in the chip, and then so many characters come.
        for came in 1..=CAPACITY {
            let chip = &mut ring.inner_mut().backend_mut().0;
            assert!(chip.arrive(0x55, LSR::empty()).is_ok());
            chip.ticks(200);
            assert_eq!(ring.handle(32).end, HandleEnd::Idle);
            let free = CAPACITY - ring.receive_len();
            assert_eq!(free >= FIFO, came + FIFO <= CAPACITY, "{came} have come");
        }
        assert_eq!(ring.take(&mut [0; CAPACITY]), CAPACITY);
        assert_eq!(ring.handle(32).end, HandleEnd::Idle);
    }
}
