// A port that is shared, over the board, with what examples need around it.
include!(concat!(env!("CARGO_MANIFEST_DIR"), "/tests/common/board.rs"));
include!(concat!(env!("CARGO_MANIFEST_DIR"), "/tests/common/masked.rs"));

#[allow(dead_code)]
static PORT: uart_16550::shared::Shared<Masked, board::Registers> =
    uart_16550::shared::Shared::new(Masked);

fn handle_interrupt() {
    let _handled = PORT.try_handle(4 * uart_16550::ring::MAX_INTERRUPTS, 100);
}

// Starts the port.
#[allow(dead_code)]
fn start() {
    use uart_16550::native::spec::registers::IER;
    use uart_16550::native::{Config, Uart16550};
    let memory = uart_16550::ring::Memory::new(Box::leak(Box::new([0; 1024 + 256])));
    let uart = Uart16550::new_with_backend(board::Registers);
    let started = PORT.start(memory.global(), uart, 1024, 256);
    started.unwrap();
    let interrupts = IER::DATA_READY | IER::RECEIVER_LINE_STATUS;
    let config = Config {
        interrupts,
        ..Config::DEFAULT
    };
    PORT.with(|ring| ring.inner_mut().init(config)).unwrap().unwrap();
}

/// A thread that waits so many times.
#[allow(dead_code)]
struct Turns(u32);

impl uart_16550::shared::Wait for Turns {
    fn wait(&mut self, _is_there: impl FnMut() -> bool) -> bool {
        self.0 = self.0.saturating_sub(1);
        self.0 > 0
    }
}

// An executor of one task. The board's interrupts come within its accesses, so it has nothing to sleep for.
#[allow(dead_code)]
fn block_on<F: Future>(task: F) -> F::Output {
    use std::task::{Context, Poll, Waker};
    let mut task = std::pin::pin!(task);
    let mut context = Context::from_waker(Waker::noop());
    for _turn in 0..1_000_000 {
        if let Poll::Ready(output) = task.as_mut().poll(&mut context) {
            return output;
        }
    }
    panic!("the task did not end")
}
