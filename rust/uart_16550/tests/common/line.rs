// A line with one port in two places, over the board, with what examples need around it.
include!(concat!(env!("CARGO_MANIFEST_DIR"), "/tests/common/board.rs"));
include!(concat!(env!("CARGO_MANIFEST_DIR"), "/tests/common/masked.rs"));

static LINE: uart_16550::shared::SharedLine<Masked, board::Registers, 2> =
    uart_16550::shared::SharedLine::new(Masked);

fn handle_interrupt() {
    let _has_served = LINE.handle(4 * uart_16550::ring::MAX_INTERRUPTS, 100);
}

// Starts the port.
#[allow(dead_code)]
fn start() {
    use uart_16550::native::spec::registers::IER;
    use uart_16550::native::{Config, Uart16550};
    let memory = uart_16550::ring::Memory::new(Box::leak(Box::new([0; 1024 + 256])));
    let uart = Uart16550::new_with_backend(board::Registers);
    let started = LINE.start(0, memory.global(), uart, 1024, 256);
    started.unwrap();
    let interrupts = IER::DATA_READY | IER::RECEIVER_LINE_STATUS;
    let config = Config {
        interrupts,
        ..Config::DEFAULT
    };
    LINE.with_port(0, |ring| ring.inner_mut().init(config)).unwrap().unwrap();
}
