// The section of a kernel with one processor, over the board. Included behind board.rs.
use uart_16550::shared::CriticalSection;

struct Masked;

impl CriticalSection for Masked {
    fn run<R>(&self, call: impl FnOnce() -> R) -> R {
        let were_masked = board::mask_interrupts();
        let result = call();
        board::restore_interrupts(were_masked);
        result
    }
}
