//! What the laws on sessions ask for, each condition under the name that it has in `crates/uart_run/specs`. So a test that is a witness of
//! a law finds out that what the law asks for holds there: `.ci/terms` compares the names.

use uart_16550::Uart16550;
use uart_calls::Call;
use uart_chip::{Device16550, Event};
use uart_spec::backend::Backend;
use uart_spec::registers::{LCR, MCR, offsets};
use uart_spec::{FifoAction, FifoSize};

/// Where a session begins: a driver over a new chip that has FIFOs of 16, and what is known of that chip and not seen.
pub struct Begin<'a> {
    pub driver: &'a mut Uart16550<Device16550>,
    pub char_ticks: u16,
    pub capacity: usize,
    /// What is to come of the schedule.
    pub ahead: &'a [Event],
}

impl Begin<'_> {
    /// A register of the chip. The look is an access, so a tick may pass.
    fn look(&mut self, offset: usize) -> u8 {
        self.driver
            .backend_mut()
            .read(u8::try_from(offset).unwrap())
    }

    /// DLAB and loopback are off, and the driver takes the FIFO to be on exactly if it is, and for no larger than it is.
    pub fn ready(&mut self) -> bool {
        let line = LCR::from_bits_retain(self.look(offsets::LCR));
        let control = MCR::from_bits_retain(self.look(offsets::MCR));
        !line.contains(LCR::DLAB)
            && !control.contains(MCR::LOOP_BACK)
            && self.driver.backend().fifo_enabled() == self.driver.fifo_enabled()
            && self.bursts_fit()
    }

    /// The driver takes the FIFOs for no larger than they are.
    pub fn bursts_fit(&self) -> bool {
        self.driver.fifo_size() == FifoSize::Sixteen
    }

    /// Each access that the schedule gates has a tick before it.
    pub fn is_ticked(&self) -> bool {
        let mut passed = 0;
        self.ahead.iter().all(|event| {
            let is_late_enough = *event != Event::Access || passed > 0;
            match event {
                Event::Ticks(ticks) => passed += ticks,
                Event::Access | Event::Mark => passed = 0,
                _ => {}
            }
            is_late_enough
        })
    }

    /// So it is, and the limit is long enough for the 17 characters that the transmitter holds.
    pub fn is_timely(&self) -> bool {
        self.is_ticked() && 17 * (u64::from(self.char_ticks) + 1) <= self.driver.spin_limit().get()
    }

    /// The chip does not keep the bit of MCR that turns automatic flow control on.
    fn lacks_flow(&mut self) -> bool {
        let control = self.look(offsets::MCR);
        let asked = control | MCR::AUTO_FLOW.bits();
        let offset = u8::try_from(offsets::MCR).unwrap();
        self.driver.backend_mut().write(offset, asked);
        let is_kept = self.look(offsets::MCR) == asked;
        self.driver.backend_mut().write(offset, control);
        !is_kept
    }

    /// A session may begin, ticks come, the limit is long enough, and the chip has no automatic flow control.
    pub fn is_unhindered(&mut self) -> bool {
        self.ready() && self.is_timely() && self.lacks_flow()
    }

    /// The driver does not check CTS before it sends.
    pub fn is_unchecked(&self) -> bool {
        !self.driver.config().check_cts_before_sending
    }

    /// The wire has room for all that is to be sent, and for so many bytes more.
    pub fn has_room(&self, more: usize) -> bool {
        let chip = self.driver.backend();
        chip.wire().len() + chip.held_len() + more <= self.capacity
    }
}

/// The call goes on with a session that began with a wired machine, as a new one is.
pub fn is_within_session(call: &Call) -> bool {
    match call {
        Call::Init(_)
        | Call::InitWith(..)
        | Call::SetFrame(_)
        | Call::SetFrameWhenIdle(_)
        | Call::Restore(_)
        | Call::TestLoopback => false,
        Call::SetBreak(on) => !on,
        Call::Quiesce(_, fifos) => *fifos == FifoAction::Keep,
        _ => true,
    }
}

/// The call leaves the size of the FIFOs, whatever DLAB is.
pub fn keeps_size(call: &Call) -> bool {
    !matches!(
        call,
        Call::SetTriggerLevel(_) | Call::Quiesce(..) | Call::TestLoopback
    )
}

/// The call leaves whether CTS is checked.
pub fn keeps_checks(call: &Call) -> bool {
    !matches!(call, Call::Init(_) | Call::InitWith(..))
}
