//! The chip under a schedule.

use std::{Vec};

use crate::{ArrivalMark, BuildError, Chip, Event, Uart, arrivals, refusal};
use std::alloc::Global;
use uart_spec::FifoSize;
use uart_spec::backend::Backend;

/// A serial chip in software under a schedule: a [`Uart`], and the events that happen to it. It is
/// a backend of the driver.
///
/// Time passes in ticks. A register access first performs the events up to the next
/// [`Event::Access`], and removes that. If an [`Event::Mark`] or the end of the schedule is before
/// it, the access stops there instead, and one tick passes. Then the access has its effect on the
/// register. The other calls that read the state change nothing, and no tick passes.
///
/// # Examples
///
/// ```text
/// let mut uart = Uart16550::new_with_backend(device::chip_that_receives(rt.alloc(), 0x41)?);
/// uart.init(Config::DEFAULT)?;
/// ```
// All memory is reserved by `new`, so no access, no `next` and no run is refused for memory. That
// `new` succeeds cannot be a clause, since no contract says that there is memory. Tests show it.
pub struct Device16550 {
    uart: Uart,
    schedule: Vec<Event>,
    cursor: usize,
}

impl Device16550 {
    /// Returns a machine after power-on, with the whole schedule ahead.
    ///
    /// A character takes `char_ticks` ticks in the shift register. The wire has room for
    /// `wire_capacity` bytes; if it is full, the transmitter keeps what it holds. Bytes are sent
    /// and received whole, whatever the word length is. All memory is allocated here; no later call
    /// allocates.
    ///
    /// # Errors
    ///
    /// The first of these. Each error drops the schedule.
    ///
    /// - `BadTicks` if `char_ticks` is 0 or more than 1000.
    /// - `BadWire` if `wire_capacity` is more than 65,536.
    /// - `BadErrors`, with the index of the event, for the first arrival with error bits outside of
    ///   0x1c.
    /// - `BadLines`, with the index of the event, for the first change of lines with bits outside
    ///   of 0xf0.
    /// - `OutOfMemory` if memory could not be allocated.
    ///
    /// # Examples
    ///
    /// ```text
    /// let events = [Event::Ticks(10), Event::Arrive { byte, errors: 0 }];
    /// let Ok(schedule) = events.to_vec(alloc) else {
    ///     return Err(BuildError::OutOfMemory);
    /// };
    /// Device16550::new(alloc, Chip::Uart16550A, 4, 64, schedule)
    /// ```
    pub fn new(
        alloc: Global,
        chip: Chip,
        char_ticks: u16,
        wire_capacity: usize,
        schedule: Vec<Event>,
    ) -> Result<Self, BuildError> {
        Self::new_sized(
            alloc,
            chip,
            FifoSize::Sixteen,
            char_ticks,
            wire_capacity,
            schedule,
            false,
        )
    }

    /// Returns a machine as [`Device16550::new`] does, whose chip cuts each character to the word
    /// length of LCR.
    ///
    /// With 5, 6 or 7 data bits the higher bits of a byte are lost when it is written to the
    /// transmitter, and when it arrives. A byte that returns in loopback is not cut again. The
    /// divisor latch is never cut.
    ///
    /// # Errors
    ///
    /// Those of [`Device16550::new`], in the same order.
    ///
    /// # Examples
    ///
    /// ```text
    /// Ok(Device16550::new_cut(rt.alloc(), Chip::Uart16550A, 4, 64, schedule)?)
    /// ```
    pub fn new_cut(
        alloc: Global,
        chip: Chip,
        char_ticks: u16,
        wire_capacity: usize,
        schedule: Vec<Event>,
    ) -> Result<Self, BuildError> {
        Self::new_sized(
            alloc,
            chip,
            FifoSize::Sixteen,
            char_ticks,
            wire_capacity,
            schedule,
            true,
        )
    }

    /// Returns a machine as [`Device16550::new`] does, whose FIFOs have this size, and whose chip
    /// cuts each character to the word length of LCR if `cuts` is set, as that of
    /// [`Device16550::new_cut`] does.
    ///
    /// Both FIFOs have room for as many characters, and the four trigger levels are those of a chip
    /// with FIFOs of this size. A 16450 has no FIFO, so the size changes nothing that it does.
    ///
    /// The size is that from the start, and no access changes it. A chip of
    /// [`Device16550::new_16750`] begins with 16, and a program can switch it to 64.
    ///
    /// # Errors
    ///
    /// Those of [`Device16550::new`], in the same order.
    ///
    /// # Examples
    ///
    /// ```text
    /// Ok(Device16550::new_sized(
    ///     rt.alloc(),
    ///     Chip::Uart16550A,
    ///     FifoSize::SixtyFour,
    ///     4,
    ///     256,
    ///     schedule,
    ///     false,
    /// )?)
    /// ```
    pub fn new_sized(
        alloc: Global,
        chip: Chip,
        size: FifoSize,
        char_ticks: u16,
        wire_capacity: usize,
        schedule: Vec<Event>,
        cuts: bool,
    ) -> Result<Self, BuildError> {
        if let Some(reason) = refusal(char_ticks, wire_capacity, &schedule) {
            return Err(reason);
        }
        let arrivals = arrivals(&schedule);
        let Ok(uart) = Uart::new_sized(alloc, chip, size, char_ticks, wire_capacity, arrivals, cuts)
        else {
            return Err(BuildError::OutOfMemory);
        };
        Ok(Self {
            uart,
            schedule,
            cursor: 0,
        })
    }

    /// Returns a machine as [`Device16550::new`] does, whose chip is a 16750 after power-on, and
    /// cuts each character to the word length of LCR if `cuts` is set, as that of
    /// [`Device16550::new_cut`] does.
    ///
    /// A 16750 is a 16550A with automatic flow control, as [`Device16550::with_auto_flow`] gives
    /// it, and with a switch for the size of its FIFOs. It begins with FIFOs of 16. A write of FCR
    /// that leaves them on, while DLAB is set, makes both 64 with bit 5, and 16 without: that
    /// empties both if their size changes. Without DLAB a write of FCR leaves their size as it is.
    /// While the FIFOs are on, bit 5 of ISR shows whether they hold 64.
    ///
    /// # Errors
    ///
    /// Those of [`Device16550::new`], in the same order.
    ///
    /// # Examples
    ///
    /// ```text
    /// Ok(Device16550::new_16750(rt.alloc(), 4, 256, schedule, false)?)
    /// ```
    // The data sheet of TI's TL16C750 protects bit 5 of FCR by DLAB. That a change of the size
    // empties both FIFOs is assumed, as a change of bit 0 does: a program cannot count on what was
    // in them.
    pub fn new_16750(
        alloc: Global,
        char_ticks: u16,
        wire_capacity: usize,
        schedule: Vec<Event>,
        cuts: bool,
    ) -> Result<Self, BuildError> {
        let size = FifoSize::Sixteen;
        let machine = Self::new_sized(
            alloc,
            Chip::Uart16550A,
            size,
            char_ticks,
            wire_capacity,
            schedule,
            cuts,
        )?;
        Ok(Self {
            uart: machine.uart.into_16750(),
            ..machine
        })
    }

    /// Returns the same machine, whose chip has automatic flow control, as a 16750 and a 16950 have
    /// it.
    ///
    /// MCR then keeps bit 5. While it is set, the transmitter takes no next character while CTS is
    /// off; the one that it shifts out goes on. And with the FIFO on the RTS output is off while as
    /// many characters wait as the trigger level, although MCR has RTS set. No access is needed for
    /// either.
    ///
    /// # Examples
    ///
    /// ```text
    /// let machine = Device16550::new_sized(
    ///     rt.alloc(),
    ///     Chip::Uart16550A,
    ///     FifoSize::SixtyFour,
    ///     4,
    ///     256,
    ///     schedule,
    ///     false,
    /// )?;
    /// Ok(machine.with_auto_flow())
    /// ```
    // A real 16750 sets RTS again only once its FIFO is empty. This chip sets it as soon as fewer
    // characters wait than the trigger level, so that the output needs no memory.
    #[must_use]
    pub fn with_auto_flow(self) -> Self {
        Self {
            uart: self.uart.with_auto_flow(),
            ..self
        }
    }

    /// Returns the bytes that have been sent, in order.
    ///
    /// # Examples
    ///
    /// ```text
    /// assert_eq!(rt; uart.backend().wire(), b"AT\r".as_slice());
    /// ```
    // The contract of this observer, which says that the machine is sound, spares callers a
    // premise.
    #[must_use]
    pub fn wire(&self) -> &[u8] {
        self.uart.transmitter().wire()
    }

    /// Returns the number of bytes in the transmitter, which are still to be sent.
    ///
    /// # Examples
    ///
    /// ```text
    /// assert_eq!(rt; machine.held_len(), 3);
    /// ```
    #[must_use]
    pub fn held_len(&self) -> usize {
        self.uart.transmitter().held_len()
    }

    /// Returns the byte with this index among those that are still to be sent: first the one in the
    /// shift register, then those in the FIFO or THR. `None` if there are fewer.
    ///
    /// # Examples
    ///
    /// ```text
    /// assert_eq!(rt; machine.held_at(0), Some(3));
    /// ```
    #[must_use]
    pub fn held_at(&self, i: usize) -> Option<u8> {
        self.uart.transmitter().held_at(i)
    }

    /// Returns the number of received bytes that have not been read.
    ///
    /// # Examples
    ///
    /// ```text
    /// assert_eq!(rt; uart.backend().waiting_len(), 0);
    /// ```
    #[must_use]
    pub fn waiting_len(&self) -> usize {
        self.uart.receiver().waiting_len()
    }

    /// Returns the received byte with this index, from the front. `None` if there are fewer.
    ///
    /// # Examples
    ///
    /// ```text
    /// assert_eq!(rt; uart.backend().waiting_at(0), Some(0x55));
    /// ```
    #[must_use]
    pub fn waiting_at(&self, i: usize) -> Option<u8> {
        self.uart.receiver().waiting_at(i)
    }

    /// Returns the number of `Arrive` events in the whole schedule.
    ///
    /// # Examples
    ///
    /// ```text
    /// for i in 0..machine.arrivals() {
    ///     match machine.mark(i) {
    ///         Some(mark) => marks.push(mark)?,
    ///         None => unreachable!(),
    ///     }
    /// }
    /// ```
    #[must_use]
    pub fn arrivals(&self) -> usize {
        self.uart.receiver().arrivals()
    }

    /// Returns what became of an arrival. The arrivals of the whole schedule are counted from 0.
    /// `None` if there are fewer.
    ///
    /// # Examples
    ///
    /// ```text
    /// assert_eq!(rt; uart.backend().mark(0), Some(ArrivalMark::Read));
    /// ```
    #[must_use]
    pub fn mark(&self, i: usize) -> Option<ArrivalMark> {
        self.uart.receiver().mark(i)
    }

    /// Returns whether the FIFOs are on. On a 16450 they never are.
    ///
    /// # Examples
    ///
    /// ```text
    /// assert!(rt; machine.fifo_enabled());
    /// ```
    #[must_use]
    pub fn fifo_enabled(&self) -> bool {
        self.uart.fifo()
    }

    /// Returns the divisor in the divisor latch.
    ///
    /// # Examples
    ///
    /// ```text
    /// assert_eq!(rt; uart.backend().divisor(), 12);
    /// ```
    #[must_use]
    pub fn divisor(&self) -> u16 {
        self.uart.divisor()
    }

    /// Returns how many writes to THR found no room, up to `u64::MAX`. The calls of an initialised
    /// driver do not add to it.
    ///
    /// # Examples
    ///
    /// ```text
    /// assert_eq!(rt; uart.backend().overflows(), 0);
    /// ```
    #[must_use]
    pub fn overflows(&self) -> u64 {
        self.uart.transmitter().overflows()
    }

    /// Lets `n` ticks pass outside of the schedule, whose position does not change. Returns the
    /// number of jumps that this took.
    ///
    /// A jump ends at the tick in which a character enters or leaves the shift register, or takes
    /// all ticks that are left. There are at most 18 with FIFOs of 16 characters, whatever `n` is:
    /// none if `n` is 0, and one if `n` is 1.
    ///
    /// # Examples
    ///
    /// ```text
    /// uart.backend_mut().idle(100);
    /// assert_eq!(rt; uart.backend().wire(), b"AT\r".as_slice());
    /// ```
    pub fn idle(&mut self, n: u16) -> usize {
        self.uart.ticks(n)
    }

    // Performs the events before an access.
    fn reach_access(&mut self) {
        while self.cursor < self.schedule.len() {
            match self.schedule[self.cursor] {
                Event::Mark => break,
                Event::Access => {
                    self.cursor += 1;
                    return;
                }
                event => {
                    self.uart.perform(event);
                    self.cursor += 1;
                }
            }
        }
        self.uart.tick();
    }

    /// Performs the events up to the next [`Event::Mark`], and removes that. If there is none,
    /// performs all events that are left. An [`Event::Access`] on the way is skipped.
    ///
    /// # Examples
    ///
    /// ```text
    /// chip.next();
    /// assert_eq!(rt; chip.mark(0), Some(ArrivalMark::Waiting));
    /// ```
    pub fn next(&mut self) {
        while self.cursor < self.schedule.len() {
            match self.schedule[self.cursor] {
                Event::Mark => {
                    self.cursor += 1;
                    return;
                }
                event => {
                    self.uart.perform(event);
                    self.cursor += 1;
                }
            }
        }
    }
}

impl Backend for Device16550 {
    fn read(&mut self, register_offset: u8) -> u8 {
        self.reach_access();
        self.uart.read(register_offset)
    }

    fn write(&mut self, register_offset: u8, value: u8) {
        self.reach_access();
        self.uart.write(register_offset, value);
    }
}
