// A port that is served by interrupts: the handler of the documentation. The tests that drive it alone, and several ports on one line,
// include it.

/// Why a port was not started.
#[derive(Debug)]
pub enum StartError {
    /// The rings could not be made.
    NoRings(RingError),
    /// The device could not be initialised.
    NoDevice(InitError),
}

/// A chip is stuck if this many rounds in a row moved no byte and did not end with `Idle`, and it
/// still shows an interrupt.
///
/// One that works leaves a round unfinished only if interrupts come as fast as they are served, and
/// these rounds are 3,200 interrupts without a pause. At a microsecond for an access they take a
/// tenth of a second, which is how long a broken chip can hold up the computer.
const MAX_UNFINISHED_ROUNDS: u32 = 100;

/// A serial port that is served by interrupts.
pub struct Port<B> {
    ring: Uart16550Ring<B>,
    overruns: u32,
    bad_characters: u32,
}

// Returns a configuration without THR_EMPTY: the rings enable it as long as bytes wait to be sent.
fn config() -> Config {
    let interrupts = IER::DATA_READY
        .union(IER::RECEIVER_LINE_STATUS)
        .union(IER::MODEM_STATUS);
    Config {
        interrupts,
        check_cts_before_sending: true,
        ..Config::DEFAULT
    }
}

impl<B: Backend> Port<B> {
    /// Starts the port. The interrupt is to be masked at the interrupt controller until this has
    /// returned.
    pub fn start(memory: Global, backend: B) -> Result<Self, StartError> {
        let uart = Uart16550::new_with_backend(backend);
        let mut ring = match Uart16550Ring::new(memory, uart, 1024, 256) {
            Ok(ring) => ring,
            Err(refused) => return Err(StartError::NoRings(refused.cause)),
        };
        match ring.inner_mut().init(config()) {
            Ok(()) => Ok(Port {
                ring,
                overruns: 0,
                bad_characters: 0,
            }),
            Err(cause) => Err(StartError::NoDevice(cause)),
        }
    }

    /// Handles an interrupt, once each time the controller calls for it. Does not wait.
    ///
    /// Returns what was handled, or why the chip is stuck: then its interrupts are off until a
    /// `restart` or a `configure`.
    pub fn on_interrupt(&mut self) -> Result<Handled, StuckError> {
        let handled = self
            .ring
            .try_handle(4 * MAX_INTERRUPTS, MAX_UNFINISHED_ROUNDS)?;
        self.look_at_line();
        self.look_at_modem();
        Ok(handled)
    }

    /// Returns why the chip is stuck, or `None` if it is not.
    pub fn stuck(&self) -> Option<StuckError> {
        self.ring.stuck()
    }

    // Counts what was lost or arrived broken.
    fn look_at_line(&mut self) {
        let line = self.ring.take_line();
        if line.contains(LSR::OVERRUN_ERROR) {
            self.overruns = self.overruns.saturating_add(1);
        }
        if line.intersects(LSR::PARITY_ERROR.union(LSR::FRAMING_ERROR)) {
            self.bad_characters = self.bad_characters.saturating_add(1);
        }
    }

    // Sends what waits when CTS came back: the chip has already reported that it is empty.
    fn look_at_modem(&mut self) {
        let modem = self.ring.take_modem();
        if modem.contains(MSR::DELTA_CTS.union(MSR::CTS)) {
            self.ring.resume_transmit();
        }
    }

    /// Starts a port again that is stuck. The interrupt is to be masked meanwhile.
    pub fn restart(&mut self) {
        self.ring.restart(config().interrupts);
    }

    /// Changes the configuration while bytes may wait, and starts a port again that is stuck. The
    /// interrupt is to be masked meanwhile.
    pub fn configure(&mut self, config: Config) -> Result<(), InitError> {
        self.ring.inner_mut().checked_init(config)?;
        // `init` has enabled the interrupts of the configuration, and disabled THR_EMPTY.
        self.ring.restart(IER::empty());
        Ok(())
    }

    /// Sends bytes from the front, and returns how many were accepted. Of a port that is stuck they
    /// wait until it is started again. The interrupt is to be masked meanwhile.
    pub fn write(&mut self, bytes: &[u8]) -> usize {
        self.ring.queue(bytes)
    }

    /// Takes received bytes, and returns how many. The interrupt is to be masked meanwhile.
    pub fn read(&mut self, slots: &mut [u8]) -> usize {
        self.ring.take(slots)
    }
}

/// The handler of a line that several ports share. Returns whether one of them had an interrupt.
pub fn serve_line<B: Backend>(ports: &mut [LinePort<B>]) -> bool {
    handle_ports(ports, 4 * MAX_INTERRUPTS, MAX_UNFINISHED_ROUNDS)
}
