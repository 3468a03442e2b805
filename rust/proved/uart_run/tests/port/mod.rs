//! The port that driver and chip are said to be, beside a chip: it takes each step by its own rules, and is never told what the chip did.

/// A serial port as a program sees it: `Port` of `uart_chip`.
#[derive(Clone, Debug, PartialEq)]
pub struct Port {
    pub out: Vec<u8>,
    pub waiting: Vec<u8>,
    pub lost: bool,
    pub fifo: bool,
    pub room: usize,
}

/// What happens to a port. Whether a byte that comes is lost, and which, the port decides.
#[derive(Clone, Copy)]
pub enum Step {
    Sends(u8),
    Receives(u8),
    Comes(u8),
    Tells(bool),
}

/// What a port does otherwise than it should, to see that this is found.
#[derive(Clone, Copy, Debug, PartialEq)]
pub enum Wrong {
    KeepsTheOld,
    ReplacesWithFifo,
    LosesSilently,
    GoesOnTelling,
    ForgetsWhatIsSaved,
    HasRoomForOneMore,
    CutsNothing,
    OutlivesSessions,
}

impl Wrong {
    pub const ALL: [Self; 8] = [
        Self::KeepsTheOld,
        Self::ReplacesWithFifo,
        Self::LosesSilently,
        Self::GoesOnTelling,
        Self::ForgetsWhatIsSaved,
        Self::HasRoomForOneMore,
        Self::CutsNothing,
        Self::OutlivesSessions,
    ];
}

/// A port that runs beside a chip.
pub struct Beside {
    port: Port,
    wrong: Option<Wrong>,
    /// What was received since the port was last compared.
    received: Vec<u8>,
}

impl Beside {
    pub fn new(port: Port, wrong: Option<Wrong>) -> Self {
        Self {
            port,
            wrong,
            received: Vec::new(),
        }
    }

    /// Whether a loss was not told.
    pub fn has_lost(&self) -> bool {
        self.port.lost
    }

    /// Takes a step, and returns whether it may: a byte that is received is the front of what waits, and what is told is so.
    pub fn takes(&mut self, step: Step) -> bool {
        let port = &mut self.port;
        match step {
            Step::Sends(byte) => port.out.push(byte),
            Step::Receives(byte) => {
                if port.waiting.first() != Some(&byte) {
                    return false;
                }
                port.waiting.remove(0);
                self.received.push(byte);
            }
            Step::Comes(byte) => self.comes(byte),
            Step::Tells(overrun) => {
                let is_so = overrun == port.lost;
                port.lost &= self.wrong == Some(Wrong::GoesOnTelling);
                return is_so;
            }
        }
        true
    }

    fn comes(&mut self, byte: u8) {
        let port = &mut self.port;
        let more = usize::from(self.wrong == Some(Wrong::HasRoomForOneMore));
        if port.waiting.len() < port.room + more {
            port.waiting.push(byte);
            return;
        }
        let replaces = if port.fifo {
            self.wrong == Some(Wrong::ReplacesWithFifo)
        } else {
            self.wrong != Some(Wrong::KeepsTheOld)
        };
        if replaces {
            port.waiting.pop();
            port.waiting.push(byte);
        }
        port.lost |= self.wrong != Some(Wrong::LosesSilently);
    }

    /// Whether the port is the one that a state is, behind a call that received this.
    pub fn is(&mut self, state: &Port, received: &[u8]) -> bool {
        let is_received = self.received == received;
        self.received.clear();
        is_received && self.port == *state
    }
}
