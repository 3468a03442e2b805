//! How a chip is, as JSON: what each register would show, without the effect of a read.

use std::fmt;
use uart_chip::{Character, Latches, Shifting};

/// How a chip is.
pub struct State {
    /// The registers that keep what is written to them.
    pub latches: Latches,
    /// What a read of ISR would show.
    pub isr: u8,
    /// What a read of LSR would show.
    pub lsr: u8,
    /// What a read of MSR would show.
    pub msr: u8,
    /// Whether the FIFOs are on.
    pub has_fifo_on: bool,
    /// How many characters each FIFO has room for.
    pub size: usize,
    /// With how many characters an interrupt comes.
    pub trigger: u8,
    /// The bytes that wait to be sent.
    pub held: Vec<u8>,
    /// What is in the shift register.
    pub shifting: Option<Shifting>,
    /// The characters that wait to be read.
    pub waiting: Vec<Character>,
    /// Whether the interrupt line is up.
    pub is_interrupting: bool,
    /// Whether the chip asks the other end to send, by its output RTS.
    pub asks: bool,
    /// How many bytes were written while there was no room.
    pub overflows: u64,
}

impl fmt::Display for State {
    fn fmt(&self, f: &mut fmt::Formatter<'_>) -> fmt::Result {
        let held: String = self.held.iter().map(|byte| format!("{byte:02x}")).collect();
        let shifting = self.shifting.map_or("null".into(), |shifting| {
            format!("[{},{}]", shifting.byte, shifting.ticks_left)
        });
        let waiting: Vec<_> = self
            .waiting
            .iter()
            .map(|character| format!("[{},{}]", character.byte, character.errors))
            .collect();
        let latches = &self.latches;
        write!(
            f,
            "{{\"ier\":{},\"isr\":{},\"lcr\":{},\"mcr\":{},\"lsr\":{},\"msr\":{},\"dll\":{},\"dlm\":{},\
             \"fifo\":{},\"size\":{},\"trigger\":{},\"held\":\"{held}\",\"shifting\":{shifting},\"waiting\":[{}],\
             \"irq\":{},\"asks\":{},\"overflows\":{}}}",
            latches.ier.bits(),
            self.isr,
            latches.lcr.bits(),
            latches.mcr.bits(),
            self.lsr,
            self.msr,
            latches.dll,
            latches.dlm,
            self.has_fifo_on,
            self.size,
            self.trigger,
            waiting.join(","),
            self.is_interrupting,
            self.asks,
            self.overflows,
        )
    }
}
