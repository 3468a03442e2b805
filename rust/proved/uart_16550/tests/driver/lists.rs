//! Lists of accesses, as they are recorded, and as tables write them.

use std::iter::repeat_n;
pub use uart_spec::access::Access;
use uart_spec::registers::offsets;

/// A list of accesses, and what its reads returned.
#[derive(Clone, Debug, Default, PartialEq)]
pub struct Accesses {
    entries: Vec<Access>,
    answers: Vec<u8>,
}

impl Accesses {
    /// Appends an access.
    pub fn push(&mut self, access: Access) {
        if let Access::Read(_, answer) = access {
            self.answers.push(answer);
        }
        self.entries.push(access);
    }

    /// Returns the accesses.
    pub fn entries(&self) -> &[Access] {
        &self.entries
    }

    /// Returns the number of accesses.
    pub fn count(&self) -> usize {
        self.entries.len()
    }

    /// Returns what the reads returned, in turn.
    pub fn answers(&self) -> &[u8] {
        &self.answers
    }

    /// Appends these accesses.
    fn with(mut self, accesses: impl IntoIterator<Item = Access>) -> Self {
        accesses.into_iter().for_each(|access| self.push(access));
        self
    }

    /// Appends one read.
    pub fn read(self, offset: usize, answer: u8) -> Self {
        self.with([Access::Read(offset, answer)])
    }

    /// Appends one write.
    pub fn write(self, offset: usize, value: u8) -> Self {
        self.with([Access::Write(offset, value)])
    }

    /// Appends one read of LSR.
    pub fn look(self, lsr: u8) -> Self {
        self.read(offsets::LSR, lsr)
    }

    /// Appends `count` reads of LSR, each with this value.
    pub fn looks(self, count: usize, lsr: u8) -> Self {
        self.with(repeat_n(Access::Read(offsets::LSR, lsr), count))
    }

    /// Appends a read of LSR that shows data, and a read of the byte.
    pub fn hit(self, byte: u8) -> Self {
        self.look(0x01).read(offsets::DATA, byte)
    }

    /// Appends for each of the bytes a read of LSR that shows data, and a read of it.
    pub fn hits(self, bytes: &[u8]) -> Self {
        bytes.iter().fold(self, |list, &byte| list.hit(byte))
    }

    /// Appends a write of each byte to DATA.
    pub fn data(self, bytes: &[u8]) -> Self {
        self.with(bytes.iter().map(|&byte| Access::Write(offsets::DATA, byte)))
    }

    /// Returns the accesses as they are made at ports or addresses: from a base on, with this
    /// distance between two registers.
    pub fn placed(&self, base: usize, stride: usize) -> Self {
        let place = |offset| base + offset * stride;
        list().with(self.entries.iter().map(|access| match *access {
            Access::Read(offset, answer) => Access::Read(place(offset), answer),
            Access::Write(offset, value) => Access::Write(place(offset), value),
        }))
    }

    /// Appends the accesses of another list.
    pub fn then(self, others: &Accesses) -> Self {
        self.with(others.entries.iter().copied())
    }

    /// Appends a send check that finds THR empty, and then reads MCR and MSR.
    pub fn check(self, mcr: u8, msr: u8) -> Self {
        self.look(0x20)
            .read(offsets::MCR, mcr)
            .read(offsets::MSR, msr)
    }

    /// Appends a send check that reads LSR alone and succeeds, and a burst of these bytes.
    pub fn burst(self, bytes: &[u8]) -> Self {
        self.look(0x20).data(bytes)
    }

    /// Appends each byte sent by itself, and another one received for it.
    pub fn echoes(self, sent: &[u8], back: u8) -> Self {
        let echo = |list: Self, &byte| list.burst(&[byte]).hit(back);
        sent.iter().fold(self, echo)
    }

    /// Appends each byte sent by itself, and received.
    pub fn same_echoes(self, bytes: &[u8]) -> Self {
        let echo = |list: Self, &byte| list.burst(&[byte]).hit(byte);
        bytes.iter().fold(self, echo)
    }

    /// Appends reads of the divisor latch, while LCR shows this without DLAB and that with it.
    pub fn latch(self, lcr: u8, under_dlab: u8, dll: u8, dlm: u8) -> Self {
        self.read(offsets::LCR, lcr)
            .write(offsets::LCR, under_dlab)
            .read(offsets::DLL, dll)
            .read(offsets::DLM, dlm)
            .write(offsets::LCR, lcr)
    }

    /// Appends a read of each of the seven registers from IER to SPR.
    pub fn registers(self, answers: [u8; 7]) -> Self {
        self.with(
            (offsets::IER..)
                .zip(answers)
                .map(|(offset, answer)| Access::Read(offset, answer)),
        )
    }

    /// Appends a presence check that finds a device, whose scratch register held this.
    pub fn present(self, old: u8) -> Self {
        self.read(offsets::SPR, old)
            .write(offsets::SPR, 0x42)
            .read(offsets::SPR, 0x42)
            .write(offsets::SPR, 0x73)
            .read(offsets::SPR, 0x73)
            .write(offsets::SPR, old)
    }

    /// Appends a presence check that finds no device: the scratch register shows this, whatever was
    /// written to it.
    pub fn absent(self, shown: u8) -> Self {
        self.read(offsets::SPR, shown)
            .write(offsets::SPR, 0x42)
            .read(offsets::SPR, shown)
            .write(offsets::SPR, shown)
    }

    /// Appends interrupts off, the divisor latch set, and the frame.
    pub fn line(self, dll: u8, dlm: u8, frame: u8) -> Self {
        self.write(offsets::LCR, 0x00)
            .write(offsets::IER, 0x00)
            .write(offsets::LCR, 0x80)
            .write(offsets::DLL, dll)
            .write(offsets::DLM, dlm)
            .write(offsets::LCR, 0x00)
            .write(offsets::LCR, frame)
    }

    /// Appends a write of FCR, and a read of ISR that shows whether the FIFO is on.
    pub fn fifo(self, control: u8, isr: u8) -> Self {
        self.write(offsets::FCR, control).read(offsets::ISR, isr)
    }

    /// Appends the end of an initialisation: LSR, ISR and MSR read, and IER written.
    pub fn end(self, lsr: u8, isr: u8, msr: u8, ier: u8) -> Self {
        self.read(offsets::LSR, lsr)
            .read(offsets::ISR, isr)
            .read(offsets::MSR, msr)
            .write(offsets::IER, ier)
    }

    /// Appends what follows the FIFO step of an initialisation if no byte is received and the
    /// transmitter is empty: MCR written, and the end.
    pub fn undisturbed(self, isr: u8, ier: u8) -> Self {
        self.look(0x00)
            .write(offsets::MCR, 0x0b)
            .look(0x40)
            .end(0x00, isr, 0x00, ier)
    }

    /// Appends the beginning of a loopback test, up to the FIFO step: MCR and IER read, LSR shows
    /// an empty transmitter, MSR read, interrupts off, loopback on.
    pub fn enter(self, mcr: u8, ier: u8, lsr: u8, msr: u8) -> Self {
        self.read(offsets::MCR, mcr)
            .read(offsets::IER, ier)
            .look(lsr)
            .read(offsets::MSR, msr)
            .write(offsets::IER, 0x00)
            .write(offsets::MCR, 0x10)
    }

    /// Appends the end of a loopback test: MCR written without OUT_2, MSR read, MCR and IER written
    /// back.
    pub fn leave(self, mcr_without_out_2: u8, msr: u8, mcr: u8, ier: u8) -> Self {
        self.write(offsets::MCR, mcr_without_out_2)
            .read(offsets::MSR, msr)
            .write(offsets::MCR, mcr)
            .write(offsets::IER, ier)
    }
}

/// Returns the list without accesses.
pub fn list() -> Accesses {
    Accesses::default()
}

/// Returns the last byte that was written to a register. While DLAB is set, the first two are the
/// divisor latch.
pub fn last_write(accesses: &[Access], offset: usize) -> Option<u8> {
    let mut is_latch = false;
    let mut last = None;
    for access in accesses {
        if let Access::Write(place, value) = *access {
            if place == offsets::LCR {
                is_latch = value >= 0x80;
            }
            if place == offset && !(is_latch && place < 2) {
                last = Some(value);
            }
        }
    }
    last
}
