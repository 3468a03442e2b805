//! The modem lines, and which of them changed.

use bitflags::Flags;
use uart_spec::registers::{MCR, MSR, flag};

/// The modem's inputs, the lines that MSR shows, and their changes since its last read.
pub struct Modem {
    inputs: MSR,
    lines: MSR,
    deltas: MSR,
}

/// The modem lines as plain data.
#[derive(Clone, Copy)]
pub struct ModemData {
    /// The inputs from the remote: CTS, DSR, RI and CD.
    pub inputs: MSR,
    /// The lines that MSR shows: the inputs, or in loopback the outputs of MCR.
    pub lines: MSR,
    /// The changes since the last read of MSR.
    pub deltas: MSR,
}

// Returns the lines in loopback, where the outputs replace the inputs.
fn looped_lines(mcr: MCR) -> MSR {
    let cts = flag(mcr.intersects(MCR::RTS), MSR::CTS);
    let dsr = flag(mcr.intersects(MCR::DTR), MSR::DSR);
    let ri = flag(mcr.intersects(MCR::OUT_1), MSR::RI);
    let cd = flag(mcr.intersects(MCR::OUT_2_INT_ENABLE), MSR::CD);
    cts.union(dsr).union(ri.union(cd))
}

// Returns the lines under this value of MCR.
fn lines_under(mcr: MCR, inputs: MSR) -> MSR {
    if mcr.intersects(MCR::LOOP_BACK) {
        looped_lines(mcr)
    } else {
        inputs
    }
}

impl Modem {
    /// Returns modem lines that are all clear and have not changed.
    #[must_use]
    pub fn new() -> Self {
        Self {
            inputs: MSR::empty(),
            lines: MSR::empty(),
            deltas: MSR::empty(),
        }
    }

    /// Returns the modem lines with these data.
    #[must_use]
    pub fn from_data(saved: ModemData) -> Self {
        Self {
            inputs: saved.inputs,
            lines: saved.lines,
            deltas: saved.deltas,
        }
    }

    /// Returns the modem lines as plain data.
    #[must_use]
    pub fn data(&self) -> ModemData {
        ModemData {
            inputs: self.inputs,
            lines: self.lines,
            deltas: self.deltas,
        }
    }

    /// Computes the lines anew under this value of MCR, and adds their changes.
    pub fn renew(&mut self, mcr: MCR) {
        let lines = lines_under(mcr, self.inputs);
        self.deltas = self.deltas.union(lines.changes_since(self.lines));
        self.lines = lines;
    }

    /// Sets the inputs, and computes the lines anew.
    pub fn change_inputs(&mut self, mcr: MCR, inputs: MSR) {
        self.inputs = inputs;
        self.renew(mcr);
    }

    /// Returns what a read of MSR returns, and clears the changes, as the read does.
    pub fn read(&mut self) -> MSR {
        let status = self.lines.union(self.deltas);
        self.deltas = MSR::empty();
        status
    }

    /// Returns whether MSR shows CTS: the other end is ready to receive.
    #[must_use]
    pub fn is_clear_to_send(&self) -> bool {
        self.lines.intersects(MSR::CTS)
    }

    /// Returns whether a line has changed since the last read of MSR.
    #[must_use]
    pub fn has_changes(&self) -> bool {
        !self.deltas.is_empty()
    }
}
