//! The census as `geesetrunk census` takes it, over a chip in software.

use std::convert::Infallible;

use geesetrunk::census::{self, Chip};

use crate::census::{Clock, Model, Run};

impl Chip for Run<'_> {
    type Fault = Infallible;

    fn read(&mut self, offset: usize) -> Result<u8, Infallible> {
        Ok(Run::read(self, offset as u8))
    }

    fn write(&mut self, offset: usize, value: u8) -> Result<(), Infallible> {
        Run::write(self, offset as u8, value);
        Ok(())
    }

    fn now(&mut self) -> Result<u64, Infallible> {
        Ok(Run::now(self))
    }
}

/// Takes the census of a chip by a clock, by the tool's own code.
pub fn take_in_rust(model: &mut dyn Model, clock: Clock) -> census::Census {
    match census::take(&mut Run::new(model, clock)) {
        Ok(census) => census,
        Err(never) => match never {},
    }
}
