//! The traits of the crate `embedded-io`, for the driver with the signatures of the original crate: no call fails, and waits do not end
//! until the device lets them.

use crate::compat::Uart16550;
use crate::compat::backend::Backend;
use crate::native::embedded_io;
use ::embedded_io as foreign;
use core::convert::Infallible;

impl<B: Backend> foreign::ErrorType for Uart16550<B> {
    type Error = Infallible;
}

impl<B: Backend> foreign::Read for Uart16550<B> {
    fn read(&mut self, buf: &mut [u8]) -> Result<usize, Infallible> {
        loop {
            if let Ok(count) = embedded_io::Read::read(&mut self.0, buf) {
                return Ok(count);
            }
        }
    }
}

impl<B: Backend> foreign::Write for Uart16550<B> {
    fn write(&mut self, buf: &[u8]) -> Result<usize, Infallible> {
        loop {
            if let Ok(count) = embedded_io::Write::write(&mut self.0, buf) {
                return Ok(count);
            }
        }
    }

    fn flush(&mut self) -> Result<(), Infallible> {
        while embedded_io::Write::flush(&mut self.0).is_err() {}
        Ok(())
    }
}

impl<B: Backend> foreign::ReadReady for Uart16550<B> {
    fn read_ready(&mut self) -> Result<bool, Infallible> {
        Ok(self.ready_to_receive().is_ok())
    }
}

impl<B: Backend> foreign::WriteReady for Uart16550<B> {
    fn write_ready(&mut self) -> Result<bool, Infallible> {
        Ok(self.ready_to_send().is_ok())
    }
}
