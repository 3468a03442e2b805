//! The traits of the crates `embedded-io` and `embedded-io-async`, for shared rings. They do what the calls of the same names do.

use super::rings::Rings;
use super::{BlockingRings, SharedError, Wait};
#[cfg(feature = "embedded-io-async")]
use super::{CriticalSection, PortOfLine, SharedRings, held::Held};
#[cfg(feature = "embedded-io-async")]
use crate::native::backend::Backend;
use ::embedded_io as foreign;
#[cfg(feature = "embedded-io-async")]
use ::embedded_io_async as asynchronous;

impl<P, W> foreign::ErrorType for BlockingRings<P, W> {
    type Error = SharedError;
}

uart_driver::as_embedded_io! {
    [P: Rings, W: Wait] [P: Rings, W] BlockingRings<P, W>, SharedError
}

#[cfg(feature = "embedded-io-async")]
impl<S, R> foreign::ErrorType for &SharedRings<S, R> {
    type Error = SharedError;
}

#[cfg(feature = "embedded-io-async")]
impl<S: CriticalSection, R: Held> asynchronous::Read for &SharedRings<S, R> {
    async fn read(&mut self, buf: &mut [u8]) -> Result<usize, SharedError> {
        SharedRings::read(self, buf).await
    }
}

#[cfg(feature = "embedded-io-async")]
impl<S: CriticalSection, R: Held> asynchronous::Write for &SharedRings<S, R> {
    async fn write(&mut self, buf: &[u8]) -> Result<usize, SharedError> {
        SharedRings::write(self, buf).await
    }

    async fn flush(&mut self) -> Result<(), SharedError> {
        SharedRings::flush(self).await
    }
}

#[cfg(feature = "embedded-io-async")]
impl<S, B, const N: usize> foreign::ErrorType for PortOfLine<'_, S, B, N> {
    type Error = SharedError;
}

#[cfg(feature = "embedded-io-async")]
impl<S: CriticalSection, B: Backend, const N: usize> asynchronous::Read for PortOfLine<'_, S, B, N> {
    async fn read(&mut self, buf: &mut [u8]) -> Result<usize, SharedError> {
        PortOfLine::read(self, buf).await
    }
}

#[cfg(feature = "embedded-io-async")]
impl<S: CriticalSection, B: Backend, const N: usize> asynchronous::Write for PortOfLine<'_, S, B, N> {
    async fn write(&mut self, buf: &[u8]) -> Result<usize, SharedError> {
        PortOfLine::write(self, buf).await
    }

    async fn flush(&mut self) -> Result<(), SharedError> {
        PortOfLine::flush(self).await
    }
}
