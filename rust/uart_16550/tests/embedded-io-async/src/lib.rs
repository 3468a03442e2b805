//! A stand-in for the crate `embedded-io-async` 0.7, so that the tests need no network. It has the traits that shared rings
//! implement, with the same names and signatures.
#![no_std]
#![allow(async_fn_in_trait)]

pub use embedded_io::{Error, ErrorKind, ErrorType};

/// A reader of bytes.
pub trait Read: ErrorType {
    /// Reads at least one byte into the slots, and returns how many.
    async fn read(&mut self, buf: &mut [u8]) -> Result<usize, Self::Error>;
}

/// A writer of bytes.
pub trait Write: ErrorType {
    /// Writes at least one byte from the front, and returns how many.
    async fn write(&mut self, buf: &[u8]) -> Result<usize, Self::Error>;

    /// Waits until everything has been sent.
    async fn flush(&mut self) -> Result<(), Self::Error>;

    /// Writes all of the bytes.
    async fn write_all(&mut self, mut buf: &[u8]) -> Result<(), Self::Error> {
        while !buf.is_empty() {
            buf = &buf[self.write(buf).await?..];
        }
        Ok(())
    }
}
