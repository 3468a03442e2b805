//! The traits of the crate `embedded-io`, for the driver. They do what the traits of the same names in
//! [`embedded_io`](crate::embedded_io) do.

use crate::backend::Backend;
use crate::{StalledError, Uart16550};

/// Implements the traits of the crate `embedded-io` for a type with this error, by those of the same names in `embedded_io`: the first
/// parameters are of who reads and writes, and the second ones of who asks whether that would wait.
#[doc(hidden)]
#[macro_export]
macro_rules! as_embedded_io {
    ([$($moves:tt)*] [$($asks:tt)*] $Type:ty, $Error:ty) => {
        impl<$($moves)*> ::embedded_io::Read for $Type {
            fn read(&mut self, buf: &mut [u8]) -> Result<usize, $Error> {
                $crate::embedded_io::Read::read(self, buf)
            }
        }

        impl<$($moves)*> ::embedded_io::Write for $Type {
            fn write(&mut self, buf: &[u8]) -> Result<usize, $Error> {
                $crate::embedded_io::Write::write(self, buf)
            }

            fn flush(&mut self) -> Result<(), $Error> {
                $crate::embedded_io::Write::flush(self)
            }
        }

        impl<$($asks)*> ::embedded_io::ReadReady for $Type {
            fn read_ready(&mut self) -> Result<bool, $Error> {
                $crate::embedded_io::ReadReady::read_ready(self)
            }
        }

        impl<$($asks)*> ::embedded_io::WriteReady for $Type {
            fn write_ready(&mut self) -> Result<bool, $Error> {
                $crate::embedded_io::WriteReady::write_ready(self)
            }
        }
    };
}

impl<B: Backend> ::embedded_io::ErrorType for Uart16550<B> {
    type Error = StalledError;
}

as_embedded_io! { [B: Backend] [B: Backend] Uart16550<B>, StalledError }
