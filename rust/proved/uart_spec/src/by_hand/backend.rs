//! A backend that is borrowed: the driver is gone before the device is.

use crate::backend::Backend;

impl<B: Backend + ?Sized> Backend for &mut B {
    #[inline]
    fn read(&mut self, register_offset: u8) -> u8 {
        (**self).read(register_offset)
    }

    #[inline]
    fn write(&mut self, register_offset: u8, value: u8) {
        (**self).write(register_offset, value);
    }
}
