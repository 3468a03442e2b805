//! The I/O ports of a device on x86, accessed by `in` and `out`.

use super::LAST_OFFSET;
use core::cell::Cell;
use core::marker::PhantomData;
use uart_spec::backend::Backend;
use uart_spec::{InvalidAddressError, check_ports};

// Returns the port of a register. The base was tested, so the sum does not overflow.
#[inline]
fn port_of(base: u16, register_offset: u8) -> u16 {
    assert!(
        register_offset <= LAST_OFFSET,
        "no register has this offset"
    );
    base.wrapping_add(u16::from(register_offset))
}

// Reads the port of a register. The caller must be allowed to access it.
#[inline]
pub(super) unsafe fn read_port(base: u16, register_offset: u8) -> u8 {
    let port = port_of(base, register_offset);
    let value;
    // SAFETY: by the promise of the caller.
    unsafe {
        core::arch::asm!(
            "in al, dx",
            in("dx") port,
            out("al") value,
            options(nostack, preserves_flags),
        );
    }
    value
}

// Writes the port of a register. The caller must be allowed to access it.
#[inline]
pub(super) unsafe fn write_port(base: u16, register_offset: u8, value: u8) {
    let port = port_of(base, register_offset);
    // SAFETY: by the promise of the caller.
    unsafe {
        core::arch::asm!(
            "out dx, al",
            in("dx") port,
            in("al") value,
            options(nostack, preserves_flags),
        );
    }
}

/// The eight I/O ports of a device, accessed by the instructions `in` and `out`.
///
/// It can be sent to another thread, but neither shared nor cloned: one object is the one way to
/// its ports.
///
/// # Panics
///
/// `read` and `write` panic if the register offset is 8 or more. The driver passes none of these.
///
/// # Examples
///
/// ```no_run
/// use uart_16550::native::backend::X86Ports;
/// use uart_16550::native::{Config, Uart16550};
///
/// // SAFETY: this program may access the ports of COM1, and nothing else does.
/// let ports = unsafe { X86Ports::new(0x3f8) }?;
/// let mut uart = Uart16550::new_with_backend(ports);
/// uart.init(Config::DEFAULT)?;
/// # Ok::<(), Box<dyn std::error::Error>>(())
/// ```
#[derive(Debug)]
pub struct X86Ports {
    base: u16,
    // A cell may be sent to another thread, and not shared with one.
    not_sync: PhantomData<Cell<()>>,
}

impl X86Ports {
    /// Returns the access to the eight ports from `base_port` on. Makes no access.
    ///
    /// # Errors
    ///
    /// `InvalidBaseAddress`, with the base port, if the last register would be beyond port 65535.
    ///
    /// # Safety
    ///
    /// As long as the object lives, and on each thread to which it is sent:
    ///
    /// - The processor must allow `in` and `out` at the ports `base_port` to `base_port + 7`.
    /// - A device of the 16550 family must be at these ports, or one that does no harm if it is
    ///   accessed as one.
    /// - Nothing else may access these ports: no other object, no other thread, no handler of
    ///   interrupts. If several of them need the device, they share this object by a lock, and
    ///   a handler must not wait for a lock that it has interrupted.
    /// - Do not name the object by a `const`: each use of the name makes another object.
    ///
    /// # Examples
    ///
    /// ```no_run
    /// use uart_16550::native::backend::X86Ports;
    ///
    /// // SAFETY: this program may access the ports of COM1, and nothing else does.
    /// let ports = unsafe { X86Ports::new(0x3f8) }?;
    /// # Ok::<(), Box<dyn std::error::Error>>(())
    /// ```
    pub const unsafe fn new(base_port: u16) -> Result<Self, InvalidAddressError> {
        match check_ports(base_port) {
            Ok(()) => Ok(X86Ports {
                base: base_port,
                not_sync: PhantomData,
            }),
            Err(cause) => Err(cause),
        }
    }

    /// Returns the port of the first register.
    ///
    /// # Examples
    ///
    /// ```
    /// # use uart_16550::native::backend::X86Ports;
    /// // SAFETY: no access is made.
    /// let ports = unsafe { X86Ports::new(0x3f8) }?;
    /// assert_eq!(ports.base(), 0x3f8);
    /// # Ok::<(), Box<dyn std::error::Error>>(())
    /// ```
    #[must_use]
    pub const fn base(&self) -> u16 {
        self.base
    }
}

impl Backend for X86Ports {
    #[inline]
    fn read(&mut self, register_offset: u8) -> u8 {
        // SAFETY: `new` has tested the base, and its caller promised that these ports may be
        // accessed.
        unsafe { read_port(self.base, register_offset) }
    }

    #[inline]
    fn write(&mut self, register_offset: u8, value: u8) {
        // SAFETY: as for `read`.
        unsafe { write_port(self.base, register_offset, value) }
    }
}

#[cfg(test)]
mod tests {
    /// A process may not access a port, so what is tested is which one would be.
    #[test]
    fn each_register_has_its_port() {
        assert_eq!(super::port_of(0x3f8, 0), 0x3f8);
        assert_eq!(super::port_of(0x3f8, 7), 0x3ff);
    }
}
