//! The device at addresses of a guest.

use std::fmt;
use std::num::NonZeroUsize;
use uart_16550_chip::FIFO_SIZE;
use uart_16550_chip::registers::offsets;
use uart_16550_chip::serial::{Error, Output, Serial, SerialEvents, Trigger};

/// Why an access of the guest failed.
type Failure<T, W> = Error<<T as Trigger>::E, <W as Output>::Error>;

const DATA: u64 = offsets::DATA as u64;

/// Where the registers are.
#[derive(Clone, Copy, Debug, PartialEq, Eq)]
enum Place {
    Ports,
    Memory { shift: u8 },
}

/// A device as the bus of a monitor calls it: with an offset from its base address, and the bytes of an access.
///
/// [`read`](Self::read) and [`write`](Self::write) have the form of the trait `BusDevice` of several monitors. With the feature `vm-device`
/// this implements `MutDevicePio` and `MutDeviceMmio` of that crate. A bus that shares its devices has this in a `Mutex`.
///
/// # Examples
///
/// ```
/// use std::convert::Infallible;
/// use uart_16550_vmm::uart_16550_chip::Serial;
/// use uart_16550_vmm::{BusSerial, TriggerBy};
///
/// let serial = Serial::new(TriggerBy(|| Ok::<(), Infallible>(())), Vec::new());
/// let mut com1 = BusSerial::at_ports(serial);
/// // The guest prints by `rep outsb`, and reads LSR.
/// com1.write(0, b"Hello");
/// let mut lsr = [0];
/// com1.read(5, &mut lsr);
/// assert_eq!(com1.serial().writer(), b"Hello");
/// assert_eq!(lsr, [0x60]);
/// ```
pub struct BusSerial<T: Trigger, EV: SerialEvents, W: Output, const FIFO: usize = FIFO_SIZE> {
    serial: Serial<T, EV, W, FIFO>,
    place: Place,
    failure: Option<Failure<T, W>>,
}

impl<T: Trigger, EV: SerialEvents, W: Output, const FIFO: usize> BusSerial<T, EV, W, FIFO> {
    /// Returns a device whose eight registers are at eight I/O ports, as COM1 at 3F8.
    ///
    /// A guest may make many accesses of one port by one instruction, as `rep outsb`, and may access two or four ports at once, as `outw`.
    /// KVM tells which it was: a monitor that reads `kvm_run` itself calls [`read_sized`](Self::read_sized) and
    /// [`write_sized`](Self::write_sized). A bus that has only the bytes cannot tell. So [`read`](Self::read) and
    /// [`write`](Self::write) take what guests do: two or four bytes are an access of as many ports, as when `outw` sets a divisor, unless
    /// they are at DATA. All others are of the one port.
    pub fn at_ports(serial: Serial<T, EV, W, FIFO>) -> Self {
        BusSerial {
            serial,
            place: Place::Ports,
            failure: None,
        }
    }

    /// Returns a device whose registers are in memory, 2 to the power of `shift` bytes apart: the property `reg-shift` of a device tree.
    ///
    /// An access is to one register, however many bytes it has: the value is in the first of them, and the others read as 0. This is
    /// right for little-endian guests. An access between two registers reads as 0 and writes nothing.
    pub fn in_memory(serial: Serial<T, EV, W, FIFO>, shift: u8) -> Self {
        BusSerial {
            serial,
            place: Place::Memory { shift },
            failure: None,
        }
    }

    /// The guest reads these bytes. A register beyond the eighth reads as 0.
    pub fn read(&mut self, offset: u64, data: &mut [u8]) {
        match self.place {
            Place::Ports => self.read_sized(offset, self.likely_size(offset, data.len()), data),
            Place::Memory { .. } => self.read_once(offset, data),
        }
    }

    /// The guest reads these bytes in accesses of so many bytes each, `kvm_run.io.size` of KVM.
    ///
    /// At I/O ports each byte of an access is of the next register. In memory an access is to one register, as with [`read`](Self::read).
    ///
    /// # Examples
    ///
    /// ```
    /// # use std::convert::Infallible;
    /// # use std::num::NonZeroUsize;
    /// # use uart_16550_vmm::uart_16550_chip::Serial;
    /// # use uart_16550_vmm::{BusSerial, TriggerBy};
    /// # let serial = Serial::new(TriggerBy(|| Ok::<(), Infallible>(())), Vec::new());
    /// # let mut com1 = BusSerial::at_ports(serial);
    /// // The guest reads LCR and MCR by `inw`.
    /// let mut both = [0; 2];
    /// com1.read_sized(3, NonZeroUsize::new(2).unwrap(), &mut both);
    /// assert_eq!(both, [0x03, 0x08]);
    /// ```
    pub fn read_sized(&mut self, offset: u64, size: NonZeroUsize, data: &mut [u8]) {
        for access in data.chunks_mut(size.get()) {
            self.read_once(offset, access);
        }
    }

    // The guest reads these bytes in one access.
    fn read_once(&mut self, offset: u64, data: &mut [u8]) {
        match self.place {
            Place::Ports => {
                for (index, byte) in (0..).zip(data) {
                    *byte = self.read_register(offset.checked_add(index));
                }
            }
            Place::Memory { shift } => {
                data.fill(0);
                if let Some(first) = data.first_mut() {
                    *first = self.read_register(register(offset, shift));
                }
            }
        }
    }

    /// The guest writes these bytes. To a register beyond the eighth that does nothing.
    ///
    /// What goes wrong is not for the guest to know: [`take_failure`](Self::take_failure) returns it, and the events of the device count
    /// it. What the guest sends by `rep outsb` is offered to the output together.
    pub fn write(&mut self, offset: u64, data: &[u8]) {
        match self.place {
            Place::Ports => self.write_sized(offset, self.likely_size(offset, data.len()), data),
            Place::Memory { .. } => self.write_once(offset, data),
        }
    }

    /// The guest writes these bytes in accesses of so many bytes each, `kvm_run.io.size` of KVM.
    ///
    /// At I/O ports each byte of an access is for the next register. In memory an access is to one register, as with
    /// [`write`](Self::write).
    ///
    /// # Examples
    ///
    /// ```
    /// # use std::convert::Infallible;
    /// # use std::num::NonZeroUsize;
    /// # use uart_16550_vmm::uart_16550_chip::Serial;
    /// # use uart_16550_vmm::{BusSerial, TriggerBy};
    /// # let serial = Serial::new(TriggerBy(|| Ok::<(), Infallible>(())), Vec::new());
    /// # let mut com1 = BusSerial::at_ports(serial);
    /// // The guest sets DLAB, and then the divisor by `outw`.
    /// com1.write(3, &[0x83]);
    /// com1.write_sized(0, NonZeroUsize::new(2).unwrap(), &[0x01, 0x00]);
    /// let latches = com1.serial().state().chip.latches;
    /// assert_eq!((latches.dll, latches.dlm), (0x01, 0x00));
    /// ```
    pub fn write_sized(&mut self, offset: u64, size: NonZeroUsize, data: &[u8]) {
        match self.place {
            // String I/O: the device offers what is sent to its output once.
            Place::Ports if size == NonZeroUsize::MIN => self.write_register(Some(offset), data),
            _ => data
                .chunks(size.get())
                .for_each(|access| self.write_once(offset, access)),
        }
    }

    // The guest writes these bytes in one access.
    fn write_once(&mut self, offset: u64, data: &[u8]) {
        match self.place {
            Place::Ports => {
                for (index, value) in (0..).zip(data) {
                    self.write_register(offset.checked_add(index), &[*value]);
                }
            }
            Place::Memory { shift } => {
                if let Some(value) = data.first() {
                    self.write_register(register(offset, shift), &[*value]);
                }
            }
        }
    }

    // How many bytes an access of ports has, if only their number is known. String I/O is for DATA alone.
    fn likely_size(&self, offset: u64, len: usize) -> NonZeroUsize {
        let is_wide = matches!(len, 2 | 4) && (offset != DATA || self.has_latch());
        NonZeroUsize::new(len)
            .filter(|_| is_wide)
            .unwrap_or(NonZeroUsize::MIN)
    }

    // Whether the divisor latch has the place of DATA.
    fn has_latch(&self) -> bool {
        self.serial.is_dlab_set()
    }

    fn read_register(&mut self, register: Option<u64>) -> u8 {
        let register = register.and_then(|register| u8::try_from(register).ok());
        register.map_or(0, |register| self.serial.read(register))
    }

    // Writes these values to a register, one after the other.
    fn write_register(&mut self, register: Option<u64>, values: &[u8]) {
        let Some(register) = register.and_then(|register| u8::try_from(register).ok()) else {
            return;
        };
        let written = match values {
            // A byte that goes out has a short way.
            [value] => self.serial.write(register, *value),
            _ => self.serial.write_bytes(register, values),
        };
        if let Err(failure) = written {
            self.failure = Some(failure);
        }
    }

    /// Returns why a write of the guest failed, the last that did since this was called; of several values that were written together the
    /// first. The device goes on in any case: an interrupt that could not be triggered is tried again, and output that failed is lost.
    pub fn take_failure(&mut self) -> Option<Failure<T, W>> {
        self.failure.take()
    }

    /// Returns the device.
    pub fn serial(&self) -> &Serial<T, EV, W, FIFO> {
        &self.serial
    }

    /// Returns the device, to be given input, and to be asked for its output.
    pub fn serial_mut(&mut self) -> &mut Serial<T, EV, W, FIFO> {
        &mut self.serial
    }

    /// Returns the device that is on the bus.
    pub fn into_serial(self) -> Serial<T, EV, W, FIFO> {
        self.serial
    }
}

impl<T, EV, W, const FIFO: usize> fmt::Debug for BusSerial<T, EV, W, FIFO>
where
    T: Trigger + fmt::Debug,
    EV: SerialEvents + fmt::Debug,
    W: Output + fmt::Debug,
{
    fn fmt(&self, f: &mut fmt::Formatter<'_>) -> fmt::Result {
        f.debug_struct("BusSerial")
            .field("serial", &self.serial)
            .field("place", &self.place)
            .field("has_failed", &self.failure.is_some())
            .finish()
    }
}

/// The register at an offset in memory, if one begins there.
fn register(offset: u64, shift: u8) -> Option<u64> {
    let register = offset.checked_shr(shift.into()).unwrap_or(0);
    let begins = register.checked_shl(shift.into()).unwrap_or(0);
    (begins == offset).then_some(register)
}

#[cfg(feature = "vm-device")]
mod vm_device {
    use super::{BusSerial, Output, SerialEvents, Trigger};
    use ::vm_device::bus::{MmioAddress, MmioAddressOffset, PioAddress, PioAddressOffset};
    use ::vm_device::{MutDeviceMmio, MutDevicePio};

    impl<T: Trigger, EV: SerialEvents, W: Output, const FIFO: usize> MutDevicePio
        for BusSerial<T, EV, W, FIFO>
    {
        fn pio_read(&mut self, _base: PioAddress, offset: PioAddressOffset, data: &mut [u8]) {
            self.read(offset.into(), data);
        }

        fn pio_write(&mut self, _base: PioAddress, offset: PioAddressOffset, data: &[u8]) {
            self.write(offset.into(), data);
        }
    }

    impl<T: Trigger, EV: SerialEvents, W: Output, const FIFO: usize> MutDeviceMmio
        for BusSerial<T, EV, W, FIFO>
    {
        fn mmio_read(&mut self, _base: MmioAddress, offset: MmioAddressOffset, data: &mut [u8]) {
            self.read(offset, data);
        }

        fn mmio_write(&mut self, _base: MmioAddress, offset: MmioAddressOffset, data: &[u8]) {
            self.write(offset, data);
        }
    }
}
