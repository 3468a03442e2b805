//! Requests to KVM, by `ioctl`.
//!
//! The file is for `kvm` alone, which names the requests. What is safe here is so because each name there has the number, and the type,
//! that the kernel has for that request.

use std::ffi::{c_int, c_ulong};
use std::fs::File;
use std::io;
use std::marker::PhantomData;
use std::os::fd::{AsRawFd, FromRawFd};

use crate::linux::checked;

unsafe extern "C" {
    fn ioctl(fd: c_int, request: c_ulong, ...) -> c_int;
}

/// A request of `ioctl` whose argument is a number, or nothing.
#[derive(Clone, Copy)]
pub struct Request(c_ulong);

/// A request of `ioctl` that reads or writes a value of this type, which the number of the request has the size of.
#[derive(Clone, Copy)]
pub struct RequestOf<T>(c_ulong, PhantomData<T>);

/// Types that consist of integers alone without gaps, so that any bytes are a value.
///
/// # Safety
///
/// The type is such a type.
pub unsafe trait Plain: Sized {}

// SAFETY: bytes.
unsafe impl<const N: usize> Plain for [u8; N] {}

/// The first byte of each request of KVM.
const KVM: c_ulong = 0xae00;
const TO_KERNEL: c_ulong = 1 << 30;
const FROM_KERNEL: c_ulong = 2 << 30;

impl Request {
    /// Returns the request of KVM with this number.
    pub const fn of_kvm(number: u8) -> Self {
        Request(KVM | number as c_ulong)
    }

    /// Makes the request, and returns what the kernel does.
    pub fn call(self, file: &impl AsRawFd, argument: usize) -> io::Result<c_int> {
        // SAFETY: the kernel takes the argument of such a request as a number, and touches no memory of this process.
        checked(unsafe { ioctl(file.as_raw_fd(), self.0, argument) })
    }

    /// Makes the request, which returns a new descriptor.
    pub fn open(self, file: &impl AsRawFd, argument: usize) -> io::Result<File> {
        // SAFETY: the kernel has just made the descriptor, so nothing else owns it.
        self.call(file, argument)
            .map(|fd| unsafe { File::from_raw_fd(fd) })
    }
}

impl<T: Plain> RequestOf<T> {
    const fn new(direction: c_ulong, number: u8) -> Self {
        RequestOf(
            direction | (size_of::<T>() as c_ulong) << 16 | KVM | number as c_ulong,
            PhantomData,
        )
    }

    /// Returns the request of KVM with this number that the kernel is told a value by.
    pub const fn to_kernel(number: u8) -> Self {
        Self::new(TO_KERNEL, number)
    }

    /// Returns the request of KVM with this number that the kernel tells a value by.
    pub const fn from_kernel(number: u8) -> Self {
        Self::new(FROM_KERNEL, number)
    }

    /// Returns the request of KVM with this number that the kernel is told a value by, and tells one.
    pub const fn both_ways(number: u8) -> Self {
        Self::new(TO_KERNEL | FROM_KERNEL, number)
    }

    /// Makes the request with this value.
    pub fn call(self, file: &impl AsRawFd, value: &mut T) -> io::Result<()> {
        // SAFETY: the number of the request says how many bytes the kernel may read and write, the size of this value, which may be
        // any bytes.
        checked(unsafe { ioctl(file.as_raw_fd(), self.0, value as *mut T) }).map(drop)
    }
}
