//! Calls of Linux for which the standard library has none, declared by hand: no crate is needed.

use std::ffi::{c_int, c_void};
use std::fs::File;
use std::io;
use std::os::fd::AsRawFd;
use std::os::unix::thread::{JoinHandleExt, RawPthread};
use std::ptr::NonNull;
use std::sync::atomic::{AtomicU8, Ordering};
use std::thread::JoinHandle;

unsafe extern "C" {
    fn mmap(
        start: *mut c_void,
        len: usize,
        protection: c_int,
        flags: c_int,
        fd: c_int,
        offset: i64,
    ) -> *mut c_void;
    fn munmap(start: *mut c_void, len: usize) -> c_int;
    fn signal(number: c_int, handler: extern "C" fn(c_int)) -> usize;
    fn pthread_kill(thread: RawPthread, number: c_int) -> c_int;
}

const READ_AND_WRITE: c_int = 1 | 2;
const SHARED: c_int = 1;
const ANONYMOUS: c_int = 0x20;
const USER_SIGNAL: c_int = 10;

/// Returns what a call returned, or why it failed.
pub fn checked(result: c_int) -> io::Result<c_int> {
    if result < 0 {
        Err(io::Error::last_os_error())
    } else {
        Ok(result)
    }
}

/// Memory that this process shares with the kernel, or with a guest.
pub struct Mapping {
    start: NonNull<u8>,
    len: usize,
}

// SAFETY: the memory belongs to no thread, and each access of it is atomic.
unsafe impl Send for Mapping {}
// SAFETY: as above.
unsafe impl Sync for Mapping {}

impl Mapping {
    /// Maps memory of this process alone, or of a file, from its start.
    pub fn new(len: usize, file: Option<&File>) -> io::Result<Self> {
        let (flags, fd) = file.map_or((SHARED | ANONYMOUS, -1), |file| (SHARED, file.as_raw_fd()));
        // SAFETY: a new mapping, where the kernel likes, changes none that is there.
        let start = unsafe { mmap(std::ptr::null_mut(), len, READ_AND_WRITE, flags, fd, 0) };
        if start.addr() == usize::MAX {
            return Err(io::Error::last_os_error());
        }
        NonNull::new(start.cast())
            .map(|start| Mapping { start, len })
            .ok_or(io::ErrorKind::OutOfMemory.into())
    }

    /// Returns the address of the first byte.
    pub fn address(&self) -> usize {
        self.start.as_ptr().addr()
    }

    /// Returns how many bytes there are.
    pub fn len(&self) -> usize {
        self.len
    }

    /// Returns the bytes. The kernel and the guest may write them at any time.
    pub fn bytes(&self) -> &[AtomicU8] {
        // SAFETY: the mapping is so long, was filled by the kernel, and stays as long as this value. This process accesses it only here.
        unsafe { std::slice::from_raw_parts(self.start.as_ptr().cast(), self.len) }
    }

    /// Copies bytes out, from this offset on.
    pub fn read(&self, offset: usize, bytes: &mut [u8]) {
        let source = &self.bytes()[offset..offset + bytes.len()];
        for (byte, source) in bytes.iter_mut().zip(source) {
            *byte = source.load(Ordering::Relaxed);
        }
    }

    /// Copies bytes in, from this offset on.
    pub fn write(&self, offset: usize, bytes: &[u8]) {
        let target = &self.bytes()[offset..offset + bytes.len()];
        for (byte, target) in bytes.iter().zip(target) {
            target.store(*byte, Ordering::Relaxed);
        }
    }
}

impl Drop for Mapping {
    fn drop(&mut self) {
        // SAFETY: this value owned the mapping, and is gone.
        unsafe { munmap(self.start.as_ptr().cast(), self.len) };
    }
}

extern "C" fn do_nothing(_: c_int) {}

/// Lets `interrupt` do no more than end the call in which a thread waits.
pub fn catch_interrupts() {
    // SAFETY: the handler does nothing, so it may run at any moment.
    unsafe { signal(USER_SIGNAL, do_nothing) };
}

/// Ends the call in which a thread waits.
pub fn interrupt<T>(thread: &JoinHandle<T>) {
    // SAFETY: the thread was not joined, since there is its handle.
    unsafe { pthread_kill(thread.as_pthread_t(), USER_SIGNAL) };
}
