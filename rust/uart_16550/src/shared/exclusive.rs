//! A value that one caller uses at a time. Whoever comes meanwhile is refused, and does not wait; a handler leaves a mark.
//!
//! Of this crate, this, `access.rs` and `access/ports.rs` are the files that do something `unsafe`; `emergency.rs` passes on a promise.
//! That one caller uses the value at a time is seen to here alone: a kernel's [`CriticalSection`](super::CriticalSection) that keeps
//! nobody out makes calls be refused, and no two of them use the value.
#![allow(unsafe_code)]

use core::cell::UnsafeCell;
use core::mem;
use core::sync::atomic::{AtomicU8, Ordering, compiler_fence};
use uart_waits::Occupancy;

pub(super) struct Exclusive<T> {
    occupancy: AtomicU8,
    value: UnsafeCell<T>,
}

// SAFETY: `let_in` lets one caller in at a time, so the value is sent from thread to thread, and not shared.
unsafe impl<T: Send> Sync for Exclusive<T> {}

const TAKEN: u8 = 1;
const OWED: u8 = 2;

fn occupancy_of(bits: u8) -> Occupancy {
    Occupancy {
        is_taken: bits & TAKEN != 0,
        is_owed: bits & OWED != 0,
    }
}

fn bits_of(occupancy: Occupancy) -> u8 {
    let taken = if occupancy.is_taken { TAKEN } else { 0 };
    let owed = if occupancy.is_owed { OWED } else { 0 };
    taken | owed
}

impl<T> Exclusive<T> {
    pub(super) const fn new(value: T) -> Self {
        Self {
            occupancy: AtomicU8::new(0),
            value: UnsafeCell::new(value),
        }
    }

    /// Lets the caller in. Returns nothing if another caller uses the value: that one serves what a handler came for, by
    /// [`leave`](Entered::leave).
    #[inline]
    pub(super) fn let_in(&self, is_handler: bool) -> Option<Entered<'_, T>> {
        let before = self.change(|occupancy| occupancy.entered(is_handler));
        // Not made for nobody: it frees the value when it is dropped.
        (!before.is_taken).then(|| Entered(self))
    }

    /// Returns the value, whoever uses it, to be read after a panic.
    // considered: to refuse if somebody is in. Then the lines before a panic in the middle of a call would be lost, and they tell most of
    //   it. The value is whole at each access of the device, which is where calls stop: the queue of a ring changes behind the accesses
    //   of a burst, and not in their middle. If a processor is stopped anywhere in a call, its number of bytes may be that of before.
    pub(super) fn seize(&self, _stopped: AllStopped) -> &T {
        // What a call of this thread has written is there.
        compiler_fence(Ordering::SeqCst);
        // SAFETY: whoever promised that all have stopped: no reference of those who are in is used any more, and nobody gets another.
        unsafe { &*self.value.get() }
    }

    // Changes the occupancy at once, and returns what it was. What was done with the value before is seen by who is let in later.
    #[inline]
    fn change(&self, change: impl Fn(Occupancy) -> Occupancy) -> Occupancy {
        let changed = self.occupancy.fetch_update(Ordering::AcqRel, Ordering::Relaxed, |bits| {
            Some(bits_of(change(occupancy_of(bits))))
        });
        // It is always changed.
        occupancy_of(changed.unwrap_or_else(|bits| bits))
    }
}

/// That whoever was in a call has stopped for ever, and nobody begins one: what a panic handler knows.
#[derive(Clone, Copy)]
pub struct AllStopped(());

impl AllStopped {
    /// # Safety
    ///
    /// Of each value that is read with this: nobody who was in a call that uses it goes on, and nobody begins one.
    pub(crate) const unsafe fn new() -> Self {
        Self(())
    }
}

/// The caller that is in. It goes at the end, also if a call unwinds.
pub(super) struct Entered<'a, T>(&'a Exclusive<T>);

impl<T> Entered<'_, T> {
    #[inline]
    pub(super) fn value(&mut self) -> &mut T {
        // SAFETY: the value was not taken, and stays taken until this is dropped or has left. So no other caller is in, and the
        // reference is gone by then, since it borrows this.
        unsafe { &mut *self.0.value.get() }
    }

    /// Goes. If a handler came meanwhile, the caller stays: it serves what that one came for, and tries again.
    #[inline]
    pub(super) fn leave(self) -> Result<(), Self> {
        if self.0.change(Occupancy::left).is_owed {
            return Err(self);
        }
        mem::forget(self);
        Ok(())
    }
}

impl<T> Drop for Entered<'_, T> {
    fn drop(&mut self) {
        self.0.change(Occupancy::abandoned);
    }
}
