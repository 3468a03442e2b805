//! Rings behind a lock, and the tasks that wait at them: what [`Shared`](super::Shared) and a port of a
//! [`SharedLine`](super::SharedLine) have in common.

use super::SharedError;
use super::exclusive::AllStopped;
use super::held::{Held, HeldWithErrors};
use crate::native::Received;
use crate::ring::Uart16550Ring;
use core::future::poll_fn;
use core::task::{Context, Poll, Waker};
use uart_waits::{Awaited, Due, Seen, Waiter, Waits};

/// Rings behind a lock, with the tasks that wait at them.
pub trait Rings {
    /// Rings, or rings at a bus.
    type Held: Held;

    /// Calls the function in the section, with the rings, if there are some, and the tasks. Then wakes those whose turn it is.
    fn in_section<R>(
        &self,
        call: impl FnOnce(Option<&mut Self::Held>, &mut Waits<Waker>) -> R,
    ) -> Result<R, SharedError>;

    /// Returns the rings, whoever uses them, to be read after a panic.
    fn seize(&self, stopped: AllStopped) -> Option<&Uart16550Ring<<Self::Held as Held>::Backend>>;

    /// Calls the function with the rings.
    fn with_rings<R>(&self, call: impl FnOnce(&mut Self::Held) -> R) -> Result<R, SharedError> {
        self.in_section(|ring, _waits| ring.map(call).ok_or(SharedError::NoRings))?
    }

    /// Whether a call would not wait for this. It would not if it is refused, either.
    fn ends_wait(&self, awaited: Awaited) -> bool {
        self.with_rings(|ring| Seen::of(ring.rings()).ends_wait(awaited)).unwrap_or(true)
    }

    /// Looks for what is awaited. It is an error if that is not there and does not come.
    fn look<R>(&self, look: impl FnOnce(&mut Self::Held) -> Option<R>) -> Result<Option<R>, SharedError> {
        self.with_rings(|ring| match (look(ring), ring.rings().stuck()) {
            (None, Some(cause)) => Err(SharedError::Stuck(cause)),
            (found, _) => Ok(found),
        })?
    }

    /// Whether the transmit ring and the chip are empty.
    fn is_sent(&self) -> Result<bool, SharedError> {
        self.with_rings(|ring| ring.rings().transmit_len() == 0 && ring.is_idle())
    }

    /// Looks, and registers the task if it does not find.
    fn poll_for<R>(
        &self,
        context: &mut Context<'_>,
        awaited: Awaited,
        look: impl FnOnce(&mut Self::Held) -> Option<R>,
    ) -> Poll<Result<R, SharedError>> {
        match self.look(look) {
            Ok(None) => {}
            Ok(Some(found)) => return Poll::Ready(Ok(found)),
            Err(error) => return Poll::Ready(Err(error)),
        }
        // Cloned, woken and dropped outside of the section, since all of it is the executor's code. In it two waiters change their
        // places. Then `in_section` looks for what is awaited, with the task registered, and the handler does not come in between. So
        // what came since the look above wakes the task at once, and what comes later wakes it then.
        let mut waiter = Some(Waiter {
            waker: context.waker().clone(),
            awaited,
        });
        let registered = self.in_section(|_ring, waits| {
            waiter = waiter.take().and_then(|waiter| waits.register(waiter));
        });
        if let Err(error) = registered {
            return Poll::Ready(Err(error));
        }
        // There is one place, so another task that was there looks again, and takes the place in its turn.
        if let Some(other) = waiter.filter(|other| !other.waker.will_wake(context.waker())) {
            other.waker.wake();
        }
        Poll::Pending
    }

    /// As [`Shared::poll_read`](super::Shared::poll_read).
    fn poll_take(&self, context: &mut Context<'_>, slots: &mut [u8]) -> Poll<Result<usize, SharedError>> {
        let is_empty = slots.is_empty();
        self.poll_for(context, Awaited::ReceivedByte, |ring| {
            let count = ring.take(slots);
            (count > 0 || is_empty).then_some(count)
        })
    }

    /// As [`Shared::poll_write`](super::Shared::poll_write).
    fn poll_queue(&self, context: &mut Context<'_>, bytes: &[u8]) -> Poll<Result<usize, SharedError>> {
        self.poll_for(context, Awaited::TransmitRoom, |ring| {
            let queued = ring.queue(bytes);
            (queued != Ok(0) || bytes.is_empty()).then_some(queued)
        })
        .map(|found| found?)
    }
}

impl<T: Rings> Rings for &T {
    type Held = T::Held;

    fn in_section<R>(
        &self,
        call: impl FnOnce(Option<&mut Self::Held>, &mut Waits<Waker>) -> R,
    ) -> Result<R, SharedError> {
        T::in_section(self, call)
    }

    fn seize(&self, stopped: AllStopped) -> Option<&Uart16550Ring<<T::Held as Held>::Backend>> {
        T::seize(self, stopped)
    }
}

/// As [`Shared::flush`](super::Shared::flush).
pub(super) async fn flush(rings: &impl Rings) -> Result<(), SharedError> {
    poll_fn(|context| {
        rings.poll_for(context, Awaited::EmptyTransmitRing, |ring| {
            (ring.rings().transmit_len() == 0).then_some(())
        })
    })
    .await?;
    let limit = rings.with_rings(|ring| ring.rings().inner().spin_limit())?;
    for _look in 0..limit.get() {
        if rings.is_sent()? {
            return Ok(());
        }
        let_others_run().await;
    }
    Err(SharedError::GaveUp)
}

/// As [`Shared::poll_read_with_errors`](super::Shared::poll_read_with_errors).
pub(super) fn poll_take_with_errors(
    rings: &impl Rings<Held: HeldWithErrors>,
    context: &mut Context<'_>,
    slots: &mut [Received],
) -> Poll<Result<usize, SharedError>> {
    let is_empty = slots.is_empty();
    rings
        .poll_for(context, Awaited::ReceivedByte, |ring| {
            let taken = ring.take_with_errors(slots);
            (taken != Ok(0) || is_empty).then_some(taken)
        })
        .map(|found| found?.map_err(SharedError::Unnoted))
}

// Lets the executor run other tasks, and then this one again.
async fn let_others_run() {
    let mut did_run = false;
    poll_fn(|context| {
        if did_run {
            return Poll::Ready(());
        }
        did_run = true;
        context.waker().wake_by_ref();
        Poll::Pending
    })
    .await;
}

/// A task whose turn it is. It is woken when this is dropped, so also if a call unwinds: nobody else knows of it any more, and it would
/// wait for ever. What a waker does is its executor's, may take long, and may come back here: so this is dropped after the section.
struct Turn(Option<Waker>);

impl Drop for Turn {
    fn drop(&mut self) {
        if let Some(waker) = self.0.take() {
            waker.wake();
        }
    }
}

/// The tasks of one port whose turn it is: the one that waited for received bytes, and the one that waited at the transmit ring. If the
/// waker of the one panics, the other one is woken too.
pub(super) struct Turns([Turn; 2]);

impl Turns {
    pub(super) const NONE: Self = Self([Turn(None), Turn(None)]);

    // A section may serve handlers, and so look more than once. A place that was emptied before is empty now, since a task comes into
    // one by a section of its own.
    pub(super) fn add(&mut self, due: Due<Waker>) {
        for (turn, waiter) in self.0.iter_mut().zip([due.receive, due.transmit]) {
            if let Some(waiter) = waiter {
                *turn = Turn(Some(waiter.waker));
            }
        }
    }
}
