//! The host's end of the wire: what a person at a terminal does, one step after the other.

use std::future::poll_fn;
use std::task::Poll;

use crate::wire::{Counts, Request, Settings, State, Wire};

/// Why a session failed.
pub type Failed = String;

/// A terminal. Each wait ends when what it waits for has happened. The machine, which counts the guest's time, ends one that would not.
#[derive(Clone, Debug)]
pub struct Terminal {
    wire: Wire,
}

impl Terminal {
    #[must_use]
    pub fn new(wire: Wire) -> Self {
        Terminal { wire }
    }

    /// Waits until there is a result.
    async fn wait<R>(&self, what: &str, mut look: impl FnMut(&mut State) -> Option<R>) -> R {
        what.clone_into(&mut self.wire.lock().waits_for);
        poll_fn(|_| match look(&mut self.wire.lock()) {
            Some(result) => Poll::Ready(result),
            None => Poll::Pending,
        })
        .await
    }

    /// Types bytes.
    pub fn type_in(&self, bytes: impl AsRef<[u8]>) {
        let mut state = self.wire.lock();
        state.typed.extend(bytes.as_ref());
        state.is_called = true;
    }

    /// Waits until this text is shown, and returns all that was shown before it.
    pub async fn expect(&self, text: &str) -> Vec<u8> {
        let wanted = text.as_bytes();
        let mut looked_at = 0;
        self.wait(&format!("{text:?}"), |state| {
            let found = state.shown[looked_at..]
                .windows(wanted.len())
                .position(|part| part == wanted);
            match found {
                Some(at) => {
                    let rest = state.shown.split_off(looked_at + at + wanted.len());
                    let mut before = std::mem::replace(&mut state.shown, rest);
                    before.truncate(looked_at + at);
                    Some(before)
                }
                None => {
                    looked_at = (state.shown.len() + 1).saturating_sub(wanted.len());
                    None
                }
            }
        })
        .await
    }

    /// Waits until these bytes are shown, and compares each.
    pub async fn compare(&self, what: &str, bytes: &[u8]) -> Result<(), Failed> {
        self.wait(what, |state| {
            (state.shown.len() >= bytes.len()).then_some(())
        })
        .await;
        let rest = {
            let mut state = self.wire.lock();
            let rest = state.shown.split_off(bytes.len());
            std::mem::replace(&mut state.shown, rest)
        };
        match bytes
            .iter()
            .zip(&rest)
            .position(|(sent, back)| sent != back)
        {
            None => Ok(()),
            Some(at) => Err(format!(
                "{what}: byte {at} is {:02x}, and {:02x} came",
                bytes[at], rest[at]
            )),
        }
    }

    /// Begins what may be saved.
    pub fn mark(&self) {
        let mut state = self.wire.lock();
        state.mark = state.counts;
    }

    /// Waits until the device has received so many bytes since the mark.
    pub async fn received(&self, count: u64) {
        self.wait("input to be received", |state| {
            (state.counts.since(&state.mark).received >= count).then_some(())
        })
        .await;
    }

    /// Waits until the guest has set its port so.
    pub async fn set(&self, what: &str, are_right: impl Fn(&Settings) -> bool) {
        self.wait(what, |state| are_right(&state.settings).then_some(()))
            .await;
    }

    /// Waits until what is counted is so.
    pub async fn counted(&self, what: &str, are_right: impl Fn(&Counts) -> bool) {
        self.wait(what, |state| are_right(&state.counts).then_some(()))
            .await;
    }

    /// Waits for so many milliseconds of the guest.
    pub async fn pause(&self, milliseconds: u64) {
        let end = self.wire.lock().time + milliseconds;
        self.wait("time", |state| (state.time >= end).then_some(()))
            .await;
    }

    /// Takes no more than so many bytes in each millisecond of the guest, or again all.
    pub fn set_pace(&self, pace: Option<usize>) {
        let mut state = self.wire.lock();
        state.pace = pace;
        state.budget = if pace.is_some() { 0 } else { usize::MAX };
        state.is_called = true;
    }

    /// Does something to the line.
    pub fn request(&self, request: Request) {
        self.wire.lock().requests.push_back(request);
    }

    /// Returns how the guest has set its port.
    #[must_use]
    pub fn settings(&self) -> Settings {
        self.wire.lock().settings
    }

    /// Returns what was counted so far.
    #[must_use]
    pub fn counts(&self) -> Counts {
        self.wire.lock().counts
    }
}
