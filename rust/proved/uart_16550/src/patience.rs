//! How long a wait goes on, and what ended it.

/// What ended a wait that asks its caller after each check that fails.
#[non_exhaustive]
#[derive(Clone, Copy, Debug, PartialEq, Eq, Hash)]
pub enum WaitEnd {
    /// The spin limit: that many checks in a row failed, and the caller would have waited on.
    SpinLimit,
    /// The caller, who answered to wait no longer. At the check that reaches the spin limit the
    /// caller is asked too, so the answer decides there.
    Patience,
}

#[automatically_derived]
impl std::fmt::Display for WaitEnd {
    fn fmt(&self, f: &mut std::fmt::Formatter<'_>) -> std::fmt::Result {
        match self {
            Self::SpinLimit => { ({ (f.write_fmt(format_args!("the device stalled"))) }) }
            Self::Patience => { ({ (f.write_fmt(format_args!("the caller waits no longer"))) }) }
        }
    }
}

#[automatically_derived]
impl std::error::Error for WaitEnd {}

/// A wait that asks its caller ended in vain.
#[derive(Clone, Copy, Debug, PartialEq, Eq, Hash)]
pub struct WaitError {
    /// The number of bytes that the call had sent or received before the wait.
    pub done: usize,
    /// What ended the wait.
    pub ended_by: WaitEnd,
}

#[automatically_derived]
impl std::fmt::Display for WaitError {
    fn fmt(&self, f: &mut std::fmt::Formatter<'_>) -> std::fmt::Result {
        match self {
            Self { done, ended_by } => {
                ({ (f.write_fmt(format_args!("{ended_by}, after {done} bytes"))) })
            }
        }
    }
}

#[automatically_derived]
impl std::error::Error for WaitError {}

/// How long a wait goes on: until a time, until a key is pressed, or whatever else its caller
/// knows.
///
/// A call that takes one, as `send_bytes_while`, asks it after each check that fails. The spin
/// limit bounds each wait too, so a patience without end is no endless wait. In Rust each
/// `FnMut() -> bool` is one.
///
/// In Rattle an implementation also defines a relation: from which state it may answer what, and
/// in which state it is then.
pub trait Patience {
    // considered: a patience by value, and an implementation for each `&mut P`, as of `Read`. In
    //   Rattle a value of a type parameter that was moved into a call has no state after it: the
    //   contract could say that the caller was asked, and not in which state it is then. And in
    //   Rust `&mut F` is a function wherever `F` is one, so that implementation and the one for
    //   each `FnMut() -> bool` exclude each other.

    /// Returns whether to keep waiting.
    ///
    /// Called once after each check that fails. If it returns false, the wait makes no further
    /// access.
    ///
    /// # To be kept by an implementation
    ///
    /// What the proofs take each implementation to do. Nothing checks it of one that is written in Rust.
    ///
    /// - `answers self.old result self.new`.
    ///
    /// <details><summary>The clauses</summary>
    ///
    /// [How to read them](uart_spec::proved):
    ///
    /// ```text
    /// ensures { answers self.old result self.new }
    /// ```
    ///
    /// </details>
    fn keep_waiting(&mut self) -> bool;
}
