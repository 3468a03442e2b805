//! What a monitor with a clock puts off, and what it owes its guest.

use crate::port::{kind_of_read, kind_of_write};
use crate::told::Todo;

/// What a monitor with a clock owes its guest.
///
/// Each call lets time pass that a real line would still take. So a guest's access of DATA can take
/// the interrupt line up before a real one would rise: a reception timeout is due at once for what
/// is left in the FIFO, and a transmitter is empty again. Most guests go on with their handler,
/// have done by then what they would be called for, and find nothing. A monitor that has a clock
/// puts such a signal off for the time of four characters.
///
/// After each call of the port it passes what the call asks for through [`Clock::after_read`],
/// [`Clock::after_write`] or [`Clock::after_host`], and then does what is left in it. When the time
/// has passed, it calls [`Clock::pass_time`].
#[derive(Clone, Copy, Debug, PartialEq, Eq)]
pub struct Clock {
    /// A signal is put off, and the line is up since.
    pub is_owed: bool,
}

impl Clock {
    /// Returns the clock of a port that is new, or restored: nothing is put off.
    ///
    /// # Proved
    ///
    /// - `result.is_owed` is `false`.
    ///
    /// <details><summary>The clauses</summary>
    ///
    /// [How to read them](uart_spec::proved):
    ///
    /// ```text
    /// ensures { result.is_owed ≡ false }
    /// ```
    ///
    /// </details>
    #[must_use]
    pub fn new() -> Self {
        Clock { is_owed: false }
    }

    // Takes the signal from `todo`, if it waits. What was put off before is no longer owed if a
    // signal is given, or if the line is down.
    fn put_off(&mut self, waits: bool, todo: &mut Todo) {
        let was_owed = self.is_owed;
        self.is_owed = todo.level && if todo.signal { waits } else { was_owed };
        todo.signal = todo.signal && !waits;
    }

    /// The guest read this register, and the port asked for this. Takes the signal from `todo` if
    /// it can wait: the register is DATA, and the line was up before. Returns whether that is so:
    /// then the time begins, after which the monitor calls [`Clock::pass_time`].
    ///
    /// # Proved
    ///
    /// - *waits*: returns [`can_wait`](crate::proved::clock#can_wait) `(Read offset) todo.old`: the signal that this call asks for can wait: the guest reads DATA, and the line was up before; or it writes DATA.
    /// - *todo*: `todo` becomes [`todo_now`](crate::proved::clock#todo_now) `result todo.old`: what is left to be done now: all of it, but for a signal that is put off.
    /// - *owed*: `self.new.is_owed ≡ owed_after self.old.is_owed result todo.old`.
    ///   - [`owed_after`](crate::proved::clock#owed_after): the guest is owed a signal after a call: one is put off now; or none is given, one was put off before, and the line is still up.
    ///
    /// <details><summary>The clauses</summary>
    ///
    /// [How to read them](uart_spec::proved):
    ///
    /// ```text
    /// ensures waits { result ≡ can_wait (Read offset) todo.old }
    /// ensures todo { todo.new ≡ todo_now result todo.old }
    /// ensures owed { self.new.is_owed ≡ owed_after self.old.is_owed result todo.old }
    /// ```
    ///
    /// </details>
    pub fn after_read(&mut self, offset: u8, todo: &mut Todo) -> bool {
        let moves_data = kind_of_read(offset).moves_data;
        let waits = moves_data && (todo.signal && !todo.has_moved);
        self.put_off(waits, todo);
        waits
    }

    /// The guest wrote this register, and the port asked for this. Takes the signal from `todo` if
    /// it can wait: the register is DATA. Returns whether that is so: then the time begins, after
    /// which the monitor calls [`Clock::pass_time`].
    ///
    /// # Proved
    ///
    /// - *waits*: for each `value`: returns [`can_wait`](crate::proved::clock#can_wait) `(Write offset value) todo.old`: the signal that this call asks for can wait: the guest reads DATA, and the line was up before; or it writes DATA.
    /// - *todo*: `todo` becomes [`todo_now`](crate::proved::clock#todo_now) `result todo.old`: what is left to be done now: all of it, but for a signal that is put off.
    /// - *owed*: `self.new.is_owed ≡ owed_after self.old.is_owed result todo.old`.
    ///   - [`owed_after`](crate::proved::clock#owed_after): the guest is owed a signal after a call: one is put off now; or none is given, one was put off before, and the line is still up.
    ///
    /// <details><summary>The clauses</summary>
    ///
    /// [How to read them](uart_spec::proved):
    ///
    /// ```text
    /// ensures waits { (value : ℕ) → result ≡ can_wait (Write offset value) todo.old }
    /// ensures todo { todo.new ≡ todo_now result todo.old }
    /// ensures owed { self.new.is_owed ≡ owed_after self.old.is_owed result todo.old }
    /// ```
    ///
    /// </details>
    pub fn after_write(&mut self, offset: u8, todo: &mut Todo) -> bool {
        let moves_data = kind_of_write(offset).moves_data;
        let waits = moves_data && todo.signal;
        self.put_off(waits, todo);
        waits
    }

    /// The host brought something, or took output, and the port asked for this. All of it is to be
    /// done now.
    ///
    /// # Proved
    ///
    /// - `self.new.is_owed ≡ owed_after self.old.is_owed false todo`.
    ///   - [`owed_after`](crate::proved::clock#owed_after): the guest is owed a signal after a call: one is put off now; or none is given, one was put off before, and the line is still up.
    ///
    /// <details><summary>The clauses</summary>
    ///
    /// [How to read them](uart_spec::proved):
    ///
    /// ```text
    /// ensures { self.new.is_owed ≡ owed_after self.old.is_owed false todo }
    /// ```
    ///
    /// </details>
    pub fn after_host(&mut self, todo: Todo) {
        let was_owed = self.is_owed;
        self.is_owed = todo.level && (!todo.signal && was_owed);
    }

    /// The time has passed. Returns whether the guest's interrupt is to be signalled now: it was
    /// put off, and is still owed. A call that comes early, late, or for nothing, does no harm.
    ///
    /// # Proved
    ///
    /// - *given*: returns `self.old.is_owed`.
    /// - *left*: `self.new.is_owed ≡ false`.
    ///
    /// <details><summary>The clauses</summary>
    ///
    /// [How to read them](uart_spec::proved):
    ///
    /// ```text
    /// ensures given { result ≡ self.old.is_owed }
    /// ensures left { self.new.is_owed ≡ false }
    /// ```
    ///
    /// </details>
    pub fn pass_time(&mut self) -> bool {
        let is_owed = self.is_owed;
        self.is_owed = false;
        is_owed
    }
}
