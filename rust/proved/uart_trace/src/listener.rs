//! Who is told of a run.

use uart_spec::access::Access;

/// Is told of the calls of a run, one after the other, while the run goes on.
///
/// No list of the accesses is kept for a listener. A wait may make millions of them, so a listener
/// keeps what it needs and no more.
///
/// In Rattle an implementation also defines three relations between the listener before and after
/// it is told something. The contract of [`tell`](crate::tell) is a statement on them.
pub trait Listener {
    /// Is told that the next call of the script begins.
    fn begin(&mut self);

    /// Is told of an access that the call has made.
    fn hear(&mut self, access: Access);

    /// Is told that the call has returned.
    fn end(&mut self);
}
