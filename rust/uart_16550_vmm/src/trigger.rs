//! Triggers of other kinds.

use uart_16550_chip::Trigger;

/// A function that raises the guest's interrupt, as an ioctl of a hypervisor, or the trigger of another crate.
///
/// # Examples
///
/// ```
/// use std::cell::Cell;
/// use std::convert::Infallible;
/// use uart_16550_vmm::TriggerBy;
/// use uart_16550_vmm::uart_16550_chip::Trigger;
///
/// let count = Cell::new(0);
/// let trigger = TriggerBy(|| Ok::<(), Infallible>(count.set(count.get() + 1)));
/// trigger.trigger()?;
/// assert_eq!(count.get(), 1);
/// # Ok::<(), Infallible>(())
/// ```
#[derive(Clone, Copy, Debug)]
pub struct TriggerBy<F>(
    /// What raises it, as one edge.
    pub F,
);

impl<F: Fn() -> Result<(), E>, E> Trigger for TriggerBy<F> {
    type E = E;

    fn trigger(&self) -> Result<(), E> {
        (self.0)()
    }
}

/// A trigger, or events, of the crate `vm-superio`, taken as they are.
///
/// Of its events there are four. The others of this device, as `tx_held`, are not told.
#[cfg(feature = "vm-superio")]
#[derive(Clone, Copy, Debug, Default)]
pub struct FromSuperio<T>(
    /// What is written for that crate.
    pub T,
);

#[cfg(feature = "vm-superio")]
impl<T: vm_superio::Trigger> Trigger for FromSuperio<T> {
    type E = T::E;

    fn trigger(&self) -> Result<(), T::E> {
        self.0.trigger()
    }
}

/// The events that are to be written are those of vm-superio. One that is added to them does not compile here, and one that may be left
/// out, which has a body in the list, is none of vm-superio's.
#[cfg(feature = "vm-superio")]
macro_rules! told_to_theirs {
    ($($(#[$doc:meta])* fn $event:ident($($argument:ident: $Type:ty)?) $body:tt)*) => {
        impl<EV: vm_superio::serial::SerialEvents> uart_16550_chip::SerialEvents for FromSuperio<EV> {
            $(told_to_theirs!(one $event $body);)*
        }
    };
    (one $event:ident ;) => {
        fn $event(&self) {
            self.0.$event();
        }
    };
    (one $event:ident { $($body:tt)* }) => {};
}

#[cfg(feature = "vm-superio")]
uart_16550_chip::each_serial_event!(told_to_theirs);
