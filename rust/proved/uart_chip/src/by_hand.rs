//! What is by hand in this crate, since it is of its own types: `Copy`, `PartialEq` and `Debug` of the plain data of a chip.

use crate::{
    Character, ChipData, Latches, ModemData, Origin, ReceiverData, Shifting, TransmitterData,
};
use core::fmt;

/// For a struct all of whose fields are named here: rustc refuses one that is left out.
macro_rules! plain {
    ($($Type:ident { $($field:ident),* })*) => { $(
        impl PartialEq for $Type {
            fn eq(&self, other: &Self) -> bool {
                let $Type { $($field),* } = self;
                $(*$field == other.$field)&&*
            }
        }

        impl Eq for $Type {}

        impl fmt::Debug for $Type {
            fn fmt(&self, f: &mut fmt::Formatter<'_>) -> fmt::Result {
                let $Type { $($field),* } = self;
                f.debug_struct(stringify!($Type))
                    $(.field(stringify!($field), $field))*
                    .finish()
            }
        }
    )* };
}

plain! {
    Character { byte, errors, origin }
    Shifting { byte, ticks_left }
    Latches { ier, lcr, mcr, scr, dll, dlm }
    ModemData { inputs, lines, deltas }
    TransmitterData { queue, shift_register, wire_capacity, char_ticks, overflows, is_thr_pending }
    ReceiverData { queue, is_overrun, is_front_reported, last_byte, timeout_ticks, trigger }
    ChipData { model, latches, fifo, transmitter, receiver, modem, cuts }
}

/// For a struct all of whose fields are `Copy`.
macro_rules! copied {
    ($($Type:ident)*) => { $(
        impl Copy for $Type {}

        impl Clone for $Type {
            fn clone(&self) -> Self {
                *self
            }
        }
    )* };
}

copied! { TransmitterData ReceiverData ChipData }

impl PartialEq for Origin {
    fn eq(&self, other: &Self) -> bool {
        match (self, other) {
            (Origin::Arrived(one), Origin::Arrived(other)) => one == other,
            (Origin::Looped, Origin::Looped) | (Origin::Live, Origin::Live) => true,
            _ => false,
        }
    }
}

impl Eq for Origin {}

impl fmt::Debug for Origin {
    fn fmt(&self, f: &mut fmt::Formatter<'_>) -> fmt::Result {
        match self {
            Origin::Arrived(number) => f.debug_tuple("Arrived").field(number).finish(),
            Origin::Looped => f.write_str("Looped"),
            Origin::Live => f.write_str("Live"),
        }
    }
}
