//! What is by hand in this crate, since it is of the driver's own type: functions as a patience, and the traits of `core::fmt` and of the
//! crate `embedded-io`.

#[cfg(feature = "embedded-io")]
mod io;
mod patience;
mod text;
