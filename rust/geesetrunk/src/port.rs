//! Plays the calls of a script on a real chip at an I/O port, through Linux's file of ports.

mod base;
// A page in a browser is made of this library too, and has no files of ports.
#[cfg(unix)]
mod file;
#[cfg(unix)]
mod lines;
#[cfg(unix)]
mod playing;

pub use base::base_in;
#[cfg(unix)]
pub use file::DeviceFile;
#[cfg(target_os = "linux")]
pub(crate) use playing::unopened;
#[cfg(unix)]
pub use playing::{Run, play};
