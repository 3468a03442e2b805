//! Recordings of a chip's port: which registers a driver read and wrote, what the reads returned,
//! and what else was seen.
//!
//! An [`Entry`] is what one line of a recording says.

mod cause;
mod entry;
mod fields;
pub mod limits;
mod lines;
mod place;
mod reading;
mod window;

pub use cause::RecordingFault;
pub use entry::{Entry, Happening};
pub use lines::{RecordingLine, line_in};
pub use place::Place;
pub use reading::{Recording, RecordingError};
