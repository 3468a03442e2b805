//! What a page in a browser shows, as JSON: a run step by step with the chip after each step, and a recording with what is found in it.
//!
//! Nothing here decides anything about the chip or the driver. `rust/web` compiles it to WebAssembly, and has the page.

mod beside;
mod chip;
mod document;
mod exploring;
mod recorded;
mod state;

pub use beside::Beside;
pub use chip::SeenChip;
pub use document::{page_of_run, print_page_of_log};
pub use exploring::{explored, played};
pub use recorded::{entries, explanations_of_all, findings};
pub use state::State;
