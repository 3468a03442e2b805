//! The census of a chip, which is C, taken of chips in software: those of this project, and those that deviate from them on purpose.

mod census;
mod chip_in_c;
mod chips;
mod deviations;
mod exact;
mod in_rust;

pub use census::{Census, Clock, End, Model, RULES, Row, Seen, take, take_by};
pub use chip_in_c::Kind;
pub use chips::{MODELS, model};
pub use deviations::{DEVIATIONS, Deviation};
pub use exact::{BadLine, KINDS, Recording, Verdict, judge, judge_by_all};
pub use in_rust::take_in_rust;
