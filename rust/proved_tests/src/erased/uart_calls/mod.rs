#[allow(unused_imports)]
use crate::runtime::{AllocGlobal, HostRuntime, assert, assert_eq};
#[allow(unused_imports)]
use geesetrunk_kit::Vec;
// What a contract says of tests: generic code over a writer, calls over a replay, and examples of
// devices with what each access of them is. The other tests of the driver promise nothing, and are
// plain Rust, in the package that is erased from it.

mod devices;
mod examples;
mod generic;
mod replays;

use std::fmt::Debug;
use crate::runtime::Abort;

// Asserts that two values are equal. A function, since what a macro writes is proved at each use.
fn assert_equal<T: PartialEq + Debug>(rt: &impl Abort, left: T, right: T) {
    assert_eq!(rt; left, right);
}
