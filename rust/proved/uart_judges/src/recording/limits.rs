//! How much a recording may have.

/// The most bytes that a line may have, without its end.
pub const MOST_LINE_BYTES: usize = 65_535;

/// The most times that one line may repeat a read.
pub const MOST_REPEATS: u64 = 100_000_000;

/// The most seconds that the time of a line of QEMU's log may have.
pub const MOST_SECONDS: u64 = 9_999_999_999;
