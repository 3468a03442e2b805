//! Worked examples over the chip in software: raw accesses, the driver and the rings over it, and the live chip. And what no contract
//! says: that machines are built, and texts.

mod accesses;
mod cut;
mod driver;
mod idle;
mod live;
mod machines;
mod paths;
mod ring_random;
mod ring_sessions;
mod rings;
mod schedules;
mod sized;
mod sized_rings;
mod switched;
