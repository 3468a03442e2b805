//! Whether a standard stream was open when the process began.
//!
//! The standard library opens `/dev/null` in the place of a stream that is closed, before `main`. From there on nothing tells it from a
//! `/dev/null` that the caller has given: what is read is empty, and what is printed is gone without a word. So this looks before the
//! standard library does.
#![allow(
    unsafe_code,
    reason = "the linker is told of a function that looks before `main`"
)]

/// A standard stream, by its number.
#[derive(Clone, Copy, Debug, PartialEq, Eq)]
pub enum Stream {
    /// Standard input.
    Input,
    /// Standard output.
    Output,
}

#[cfg(target_os = "linux")]
mod before_main {
    use super::Stream;
    use std::ffi::c_int;
    use std::sync::atomic::{AtomicBool, Ordering};

    const F_GETFD: c_int = 1;

    static INPUT_IS_CLOSED: AtomicBool = AtomicBool::new(false);
    static OUTPUT_IS_CLOSED: AtomicBool = AtomicBool::new(false);

    unsafe extern "C" {
        fn fcntl(descriptor: c_int, command: c_int, ...) -> c_int;
    }

    fn look_at(descriptor: c_int, is_closed: &AtomicBool) {
        // SAFETY: F_GETFD has no further argument, takes any number for a descriptor, and changes nothing.
        let flags = unsafe { fcntl(descriptor, F_GETFD) };
        is_closed.store(flags < 0, Ordering::Relaxed);
    }

    extern "C" fn look() {
        look_at(0, &INPUT_IS_CLOSED);
        look_at(1, &OUTPUT_IS_CLOSED);
    }

    // SAFETY: what starts a process calls each function of this section once, before `main` and in its only thread. `look` needs nothing
    // of the standard library that is not there yet, and does not unwind.
    #[used]
    #[unsafe(link_section = ".init_array")]
    static LOOK: extern "C" fn() = look;

    pub fn is_closed(stream: Stream) -> bool {
        match stream {
            Stream::Input => INPUT_IS_CLOSED.load(Ordering::Relaxed),
            Stream::Output => OUTPUT_IS_CLOSED.load(Ordering::Relaxed),
        }
    }
}

// Elsewhere it is not seen.
#[cfg(not(target_os = "linux"))]
mod before_main {
    pub fn is_closed(_: super::Stream) -> bool {
        false
    }
}

/// Returns whether a stream was closed when the process began. It is seen on Linux alone, and `false` elsewhere.
pub fn is_closed(stream: Stream) -> bool {
    before_main::is_closed(stream)
}
