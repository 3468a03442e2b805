//! What a chip did that the backend could not mend.
use std::fmt;

/// What a DesignWare UART did that this backend could not mend.
#[cfg_attr(not(feature = "exhaustive"), non_exhaustive)]
#[derive(Clone, Copy, Debug, PartialEq, Eq, Hash)]
pub enum DesignWareFault {
    /// The chip was busy for longer than the patience, and LCR does not have what was written to
    /// it.
    LineControlIgnored,
    /// A read of USR did not end a busy-detect interrupt, or a read of RBR a reception timeout
    /// without data.
    InterruptWithoutEnd,
}

#[automatically_derived]
impl std::fmt::Display for DesignWareFault {
    fn fmt(&self, f: &mut std::fmt::Formatter<'_>) -> std::fmt::Result {
        match self {
            Self::LineControlIgnored => {
                ({ (f.write_fmt(format_args!("the UART stayed busy, and ignored LCR"))) })
            }
            Self::InterruptWithoutEnd => {
                ({ (f.write_fmt(format_args!("an interrupt of the UART does not end"))) })
            }
        }
    }
}

#[automatically_derived]
impl std::error::Error for DesignWareFault {}
