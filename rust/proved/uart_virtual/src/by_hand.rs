//! How a port is shown.

use crate::VirtualPortWith;
use core::fmt;

impl<const FIFO: usize> fmt::Debug for VirtualPortWith<FIFO> {
    fn fmt(&self, f: &mut fmt::Formatter<'_>) -> fmt::Result {
        f.debug_struct("VirtualPort")
            .field("level", &self.level())
            .field("output", &self.output())
            .finish_non_exhaustive()
    }
}
