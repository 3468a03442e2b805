//! Whether shared rings are in use, and whether a handler came meanwhile.

/// Whether shared rings are in use, and whether a handler came meanwhile.
///
/// A handler cannot wait for who uses the rings, and an edge that it came for does not come again.
/// So it leaves a mark, and who uses the rings serves it before leaving.
#[derive(Clone, Copy, Debug, PartialEq, Eq)]
pub struct Occupancy {
    /// Whether somebody uses the rings.
    pub is_taken: bool,
    /// Whether a handler came that was refused, and nobody has begun to serve since.
    pub is_owed: bool,
}

impl Occupancy {
    /// Returns what it is once somebody came, a handler or another caller: who comes while the
    /// rings are taken is refused, and a handler leaves its mark. A handler that is let in serves
    /// what is owed.
    ///
    /// # Proved
    ///
    /// - Returns [`entered`](crate::proved::occupancy#entered) `is_handler self`: somebody came: who comes while the rings are taken is refused, and a handler leaves a mark; a handler that is let in takes the mark.
    ///
    /// <details><summary>The clauses</summary>
    ///
    /// [How to read them](uart_spec::proved):
    ///
    /// ```text
    /// ensures { result ≡ entered is_handler self }
    /// ```
    ///
    /// </details>
    #[must_use]
    pub fn entered(self, is_handler: bool) -> Self {
        let is_owed = if self.is_taken {
            self.is_owed || is_handler
        } else {
            self.is_owed && !is_handler
        };
        Occupancy {
            is_taken: true,
            is_owed,
        }
    }

    /// Returns what it is once who uses the rings is done. If a handler is owed something, the
    /// mark goes, and the rings stay taken: serve it, and be done again.
    ///
    /// # Proved
    ///
    /// - Returns [`left`](crate::proved::occupancy#left) `self`: who uses the rings is done: they are free, unless there is a mark, which goes.
    ///
    /// <details><summary>The clauses</summary>
    ///
    /// [How to read them](uart_spec::proved):
    ///
    /// ```text
    /// ensures { result ≡ left self }
    /// ```
    ///
    /// </details>
    #[must_use]
    pub fn left(self) -> Self {
        Occupancy {
            is_taken: self.is_owed,
            is_owed: false,
        }
    }

    /// Returns what it is once who uses the rings went in the middle, by a panic: a mark stays, for
    /// who comes next.
    ///
    /// # Proved
    ///
    /// - Returns [`abandoned`](crate::proved::occupancy#abandoned) `self`: who uses the rings went in the middle: they are free, and a mark stays.
    ///
    /// <details><summary>The clauses</summary>
    ///
    /// [How to read them](uart_spec::proved):
    ///
    /// ```text
    /// ensures { result ≡ abandoned self }
    /// ```
    ///
    /// </details>
    #[must_use]
    pub fn abandoned(self) -> Self {
        Occupancy {
            is_taken: false,
            is_owed: self.is_owed,
        }
    }
}
