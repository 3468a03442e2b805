
impl Vec<u8> {
    /// Returns these items.
    pub fn of(items: ::std::vec::Vec<u8>) -> Self {
        Self(Items::Allocated(items.into_boxed_slice()))
    }
}
