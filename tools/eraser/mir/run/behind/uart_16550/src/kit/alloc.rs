
impl crate::run::Value for AllocError {
    fn show(&self, _: &mut ::std::vec::Vec<u64>) {}
    fn make(_: &mut crate::run::Choices) -> Self {
        Self
    }
}
