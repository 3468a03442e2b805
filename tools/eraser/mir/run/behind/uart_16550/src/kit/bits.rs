
impl<F: crate::run::Value> crate::run::Value for Flag<F> {
    fn show(&self, out: &mut ::std::vec::Vec<u64>) {
        self.name().show(out);
        self.value().show(out);
    }
}
