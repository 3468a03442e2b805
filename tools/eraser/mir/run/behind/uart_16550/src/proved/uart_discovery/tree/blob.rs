
impl crate::run::Value for Tree<'_> {
    fn show(&self, out: &mut ::std::vec::Vec<u64>) {
        self.structure.show(out);
        self.strings.show(out);
    }
    fn make(choices: &mut crate::run::Choices) -> Self {
        let (structure, strings) = crate::run::tree(choices);
        Self { structure: crate::run::kept(&structure), strings: crate::run::kept(&strings) }
    }
}
