
impl crate::run::Value for KeptCharacters {
    fn show(&self, out: &mut ::std::vec::Vec<u64>) {
        out.push(self.count as u64);
        self.cells[..self.count].iter().for_each(|one| one.show(out));
    }
    fn make(choices: &mut crate::run::Choices) -> Self {
        Self { cells: crate::run::Value::make(choices), count: choices.pick(65) as usize }
    }
}
