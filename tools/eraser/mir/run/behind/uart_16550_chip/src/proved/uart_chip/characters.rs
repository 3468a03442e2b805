
impl<Q: crate::run::Value + Fifo<Character>> crate::run::Value for Characters<Q> {
    fn show(&self, out: &mut ::std::vec::Vec<u64>) {
        self.queue.show(out);
        out.push(self.errors as u64);
    }
    // A count of characters of a queue, which is small: with one more, any other would have to fit into a `usize`.
    fn make(choices: &mut crate::run::Choices) -> Self {
        Self { queue: crate::run::Value::make(choices), errors: choices.number(16) as usize }
    }
}
