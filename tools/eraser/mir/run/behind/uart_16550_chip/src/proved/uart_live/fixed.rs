
impl<T: crate::run::Value, const FIFO: usize> crate::run::Value for FixedFifo<T, FIFO> {
    fn show(&self, out: &mut ::std::vec::Vec<u64>) {
        out.extend([self.start as u64, self.len as u64]);
        self.slots.show(out);
    }
    fn make(choices: &mut crate::run::Choices) -> Self {
        let (start, len) = (choices.pick(FIFO as u64) as usize, choices.pick(FIFO as u64 + 1) as usize);
        Self { slots: crate::run::Value::make(choices), start, len }
    }
}

impl crate::run::Value for FixedWire {
    fn show(&self, out: &mut ::std::vec::Vec<u64>) {
        self.slots.show(out);
        out.extend([self.start as u64, self.count as u64, self.limit as u64]);
    }
    fn make(choices: &mut crate::run::Choices) -> Self {
        let (slots, start, count, limit) = crate::run::wire(choices);
        Self { slots, start: start as usize, count: count as usize, limit: limit as usize }
    }
}
