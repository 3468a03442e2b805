
impl crate::run::Value for ByteQueue {
    fn show(&self, out: &mut ::std::vec::Vec<u64>) {
        out.extend([self.capacity() as u64, self.len as u64]);
        let cells = self.cells.as_slice();
        out.extend((0..self.len).map(|at| u64::from(cells[(self.front + at) % cells.len()])));
    }
    fn make(choices: &mut crate::run::Choices) -> Self {
        let (capacity, front, bytes) = crate::run::queue(choices);
        let mut cells = ::std::vec![0; capacity];
        for (at, byte) in bytes.iter().enumerate() {
            cells[(front + at) % capacity] = *byte;
        }
        Self { cells: Vec::of(cells), front, len: bytes.len() }
    }
}
