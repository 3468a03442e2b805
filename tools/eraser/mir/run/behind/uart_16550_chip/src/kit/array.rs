
impl<T: Copy + Default + crate::run::Value, const N: usize> crate::run::Value for ArrayVec<T, N> {
    fn show(&self, out: &mut ::std::vec::Vec<u64>) {
        self.as_slice().show(out);
    }
    fn make(choices: &mut crate::run::Choices) -> Self {
        let (count, mut list) = (choices.pick(N as u64 + 1), Self::new());
        for _ in 0..count {
            list.push(crate::run::Value::make(choices));
        }
        list
    }
}
