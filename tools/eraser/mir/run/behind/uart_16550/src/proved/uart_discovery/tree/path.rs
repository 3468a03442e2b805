
impl crate::run::Value for Path {
    fn show(&self, out: &mut ::std::vec::Vec<u64>) {
        self.nodes.iter().for_each(|node| out.push(*node as u64));
        out.push(self.count as u64);
    }
    fn make(choices: &mut crate::run::Choices) -> Self {
        let (nodes, count) = crate::run::nodes(choices);
        Self { nodes: nodes.map(|node| node as usize), count: count as usize }
    }
}
