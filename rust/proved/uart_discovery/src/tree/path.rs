//! Paths, and the nodes on them.

use crate::errors::TreeError;
use crate::tree::blob::{Token, Tree};
use crate::tree::node::child;

// The most nodes of a path, with the root.
pub(crate) const MOST_NODES: usize = 16;

// The nodes on the way from the root to a node.
#[derive(Clone, Copy, Debug)]
pub(crate) struct Path {
    pub(crate) nodes: [usize; MOST_NODES],
    pub(crate) count: usize,
}

impl Path {
    // Returns the node itself.
    pub(crate) fn last(&self) -> Result<usize, TreeError> {
        self.above(0)
    }

    // Returns the node that is so many steps above the node.
    pub(crate) fn above(&self, steps: usize) -> Result<usize, TreeError> {
        let index = self
            .count
            .checked_sub(1)
            .and_then(|last| last.checked_sub(steps))
            .ok_or(TreeError::NoNode)?;
        self.nodes.get(index).copied().ok_or(TreeError::Depth)
    }

    // Goes into a node. Of one that is too deep only the depth is kept.
    pub(crate) fn enter(&mut self, node: usize) -> Result<(), TreeError> {
        if self.count < MOST_NODES {
            self.nodes[self.count] = node;
        }
        self.count = self.count.checked_add(1).ok_or(TreeError::Depth)?;
        Ok(())
    }

    // Goes back to the node above.
    pub(crate) fn leave(&mut self) -> Result<(), TreeError> {
        self.count = self.count.checked_sub(1).ok_or(TreeError::Truncated)?;
        Ok(())
    }
}

// Returns the root.
fn root(tree: Tree<'_>) -> Result<usize, TreeError> {
    let mut at = 0;
    for _token in 0..tree.structure.len() / 4 {
        match tree.token(at)? {
            Token::Begin { next, .. } => return Ok(next),
            Token::Nothing { next } => at = next,
            _ => return Err(TreeError::NoNode),
        }
    }
    Err(TreeError::NoNode)
}

// Returns the nodes on a path of names behind `/`.
pub(crate) fn nodes_on(tree: Tree<'_>, path: &[u8]) -> Result<Path, TreeError> {
    let mut nodes = [0; MOST_NODES];
    nodes[0] = root(tree)?;
    let mut count = 1;
    let mut node = nodes[0];
    for name in path.split(|byte| *byte == b'/') {
        if !name.is_empty() {
            node = child(tree, node, name)?.ok_or(TreeError::NoNode)?;
            if count >= MOST_NODES {
                return Err(TreeError::Depth);
            }
            nodes[count] = node;
            count += 1;
        }
    }
    Ok(Path { nodes, count })
}
