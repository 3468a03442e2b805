//! The properties and the children of a node.
//!
//! A node is known by where its first property is in the structure.

use crate::errors::TreeError;
use crate::tree::blob::{Token, Tree, be32, text_at};

// Returns the value of a property of a node, if it has it. All properties come before the children.
pub(crate) fn property<'a>(
    tree: Tree<'a>,
    node: usize,
    name: &[u8],
) -> Result<Option<&'a [u8]>, TreeError> {
    let mut at = node;
    // A token has four bytes at least.
    for _token in 0..tree.structure.len() / 4 {
        match tree.token(at)? {
            Token::Property {
                name: place,
                value,
                end,
                next,
            } => {
                if text_at(tree.strings, place)? == name {
                    let bytes = tree.structure.get(value..end).ok_or(TreeError::Truncated)?;
                    return Ok(Some(bytes));
                }
                at = next;
            }
            Token::Nothing { next } => at = next,
            _ => return Ok(None),
        }
    }
    Ok(None)
}

// Returns the number of a property of one cell, if the node has it.
pub(crate) fn number(tree: Tree<'_>, node: usize, name: &[u8]) -> Result<Option<u32>, TreeError> {
    match property(tree, node, name)? {
        None => Ok(None),
        Some(value) => match be32(value, 0) {
            Some(number) if value.len() == 4 => Ok(Some(number)),
            _ => Err(TreeError::PropertySize),
        },
    }
}

// Returns the number by which other nodes name a node, if it has one. Old trees have another name
// for it.
pub(crate) fn phandle_of(tree: Tree<'_>, node: usize) -> Result<Option<u32>, TreeError> {
    match number(tree, node, b"phandle".as_slice())? {
        None => number(tree, node, b"linux,phandle".as_slice()),
        found => Ok(found),
    }
}

// Returns the node that others name by a number, if the tree has it.
pub(crate) fn node_with(tree: Tree<'_>, phandle: u32) -> Result<Option<usize>, TreeError> {
    let mut at = 0;
    for _token in 0..tree.structure.len() / 4 {
        match tree.token(at)? {
            Token::Begin { next, .. } => {
                if phandle_of(tree, next)? == Some(phandle) {
                    return Ok(Some(next));
                }
                at = next;
            }
            Token::End { next } => at = next,
            Token::Property { next, .. } => at = next,
            Token::Nothing { next } => at = next,
            Token::Finish => return Ok(None),
        }
    }
    Ok(None)
}

// Returns whether a name of a path stands for a node: it is the node's, or that without the address
// behind `@`.
fn is_named(wanted: &[u8], name: &[u8]) -> bool {
    match name.strip_prefix(wanted) {
        Some([]) => true,
        Some([b'@', ..]) => true,
        _ => false,
    }
}

// Returns the first child with this name, if the node has one.
pub(crate) fn child(
    tree: Tree<'_>,
    node: usize,
    wanted: &[u8],
) -> Result<Option<usize>, TreeError> {
    let mut at = node;
    // How many nodes have begun below this one and not ended.
    let mut depth = 0u32;
    for _token in 0..tree.structure.len() / 4 {
        match tree.token(at)? {
            Token::Begin { name, next } => {
                if depth == 0 && is_named(wanted, text_at(tree.structure, name)?) {
                    return Ok(Some(next));
                }
                depth = depth.checked_add(1).ok_or(TreeError::Depth)?;
                at = next;
            }
            Token::End { next } => {
                match depth.checked_sub(1) {
                    None => return Ok(None),
                    Some(less) => depth = less,
                }
                at = next;
            }
            Token::Property { next, .. } => at = next,
            Token::Nothing { next } => at = next,
            Token::Finish => return Ok(None),
        }
    }
    Ok(None)
}
