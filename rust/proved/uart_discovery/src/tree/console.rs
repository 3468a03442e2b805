//! The port that a device tree says.

use crate::command_line::{LineOptions, options_of};
use crate::errors::TreeError;
use crate::port::{AddressSpace, PortDescription};
use crate::tree::address::address_of;
use crate::tree::blob::{Tree, be32, text_at};
use crate::tree::interrupt::interrupt_of;
use crate::tree::node::{node_with, number, property};
use crate::tree::path::{Path, nodes_on};
use uart_spec::{ByteOrder, RegisterLayout, RegisterWidth};

// Returns whether a name in `compatible` is that of a port with the registers of a 16550.
fn is_16550(name: &[u8]) -> bool {
    if name == b"ns16450".as_slice() {
        true
    } else if name == b"ns16550".as_slice() {
        true
    } else if name == b"ns16550a".as_slice() {
        true
    } else if name == b"ns16750".as_slice() {
        true
    } else if name == b"ns16850".as_slice() {
        true
    } else if name == b"snps,dw-apb-uart".as_slice() {
        true
    } else if name == b"intel,xscale-uart".as_slice() {
        true
    } else if name == b"mrvl,mmp-uart".as_slice() {
        true
    } else if name == b"nvidia,tegra20-uart".as_slice() {
        true
    } else if name == b"nxp,lpc3220-uart".as_slice() {
        true
    } else if name == b"altr,16550-FIFO32".as_slice() {
        true
    } else if name == b"altr,16550-FIFO64".as_slice() {
        true
    } else if name == b"altr,16550-FIFO128".as_slice() {
        true
    } else {
        false
    }
}

// Returns the distance between registers.
fn stride_of(shift: u32) -> Result<u8, TreeError> {
    match shift {
        0 => Ok(1),
        1 => Ok(2),
        2 => Ok(4),
        3 => Ok(8),
        4 => Ok(16),
        5 => Ok(32),
        6 => Ok(64),
        7 => Ok(128),
        _ => Err(TreeError::Stride),
    }
}

// Returns the width of an access of so many bytes.
fn width_of(bytes: u32) -> Result<RegisterWidth, TreeError> {
    match bytes {
        1 => Ok(RegisterWidth::Bits8),
        2 => Ok(RegisterWidth::Bits16),
        4 => Ok(RegisterWidth::Bits32),
        _ => Err(TreeError::Width),
    }
}

// Returns whether a node has a property, whatever its value is.
fn has(tree: Tree<'_>, node: usize, name: &[u8]) -> Result<bool, TreeError> {
    Ok(property(tree, node, name)?.is_some())
}

// Returns the order of the bytes of a register.
fn byte_order_of(tree: Tree<'_>, node: usize, native: ByteOrder) -> Result<ByteOrder, TreeError> {
    if has(tree, node, b"big-endian".as_slice())? {
        Ok(ByteOrder::Big)
    } else if has(tree, node, b"native-endian".as_slice())? {
        Ok(native)
    } else {
        Ok(ByteOrder::Little)
    }
}

// Returns how the registers of a node lie.
fn layout_of(tree: Tree<'_>, node: usize, native: ByteOrder) -> Result<RegisterLayout, TreeError> {
    let shift = number(tree, node, b"reg-shift".as_slice())?.unwrap_or(0);
    let width = number(tree, node, b"reg-io-width".as_slice())?.unwrap_or(1);
    Ok(RegisterLayout {
        stride: stride_of(shift)?,
        width: width_of(width)?,
        byte_order: byte_order_of(tree, node, native)?,
    })
}

// Returns the number of a property of one cell. 0 says that nothing is known.
fn positive(tree: Tree<'_>, node: usize, name: &[u8]) -> Result<Option<u32>, TreeError> {
    match number(tree, node, name)? {
        Some(0) => Ok(None),
        found => Ok(found),
    }
}

// Returns the frequency of the clock: the node's own, or that of its first clock, if that is fixed.
fn clock_of(tree: Tree<'_>, node: usize) -> Result<Option<u32>, TreeError> {
    let own = positive(tree, node, b"clock-frequency".as_slice())?;
    if own.is_some() {
        return Ok(own);
    }
    let Some(clocks) = property(tree, node, b"clocks".as_slice())? else {
        return Ok(None);
    };
    let Some(phandle) = be32(clocks, 0) else {
        return Ok(None);
    };
    let Some(clock) = node_with(tree, phandle)? else {
        return Ok(None);
    };
    match property(tree, clock, b"compatible".as_slice())? {
        Some(b"fixed-clock\0") => positive(tree, clock, b"clock-frequency".as_slice()),
        _ => Ok(None),
    }
}

// Returns whether one of the names in `compatible` is that of a port with the registers of a 16550.
fn has_16550(names: &[u8]) -> bool {
    names.split(|byte| *byte == 0).any(is_16550)
}

// Returns whether a node is a port with the registers of a 16550.
pub(crate) fn is_port(tree: Tree<'_>, node: usize) -> Result<bool, TreeError> {
    match property(tree, node, b"compatible".as_slice())? {
        None => Ok(false),
        Some(names) => Ok(has_16550(names)),
    }
}

// Checks that a node is to be used.
fn check_used(tree: Tree<'_>, node: usize) -> Result<(), TreeError> {
    match property(tree, node, b"status".as_slice())? {
        None | Some(b"okay\0" | b"ok\0") => Ok(()),
        Some(_) => Err(TreeError::Disabled),
    }
}

// Checks that a node is a port with the registers of a 16550, and to be used.
fn check_node(tree: Tree<'_>, node: usize) -> Result<(), TreeError> {
    if is_port(tree, node)? {
        check_used(tree, node)
    } else {
        Err(TreeError::NotCompatible)
    }
}

// Returns the port of the node at the end of a path.
pub(crate) fn port_at(
    tree: Tree<'_>,
    path: &Path,
    native: ByteOrder,
) -> Result<PortDescription, TreeError> {
    let node = path.last()?;
    check_node(tree, node)?;
    let offset = number(tree, node, b"reg-offset".as_slice())?.unwrap_or(0);
    let base = address_of(tree, path)?
        .checked_add(u64::from(offset))
        .ok_or(TreeError::Untranslated)?;
    Ok(PortDescription {
        space: AddressSpace::Memory,
        base,
        layout: layout_of(tree, node, native)?,
        clock: clock_of(tree, node)?,
        baud_rate: positive(tree, node, b"current-speed".as_slice())?,
        frame: None,
        has_flow_control: false,
        interrupt: interrupt_of(tree, path)?,
    })
}

// Returns the nodes on a path from the root, or from what an alias stands for.
fn resolve(tree: Tree<'_>, name: &[u8]) -> Result<Path, TreeError> {
    if let [b'/', ..] = name {
        return nodes_on(tree, name);
    }
    let aliases = nodes_on(tree, b"/aliases".as_slice())?.last()?;
    let path = property(tree, aliases, name)?.ok_or(TreeError::NoNode)?;
    nodes_on(tree, text_at(path, 0)?)
}

// Returns the path of the console, or its alias, with the options behind it.
fn console_path(tree: Tree<'_>) -> Result<&[u8], TreeError> {
    let chosen = nodes_on(tree, b"/chosen".as_slice())?.last()?;
    let path = match property(tree, chosen, b"stdout-path".as_slice())? {
        Some(path) => path,
        None => property(tree, chosen, b"linux,stdout-path".as_slice())?.ok_or(
            TreeError::NoConsole,
        )?,
    };
    text_at(path, 0)
}

/// Returns the port of a node of a device tree, by its path, as `/soc/serial@10000000`, or by its
/// alias, as `serial0`.
///
/// A name of the path may be without the address behind `@`. Addresses of one or two cells are
/// followed to the processor through the `ranges` of each bus. The clock is what `clock-frequency`
/// says, or the first of `clocks`, if that is a `fixed-clock`. `native` is the order of the
/// processor's bytes, for a node with `native-endian`.
///
/// # Errors
///
/// Why the tree describes no such port.
///
/// # Examples
///
/// ```
/// # use facade::{discovery::*, native::backend::ByteOrder, spec::registers::{Parity, WordLength}};
/// let found = read_tree_node(&[], b"serial0", ByteOrder::Little);
/// assert_eq!(found, Err(TreeError::Truncated));
/// ```
///
/// # Proved
///
/// - *tree*: if it returns `Ok port`: [`IsBlob`](crate::proved::tree#IsBlob) `blob.now`: bytes are a whole device tree that a reader of version 17 can read.
/// - *memory*: if it returns `Ok port`: [`IsInMemory`](crate::proved::tree#IsInMemory) `port`: a port whose registers are in memory, and a power of two apart.
///
/// <details><summary>The clauses</summary>
///
/// [How to read them](uart_spec::proved):
///
/// ```text
/// ensures tree { IfOk result (λ port. IsBlob blob.now) }
/// ensures memory { IfOk result (λ port. IsInMemory port) }
/// ```
///
/// </details>
pub fn read_tree_node(
    blob: &[u8],
    path: &[u8],
    native: ByteOrder,
) -> Result<PortDescription, TreeError> {
    let tree = Tree::new(blob)?;
    let nodes = resolve(tree, path)?;
    port_at(tree, &nodes, native)
}

/// Returns the port that a device tree has for its console: that of `stdout-path` in `/chosen`, or
/// of `linux,stdout-path`, as [`read_tree_node`] finds it.
///
/// Behind the path may stand options, as in `serial0:115200n8`: those of `earlycon=`
/// ([`read_earlycon`](crate::read_earlycon)). Their baud rate has the place of that of the node.
///
/// # Errors
///
/// Why the tree describes no such port.
///
/// # Examples
///
/// ```
/// # use facade::{discovery::*, native::backend::ByteOrder, spec::registers::{Parity, WordLength}};
/// let found = read_device_tree(&[0; 64], ByteOrder::Little);
/// assert_eq!(found, Err(TreeError::Magic));
/// ```
///
/// # Proved
///
/// - *tree*: if it returns `Ok port`: [`IsBlob`](crate::proved::tree#IsBlob) `blob.now`: bytes are a whole device tree that a reader of version 17 can read.
/// - *memory*: if it returns `Ok port`: [`IsInMemory`](crate::proved::tree#IsInMemory) `port`: a port whose registers are in memory, and a power of two apart.
///
/// <details><summary>The clauses</summary>
///
/// [How to read them](uart_spec::proved):
///
/// ```text
/// ensures tree { IfOk result (λ port. IsBlob blob.now) }
/// ensures memory { IfOk result (λ port. IsInMemory port) }
/// ```
///
/// </details>
pub fn read_device_tree(blob: &[u8], native: ByteOrder) -> Result<PortDescription, TreeError> {
    let tree = Tree::new(blob)?;
    let text = console_path(tree)?;
    let mut parts = text.split(|byte| *byte == b':');
    let path = parts.next().unwrap_or(&[]);
    let options = parts.next().unwrap_or(&[]);
    let nodes = resolve(tree, path)?;
    let port = port_at(tree, &nodes, native)?;
    match options_of(options) {
        Ok(
            LineOptions {
                baud_rate: None,
                ..
            },
        ) => Ok(port),
        Ok(said) => Ok(PortDescription {
            baud_rate: said.baud_rate,
            frame: said.frame,
            has_flow_control: said.has_flow_control,
            ..port
        }),
        Err(cause) => Err(TreeError::Options(cause)),
    }
}
