//! Memory is handed out once, as much as was asked for, and with what it is filled.

extern crate std;

#[cfg(feature = "alloc")]
use super::Global;
use super::{Memory, filled};
use std::boxed::Box;
use std::vec::Vec;

// Memory in which each byte is 0x55.
fn leaked(len: usize) -> Memory {
    Memory::new(Box::leak(std::vec![0x55; len].into_boxed_slice()))
}

#[test]
fn a_piece_is_filled() {
    let memory = leaked(10);
    let mut piece = filled(memory.global(), 0xee, 6).unwrap();
    assert_eq!(piece.as_slice(), [0xee; 6]);
    assert_eq!(piece.as_mut_slice(), [0xee; 6]);
}

#[test]
fn what_is_written_stays() {
    let memory = leaked(3);
    let mut piece = filled(memory.global(), 0, 3).unwrap();
    piece.as_mut_slice().copy_from_slice(&[1, 2, 3]);
    assert_eq!(piece.as_slice(), [1, 2, 3]);
}

#[test]
fn memory_is_handed_out_once() {
    let memory = leaked(10);
    let global = memory.global();
    let first = filled(global, 1, 6).unwrap();
    assert!(filled(global, 2, 5).is_err());
    let second = filled(global, 2, 4).unwrap();
    assert!(filled(global, 3, 1).is_err());
    assert!(filled(global, 3, 0).is_ok());
    assert_eq!(first.as_slice(), [1; 6]);
    assert_eq!(second.as_slice(), [2; 4]);
}

#[test]
fn all_of_it_is_handed_out() {
    for count in 1..=100 {
        let memory = leaked(100);
        let pieces: Vec<_> =
            core::iter::from_fn(|| filled(memory.global(), 0, count).ok()).collect();
        assert_eq!(pieces.len(), 100 / count);
        assert!(pieces.iter().all(|piece| piece.as_slice().len() == count));
        assert!(filled(memory.global(), 0, 100 % count).is_ok());
    }
}

#[cfg(feature = "alloc")]
#[test]
fn memory_of_the_heap_is_fresh_each_time() {
    let mut first = filled(Global::heap(), 1, 6).unwrap();
    let second = filled(Global::heap(), 2, 4096).unwrap();
    assert_eq!(first.as_slice(), [1; 6]);
    assert_eq!(second.as_slice(), [2; 4096]);
    first.as_mut_slice().fill(3);
    assert_eq!(first.as_slice(), [3; 6]);
    assert_eq!(second.as_slice(), [2; 4096]);
}

#[cfg(feature = "alloc")]
#[test]
fn refused_memory_of_the_heap_is_an_error() {
    assert!(filled(Global::heap(), 0, usize::MAX).is_err());
}
