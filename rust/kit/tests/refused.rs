//! An allocator that refuses: what has no memory is not stored, is given back, and is reported.
#![cfg(feature = "alloc")]

use geesetrunk_kit::alloc::{AllocError, AllocFailed, Global};
use geesetrunk_kit::{CollectWith, HeapCircularBuffer, String, ToStringWith, ToVecWith, Vec};
use std::alloc::{GlobalAlloc, Layout, System};
use std::cell::Cell;

thread_local! {
    // Of one thread, since the test's own thread allocates beside it.
    static IS_REFUSED: Cell<bool> = const { Cell::new(false) };
}

struct Refusing;

// SAFETY: what is returned is null, or what `System` returns for the same request.
unsafe impl GlobalAlloc for Refusing {
    unsafe fn alloc(&self, layout: Layout) -> *mut u8 {
        if IS_REFUSED.get() {
            return std::ptr::null_mut();
        }
        // SAFETY: the caller keeps what this needs.
        unsafe { System.alloc(layout) }
    }

    unsafe fn dealloc(&self, old: *mut u8, layout: Layout) {
        // SAFETY: the caller keeps what this needs, and each block is of `System`.
        unsafe { System.dealloc(old, layout) }
    }
}

#[global_allocator]
static ALLOCATOR: Refusing = Refusing;

/// Returns what this returns while each request for memory is refused.
fn refused<T>(call: impl FnOnce() -> T) -> T {
    IS_REFUSED.set(true);
    let result = call();
    IS_REFUSED.set(false);
    result
}

#[test]
fn each_call_reports_it() {
    let alloc = Global::heap();
    assert_eq!(refused(|| Vec::new(alloc).push(7u8)), Err(AllocFailed(7)));
    assert_eq!(
        refused(|| Vec::new(alloc).extend_from_slice(&[7u8])),
        Err(AllocError)
    );
    assert_eq!(
        refused(|| Vec::new(alloc).extend_from_slice(&[0u8; 0])),
        Ok(())
    );
    assert_eq!(refused(|| Vec::new(alloc).insert(0, 7u8)), Err(AllocError));
    assert_eq!(refused(|| Vec::new(alloc).resize(1, 7u8)), Err(AllocError));
    assert!(refused(|| Vec::<u8>::with_capacity(alloc, 1)).is_err());
    assert!(refused(|| Vec::<u8>::with_capacity(alloc, 0)).is_ok());
    assert_eq!(refused(|| String::new(alloc).push('a')), Err(AllocError));
    assert_eq!(
        refused(|| String::new(alloc).push_str("a")),
        Err(AllocError)
    );
    assert_eq!(
        refused(|| String::new(alloc).write_fmt(format_args!("{}", 7))),
        Err(AllocError)
    );
    assert!(refused(|| (0..3u8).collect_with(alloc)).is_err());
    assert!(refused(|| [7u8].to_vec_with(alloc)).is_err());
    assert!(refused(|| 7.to_string_with(alloc)).is_err());
    assert!(refused(|| geesetrunk_kit::vec![in alloc; 7u8; 3]).is_err());
    assert!(refused(|| geesetrunk_kit::vec![in alloc; 7u8, 8]).is_err());
    assert!(refused(|| HeapCircularBuffer::<u8>::with_capacity(alloc, 1)).is_err());
}

#[test]
fn what_is_there_stays() {
    let alloc = Global::heap();
    let mut list = Vec::with_capacity(alloc, 4).unwrap();
    list.extend_from_slice(&[1u64, 2, 3, 4]).unwrap();
    assert_eq!(refused(|| list.push(5)), Err(AllocFailed(5)));
    assert_eq!(refused(|| list.insert(0, 5)), Err(AllocError));
    assert_eq!(refused(|| list.resize(9, 5)), Err(AllocError));
    assert_eq!(list.as_slice(), [1, 2, 3, 4]);
    let mut text = String::new(alloc);
    text.push_str("ab").unwrap();
    let more = "c".repeat(100);
    assert_eq!(refused(|| text.push_str(&more)), Err(AllocError));
    assert_eq!(text.as_str(), "ab");
}

// The room of a queue is allocated once.
#[test]
fn a_queue_asks_for_no_more() {
    let mut queue = HeapCircularBuffer::with_capacity(Global::heap(), 3).unwrap();
    refused(|| {
        for value in 0..10u8 {
            queue.push_back(value);
        }
    });
    assert!(queue.iter().eq(&[7, 8, 9]));
}
