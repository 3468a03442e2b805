//! Lists and texts, and requests for memory that no allocator grants.
#![cfg(feature = "alloc")]

use geesetrunk_kit::alloc::{AllocError, AllocFailed, Global};
use geesetrunk_kit::{CollectWith, String, ToStringWith, ToVecWith, Vec};

// More bytes than a slice may have: the request is refused before an allocator is asked.
const TOO_MANY: usize = usize::MAX;

#[test]
fn values_stay_in_order() {
    let alloc = Global::heap();
    let mut list = Vec::new(alloc);
    for value in 0..100u32 {
        assert_eq!(list.push(value), Ok(()));
    }
    assert!(list.iter().copied().eq(0..100));
    assert_eq!(list.pop(), Some(99));
    list.truncate(200);
    assert_eq!(list.len(), 99);
    list.truncate(2);
    assert_eq!(list.as_slice(), [0, 1]);
    assert_eq!(list.extend_from_slice(&[7, 8]), Ok(()));
    assert_eq!(list.insert(1, 9), Ok(()));
    assert_eq!(list.insert(5, 6), Ok(()));
    assert_eq!(&*list, [0, 9, 1, 7, 8, 6]);
    list[0] = 5;
    assert!((&list).into_iter().eq(&[5, 9, 1, 7, 8, 6]));
    assert_eq!(format!("{list:?}"), "[5, 9, 1, 7, 8, 6]");
    assert!(list.into_iter().eq([5, 9, 1, 7, 8, 6]));
    assert_eq!(Vec::<u8>::new(alloc).pop(), None);
}

#[test]
fn a_list_has_as_many_values_as_are_asked_for() {
    let mut list = geesetrunk_kit::vec![in Global::heap(); 7u8; 3].unwrap();
    assert_eq!(list.as_slice(), [7, 7, 7]);
    assert_eq!(list.resize(5, 8), Ok(()));
    assert_eq!(list.as_slice(), [7, 7, 7, 8, 8]);
    assert_eq!(list.resize(1, 9), Ok(()));
    assert_eq!(list.as_slice(), [7]);
    list.clear();
    assert_eq!(list.as_slice(), [0u8; 0]);
    let values = geesetrunk_kit::vec![in Global::heap(); 1u8, 2].unwrap();
    assert_eq!(values.as_slice(), [1, 2]);
}

#[test]
fn values_are_collected_and_copied() {
    let alloc = Global::heap();
    assert_eq!((3..6u8).collect_with(alloc).unwrap().as_slice(), [3, 4, 5]);
    assert_eq!([3u8, 4].to_vec_with(alloc).unwrap().as_slice(), [3, 4]);
    assert_eq!([0u8; 0].to_vec_with(alloc).unwrap().len(), 0);
}

#[test]
fn texts_grow_at_their_end() {
    let alloc = Global::heap();
    let mut text = String::new(alloc);
    assert_eq!(text.push_str("ab"), Ok(()));
    assert_eq!(text.push('\u{e9}'), Ok(()));
    assert_eq!(text.write_fmt(format_args!("{}", 12)), Ok(()));
    assert_eq!(text.as_str(), "ab\u{e9}12");
    assert_eq!(
        (format!("{text}"), format!("{text:?}")),
        ("ab\u{e9}12".into(), "\"ab\u{e9}12\"".into())
    );
    assert_eq!(text.into_bytes().as_slice(), "ab\u{e9}12".as_bytes());
    assert_eq!(7.to_string_with(alloc).unwrap().as_str(), "7");
    assert_eq!(
        geesetrunk_kit::format!(in alloc; "{}-{}", 1, 2)
            .unwrap()
            .as_ref() as &str,
        "1-2"
    );
}

// A value that says that it cannot be shown.
struct Mute;

impl std::fmt::Display for Mute {
    fn fmt(&self, _: &mut std::fmt::Formatter<'_>) -> std::fmt::Result {
        Err(std::fmt::Error)
    }
}

#[test]
fn what_is_refused_changes_nothing() {
    let alloc = Global::heap();
    assert_eq!(
        Vec::<u8>::with_capacity(alloc, TOO_MANY).err(),
        Some(AllocError)
    );
    let mut list = [1u64, 2].to_vec_with(alloc).unwrap();
    assert_eq!(list.resize(TOO_MANY, 0), Err(AllocError));
    assert_eq!(list.as_slice(), [1, 2]);
    assert!(geesetrunk_kit::vec![in alloc; 0u8; TOO_MANY].is_err());
    assert!(Mute.to_string_with(alloc).is_err());
}

#[test]
fn refusals_have_the_texts_and_errors_of_std() {
    assert_eq!(AllocError.to_string(), "out of memory");
    assert_eq!(AllocFailed(7).to_string(), "out of memory");
    assert_eq!(format!("{:?}", AllocFailed(7)), "AllocFailed(..)");
    assert_eq!(AllocError::from(AllocFailed(7)), AllocError);
}

#[cfg(feature = "std")]
#[test]
fn a_list_of_bytes_is_a_writer() {
    use std::io::{Error, ErrorKind, Write};
    let mut list = Vec::new(Global::heap());
    assert_eq!(list.write(b"ab").unwrap(), 2);
    list.flush().unwrap();
    assert_eq!(list.as_slice(), b"ab");
    assert_eq!(Error::from(AllocError).kind(), ErrorKind::OutOfMemory);
    assert_eq!(
        geesetrunk_kit::path::Path::new("a/b.out").file_name(),
        Some("b.out")
    );
    assert_eq!(geesetrunk_kit::path::Path::new("a/..").file_name(), None);
}
