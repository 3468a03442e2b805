//! Lists and texts of a fixed capacity.

use geesetrunk_kit::{ArrayString, ArrayVec, CapacityError};
use std::panic::catch_unwind;

#[test]
fn items_stay_in_order_up_to_the_room() {
    let mut list: ArrayVec<u8, 3> = ArrayVec::new();
    assert!(list.is_empty() && !list.is_full());
    list.push(1);
    assert_eq!(list.try_push(2), Ok(()));
    assert_eq!(list.as_slice(), [1, 2]);
    assert_eq!(list.try_push(3), Ok(()));
    assert!(list.is_full());
    assert_eq!(list.try_push(4), Err(CapacityError));
    assert_eq!(list.as_slice(), [1, 2, 3]);
    assert!(catch_unwind(move || list.push(4)).is_err());
}

#[test]
fn items_are_appended_together_or_not_at_all() {
    let mut list: ArrayVec<u8, 4> = ArrayVec::new();
    assert_eq!(list.try_extend_from_slice(&[1, 2, 3]), Ok(()));
    assert_eq!(list.try_extend_from_slice(&[4, 5]), Err(CapacityError));
    assert_eq!(list.as_slice(), [1, 2, 3]);
    assert_eq!(list.try_extend_from_slice(&[4]), Ok(()));
    assert_eq!(list.try_extend_from_slice(&[]), Ok(()));
    assert_eq!(&*list, [1, 2, 3, 4]);
    assert_eq!(
        ArrayVec::<u8, 2>::try_from([7, 8].as_slice()).map(|list| list.len()),
        Ok(2)
    );
    assert_eq!(
        ArrayVec::<u8, 2>::try_from([7, 8, 9].as_slice()),
        Err(CapacityError)
    );
}

// What is behind the items is no part of the list.
#[test]
fn lists_are_compared_and_shown_by_their_items() {
    let full: ArrayVec<u8, 2> = ArrayVec::try_from([7, 8].as_slice()).unwrap();
    let mut short: ArrayVec<u8, 2> = ArrayVec::default();
    assert_ne!(full, short);
    short.push(7);
    assert_ne!(full, short);
    short.push(8);
    assert_eq!(full, short);
    assert_eq!(format!("{full:?}"), "[7, 8]");
    // The place of a second item has a 0.
    let ends_with_zero: ArrayVec<u8, 2> = ArrayVec::try_from([7, 0].as_slice()).unwrap();
    assert_ne!(ArrayVec::try_from([7].as_slice()), Ok(ends_with_zero));
}

#[test]
fn texts_are_whole() {
    let mut text: ArrayString<4> = ArrayString::new();
    text.push_str("ab");
    // two bytes
    assert_eq!(text.try_push_str("\u{e9}"), Ok(()));
    assert_eq!(text.try_push_str("c"), Err(CapacityError));
    assert_eq!(text.as_str(), "ab\u{e9}");
    assert_eq!(format!("{text:?}"), "\"ab\u{e9}\"");
    assert!(catch_unwind(move || text.push_str("c")).is_err());
    assert_eq!(ArrayString::<1>::try_from("\u{e9}"), Err(CapacityError));
    assert_eq!(
        ArrayString::<2>::try_from("no").unwrap(),
        ArrayString::<2>::try_from("no").unwrap()
    );
    assert_eq!(ArrayString::<2>::default().as_str(), "");
}
