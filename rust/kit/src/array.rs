//! Lists and texts of a fixed capacity: items in order, in an array.

use core::fmt;
use core::ops::Deref;

/// There is no more room.
#[derive(Clone, Copy, Debug, PartialEq, Eq)]
pub struct CapacityError;

impl fmt::Display for CapacityError {
    fn fmt(&self, f: &mut fmt::Formatter<'_>) -> fmt::Result {
        f.write_str("no more room")
    }
}

impl core::error::Error for CapacityError {}

/// A list of at most `N` items, without other memory.
///
/// # Examples
///
/// ```
/// use uart_16550_chip::ArrayVec;
///
/// let mut list: ArrayVec<u8, 16> = ArrayVec::new();
/// list.push(0x41);
/// assert_eq!(list.as_slice(), [0x41]);
/// ```
#[derive(Clone, Copy)]
pub struct ArrayVec<T, const N: usize> {
    items: [T; N],
    len: usize,
}

impl<T: Copy + Default, const N: usize> ArrayVec<T, N> {
    /// Returns an empty list.
    ///
    /// # Examples
    ///
    /// ```
    /// use uart_16550_chip::ArrayVec;
    ///
    /// let list: ArrayVec<u8, 16> = ArrayVec::new();
    /// assert!(list.is_empty());
    /// ```
    #[must_use]
    pub fn new() -> Self {
        Self {
            items: [T::default(); N],
            len: 0,
        }
    }
}

impl<T: Copy + Default, const N: usize> Default for ArrayVec<T, N> {
    fn default() -> Self {
        Self::new()
    }
}

impl<T, const N: usize> ArrayVec<T, N> {
    /// Appends an item.
    ///
    /// # Panics
    ///
    /// If there are `N` items.
    ///
    /// # Examples
    ///
    /// ```
    /// # use uart_16550_chip::ArrayVec;
    /// let mut list: ArrayVec<u8, 2> = ArrayVec::new();
    /// list.push(1);
    /// assert_eq!(list.as_slice(), [1]);
    /// ```
    pub fn push(&mut self, item: T) {
        assert!(self.len < N, "the list is full");
        self.items[self.len] = item;
        self.len += 1;
    }

    /// Appends an item if there is room.
    ///
    /// # Errors
    ///
    /// `CapacityError` if there are `N` items. Nothing changed then.
    ///
    /// # Examples
    ///
    /// ```
    /// # use uart_16550_chip::ArrayVec;
    /// let mut list: ArrayVec<u8, 2> = ArrayVec::new();
    /// list.push(1);
    /// list.push(2);
    /// assert!(list.try_push(3).is_err());
    /// ```
    pub fn try_push(&mut self, item: T) -> Result<(), CapacityError> {
        *self.items.get_mut(self.len).ok_or(CapacityError)? = item;
        self.len += 1;
        Ok(())
    }

    /// Returns whether there is no room for another item.
    ///
    /// # Examples
    ///
    /// ```
    /// # use uart_16550_chip::ArrayVec;
    /// let mut list: ArrayVec<u8, 2> = ArrayVec::new();
    /// list.push(1);
    /// assert!(!list.is_full());
    /// ```
    #[must_use]
    pub const fn is_full(&self) -> bool {
        self.len == N
    }

    /// Returns the items.
    ///
    /// # Examples
    ///
    /// ```
    /// # use uart_16550_chip::ArrayVec;
    /// let mut list: ArrayVec<u8, 2> = ArrayVec::new();
    /// list.push(1);
    /// assert_eq!(list.as_slice(), [1]);
    /// ```
    #[must_use]
    pub fn as_slice(&self) -> &[T] {
        self.items.get(..self.len).unwrap_or(&self.items)
    }
}

impl<T: PartialEq, const N: usize> PartialEq for ArrayVec<T, N> {
    fn eq(&self, other: &Self) -> bool {
        self.as_slice() == other.as_slice()
    }
}

impl<T: Eq, const N: usize> Eq for ArrayVec<T, N> {}

impl<T: fmt::Debug, const N: usize> fmt::Debug for ArrayVec<T, N> {
    fn fmt(&self, f: &mut fmt::Formatter<'_>) -> fmt::Result {
        self.as_slice().fmt(f)
    }
}

impl<T: Copy, const N: usize> ArrayVec<T, N> {
    /// Appends items if there is room for all of them.
    ///
    /// # Errors
    ///
    /// `CapacityError` if there is not. Nothing changed then.
    ///
    /// # Examples
    ///
    /// ```
    /// # use uart_16550_chip::ArrayVec;
    /// let mut list: ArrayVec<u8, 2> = ArrayVec::new();
    /// assert!(list.try_extend_from_slice(&[1, 2, 3]).is_err());
    /// assert!(list.try_extend_from_slice(&[1, 2]).is_ok());
    /// assert_eq!(list.as_slice(), [1, 2]);
    /// ```
    pub fn try_extend_from_slice(&mut self, items: &[T]) -> Result<(), CapacityError> {
        let room = self.items.get_mut(self.len..).unwrap_or_default();
        room.get_mut(..items.len())
            .ok_or(CapacityError)?
            .copy_from_slice(items);
        self.len += items.len();
        Ok(())
    }
}

impl<T: Copy + Default, const N: usize> TryFrom<&[T]> for ArrayVec<T, N> {
    type Error = CapacityError;

    fn try_from(items: &[T]) -> Result<Self, CapacityError> {
        let mut list = Self::new();
        list.try_extend_from_slice(items)?;
        Ok(list)
    }
}

impl<T, const N: usize> Deref for ArrayVec<T, N> {
    type Target = [T];

    fn deref(&self) -> &[T] {
        self.as_slice()
    }
}

/// A text of at most `N` bytes, without other memory.
#[derive(Clone, Copy, PartialEq, Eq)]
pub struct ArrayString<const N: usize>(ArrayVec<u8, N>);

impl<const N: usize> ArrayString<N> {
    /// Returns an empty text.
    #[must_use]
    pub fn new() -> Self {
        Self(ArrayVec::new())
    }

    /// Appends a text.
    ///
    /// # Panics
    ///
    /// If there is no room for it.
    pub fn push_str(&mut self, text: &str) {
        self.try_push_str(text).expect("the text is full");
    }

    /// Appends a text if there is room for it.
    ///
    /// # Errors
    ///
    /// `CapacityError` if there is not. Nothing changed then.
    pub fn try_push_str(&mut self, text: &str) -> Result<(), CapacityError> {
        self.0.try_extend_from_slice(text.as_bytes())
    }

    /// Returns the text.
    #[must_use]
    #[allow(
        clippy::missing_panics_doc,
        reason = "what was appended is whole texts, so this does not panic"
    )]
    pub fn as_str(&self) -> &str {
        core::str::from_utf8(self.0.as_slice()).expect("only whole texts are appended")
    }
}

impl<const N: usize> Default for ArrayString<N> {
    fn default() -> Self {
        Self::new()
    }
}

impl<const N: usize> TryFrom<&str> for ArrayString<N> {
    type Error = CapacityError;

    fn try_from(text: &str) -> Result<Self, CapacityError> {
        let mut string = Self::new();
        string.try_push_str(text)?;
        Ok(string)
    }
}

impl<const N: usize> fmt::Debug for ArrayString<N> {
    fn fmt(&self, f: &mut fmt::Formatter<'_>) -> fmt::Result {
        self.as_str().fmt(f)
    }
}
