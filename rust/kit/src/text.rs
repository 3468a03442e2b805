//! Texts whose growth can be refused.

#[cfg(not(feature = "alloc"))]
use crate::absent as backing;
use crate::alloc::{AllocError, Global};
use crate::list::Vec;
use core::fmt;
use core::ops::Deref;
#[cfg(feature = "alloc")]
use heap::string as backing;

/// A text.
#[derive(PartialEq, Eq)]
pub struct String(backing::String);

impl String {
    /// Returns an empty text. Allocates nothing.
    #[must_use]
    pub const fn new(alloc: Global) -> Self {
        String(alloc.text())
    }

    /// Appends a letter. Changes nothing if memory is refused.
    pub fn push(&mut self, letter: char) -> Result<(), AllocError> {
        self.push_str(letter.encode_utf8(&mut [0; 4]))
    }

    /// Appends a text. Changes nothing if memory is refused.
    pub fn push_str(&mut self, text: &str) -> Result<(), AllocError> {
        self.0.try_reserve(text.len())?;
        self.0.push_str(text);
        Ok(())
    }

    /// Appends what `write!` is given. A part of it may be there if memory is refused. A value that cannot be shown counts as a
    /// refusal too.
    pub fn write_fmt(&mut self, arguments: fmt::Arguments<'_>) -> Result<(), AllocError> {
        fmt::write(&mut Appending(self), arguments).map_err(|_| AllocError)
    }

    /// Returns the text.
    #[must_use]
    pub fn as_str(&self) -> &str {
        &self.0
    }

    /// Returns the bytes of the text.
    #[must_use]
    pub fn into_bytes(self) -> Vec<u8> {
        Vec::from(self.0.into_bytes())
    }
}

/// A text to which `write!` appends.
struct Appending<'a>(&'a mut String);

impl fmt::Write for Appending<'_> {
    fn write_str(&mut self, text: &str) -> fmt::Result {
        self.0.push_str(text).map_err(|_| fmt::Error)
    }
}

impl Deref for String {
    type Target = str;

    fn deref(&self) -> &str {
        &self.0
    }
}

impl AsRef<str> for String {
    fn as_ref(&self) -> &str {
        &self.0
    }
}

impl fmt::Display for String {
    fn fmt(&self, f: &mut fmt::Formatter<'_>) -> fmt::Result {
        fmt::Display::fmt(self.as_str(), f)
    }
}

impl fmt::Debug for String {
    fn fmt(&self, f: &mut fmt::Formatter<'_>) -> fmt::Result {
        fmt::Debug::fmt(self.as_str(), f)
    }
}

/// `to_string(alloc)` of what can be shown, which has another method `to_string` in Rust.
pub trait ToStringWith: fmt::Display {
    /// Returns the text of the value.
    fn to_string_with(&self, alloc: Global) -> Result<String, AllocError> {
        formatted(alloc, format_args!("{self}"))
    }
}

impl<T: fmt::Display + ?Sized> ToStringWith for T {}

/// Returns the text that these arguments make: `format!(in alloc; ..)`.
pub fn formatted(alloc: Global, arguments: fmt::Arguments<'_>) -> Result<String, AllocError> {
    let mut text = String::new(alloc);
    text.write_fmt(arguments)?;
    Ok(text)
}

/// `format!(in alloc; ..)`: a text, or the refusal of its memory.
#[macro_export]
macro_rules! format {
    (in $alloc:expr; $($rest:tt)*) => {
        $crate::formatted($alloc, ::core::format_args!($($rest)*))
    };
}
