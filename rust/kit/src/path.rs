//! Paths of files, as texts.

/// A path.
pub struct Path<'a>(&'a str);

impl<'a> Path<'a> {
    /// Returns the path of this text.
    #[must_use]
    pub const fn new(text: &'a str) -> Self {
        Path(text)
    }

    /// Returns the last part of the path, if that is a name.
    #[must_use]
    pub fn file_name(&self) -> Option<&'a str> {
        std::path::Path::new(self.0).file_name()?.to_str()
    }
}
