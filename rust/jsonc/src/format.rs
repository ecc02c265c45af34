//! How a text is formatted.
use crate::ffi;

/// What ends a line.
#[derive(Clone, Copy, Debug, PartialEq, Eq)]
pub enum LineEnd {
    /// LF, as on Unix.
    Lf,
    /// CR and LF, as on Windows.
    CrLf,
    /// CR alone.
    Cr,
}

/// One level of indent.
#[derive(Clone, Copy, Debug, PartialEq, Eq)]
pub enum Level {
    /// So many spaces; more than eight are eight.
    Spaces(u8),
    /// A tab.
    Tab,
}

/// How a text is formatted. What is `None` is taken from the text.
#[derive(Clone, Copy, Debug, Default, PartialEq, Eq)]
pub struct Style {
    /// How lines end: otherwise as the first one that ends outside of literals and comments does, or with LF.
    pub line_end: Option<LineEnd>,
    /// One level of indent: otherwise the first indent in the value that is not empty, or two spaces.
    pub level: Option<Level>,
    /// Whether each array and object that is not empty is put on several lines, also one that is on one line.
    pub expand: bool,
}

impl Style {
    pub(crate) fn numbers(self) -> ffi::Style {
        let line_end = match self.line_end {
            None => 0,
            Some(LineEnd::Lf) => ffi::LINE_END_LF,
            Some(LineEnd::CrLf) => ffi::LINE_END_CR_LF,
            Some(LineEnd::Cr) => ffi::LINE_END_CR,
        };
        let (level, spaces) = match self.level {
            None => (0, 0),
            Some(Level::Spaces(count)) => (ffi::LEVEL_SPACES, count.into()),
            Some(Level::Tab) => (ffi::LEVEL_TAB, 0),
        };
        ffi::Style { line_end, level, spaces, expand: self.expand }
    }
}
