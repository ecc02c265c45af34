//! Every fault of a text, with the change for each.
use crate::text::Text;
use std::ops::Range;

/// A fault of a text, and the change for it.
#[derive(Clone, Debug, PartialEq, Eq)]
pub struct Mend {
    /// The kind of the fault, as `UNEXPECTED_TOKEN`.
    pub kind: &'static str,
    /// The bytes of the text that it is told of.
    pub fault: Range<usize>,
    /// The line of their start, counted from 1.
    pub line: usize,
    /// The column of their start in characters, counted from 1.
    pub column: usize,
    /// The bytes of the text that are replaced.
    pub range: Range<usize>,
    /// The bytes of the mended text in their place.
    pub written: Range<usize>,
}

/// The faults of a text in order, and the text with all changes made.
#[derive(Debug)]
pub struct Mends {
    pub list: Vec<Mend>,
    /// The mended text.
    pub text: Text,
}

impl Mends {
    /// What a mend writes in the place of its range.
    pub fn new_text(&self, mend: &Mend) -> &str {
        &self.text[mend.written.clone()]
    }
}
