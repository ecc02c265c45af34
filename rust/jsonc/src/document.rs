//! A text with its options, for several calls.
use crate::calls;
use crate::edit::Edit;
use crate::error::Error;
use crate::format::Style;
use crate::text::Text;
use crate::Options;

/// A text that was checked once, with its options. Where a call is refused, the text stays as it was.
///
/// Each call parses the text: the library keeps nothing between two calls. So make many edits as one list.
#[derive(Debug)]
pub struct Document {
    text: Text,
    options: Options,
}

impl Document {
    /// The document of a text, if it is one of the options.
    pub fn parse(text: &str, options: Options) -> Result<Document, Error> {
        Ok(Document { text: calls::print(text, options)?, options })
    }

    /// The text as it is now.
    pub fn text(&self) -> &str {
        &self.text
    }

    /// Makes edits in order, as [`crate::edit`].
    pub fn edit(&mut self, edits: &[Edit]) -> Result<(), Error> {
        self.text = calls::edit(&self.text, self.options, edits)?;
        Ok(())
    }

    /// Makes the operations of a JSON Patch, as [`crate::apply_patch`].
    pub fn apply_patch(&mut self, patch: &str) -> Result<(), Error> {
        self.text = calls::apply_patch(&self.text, self.options, patch)?;
        Ok(())
    }

    /// Merges a merge patch, as [`crate::merge_patch`].
    pub fn merge_patch(&mut self, patch: &str) -> Result<(), Error> {
        self.text = calls::merge_patch(&self.text, self.options, patch)?;
        Ok(())
    }

    /// Removes an element or property with its comments, as [`crate::remove_with_comments`].
    pub fn remove_with_comments(&mut self, pointer: &str) -> Result<(), Error> {
        self.text = calls::remove_with_comments(&self.text, self.options, pointer)?;
        Ok(())
    }

    /// Formats the text, as [`crate::format`].
    pub fn format(&mut self, style: Style) -> Result<(), Error> {
        self.text = calls::format(&self.text, self.options, style)?;
        Ok(())
    }

    /// The value at a JSON Pointer as it is written, as [`crate::find`].
    pub fn find(&self, pointer: &str) -> Result<Option<Text>, Error> {
        calls::find(&self.text, self.options, pointer)
    }

    /// The string at a JSON Pointer, as [`crate::find_string`].
    pub fn find_string(&self, pointer: &str) -> Result<Option<Text>, Error> {
        calls::find_string(&self.text, self.options, pointer)
    }

    /// The path of the value at a JSON Pointer, as [`crate::path_of`].
    pub fn path_of(&self, pointer: &str) -> Result<Option<Vec<usize>>, Error> {
        calls::path_of(&self.text, self.options, pointer)
    }

    /// The text as JSON, as [`crate::to_json`].
    pub fn to_json(&self) -> Result<Text, Error> {
        calls::to_json(&self.text, self.options)
    }
}
