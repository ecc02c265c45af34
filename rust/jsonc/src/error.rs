//! Why a call did not do what was asked.
use crate::ffi;
use std::fmt;

/// What is wrong with a text, a pointer or a patch, and where.
#[derive(Clone, Debug, PartialEq, Eq)]
pub struct Fault {
    /// The kind, as `UNEXPECTED_TOKEN`.
    pub kind: &'static str,
    /// The bytes that it is told of.
    pub range: std::ops::Range<usize>,
    /// The line of their start, counted from 1.
    pub line: usize,
    /// The column of their start in characters, counted from 1.
    pub column: usize,
    text: String,
}

/// The name of a kind's number.
pub(crate) fn kind_of(number: u32) -> &'static str {
    ffi::KINDS.iter().find(|(it, _)| *it == number).map_or("", |(_, name)| name)
}

impl Fault {
    pub(crate) fn of(fault: &ffi::Fault) -> Fault {
        let kind = kind_of(fault.kind);
        let text = &fault.text[..fault.text_len.min(ffi::FAULT_TEXT_LEN)];
        Fault {
            kind,
            range: fault.start..fault.end,
            line: fault.line,
            column: fault.column,
            text: String::from_utf8_lossy(text).into_owned(),
        }
    }
}

impl fmt::Display for Fault {
    fn fmt(&self, f: &mut fmt::Formatter<'_>) -> fmt::Result {
        f.write_str(&self.text)
    }
}

/// What a status says.
fn said(status: u32) -> &'static str {
    ffi::STATUSES.iter().find(|(it, _)| *it == status).map_or("No call answers this status", |(_, text)| text)
}

/// Why a call did not do what was asked.
#[derive(Clone, Debug, PartialEq, Eq)]
pub enum Error {
    /// The text is no document.
    Text(Fault),
    /// The JSON text of a value is no document.
    Json(Fault),
    /// The JSON text of a value has none.
    NoValue,
    /// The document's value is no object.
    NotObject,
    /// The document's value is no array.
    NotArray,
    /// A value of another kind than an object stands on the path.
    OnTheWay,
    /// An edit has no place; so many stand before it in the list.
    NoSuchPlace(usize),
    /// The text of a comment that is to be inserted is not one comment; so many edits stand before it in the list.
    InvalidComment(usize),
    /// A comment that ends with its line is to be inserted, and something follows there on the line; so many edits stand
    /// before it.
    LineContinues(usize),
    /// The pointer is none.
    Pointer(Fault),
    /// The patch is no document or no array, or an operation is none; so many stand before it. Of a merge patch: it is no
    /// document.
    NotPatch(usize, Fault),
    /// The merge patch has no value.
    EmptyPatch,
    /// The value that a pointer refers to is no string.
    NotString,
    /// A text that is to be written as JSON has no value.
    NoRoot,
    /// A number of a text that is to be written as JSON is `Infinity` or `NaN`. The fault has its place, and no kind.
    NonFinite(Fault),
    /// A pointer leads to nothing; so many operations of a patch stand before the one that has it.
    NoSuchValue(usize),
    /// A name stands twice in an object where it is looked up, or in one of a merge patch; so many operations of a patch
    /// stand before.
    RepeatedName(usize, Fault),
    /// An operation of a patch was to move a value into itself; so many stand before it.
    IntoItself(usize),
    /// An operation of a patch tested a value, which is another; so many stand before it.
    NotEqual(usize),
    /// The buffer is too small; so many bytes are wanted.
    NoRoom(usize),
    OutOfMemory,
    /// Another status, which no call answers here.
    Other(u32),
}

impl Error {
    pub(crate) fn of(status: u32, fault: &ffi::Fault, len: usize) -> Error {
        match status {
            ffi::OUT_OF_MEMORY => Error::OutOfMemory,
            ffi::TEXT => Error::Text(Fault::of(fault)),
            ffi::JSON => Error::Json(Fault::of(fault)),
            ffi::NO_VALUE => Error::NoValue,
            ffi::NOT_OBJECT => Error::NotObject,
            ffi::NOT_ARRAY => Error::NotArray,
            ffi::ON_THE_WAY => Error::OnTheWay,
            ffi::NO_SUCH_PLACE => Error::NoSuchPlace(fault.made),
            ffi::INVALID_COMMENT => Error::InvalidComment(fault.made),
            ffi::LINE_CONTINUES => Error::LineContinues(fault.made),
            ffi::POINTER => Error::Pointer(Fault::of(fault)),
            ffi::NOT_PATCH => Error::NotPatch(fault.made, Fault::of(fault)),
            ffi::NOT_STRING => Error::NotString,
            ffi::NO_ROOT => Error::NoRoot,
            ffi::NON_FINITE => Error::NonFinite(Fault::of(fault)),
            ffi::NO_SUCH_VALUE => Error::NoSuchValue(fault.made),
            ffi::REPEATED_NAME => Error::RepeatedName(fault.made, Fault::of(fault)),
            ffi::INTO_ITSELF => Error::IntoItself(fault.made),
            ffi::NOT_EQUAL => Error::NotEqual(fault.made),
            ffi::NO_ROOM => Error::NoRoom(len),
            other => Error::Other(other),
        }
    }
}

impl Error {
    /// The same of a call that reads a patch: what is told of a JSON text is told of the patch.
    pub(crate) fn of_patch(self) -> Error {
        match self {
            Error::Json(fault) => Error::NotPatch(0, fault),
            Error::NoValue => Error::EmptyPatch,
            other => other,
        }
    }
}

impl fmt::Display for Error {
    fn fmt(&self, f: &mut fmt::Formatter<'_>) -> fmt::Result {
        match self {
            Error::Text(fault) => fault.fmt(f),
            Error::Json(fault) => write!(f, "value: {fault}"),
            Error::NoValue => f.write_str("value: no value"),
            Error::NotObject => f.write_str("root value is not an object"),
            Error::NotArray => f.write_str("root value is not an array"),
            Error::OnTheWay => f.write_str("a value on the path is not an object"),
            Error::NoSuchPlace(made) => write!(f, "No such place, edits made before: {made}"),
            Error::InvalidComment(made) => write!(f, "Invalid comment, edits made before: {made}"),
            Error::LineContinues(made) => write!(f, "Line continues after the comment, edits made before: {made}"),
            Error::Pointer(fault) => write!(f, "pointer: {fault}"),
            Error::NotPatch(_, fault) => write!(f, "patch: {fault}"),
            Error::EmptyPatch => f.write_str("patch: no value"),
            Error::NotString => f.write_str("value is not a string"),
            Error::NoRoot => f.write_str("no value"),
            Error::NonFinite(fault) => write!(f, "JSON has no such number on line {} column {}", fault.line, fault.column),
            Error::NoSuchValue(made) => write!(f, "Operation {made}: Pointer leads to nothing"),
            Error::RepeatedName(_, fault) => fault.fmt(f),
            Error::IntoItself(made) => write!(f, "Operation {made}: Value cannot be moved into itself"),
            Error::NotEqual(made) => write!(f, "Operation {made}: Value is another"),
            Error::NoRoom(len) => write!(f, "the text has {len} bytes"),
            Error::OutOfMemory => f.write_str("Out of memory"),
            Error::Other(status) => f.write_str(said(*status)),
        }
    }
}

impl std::error::Error for Error {}
