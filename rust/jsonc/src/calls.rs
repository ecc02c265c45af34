//! The calls.
use crate::edit::Edit;
use crate::error::{Error, kind_of};
use crate::format::Style;
use crate::mends::{Mend, Mends};
use crate::text::{Text, list_of, nothing};
use crate::{Options, ffi};

/// A fault with all of it 0.
fn no_fault() -> ffi::Fault {
    ffi::Fault { kind: 0, made: 0, start: 0, end: 0, line: 0, column: 0, text_len: 0, text: [0; ffi::FAULT_TEXT_LEN] }
}

/// The JSON text of these names.
fn path(names: &[&str]) -> String {
    let mut text = String::from("[");
    for (count, name) in names.iter().enumerate() {
        text.push_str(if count == 0 { "\"" } else { ",\"" });
        for c in name.chars() {
            if c == '"' || c == '\\' {
                text.push('\\');
            }
            text.push(c);
        }
        text.push('"');
    }
    text.push(']');
    text
}

/// What a call of these texts hands out.
macro_rules! handed {
    ($call:ident, $options:expr $(, $text:expr)*) => {{
        let (mut out, mut fault) = (Text::NONE, no_fault());
        // SAFETY: `ffi` declares the call as the library has it; the pointers and lengths are those of texts that are
        // borrowed for the call, and `out` and `fault` are this function's own.
        let status = unsafe { ffi::$call($($text.as_ptr(), $text.len(),)* $options.bits(), &mut out, &mut fault) };
        match status {
            ffi::OK => Ok(Text::of(out)),
            status => Err(Error::of(status, &fault, 0)),
        }
    }};
}

/// How long what a call of these texts writes into a buffer is.
macro_rules! filled {
    ($call:ident, $room:expr, $options:expr $(, $text:expr)*) => {{
        let (mut len, mut fault) = (0, no_fault());
        // SAFETY: as in `handed`; the buffer too is borrowed for the call.
        let status = unsafe { ffi::$call($($text.as_ptr(), $text.len(),)* $options.bits(), $room.as_mut_ptr(), $room.len(), &mut len, &mut fault) };
        match status {
            ffi::OK => Ok(len),
            status => Err(Error::of(status, &fault, len)),
        }
    }};
}

/// Whether the text is a document of the options.
pub fn check(text: &str, options: Options) -> Result<(), Error> {
    let mut fault = no_fault();
    // SAFETY: as in `handed`.
    match unsafe { ffi::jsonc_check(text.as_ptr(), text.len(), options.bits(), &mut fault) } {
        ffi::OK => Ok(()),
        status => Err(Error::of(status, &fault, 0)),
    }
}

/// The text that the document prints, which is the text itself.
pub fn print(text: &str, options: Options) -> Result<Text, Error> {
    handed!(jsonc_print, options, text)
}

/// Sets the value of the first property of a name in the document's object, or appends one.
pub fn set(text: &str, options: Options, name: &str, value: &str) -> Result<Text, Error> {
    handed!(jsonc_set, options, text, name, value)
}

/// Appends a value to the document's array.
pub fn append(text: &str, options: Options, value: &str) -> Result<Text, Error> {
    handed!(jsonc_append, options, text, value)
}

/// Removes the first property of a name from the document's object, if there is one.
pub fn remove(text: &str, options: Options, name: &str) -> Result<Text, Error> {
    handed!(jsonc_remove, options, text, name)
}

/// Sorts the properties of the document's object by their names as they are written.
pub fn sort(text: &str, options: Options) -> Result<Text, Error> {
    handed!(jsonc_sort, options, text)
}

/// The value at a path of names as it is written, if there is one.
pub fn get(text: &str, options: Options, names: &[&str]) -> Result<Option<Text>, Error> {
    let path = path(names);
    match handed!(jsonc_get, options, text, path) {
        Ok(value) => Ok(Some(value)),
        Err(Error::Other(ffi::NO_SETTING)) => Ok(None),
        Err(error) => Err(error),
    }
}

/// Puts a value at a path of names. Names that are missing come with it.
pub fn put(text: &str, options: Options, names: &[&str], value: &str) -> Result<Text, Error> {
    let path = path(names);
    handed!(jsonc_put, options, text, path, value)
}

/// Drops what stands at a path of names, if anything does.
pub fn drop_at(text: &str, options: Options, names: &[&str]) -> Result<Text, Error> {
    let path = path(names);
    handed!(jsonc_drop, options, text, path)
}

/// Makes edits in order. Where one is refused, none is made.
pub fn edit(text: &str, options: Options, edits: &[Edit]) -> Result<Text, Error> {
    let edits: Vec<ffi::Edit> = edits.iter().map(Edit::listed).collect();
    handed!(jsonc_edit, options, text, edits)
}

/// The value that a JSON Pointer (RFC 6901) refers to as it is written, if there is one.
pub fn find(text: &str, options: Options, pointer: &str) -> Result<Option<Text>, Error> {
    match handed!(jsonc_find, options, text, pointer) {
        Ok(value) => Ok(Some(value)),
        Err(Error::NoSuchValue(_)) => Ok(None),
        Err(error) => Err(error),
    }
}

/// The path of the value that a JSON Pointer refers to, as an [`Edit`] takes it, if there is one.
///
/// In a list of edits each path is one of the text after the edits before it.
pub fn path_of(text: &str, options: Options, pointer: &str) -> Result<Option<Vec<usize>>, Error> {
    let (mut out, mut fault) = (nothing(), no_fault());
    // SAFETY: as in `handed`.
    let status = unsafe { ffi::jsonc_path_of(text.as_ptr(), text.len(), pointer.as_ptr(), pointer.len(), options.bits(), &mut out, &mut fault) };
    match status {
        ffi::OK => Ok(Some(list_of(out))),
        ffi::NO_SUCH_VALUE => Ok(None),
        status => Err(Error::of(status, &fault, 0)),
    }
}

/// The string that a JSON Pointer refers to, its escapes decoded, if there is a value.
pub fn find_string(text: &str, options: Options, pointer: &str) -> Result<Option<Text>, Error> {
    match handed!(jsonc_find_string, options, text, pointer) {
        Ok(value) => Ok(Some(value)),
        Err(Error::NoSuchValue(_)) => Ok(None),
        Err(error) => Err(error),
    }
}

/// Removes the element or property to which a JSON Pointer leads, with the comments that belong to it.
pub fn remove_with_comments(text: &str, options: Options, pointer: &str) -> Result<Text, Error> {
    handed!(jsonc_remove_with_comments, options, text, pointer)
}

/// The text as JSON (RFC 8259), with the same value, without comments and trailing commas.
pub fn to_json(text: &str, options: Options) -> Result<Text, Error> {
    handed!(jsonc_to_json, options, text)
}

/// Makes the operations of a JSON Patch (RFC 6902), a JSON text of the options. Where one is not made, none is.
pub fn apply_patch(text: &str, options: Options, patch: &str) -> Result<Text, Error> {
    handed!(jsonc_apply_patch, options, text, patch).map_err(Error::of_patch)
}

/// Merges a JSON Merge Patch (RFC 7396), a JSON text of the options.
pub fn merge_patch(text: &str, options: Options, patch: &str) -> Result<Text, Error> {
    handed!(jsonc_merge_patch, options, text, patch).map_err(Error::of_patch)
}

/// Every fault of a text with a change for it, and the text with all changes made, which is a document of the options.
///
/// There are no mends where the text is a document. The first fault is the one that [`check`] tells.
pub fn mend(text: &str, options: Options) -> Result<Mends, Error> {
    let (mut out, mut list) = (Text::NONE, nothing());
    // SAFETY: as in `handed`; `list` too is this function's own.
    let status = unsafe { ffi::jsonc_mend(text.as_ptr(), text.len(), options.bits(), &mut out, &mut list) };
    if status != ffi::OK {
        return Err(Error::of(status, &no_fault(), 0));
    }
    let (text, list) = (Text::of(out), list_of(list));
    let mend = |it: &ffi::Mend| Mend {
        kind: kind_of(it.kind),
        fault: it.fault_start..it.fault_end,
        line: it.line,
        column: it.column,
        range: it.start..it.end,
        written: it.written_start..it.written_end,
    };
    Ok(Mends { list: list.iter().map(mend).collect(), text })
}

/// The text with the same literals, comments and punctuation in the same order, and with other blanks between them.
///
/// An array or object that is on one line stays on it, and any other has each entry on a line of its own.
pub fn format(text: &str, options: Options, style: Style) -> Result<Text, Error> {
    let (mut out, mut fault, numbers) = (Text::NONE, no_fault(), style.numbers());
    // SAFETY: as in `handed`; `numbers` too is this function's own.
    let status = unsafe { ffi::jsonc_format(text.as_ptr(), text.len(), options.bits(), &numbers, &mut out, &mut fault) };
    match status {
        ffi::OK => Ok(Text::of(out)),
        status => Err(Error::of(status, &fault, 0)),
    }
}

/// Writes the text that the document prints into a buffer, and answers its length, as each of the next calls.
pub fn print_into(text: &str, options: Options, room: &mut [u8]) -> Result<usize, Error> {
    filled!(jsonc_print_into, room, options, text)
}

/// As [`set`].
pub fn set_into(text: &str, options: Options, name: &str, value: &str, room: &mut [u8]) -> Result<usize, Error> {
    filled!(jsonc_set_into, room, options, text, name, value)
}

/// As [`append`].
pub fn append_into(text: &str, options: Options, value: &str, room: &mut [u8]) -> Result<usize, Error> {
    filled!(jsonc_append_into, room, options, text, value)
}

/// As [`remove`].
pub fn remove_into(text: &str, options: Options, name: &str, room: &mut [u8]) -> Result<usize, Error> {
    filled!(jsonc_remove_into, room, options, text, name)
}

/// As [`sort`].
pub fn sort_into(text: &str, options: Options, room: &mut [u8]) -> Result<usize, Error> {
    filled!(jsonc_sort_into, room, options, text)
}

/// As [`get`], of whose value it answers the length, if there is one.
pub fn get_into(text: &str, options: Options, names: &[&str], room: &mut [u8]) -> Result<Option<usize>, Error> {
    let path = path(names);
    match filled!(jsonc_get_into, room, options, text, path) {
        Ok(len) => Ok(Some(len)),
        Err(Error::Other(ffi::NO_SETTING)) => Ok(None),
        Err(error) => Err(error),
    }
}

/// As [`put`].
pub fn put_into(text: &str, options: Options, names: &[&str], value: &str, room: &mut [u8]) -> Result<usize, Error> {
    let path = path(names);
    filled!(jsonc_put_into, room, options, text, path, value)
}

/// As [`drop_at`].
pub fn drop_at_into(text: &str, options: Options, names: &[&str], room: &mut [u8]) -> Result<usize, Error> {
    let path = path(names);
    filled!(jsonc_drop_into, room, options, text, path)
}

/// As [`edit`].
pub fn edit_into(text: &str, options: Options, edits: &[Edit], room: &mut [u8]) -> Result<usize, Error> {
    let edits: Vec<ffi::Edit> = edits.iter().map(Edit::listed).collect();
    filled!(jsonc_edit_into, room, options, text, edits)
}

/// As [`find`], of whose value it answers the length, if there is one.
pub fn find_into(text: &str, options: Options, pointer: &str, room: &mut [u8]) -> Result<Option<usize>, Error> {
    match filled!(jsonc_find_into, room, options, text, pointer) {
        Ok(len) => Ok(Some(len)),
        Err(Error::NoSuchValue(_)) => Ok(None),
        Err(error) => Err(error),
    }
}

/// As [`apply_patch`].
pub fn apply_patch_into(text: &str, options: Options, patch: &str, room: &mut [u8]) -> Result<usize, Error> {
    filled!(jsonc_apply_patch_into, room, options, text, patch).map_err(Error::of_patch)
}

/// As [`merge_patch`].
pub fn merge_patch_into(text: &str, options: Options, patch: &str, room: &mut [u8]) -> Result<usize, Error> {
    filled!(jsonc_merge_patch_into, room, options, text, patch).map_err(Error::of_patch)
}

/// As [`format`].
pub fn format_into(text: &str, options: Options, style: Style, room: &mut [u8]) -> Result<usize, Error> {
    let (mut len, mut fault, numbers) = (0, no_fault(), style.numbers());
    // SAFETY: as in `format`; the buffer too is borrowed for the call.
    let status = unsafe {
        ffi::jsonc_format_into(text.as_ptr(), text.len(), options.bits(), &numbers, room.as_mut_ptr(), room.len(), &mut len, &mut fault)
    };
    match status {
        ffi::OK => Ok(len),
        status => Err(Error::of(status, &fault, len)),
    }
}
