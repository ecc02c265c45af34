//! The calls of the static library, as it declares them. Made by bench/declare-calls from crates/jsonc_c/src.
#![allow(dead_code)]
use std::ffi::c_void;
use std::mem::offset_of;

/// A pointer that is not null, and how many values stand there.
#[repr(C)]
#[derive(Clone, Copy)]
pub struct Slice<T> {
    pub at: *const T,
    pub len: usize,
}
const _: () = assert!(size_of::<Slice<u8>>() == 16);

pub const FAULT_TEXT_LEN: usize = 192;

/// It succeeded.
pub const OK: u32 = 0;
/// An allocation failed.
pub const OUT_OF_MEMORY: u32 = 1;
/// A name, comment, path, pointer or JSON text is not UTF-8.
pub const WORD_NOT_UTF8: u32 = 2;
/// The text is not UTF-8.
pub const NOT_UTF8: u32 = 3;
/// The text is no document. The fault tells what is wrong with it.
pub const TEXT: u32 = 4;
/// The path is no document. The fault tells what is wrong with it.
pub const PATH: u32 = 5;
/// The path is no array of strings.
pub const NOT_NAMES: u32 = 6;
/// The JSON text of a value or patch is no document. The fault tells what is wrong with it.
pub const JSON: u32 = 7;
/// The JSON text has no value.
pub const NO_VALUE: u32 = 8;
/// The document's value is no object.
pub const NOT_OBJECT: u32 = 9;
/// The document's value is no array.
pub const NOT_ARRAY: u32 = 10;
/// Nothing stands at the path.
pub const NO_SETTING: u32 = 11;
/// A value of another kind than an object stands on the path.
pub const ON_THE_WAY: u32 = 12;
/// The path of an edit leads to nothing that it needs, or no comment has its number.
pub const NO_SUCH_PLACE: u32 = 13;
/// An array or object lacks a bracket. No call answers it of a text.
pub const MISSING_BRACKETS: u32 = 14;
/// A property lacks its name or colon. No call answers it of a text.
pub const MISSING_NAME: u32 = 15;
/// No edit has this kind.
pub const NO_SUCH_EDIT: u32 = 16;
/// The caller's buffer is too small. How long the text is stands behind the pointer for its length.
pub const NO_ROOM: u32 = 17;
/// Anything else. No call answers it.
pub const OTHER: u32 = 18;
/// The pointer is no JSON Pointer. The fault tells what is wrong with it.
pub const POINTER: u32 = 19;
/// A pointer leads to nothing.
pub const NO_SUCH_VALUE: u32 = 20;
/// A name stands twice in an object where it is looked up, or in one of a merge patch. The fault's text has the name.
pub const REPEATED_NAME: u32 = 21;
/// The patch is no array, or an operation is none. The fault tells which, and what is wrong with it.
pub const NOT_PATCH: u32 = 22;
/// A value was to be moved into itself.
pub const INTO_ITSELF: u32 = 23;
/// A value is not equal to the one that it was tested against.
pub const NOT_EQUAL: u32 = 24;
/// The text of a comment that is to be inserted is not one comment and nothing else.
pub const INVALID_COMMENT: u32 = 25;
/// A comment that ends with its line is to be inserted, and something follows there on the line.
pub const LINE_CONTINUES: u32 = 26;
/// A comment is to be inserted at a node that is no entry. No call answers it of a text.
pub const NOT_AN_ENTRY: u32 = 27;
/// A value would be nested deeper in the document than texts are parsed.
pub const NESTED_TOO_DEEP: u32 = 28;
/// The value that the pointer refers to is no string.
pub const NOT_STRING: u32 = 29;
/// The text has no value.
pub const NO_ROOT: u32 = 30;
/// A number of the text is `Infinity` or `NaN`, which JSON does not have. The fault tells where.
pub const NON_FINITE: u32 = 31;

/// What each status says.
pub const STATUSES: [(u32, &str); 32] = [
    (OK, "It succeeded"),
    (OUT_OF_MEMORY, "An allocation failed"),
    (WORD_NOT_UTF8, "A name, comment, path, pointer or JSON text is not UTF-8"),
    (NOT_UTF8, "The text is not UTF-8"),
    (TEXT, "The text is no document"),
    (PATH, "The path is no document"),
    (NOT_NAMES, "The path is no array of strings"),
    (JSON, "The JSON text of a value or patch is no document"),
    (NO_VALUE, "The JSON text has no value"),
    (NOT_OBJECT, "The document's value is no object"),
    (NOT_ARRAY, "The document's value is no array"),
    (NO_SETTING, "Nothing stands at the path"),
    (ON_THE_WAY, "A value of another kind than an object stands on the path"),
    (NO_SUCH_PLACE, "The path of an edit leads to nothing that it needs, or no comment has its number"),
    (MISSING_BRACKETS, "An array or object lacks a bracket"),
    (MISSING_NAME, "A property lacks its name or colon"),
    (NO_SUCH_EDIT, "No edit has this kind"),
    (NO_ROOM, "The caller's buffer is too small"),
    (OTHER, "Anything else"),
    (POINTER, "The pointer is no JSON Pointer"),
    (NO_SUCH_VALUE, "A pointer leads to nothing"),
    (REPEATED_NAME, "A name stands twice in an object where it is looked up, or in one of a merge patch"),
    (NOT_PATCH, "The patch is no array, or an operation is none"),
    (INTO_ITSELF, "A value was to be moved into itself"),
    (NOT_EQUAL, "A value is not equal to the one that it was tested against"),
    (INVALID_COMMENT, "The text of a comment that is to be inserted is not one comment and nothing else"),
    (LINE_CONTINUES, "A comment that ends with its line is to be inserted, and something follows there on the line"),
    (NOT_AN_ENTRY, "A comment is to be inserted at a node that is no entry"),
    (NESTED_TOO_DEEP, "A value would be nested deeper in the document than texts are parsed"),
    (NOT_STRING, "The value that the pointer refers to is no string"),
    (NO_ROOT, "The text has no value"),
    (NON_FINITE, "A number of the text is `Infinity` or `NaN`, which JSON does not have"),
];

pub const ALLOW_COMMENTS: u32 = 1;
pub const ALLOW_LOOSE_OBJECT_PROPERTY_NAMES: u32 = 2;
pub const ALLOW_TRAILING_COMMAS: u32 = 4;
pub const ALLOW_MISSING_COMMAS: u32 = 8;
pub const ALLOW_SINGLE_QUOTED_STRINGS: u32 = 16;
pub const ALLOW_HEXADECIMAL_NUMBERS: u32 = 32;
pub const ALLOW_UNARY_PLUS_NUMBERS: u32 = 64;
pub const ALLOW_BARE_DECIMAL_POINT_NUMBERS: u32 = 128;
pub const ALLOW_NON_FINITE_NUMBERS: u32 = 256;
pub const ALLOW_EXTENDED_STRING_ESCAPES: u32 = 512;

/// The kinds of faults by their numbers.
pub const KINDS: [(u32, &str); 44] = [
    (101, "STRING_INVALID_ESCAPE_IN_SINGLE_QUOTE_STRING"),
    (102, "STRING_INVALID_ESCAPE_IN_DOUBLE_QUOTE_STRING"),
    (103, "STRING_EXPECTED_FOUR_HEX_DIGITS"),
    (104, "STRING_EXPECTED_TWO_HEX_DIGITS"),
    (105, "STRING_INVALID_UNICODE_ESCAPE_SEQUENCE"),
    (106, "STRING_INVALID_ESCAPE"),
    (107, "STRING_UNTERMINATED_STRING_LITERAL"),
    (108, "STRING_OUT_OF_MEMORY"),
    (1, "BARE_DECIMAL_POINT_NUMBERS_NOT_ALLOWED"),
    (2, "COMMENTS_NOT_ALLOWED"),
    (3, "EXPECTED_COLON_AFTER_OBJECT_KEY"),
    (4, "EXPECTED_OBJECT_VALUE"),
    (5, "EXPECTED_DIGIT"),
    (6, "EXPECTED_DIGIT_FOLLOWING_NEGATIVE_SIGN"),
    (7, "EXPECTED_PLUS_MINUS_OR_DIGIT_IN_NUMBER_LITERAL"),
    (8, "EXPECTED_STRING_OBJECT_PROPERTY"),
    (9, "HEXADECIMAL_NUMBERS_NOT_ALLOWED"),
    (10, "EXPECTED_COMMA"),
    (11, "MULTIPLE_ROOT_JSON_VALUES"),
    (12, "NON_FINITE_NUMBERS_NOT_ALLOWED"),
    (13, "SINGLE_QUOTED_STRINGS_NOT_ALLOWED"),
    (15, "TRAILING_COMMAS_NOT_ALLOWED"),
    (16, "UNARY_PLUS_NUMBERS_NOT_ALLOWED"),
    (17, "UNEXPECTED_CLOSE_BRACE"),
    (18, "UNEXPECTED_CLOSE_BRACKET"),
    (19, "UNEXPECTED_COLON"),
    (20, "UNEXPECTED_COMMA"),
    (21, "UNEXPECTED_TOKEN"),
    (22, "UNEXPECTED_TOKEN_IN_OBJECT"),
    (23, "UNEXPECTED_WORD"),
    (24, "UNTERMINATED_ARRAY"),
    (25, "UNTERMINATED_COMMENT_BLOCK"),
    (26, "UNTERMINATED_OBJECT"),
    (27, "NESTING_DEPTH_EXCEEDED"),
    (28, "OUT_OF_MEMORY"),
    (201, "POINTER_NO_LEADING_SLASH"),
    (202, "POINTER_INVALID_ESCAPE"),
    (203, "POINTER_OUT_OF_MEMORY"),
    (301, "PATCH_NOT_AN_ARRAY"),
    (302, "OPERATION_NOT_AN_OBJECT"),
    (303, "OPERATION_MISSING"),
    (304, "OPERATION_WRONG"),
    (305, "OPERATION_REPEATED_NAME"),
    (306, "OPERATION_OUT_OF_MEMORY"),
];

/// Replaces the value at the path.
pub const EDIT_REPLACE: u32 = 0;
/// Removes the element or property at the path, or the document's value.
pub const EDIT_REMOVE: u32 = 1;
/// Removes the comment of the number in `index`.
pub const EDIT_REMOVE_COMMENT: u32 = 2;
/// Sets the document's value.
pub const EDIT_SET_ROOT: u32 = 3;
/// Removes all that the document has.
pub const EDIT_CLEAR_ROOT: u32 = 4;
/// Replaces the property at the path by one of a name and value.
pub const EDIT_REPLACE_PROPERTY: u32 = 5;
/// Sees that the document has an object, or an array if `first`.
pub const EDIT_ENSURE_ROOT: u32 = 6;
/// Sets the value of the property at the path.
pub const EDIT_SET_VALUE: u32 = 7;
/// Sees that the property at the path has an object, or an array if `first`.
pub const EDIT_ENSURE_VALUE: u32 = 8;
/// Sets the truth value at the path to `first`.
pub const EDIT_SET_BOOLEAN: u32 = 9;
/// Puts the array or object at the path on several lines.
pub const EDIT_ENSURE_MULTILINE: u32 = 10;
/// Inserts a value into the array at the path, at `index`.
pub const EDIT_INSERT_ELEMENT: u32 = 11;
/// Appends a value to the array at the path.
pub const EDIT_APPEND_ELEMENT: u32 = 12;
/// Inserts a property into the object at the path, at `index`.
pub const EDIT_INSERT_PROPERTY: u32 = 13;
/// Appends a property to the object at the path.
pub const EDIT_APPEND_PROPERTY: u32 = 14;
/// Sees that the object at the path has an object at the name, or an array if `first`.
pub const EDIT_ENSURE_PROPERTY: u32 = 15;
/// Sets trailing commas from the path down, or removes them if `first`.
pub const EDIT_SET_TRAILING_COMMAS: u32 = 16;
/// Sorts the array or object at the path.
pub const EDIT_SORT: u32 = 17;
/// Gives the property at the path another name.
pub const EDIT_RENAME_PROPERTY: u32 = 18;
/// Inserts the comment in `name` above the element or property at the path, or after it if `first`.
pub const EDIT_INSERT_COMMENT: u32 = 19;

/// LF.
pub const LINE_END_LF: u32 = 1;
/// CR LF.
pub const LINE_END_CR_LF: u32 = 2;
/// CR.
pub const LINE_END_CR: u32 = 3;
/// Spaces.
pub const LEVEL_SPACES: u32 = 1;
/// A tab.
pub const LEVEL_TAB: u32 = 2;

/// What is wrong with a text, a pointer or a patch. All of it is 0 where none is at fault.
#[repr(C)]
#[derive(Clone, Copy)]
pub struct Fault {
    /// The number of its kind.
    pub kind: u32,
    /// How many edits of a list, or operations of a patch, were made, or read, before the one that was refused.
    pub made: usize,
    /// The byte offset at which it begins.
    pub start: usize,
    /// The byte offset at which it ends.
    pub end: usize,
    /// The line of its start, counted from 1.
    pub line: usize,
    /// The column of its start in characters, counted from 1.
    pub column: usize,
    /// How many bytes its printed text has here.
    pub text_len: usize,
    /// Its printed text, as `Expected comma on line 3 column 7`.
    pub text: [u8; FAULT_TEXT_LEN],
}
const _: () = assert!(size_of::<Fault>() == 248);
const _: () = assert!(offset_of!(Fault, kind) == 0);
const _: () = assert!(offset_of!(Fault, made) == 8);
const _: () = assert!(offset_of!(Fault, start) == 16);
const _: () = assert!(offset_of!(Fault, end) == 24);
const _: () = assert!(offset_of!(Fault, line) == 32);
const _: () = assert!(offset_of!(Fault, column) == 40);
const _: () = assert!(offset_of!(Fault, text_len) == 48);
const _: () = assert!(offset_of!(Fault, text) == 56);

/// An edit: the number of its kind, and of the rest what that kind asks for.
#[repr(C)]
#[derive(Clone, Copy)]
pub struct Edit {
    /// The number of its kind.
    pub kind: u32,
    /// The steps of its path, each a place among elements or properties, from 0.
    pub path: Slice<usize>,
    /// A name, or the text of a comment.
    pub name: Slice<u8>,
    /// A value, as a JSON text.
    pub json: Slice<u8>,
    /// The place to insert at, or the number of the comment.
    pub index: usize,
    /// An array and no object; the truth value; no trailing commas; to pin comments; or after an entry and not
    /// above it.
    pub first: bool,
    /// To replace a value of another kind; or to sort within groups.
    pub second: bool,
}
const _: () = assert!(size_of::<Edit>() == 72);
const _: () = assert!(offset_of!(Edit, kind) == 0);
const _: () = assert!(offset_of!(Edit, path) == 8);
const _: () = assert!(offset_of!(Edit, name) == 24);
const _: () = assert!(offset_of!(Edit, json) == 40);
const _: () = assert!(offset_of!(Edit, index) == 56);
const _: () = assert!(offset_of!(Edit, first) == 64);
const _: () = assert!(offset_of!(Edit, second) == 65);

/// How a text is formatted. With all of it 0 the text tells its line end and its indent.
#[repr(C)]
#[derive(Clone, Copy)]
pub struct Style {
    /// How lines end. With no number of a line end, as the first one that ends outside of literals and
    /// comments, or with LF.
    pub line_end: u32,
    /// What one level of indent is. With no number of a level, the first indent in the value that is not empty,
    /// or two spaces.
    pub level: u32,
    /// How many spaces it is, where it is spaces; more than eight are eight.
    pub spaces: u32,
    /// Whether each array and object that is not empty is put on several lines.
    pub expand: bool,
}
const _: () = assert!(size_of::<Style>() == 16);
const _: () = assert!(offset_of!(Style, line_end) == 0);
const _: () = assert!(offset_of!(Style, level) == 4);
const _: () = assert!(offset_of!(Style, spaces) == 8);
const _: () = assert!(offset_of!(Style, expand) == 12);

/// A fault of a text, and the change for it.
#[repr(C)]
#[derive(Clone, Copy)]
pub struct Mend {
    /// The number of the fault's kind.
    pub kind: u32,
    /// The byte offset of the text at which the fault begins.
    pub fault_start: usize,
    /// The byte offset at which it ends.
    pub fault_end: usize,
    /// The line of its start, counted from 1.
    pub line: usize,
    /// The column of its start in characters, counted from 1.
    pub column: usize,
    /// The byte offset of the text at which the bytes that are replaced begin.
    pub start: usize,
    /// The byte offset at which they end.
    pub end: usize,
    /// The byte offset of the mended text at which what replaces them begins.
    pub written_start: usize,
    /// The byte offset at which it ends.
    pub written_end: usize,
}
const _: () = assert!(size_of::<Mend>() == 72);
const _: () = assert!(offset_of!(Mend, kind) == 0);
const _: () = assert!(offset_of!(Mend, fault_start) == 8);
const _: () = assert!(offset_of!(Mend, fault_end) == 16);
const _: () = assert!(offset_of!(Mend, line) == 24);
const _: () = assert!(offset_of!(Mend, column) == 32);
const _: () = assert!(offset_of!(Mend, start) == 40);
const _: () = assert!(offset_of!(Mend, end) == 48);
const _: () = assert!(offset_of!(Mend, written_start) == 56);
const _: () = assert!(offset_of!(Mend, written_end) == 64);

unsafe extern "C" {
    /// Checks whether a text is a document.
    ///
    /// 0: it is a document of the options. 1: an allocation failed. 3: it is not UTF-8. 4: it is no document
    /// within the nesting, and the fault tells what is wrong with it.
    pub fn jsonc_check(text: *const u8, text_len: usize, options: u32, fault: *mut Fault) -> u32;

    /// Hands out the text that the document prints, which is the text itself.
    ///
    /// 0: it is a document of the options. 1, 3 and 4 as of `jsonc_check`.
    pub fn jsonc_print(text: *const u8, text_len: usize, options: u32, out: *mut Slice<u8>, fault: *mut Fault) -> u32;

    /// Sets the value of the first property of a name in the document's object to that of a JSON text, or
    /// appends such a property. A document without a value gets an object.
    ///
    /// 0: it is done. 1, 3 and 4 as of `jsonc_check`. 2: the name or JSON text is not UTF-8. 7 and 8: the JSON
    /// text is no document, or has no value. 9: the document's value is another. 28: the value would be nested
    /// deeper than texts are parsed.
    pub fn jsonc_set(text: *const u8, text_len: usize, name: *const u8, name_len: usize, json: *const u8, json_len: usize, options: u32, out: *mut Slice<u8>, fault: *mut Fault) -> u32;

    /// Appends the value of a JSON text to the document's array. A document without a value gets an array.
    ///
    /// 10: the document's value is another. Else as `jsonc_set`.
    pub fn jsonc_append(text: *const u8, text_len: usize, json: *const u8, json_len: usize, options: u32, out: *mut Slice<u8>, fault: *mut Fault) -> u32;

    /// Removes the first property of a name from the document's object. Where it has none the text stays as it
    /// is.
    ///
    /// 0: it is done. 1, 3 and 4 as of `jsonc_check`. 2: the name is not UTF-8. 9: the document's value is no
    /// object.
    pub fn jsonc_remove(text: *const u8, text_len: usize, name: *const u8, name_len: usize, options: u32, out: *mut Slice<u8>, fault: *mut Fault) -> u32;

    /// Sorts the properties of the document's object by their names as they are written, without quotes, byte
    /// by byte.
    ///
    /// 0: it is done. 1, 3 and 4 as of `jsonc_check`. 9: the document's value is no object.
    pub fn jsonc_sort(text: *const u8, text_len: usize, options: u32, out: *mut Slice<u8>, fault: *mut Fault) -> u32;

    /// Hands out the value at a path as it is written. The path is a JSON text, an array of names.
    ///
    /// 0: it is done. 1, 3 and 4 as of `jsonc_check`. 2: the path is not UTF-8. 5 and 6: it is no document, or
    /// no array of strings. 11: nothing stands there.
    pub fn jsonc_get(text: *const u8, text_len: usize, path: *const u8, path_len: usize, options: u32, out: *mut Slice<u8>, fault: *mut Fault) -> u32;

    /// Puts the value of a JSON text at a path. Names that are missing come with it.
    ///
    /// 12: a value of another kind than an object stands on the path, and stays. Else as `jsonc_get` and
    /// `jsonc_set`.
    pub fn jsonc_put(text: *const u8, text_len: usize, path: *const u8, path_len: usize, json: *const u8, json_len: usize, options: u32, out: *mut Slice<u8>, fault: *mut Fault) -> u32;

    /// Drops what stands at a path. Where nothing stands there the text stays as it is.
    ///
    /// As `jsonc_get`, but never 11.
    pub fn jsonc_drop(text: *const u8, text_len: usize, path: *const u8, path_len: usize, options: u32, out: *mut Slice<u8>, fault: *mut Fault) -> u32;

    /// Makes edits in order, and hands out the text after them. Where one is refused, none is made.
    ///
    /// 0: it is done. 1, 3 and 4 as of `jsonc_check`. 2: a name, comment or JSON text is not UTF-8. 7 and 8: a
    /// JSON text is no document, or has no value. 13: an edit has no place. 16: an edit has no such kind. 25: a
    /// text to be inserted as a comment is not one comment. 26: such a comment ends with its line, and
    /// something follows there on the line. The fault tells how many edits stand before it.
    pub fn jsonc_edit(text: *const u8, text_len: usize, edits: *const Edit, edits_len: usize, options: u32, out: *mut Slice<u8>, fault: *mut Fault) -> u32;

    /// Hands out the value that a JSON Pointer (RFC 6901) refers to, as it is written.
    ///
    /// 0: it is done. 1, 3 and 4 as of `jsonc_check`. 2 and 19: the pointer is not UTF-8, or none. 20: it
    /// refers to nothing. 21: a name on its way stands twice in its object.
    pub fn jsonc_find(text: *const u8, text_len: usize, pointer: *const u8, pointer_len: usize, options: u32, out: *mut Slice<u8>, fault: *mut Fault) -> u32;

    /// Makes the operations of a JSON Patch (RFC 6902), and hands out the text after them. Where one is not
    /// made, none is.
    ///
    /// The patch is a JSON text, which is read under the options of the document's.
    ///
    /// 0: it is done. 1, 3 and 4 as of `jsonc_check`. 2 and 7: the patch is not UTF-8, or no document of the
    /// options. 22: it is no patch. Of an operation that is not made, 20: a pointer leads to nothing; 21: a
    /// name on its way stands twice in its object; 23: a value would be moved into itself; 24: the value is
    /// another than that of a `test`; 28: a value would be nested deeper than texts are parsed. With 20 to 24
    /// and 28 the fault tells how many operations stand before.
    pub fn jsonc_apply_patch(text: *const u8, text_len: usize, patch: *const u8, patch_len: usize, options: u32, out: *mut Slice<u8>, fault: *mut Fault) -> u32;

    /// Merges a JSON Merge Patch (RFC 7396) into the document, and hands out the text after it. Where a name
    /// cannot be looked up, nothing is merged.
    ///
    /// The patch is a JSON text, which is read under the options of the document's.
    ///
    /// 0: it is done. 1, 3 and 4 as of `jsonc_check`. 2, 7 and 8: the patch is not UTF-8, or no document of the
    /// options, or has no value. 21: a name stands twice in an object of the patch, or in one of the document
    /// where it is looked up. 28: a value would be nested deeper than texts are parsed.
    pub fn jsonc_merge_patch(text: *const u8, text_len: usize, patch: *const u8, patch_len: usize, options: u32, out: *mut Slice<u8>, fault: *mut Fault) -> u32;

    /// Hands out the path of the value that a JSON Pointer (RFC 6901) refers to, as an edit takes it.
    ///
    /// Each step is a place among elements or properties, from 0. The path of a member's value is that of the
    /// member. In a list of edits each path is one of the text after the edits before it.
    ///
    /// 0: it is done. 1, 3 and 4 as of `jsonc_check`. 2 and 19: the pointer is not UTF-8, or none. 20: it
    /// refers to nothing. 21: a name on its way stands twice in its object.
    pub fn jsonc_path_of(text: *const u8, text_len: usize, pointer: *const u8, pointer_len: usize, options: u32, out: *mut Slice<usize>, fault: *mut Fault) -> u32;

    /// Hands out the string that a JSON Pointer (RFC 6901) refers to, its escapes decoded and without quotes.
    ///
    /// 29: the value that it refers to is no string. Else as `jsonc_find`.
    pub fn jsonc_find_string(text: *const u8, text_len: usize, pointer: *const u8, pointer_len: usize, options: u32, out: *mut Slice<u8>, fault: *mut Fault) -> u32;

    /// Removes the element or property to which a JSON Pointer (RFC 6901) leads, with the comments that belong
    /// to it, and hands out the text after it. Of equal names the first leads on.
    ///
    /// 0: it is done. 1, 3 and 4 as of `jsonc_check`. 2 and 19: the pointer is not UTF-8, or none. 20: it leads
    /// to no element or property.
    pub fn jsonc_remove_with_comments(text: *const u8, text_len: usize, pointer: *const u8, pointer_len: usize, options: u32, out: *mut Slice<u8>, fault: *mut Fault) -> u32;

    /// Tells every fault of a text with a change for it, and hands out the text with all changes made, which is
    /// a document.
    ///
    /// 0: it is done. 1: an allocation failed. 3: the text is not UTF-8. The mends are in order, and there are
    /// none where the text is a document within the nesting. The first one's fault is the one that
    /// `jsonc_check` tells. What a mend writes stands in the mended text. The list is one block of `malloc`, as
    /// the text is.
    pub fn jsonc_mend(text: *const u8, text_len: usize, options: u32, out: *mut Slice<u8>, mends: *mut Slice<Mend>) -> u32;

    /// Hands out the text with the same literals, comments and punctuation in the same order, and with other
    /// blanks between them.
    ///
    /// 0: it is done. 1, 3 and 4 as of `jsonc_check`. An array or object that is on one line stays on it, and
    /// any other has each entry on a line of its own. The text can be longer than it was by its depth: a line
    /// begins with one level of indent for each array and object that is open.
    pub fn jsonc_format(text: *const u8, text_len: usize, options: u32, style: *const Style, out: *mut Slice<u8>, fault: *mut Fault) -> u32;

    /// Hands out the text as JSON (RFC 8259), with the same value, without comments and trailing commas.
    ///
    /// 0: it is done. 1, 3 and 4 as of `jsonc_check`. 30: the text has no value. 31: a number of it is
    /// `Infinity` or `NaN`, perhaps with a sign, and the fault tells its place, line and column.
    pub fn jsonc_to_json(text: *const u8, text_len: usize, options: u32, out: *mut Slice<u8>, fault: *mut Fault) -> u32;

    /// Writes the text that the document prints into a buffer, as `jsonc_print` hands it out.
    ///
    /// 17: the buffer is too small. `len` tells how long the text is then, too.
    pub fn jsonc_print_into(text: *const u8, text_len: usize, options: u32, room: *mut u8, room_len: usize, len: *mut usize, fault: *mut Fault) -> u32;

    /// Writes the text with a property set into a buffer, as `jsonc_set` hands it out.
    ///
    /// 17: the buffer is too small. `len` tells how long the text is then, too.
    pub fn jsonc_set_into(text: *const u8, text_len: usize, name: *const u8, name_len: usize, json: *const u8, json_len: usize, options: u32, room: *mut u8, room_len: usize, len: *mut usize, fault: *mut Fault) -> u32;

    /// Writes the text with an element appended into a buffer, as `jsonc_append` hands it out.
    ///
    /// 17: the buffer is too small. `len` tells how long the text is then, too.
    pub fn jsonc_append_into(text: *const u8, text_len: usize, json: *const u8, json_len: usize, options: u32, room: *mut u8, room_len: usize, len: *mut usize, fault: *mut Fault) -> u32;

    /// Writes the text without a property into a buffer, as `jsonc_remove` hands it out.
    ///
    /// 17: the buffer is too small. `len` tells how long the text is then, too.
    pub fn jsonc_remove_into(text: *const u8, text_len: usize, name: *const u8, name_len: usize, options: u32, room: *mut u8, room_len: usize, len: *mut usize, fault: *mut Fault) -> u32;

    /// Writes the text with its properties sorted into a buffer, as `jsonc_sort` hands it out.
    ///
    /// 17: the buffer is too small. `len` tells how long the text is then, too.
    pub fn jsonc_sort_into(text: *const u8, text_len: usize, options: u32, room: *mut u8, room_len: usize, len: *mut usize, fault: *mut Fault) -> u32;

    /// Writes the value at a path, as it is written, into a buffer, as `jsonc_get` hands it out.
    ///
    /// 17: the buffer is too small. `len` tells how long the value is then, too.
    pub fn jsonc_get_into(text: *const u8, text_len: usize, path: *const u8, path_len: usize, options: u32, room: *mut u8, room_len: usize, len: *mut usize, fault: *mut Fault) -> u32;

    /// Writes the text with a value put at a path into a buffer, as `jsonc_put` hands it out.
    ///
    /// 17: the buffer is too small. `len` tells how long the text is then, too.
    pub fn jsonc_put_into(text: *const u8, text_len: usize, path: *const u8, path_len: usize, json: *const u8, json_len: usize, options: u32, room: *mut u8, room_len: usize, len: *mut usize, fault: *mut Fault) -> u32;

    /// Writes the text without what stands at a path into a buffer, as `jsonc_drop` hands it out.
    ///
    /// 17: the buffer is too small. `len` tells how long the text is then, too.
    pub fn jsonc_drop_into(text: *const u8, text_len: usize, path: *const u8, path_len: usize, options: u32, room: *mut u8, room_len: usize, len: *mut usize, fault: *mut Fault) -> u32;

    /// Writes the text after edits into a buffer, as `jsonc_edit` hands it out.
    ///
    /// 17: the buffer is too small. `len` tells how long the text is then, too.
    pub fn jsonc_edit_into(text: *const u8, text_len: usize, edits: *const Edit, edits_len: usize, options: u32, room: *mut u8, room_len: usize, len: *mut usize, fault: *mut Fault) -> u32;

    /// Writes the value that a JSON Pointer refers to, as it is written, into a buffer, as `jsonc_find` hands
    /// it out.
    ///
    /// 17: the buffer is too small. `len` tells how long the value is then, too.
    pub fn jsonc_find_into(text: *const u8, text_len: usize, pointer: *const u8, pointer_len: usize, options: u32, room: *mut u8, room_len: usize, len: *mut usize, fault: *mut Fault) -> u32;

    /// Writes the text after the operations of a JSON Patch into a buffer, as `jsonc_apply_patch` hands it out.
    ///
    /// 17: the buffer is too small. `len` tells how long the text is then, too.
    pub fn jsonc_apply_patch_into(text: *const u8, text_len: usize, patch: *const u8, patch_len: usize, options: u32, room: *mut u8, room_len: usize, len: *mut usize, fault: *mut Fault) -> u32;

    /// Writes the text after a JSON Merge Patch into a buffer, as `jsonc_merge_patch` hands it out.
    ///
    /// 17: the buffer is too small. `len` tells how long the text is then, too.
    pub fn jsonc_merge_patch_into(text: *const u8, text_len: usize, patch: *const u8, patch_len: usize, options: u32, room: *mut u8, room_len: usize, len: *mut usize, fault: *mut Fault) -> u32;

    /// Writes the formatted text into a buffer, as `jsonc_format` hands it out.
    ///
    /// 17: the buffer is too small. `len` tells how long the text is then, too.
    pub fn jsonc_format_into(text: *const u8, text_len: usize, options: u32, style: *const Style, room: *mut u8, room_len: usize, len: *mut usize, fault: *mut Fault) -> u32;

    /// The C library's.
    pub fn free(at: *mut c_void);
}
