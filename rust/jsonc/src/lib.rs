//! Reads JSON with comments (JSONC), and edits it without touching the rest of its text.
//!
//! The work is that of a library that is proved, linked as a static library. Each call takes a text and answers what
//! becomes of it.
//!
//! ```
//! use jsonc::{Options, get, put};
//! let text = "{\n  \"size\": 14, // points\n}\n";
//! let made = put(text, Options::JSONC, &["size"], "16")?;
//! assert_eq!(&*made, "{\n  \"size\": 16, // points\n}\n");
//! assert_eq!(get(&made, Options::JSONC, &["size"])?.as_deref(), Some("16"));
//! # Ok::<(), jsonc::Error>(())
//! ```
//!
//! All `unsafe` of this crate is in the modules `calls` and `text`, each with what it rests on.
mod calls;
mod document;
mod edit;
mod error;
mod ffi;
mod format;
mod mends;
mod text;

pub use calls::{append, apply_patch, check, drop_at, edit, find, format, get, mend, merge_patch, print, put, remove, set, sort};
pub use calls::{find_string, path_of, remove_with_comments, to_json};
pub use calls::{append_into, apply_patch_into, drop_at_into, edit_into, find_into, format_into, get_into, merge_patch_into};
pub use calls::{print_into, put_into, remove_into, set_into, sort_into};
pub use document::Document;
pub use edit::{Edit, Place, Shape};
pub use error::{Error, Fault};
pub use format::{Level, LineEnd, Style};
pub use mends::{Mend, Mends};
pub use text::Text;

/// What a text may hold beyond JSON.
#[derive(Clone, Copy, Debug, PartialEq, Eq)]
pub struct Options(u32);

impl Options {
    /// JSON alone.
    pub const JSON: Options = Options(0);
    /// Comments and trailing commas, as VS Code reads its settings.
    pub const JSONC: Options = Options(ffi::ALLOW_COMMENTS | ffi::ALLOW_TRAILING_COMMAS);
    /// All that can be allowed.
    pub const ALL: Options = Options(1023);
    pub const COMMENTS: Options = Options(ffi::ALLOW_COMMENTS);
    pub const LOOSE_NAMES: Options = Options(ffi::ALLOW_LOOSE_OBJECT_PROPERTY_NAMES);
    pub const TRAILING_COMMAS: Options = Options(ffi::ALLOW_TRAILING_COMMAS);
    pub const MISSING_COMMAS: Options = Options(ffi::ALLOW_MISSING_COMMAS);
    pub const SINGLE_QUOTES: Options = Options(ffi::ALLOW_SINGLE_QUOTED_STRINGS);
    pub const HEXADECIMAL: Options = Options(ffi::ALLOW_HEXADECIMAL_NUMBERS);
    pub const UNARY_PLUS: Options = Options(ffi::ALLOW_UNARY_PLUS_NUMBERS);
    pub const BARE_POINTS: Options = Options(ffi::ALLOW_BARE_DECIMAL_POINT_NUMBERS);
    pub const NON_FINITE: Options = Options(ffi::ALLOW_NON_FINITE_NUMBERS);
    pub const EXTENDED_ESCAPES: Options = Options(ffi::ALLOW_EXTENDED_STRING_ESCAPES);

    /// These and those.
    pub const fn and(self, other: Options) -> Options {
        Options(self.0 | other.0)
    }

    /// The options of these ten bits, in the order of the constants above.
    pub const fn from_bits(bits: u32) -> Options {
        Options(bits & 1023)
    }

    pub const fn bits(self) -> u32 {
        self.0
    }
}
