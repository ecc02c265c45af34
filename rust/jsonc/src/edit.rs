//! Edits of a list.
use crate::ffi;

/// Whether an array or an object is to be there.
#[derive(Clone, Copy, Debug, PartialEq, Eq)]
pub enum Shape {
    Object,
    Array,
}

/// Where a comment is inserted.
#[derive(Clone, Copy, Debug, PartialEq, Eq)]
pub enum Place {
    /// Above an element or property, on a line of its own.
    Above,
    /// After it on its line, and after its comma.
    After,
}

/// An edit. Each step of a path is a place among elements or properties, from 0; a value is a JSON text.
/// `docs/EDITS.md` shows what each writes.
#[derive(Clone, Debug, PartialEq, Eq)]
pub enum Edit {
    Replace { path: Vec<usize>, value: String },
    Remove { path: Vec<usize> },
    RemoveComment { index: usize },
    SetRoot { value: String },
    ClearRoot,
    ReplaceProperty { path: Vec<usize>, name: String, value: String },
    EnsureRoot { shape: Shape, replace: bool },
    SetValue { path: Vec<usize>, value: String },
    EnsureValue { path: Vec<usize>, shape: Shape },
    SetBoolean { path: Vec<usize>, value: bool },
    EnsureMultiline { path: Vec<usize> },
    InsertElement { path: Vec<usize>, index: usize, value: String },
    AppendElement { path: Vec<usize>, value: String },
    InsertProperty { path: Vec<usize>, index: usize, name: String, value: String },
    AppendProperty { path: Vec<usize>, name: String, value: String },
    EnsureProperty { path: Vec<usize>, name: String, shape: Shape, replace: bool },
    SetTrailingCommas { path: Vec<usize>, never: bool },
    Sort { path: Vec<usize>, pin: bool, groups: bool },
    RenameProperty { path: Vec<usize>, name: String },
    InsertComment { path: Vec<usize>, place: Place, text: String },
}

fn slice<T>(of: &[T]) -> ffi::Slice<T> {
    ffi::Slice { at: of.as_ptr(), len: of.len() }
}

/// An edit of this kind that asks for nothing else.
fn bare(kind: u32) -> ffi::Edit {
    ffi::Edit { kind, path: slice(&[]), name: slice(&[]), json: slice(&[]), index: 0, first: false, second: false }
}

/// An edit at a path.
fn at(kind: u32, path: &[usize], first: bool, second: bool) -> ffi::Edit {
    ffi::Edit { path: slice(path), first, second, ..bare(kind) }
}

/// An edit that writes a value.
fn with(edit: ffi::Edit, index: usize, name: &str, value: &str) -> ffi::Edit {
    ffi::Edit { index, name: slice(name.as_bytes()), json: slice(value.as_bytes()), ..edit }
}

impl Edit {
    /// The edit as the library takes it. Its pointers are those of this edit, which has to outlive it.
    pub(crate) fn listed(&self) -> ffi::Edit {
        let array = |shape: &Shape| *shape == Shape::Array;
        match self {
            Edit::Replace { path, value } => with(at(ffi::EDIT_REPLACE, path, false, false), 0, "", value),
            Edit::Remove { path } => at(ffi::EDIT_REMOVE, path, false, false),
            Edit::RemoveComment { index } => ffi::Edit { index: *index, ..bare(ffi::EDIT_REMOVE_COMMENT) },
            Edit::SetRoot { value } => with(bare(ffi::EDIT_SET_ROOT), 0, "", value),
            Edit::ClearRoot => bare(ffi::EDIT_CLEAR_ROOT),
            Edit::ReplaceProperty { path, name, value } => with(at(ffi::EDIT_REPLACE_PROPERTY, path, false, false), 0, name, value),
            Edit::EnsureRoot { shape, replace } => at(ffi::EDIT_ENSURE_ROOT, &[], array(shape), *replace),
            Edit::SetValue { path, value } => with(at(ffi::EDIT_SET_VALUE, path, false, false), 0, "", value),
            Edit::EnsureValue { path, shape } => at(ffi::EDIT_ENSURE_VALUE, path, array(shape), false),
            Edit::SetBoolean { path, value } => at(ffi::EDIT_SET_BOOLEAN, path, *value, false),
            Edit::EnsureMultiline { path } => at(ffi::EDIT_ENSURE_MULTILINE, path, false, false),
            Edit::InsertElement { path, index, value } => with(at(ffi::EDIT_INSERT_ELEMENT, path, false, false), *index, "", value),
            Edit::AppendElement { path, value } => with(at(ffi::EDIT_APPEND_ELEMENT, path, false, false), 0, "", value),
            Edit::InsertProperty { path, index, name, value } => with(at(ffi::EDIT_INSERT_PROPERTY, path, false, false), *index, name, value),
            Edit::AppendProperty { path, name, value } => with(at(ffi::EDIT_APPEND_PROPERTY, path, false, false), 0, name, value),
            Edit::EnsureProperty { path, name, shape, replace } => with(at(ffi::EDIT_ENSURE_PROPERTY, path, array(shape), *replace), 0, name, ""),
            Edit::SetTrailingCommas { path, never } => at(ffi::EDIT_SET_TRAILING_COMMAS, path, *never, false),
            Edit::Sort { path, pin, groups } => at(ffi::EDIT_SORT, path, *pin, *groups),
            Edit::RenameProperty { path, name } => with(at(ffi::EDIT_RENAME_PROPERTY, path, false, false), 0, name, ""),
            Edit::InsertComment { path, place, text } => with(at(ffi::EDIT_INSERT_COMMENT, path, *place == Place::After, false), 0, text, ""),
        }
    }
}
