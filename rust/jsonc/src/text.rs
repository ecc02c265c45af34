//! Texts and lists that the library handed out.
use crate::ffi;
use std::fmt;
use std::ops::Deref;

/// A text that the library made.
pub struct Text(ffi::Slice<u8>);

// SAFETY: a text is the only owner of its block, and lends it only to be read.
unsafe impl Send for Text {}
unsafe impl Sync for Text {}

impl Text {
    /// What a call is given to write its text behind: a pointer that is not null, and no bytes.
    pub(crate) const NONE: ffi::Slice<u8> = ffi::Slice { at: std::ptr::dangling(), len: 0 };

    /// The text of a slice that a call has written.
    pub(crate) fn of(slice: ffi::Slice<u8>) -> Text {
        let text = Text(slice);
        // A test, so that what is not proved of the boundary is not trusted.
        assert!(std::str::from_utf8(text.as_bytes()).is_ok(), "the library's texts are UTF-8");
        text
    }

    pub fn as_bytes(&self) -> &[u8] {
        // SAFETY: the pointer is not null, and so many bytes are there until the drop.
        unsafe { std::slice::from_raw_parts(self.0.at, self.0.len) }
    }
}

impl Drop for Text {
    fn drop(&mut self) {
        if self.0.len > 0 {
            // SAFETY: a text that is not empty is one block of `malloc`, which no one else holds.
            unsafe { ffi::free(self.0.at.cast_mut().cast()) }
        }
    }
}

impl Deref for Text {
    type Target = str;
    fn deref(&self) -> &str {
        // SAFETY: `of` has tested these bytes, and nothing writes them.
        unsafe { std::str::from_utf8_unchecked(self.as_bytes()) }
    }
}

impl fmt::Debug for Text {
    fn fmt(&self, f: &mut fmt::Formatter<'_>) -> fmt::Result {
        fmt::Debug::fmt(&**self, f)
    }
}

impl fmt::Display for Text {
    fn fmt(&self, f: &mut fmt::Formatter<'_>) -> fmt::Result {
        f.write_str(self)
    }
}

/// What a call is given to write a list behind: a pointer that is not null, and nothing there.
pub(crate) const fn nothing<T>() -> ffi::Slice<T> {
    ffi::Slice { at: std::ptr::dangling(), len: 0 }
}

/// Copies the list of a slice that a call has written, and frees it.
pub(crate) fn list_of<T: Copy>(slice: ffi::Slice<T>) -> Vec<T> {
    // SAFETY: the pointer is not null, and so many values are there.
    let list = unsafe { std::slice::from_raw_parts(slice.at, slice.len) }.to_vec();
    if slice.len > 0 {
        // SAFETY: a list that is not empty is one block of `malloc`, which no one else holds.
        unsafe { ffi::free(slice.at.cast_mut().cast()) }
    }
    list
}
