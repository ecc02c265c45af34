/* The parser and editor of JSON with comments, for C. Made by bench/declare-calls from crates/jsonc_c/src.
 *
 * include/README.md says how to link it, and what is trusted.
 *
 * - A text is a pointer and a length. The pointer is not null, also where the length is 0: write "" and 0.
 * - Start a jsonc_text_t with JSONC_NO_TEXT, a jsonc_path_t with JSONC_NO_PATH, a jsonc_mends_t with JSONC_NO_MENDS, and
 *   a jsonc_fault_t and a jsonc_style_t with {0}.
 * - What a call hands out is one block of malloc: free it with jsonc_free, a path with jsonc_free_path, and mends with
 *   jsonc_free_mends. On a status other than 0 there is none.
 * - Each call answers a status. Texts, names, paths and JSON texts are UTF-8. A path is a JSON text, an array of names.
 * - Paths and JSON texts are read with all options on, the text with those that are given, and a patch with these too.
 * - Calls share nothing: any number of threads may make them at once.
 */
#ifndef JSONC_H
#define JSONC_H
#include <stdbool.h>
#include <stddef.h>
#include <stdint.h>
#include <stdlib.h>
#include <string.h>

#ifdef __cplusplus
extern "C" {
#define JSONC_ASSERT(holds) static_assert(holds, "jsonc.h is of x86-64")
#else
#define JSONC_ASSERT(holds) _Static_assert(holds, "jsonc.h is of x86-64")
#endif

/* Bytes of UTF-8. */
typedef struct {
  const uint8_t *at;
  size_t len;
} jsonc_text_t;
JSONC_ASSERT(sizeof(jsonc_text_t) == 16);

/* Steps of a path, each a place among elements or properties, from 0. */
typedef struct {
  const size_t *at;
  size_t len;
} jsonc_path_t;
JSONC_ASSERT(sizeof(jsonc_path_t) == 16);

#define JSONC_NO_TEXT {(const uint8_t *)"", 0}

/* (a pointer that is not null, to no steps: the path of the document's value) */
#define JSONC_NO_PATH {(const size_t *)sizeof(size_t), 0}

/* What calls answer. */
enum jsonc_status {
  JSONC_OK = 0, /* It succeeded. */
  JSONC_OUT_OF_MEMORY = 1, /* An allocation failed. */
  JSONC_WORD_NOT_UTF8 = 2, /* A name, comment, path, pointer or JSON text is not UTF-8. */
  JSONC_NOT_UTF8 = 3, /* The text is not UTF-8. */
  JSONC_TEXT = 4, /* The text is no document. The fault tells what is wrong with it. */
  JSONC_PATH = 5, /* The path is no document. The fault tells what is wrong with it. */
  JSONC_NOT_NAMES = 6, /* The path is no array of strings. */
  JSONC_JSON = 7, /* The JSON text of a value or patch is no document. The fault tells what is wrong with it. */
  JSONC_NO_VALUE = 8, /* The JSON text has no value. */
  JSONC_NOT_OBJECT = 9, /* The document's value is no object. */
  JSONC_NOT_ARRAY = 10, /* The document's value is no array. */
  JSONC_NO_SETTING = 11, /* Nothing stands at the path. */
  JSONC_ON_THE_WAY = 12, /* A value of another kind than an object stands on the path. */
  JSONC_NO_SUCH_PLACE = 13, /* The path of an edit leads to nothing that it needs, or no comment has its number. */
  JSONC_MISSING_BRACKETS = 14, /* An array or object lacks a bracket. No call answers it of a text. */
  JSONC_MISSING_NAME = 15, /* A property lacks its name or colon. No call answers it of a text. */
  JSONC_NO_SUCH_EDIT = 16, /* No edit has this kind. */
  JSONC_NO_ROOM = 17, /* The caller's buffer is too small. How long the text is stands behind the pointer for its length. */
  JSONC_OTHER = 18, /* Anything else. No call answers it. */
  JSONC_POINTER = 19, /* The pointer is no JSON Pointer. The fault tells what is wrong with it. */
  JSONC_NO_SUCH_VALUE = 20, /* A pointer leads to nothing. */
  JSONC_REPEATED_NAME = 21, /* A name stands twice in an object where it is looked up, or in one of a merge patch. The fault's text has the name. */
  JSONC_NOT_PATCH = 22, /* The patch is no array, or an operation is none. The fault tells which, and what is wrong with it. */
  JSONC_INTO_ITSELF = 23, /* A value was to be moved into itself. */
  JSONC_NOT_EQUAL = 24, /* A value is not equal to the one that it was tested against. */
  JSONC_INVALID_COMMENT = 25, /* The text of a comment that is to be inserted is not one comment and nothing else. */
  JSONC_LINE_CONTINUES = 26, /* A comment that ends with its line is to be inserted, and something follows there on the line. */
  JSONC_NOT_AN_ENTRY = 27, /* A comment is to be inserted at a node that is no entry. No call answers it of a text. */
  JSONC_NESTED_TOO_DEEP = 28, /* A value would be nested deeper in the document than texts are parsed. */
  JSONC_NOT_STRING = 29, /* The value that the pointer refers to is no string. */
  JSONC_NO_ROOT = 30, /* The text has no value. */
  JSONC_NON_FINITE = 31, /* A number of the text is `Infinity` or `NaN`, which JSON does not have. The fault tells where. */
};

/* What a text may hold beyond JSON. */
enum jsonc_options {
  JSONC_JSON_ALONE = 0,
  JSONC_ALLOW_COMMENTS = 1,
  JSONC_ALLOW_LOOSE_OBJECT_PROPERTY_NAMES = 2,
  JSONC_ALLOW_TRAILING_COMMAS = 4,
  JSONC_ALLOW_MISSING_COMMAS = 8,
  JSONC_ALLOW_SINGLE_QUOTED_STRINGS = 16,
  JSONC_ALLOW_HEXADECIMAL_NUMBERS = 32,
  JSONC_ALLOW_UNARY_PLUS_NUMBERS = 64,
  JSONC_ALLOW_BARE_DECIMAL_POINT_NUMBERS = 128,
  JSONC_ALLOW_NON_FINITE_NUMBERS = 256,
  JSONC_ALLOW_EXTENDED_STRING_ESCAPES = 512,
  JSONC_WITH_COMMENTS = JSONC_ALLOW_COMMENTS | JSONC_ALLOW_TRAILING_COMMAS, /* as VS Code reads its settings */
  JSONC_ALL = 1023
};

/* What is wrong with a text, a pointer or a patch (docs/FAULTS.md). */
enum jsonc_kind {
  JSONC_KIND_STRING_INVALID_ESCAPE_IN_SINGLE_QUOTE_STRING = 101,
  JSONC_KIND_STRING_INVALID_ESCAPE_IN_DOUBLE_QUOTE_STRING = 102,
  JSONC_KIND_STRING_EXPECTED_FOUR_HEX_DIGITS = 103,
  JSONC_KIND_STRING_EXPECTED_TWO_HEX_DIGITS = 104,
  JSONC_KIND_STRING_INVALID_UNICODE_ESCAPE_SEQUENCE = 105,
  JSONC_KIND_STRING_INVALID_ESCAPE = 106,
  JSONC_KIND_STRING_UNTERMINATED_STRING_LITERAL = 107,
  JSONC_KIND_STRING_OUT_OF_MEMORY = 108,
  JSONC_KIND_BARE_DECIMAL_POINT_NUMBERS_NOT_ALLOWED = 1,
  JSONC_KIND_COMMENTS_NOT_ALLOWED = 2,
  JSONC_KIND_EXPECTED_COLON_AFTER_OBJECT_KEY = 3,
  JSONC_KIND_EXPECTED_OBJECT_VALUE = 4,
  JSONC_KIND_EXPECTED_DIGIT = 5,
  JSONC_KIND_EXPECTED_DIGIT_FOLLOWING_NEGATIVE_SIGN = 6,
  JSONC_KIND_EXPECTED_PLUS_MINUS_OR_DIGIT_IN_NUMBER_LITERAL = 7,
  JSONC_KIND_EXPECTED_STRING_OBJECT_PROPERTY = 8,
  JSONC_KIND_HEXADECIMAL_NUMBERS_NOT_ALLOWED = 9,
  JSONC_KIND_EXPECTED_COMMA = 10,
  JSONC_KIND_MULTIPLE_ROOT_JSON_VALUES = 11,
  JSONC_KIND_NON_FINITE_NUMBERS_NOT_ALLOWED = 12,
  JSONC_KIND_SINGLE_QUOTED_STRINGS_NOT_ALLOWED = 13,
  JSONC_KIND_TRAILING_COMMAS_NOT_ALLOWED = 15,
  JSONC_KIND_UNARY_PLUS_NUMBERS_NOT_ALLOWED = 16,
  JSONC_KIND_UNEXPECTED_CLOSE_BRACE = 17,
  JSONC_KIND_UNEXPECTED_CLOSE_BRACKET = 18,
  JSONC_KIND_UNEXPECTED_COLON = 19,
  JSONC_KIND_UNEXPECTED_COMMA = 20,
  JSONC_KIND_UNEXPECTED_TOKEN = 21,
  JSONC_KIND_UNEXPECTED_TOKEN_IN_OBJECT = 22,
  JSONC_KIND_UNEXPECTED_WORD = 23,
  JSONC_KIND_UNTERMINATED_ARRAY = 24,
  JSONC_KIND_UNTERMINATED_COMMENT_BLOCK = 25,
  JSONC_KIND_UNTERMINATED_OBJECT = 26,
  JSONC_KIND_NESTING_DEPTH_EXCEEDED = 27,
  JSONC_KIND_OUT_OF_MEMORY = 28,
  JSONC_KIND_POINTER_NO_LEADING_SLASH = 201,
  JSONC_KIND_POINTER_INVALID_ESCAPE = 202,
  JSONC_KIND_POINTER_OUT_OF_MEMORY = 203,
  JSONC_KIND_PATCH_NOT_AN_ARRAY = 301,
  JSONC_KIND_OPERATION_NOT_AN_OBJECT = 302,
  JSONC_KIND_OPERATION_MISSING = 303,
  JSONC_KIND_OPERATION_WRONG = 304,
  JSONC_KIND_OPERATION_REPEATED_NAME = 305,
  JSONC_KIND_OPERATION_OUT_OF_MEMORY = 306,
};

/* What an edit does (docs/EDITS.md). */
enum jsonc_edit_kind {
  JSONC_EDIT_REPLACE = 0, /* Replaces the value at the path. */
  JSONC_EDIT_REMOVE = 1, /* Removes the element or property at the path, or the document's value. */
  JSONC_EDIT_REMOVE_COMMENT = 2, /* Removes the comment of the number in `index`. */
  JSONC_EDIT_SET_ROOT = 3, /* Sets the document's value. */
  JSONC_EDIT_CLEAR_ROOT = 4, /* Removes all that the document has. */
  JSONC_EDIT_REPLACE_PROPERTY = 5, /* Replaces the property at the path by one of a name and value. */
  JSONC_EDIT_ENSURE_ROOT = 6, /* Sees that the document has an object, or an array if `first`. */
  JSONC_EDIT_SET_VALUE = 7, /* Sets the value of the property at the path. */
  JSONC_EDIT_ENSURE_VALUE = 8, /* Sees that the property at the path has an object, or an array if `first`. */
  JSONC_EDIT_SET_BOOLEAN = 9, /* Sets the truth value at the path to `first`. */
  JSONC_EDIT_ENSURE_MULTILINE = 10, /* Puts the array or object at the path on several lines. */
  JSONC_EDIT_INSERT_ELEMENT = 11, /* Inserts a value into the array at the path, at `index`. */
  JSONC_EDIT_APPEND_ELEMENT = 12, /* Appends a value to the array at the path. */
  JSONC_EDIT_INSERT_PROPERTY = 13, /* Inserts a property into the object at the path, at `index`. */
  JSONC_EDIT_APPEND_PROPERTY = 14, /* Appends a property to the object at the path. */
  JSONC_EDIT_ENSURE_PROPERTY = 15, /* Sees that the object at the path has an object at the name, or an array if `first`. */
  JSONC_EDIT_SET_TRAILING_COMMAS = 16, /* Sets trailing commas from the path down, or removes them if `first`. */
  JSONC_EDIT_SORT = 17, /* Sorts the array or object at the path. */
  JSONC_EDIT_RENAME_PROPERTY = 18, /* Gives the property at the path another name. */
  JSONC_EDIT_INSERT_COMMENT = 19, /* Inserts the comment in `name` above the element or property at the path, or after it if `first`. */
};

/* How lines end, and what a level of indent is, in a jsonc_style_t. */
enum jsonc_style_number {
  JSONC_LINE_END_LF = 1, /* LF. */
  JSONC_LINE_END_CR_LF = 2, /* CR LF. */
  JSONC_LINE_END_CR = 3, /* CR. */
  JSONC_LEVEL_SPACES = 1, /* Spaces. */
  JSONC_LEVEL_TAB = 2, /* A tab. */
};

#define JSONC_FAULT_TEXT_LEN 192

/* What is wrong with a text, a pointer or a patch. All of it is 0 where none is at fault. */
typedef struct {
  uint32_t kind; /* The number of its kind. */
  size_t made; /* How many edits of a list, or operations of a patch, were made, or read, before the one that was refused. */
  size_t start; /* The byte offset at which it begins. */
  size_t end; /* The byte offset at which it ends. */
  size_t line; /* The line of its start, counted from 1. */
  size_t column; /* The column of its start in characters, counted from 1. */
  size_t text_len; /* How many bytes its printed text has here. */
  char text[JSONC_FAULT_TEXT_LEN]; /* Its printed text, as `Expected comma on line 3 column 7`. */
} jsonc_fault_t;
JSONC_ASSERT(sizeof(jsonc_fault_t) == 248);
JSONC_ASSERT(offsetof(jsonc_fault_t, kind) == 0);
JSONC_ASSERT(offsetof(jsonc_fault_t, made) == 8);
JSONC_ASSERT(offsetof(jsonc_fault_t, start) == 16);
JSONC_ASSERT(offsetof(jsonc_fault_t, end) == 24);
JSONC_ASSERT(offsetof(jsonc_fault_t, line) == 32);
JSONC_ASSERT(offsetof(jsonc_fault_t, column) == 40);
JSONC_ASSERT(offsetof(jsonc_fault_t, text_len) == 48);
JSONC_ASSERT(offsetof(jsonc_fault_t, text) == 56);

/* An edit: the number of its kind, and of the rest what that kind asks for. */
typedef struct {
  uint32_t kind; /* The number of its kind. */
  jsonc_path_t path; /* The steps of its path, each a place among elements or properties, from 0. */
  jsonc_text_t name; /* A name, or the text of a comment. */
  jsonc_text_t json; /* A value, as a JSON text. */
  size_t index; /* The place to insert at, or the number of the comment. */
  bool first; /* An array and no object; the truth value; no trailing commas; to pin comments; or after an entry and not above it. */
  bool second; /* To replace a value of another kind; or to sort within groups. */
} jsonc_edit_t;
JSONC_ASSERT(sizeof(jsonc_edit_t) == 72);
JSONC_ASSERT(offsetof(jsonc_edit_t, kind) == 0);
JSONC_ASSERT(offsetof(jsonc_edit_t, path) == 8);
JSONC_ASSERT(offsetof(jsonc_edit_t, name) == 24);
JSONC_ASSERT(offsetof(jsonc_edit_t, json) == 40);
JSONC_ASSERT(offsetof(jsonc_edit_t, index) == 56);
JSONC_ASSERT(offsetof(jsonc_edit_t, first) == 64);
JSONC_ASSERT(offsetof(jsonc_edit_t, second) == 65);

/* How a text is formatted. With all of it 0 the text tells its line end and its indent. */
typedef struct {
  uint32_t line_end; /* How lines end. With no number of a line end, as the first one that ends outside of literals and comments, or with LF. */
  uint32_t level; /* What one level of indent is. With no number of a level, the first indent in the value that is not empty, or two spaces. */
  uint32_t spaces; /* How many spaces it is, where it is spaces; more than eight are eight. */
  bool expand; /* Whether each array and object that is not empty is put on several lines. */
} jsonc_style_t;
JSONC_ASSERT(sizeof(jsonc_style_t) == 16);
JSONC_ASSERT(offsetof(jsonc_style_t, line_end) == 0);
JSONC_ASSERT(offsetof(jsonc_style_t, level) == 4);
JSONC_ASSERT(offsetof(jsonc_style_t, spaces) == 8);
JSONC_ASSERT(offsetof(jsonc_style_t, expand) == 12);

/* A fault of a text, and the change for it. */
typedef struct {
  uint32_t kind; /* The number of the fault's kind. */
  size_t fault_start; /* The byte offset of the text at which the fault begins. */
  size_t fault_end; /* The byte offset at which it ends. */
  size_t line; /* The line of its start, counted from 1. */
  size_t column; /* The column of its start in characters, counted from 1. */
  size_t start; /* The byte offset of the text at which the bytes that are replaced begin. */
  size_t end; /* The byte offset at which they end. */
  size_t written_start; /* The byte offset of the mended text at which what replaces them begins. */
  size_t written_end; /* The byte offset at which it ends. */
} jsonc_mend_t;
JSONC_ASSERT(sizeof(jsonc_mend_t) == 72);
JSONC_ASSERT(offsetof(jsonc_mend_t, kind) == 0);
JSONC_ASSERT(offsetof(jsonc_mend_t, fault_start) == 8);
JSONC_ASSERT(offsetof(jsonc_mend_t, fault_end) == 16);
JSONC_ASSERT(offsetof(jsonc_mend_t, line) == 24);
JSONC_ASSERT(offsetof(jsonc_mend_t, column) == 32);
JSONC_ASSERT(offsetof(jsonc_mend_t, start) == 40);
JSONC_ASSERT(offsetof(jsonc_mend_t, end) == 48);
JSONC_ASSERT(offsetof(jsonc_mend_t, written_start) == 56);
JSONC_ASSERT(offsetof(jsonc_mend_t, written_end) == 64);

/* Mends, in order. */
typedef struct {
  const jsonc_mend_t *at;
  size_t len;
} jsonc_mends_t;
JSONC_ASSERT(sizeof(jsonc_mends_t) == 16);

/* (a pointer that is not null, to no mends) */
#define JSONC_NO_MENDS {(const jsonc_mend_t *)sizeof(size_t), 0}

/*
 * Checks whether a text is a document.
 *
 * 0: it is a document of the options. 1: an allocation failed. 3: it is not UTF-8. 4: it is no document within
 * the nesting, and the fault tells what is wrong with it.
 */
uint32_t jsonc_check(const void *text, size_t text_len, uint32_t options, jsonc_fault_t *fault);

/*
 * Hands out the text that the document prints, which is the text itself.
 *
 * 0: it is a document of the options. 1, 3 and 4 as of `jsonc_check`.
 */
uint32_t jsonc_print(const void *text, size_t text_len, uint32_t options, jsonc_text_t *out, jsonc_fault_t *fault);

/*
 * Sets the value of the first property of a name in the document's object to that of a JSON text, or appends
 * such a property. A document without a value gets an object.
 *
 * 0: it is done. 1, 3 and 4 as of `jsonc_check`. 2: the name or JSON text is not UTF-8. 7 and 8: the JSON text
 * is no document, or has no value. 9: the document's value is another. 28: the value would be nested deeper
 * than texts are parsed.
 */
uint32_t jsonc_set(const void *text, size_t text_len, const void *name, size_t name_len, const void *json,
                   size_t json_len, uint32_t options, jsonc_text_t *out, jsonc_fault_t *fault);

/*
 * Appends the value of a JSON text to the document's array. A document without a value gets an array.
 *
 * 10: the document's value is another. Else as `jsonc_set`.
 */
uint32_t jsonc_append(const void *text, size_t text_len, const void *json, size_t json_len, uint32_t options,
                      jsonc_text_t *out, jsonc_fault_t *fault);

/*
 * Removes the first property of a name from the document's object. Where it has none the text stays as it is.
 *
 * 0: it is done. 1, 3 and 4 as of `jsonc_check`. 2: the name is not UTF-8. 9: the document's value is no
 * object.
 */
uint32_t jsonc_remove(const void *text, size_t text_len, const void *name, size_t name_len, uint32_t options,
                      jsonc_text_t *out, jsonc_fault_t *fault);

/*
 * Sorts the properties of the document's object by their names as they are written, without quotes, byte by
 * byte.
 *
 * 0: it is done. 1, 3 and 4 as of `jsonc_check`. 9: the document's value is no object.
 */
uint32_t jsonc_sort(const void *text, size_t text_len, uint32_t options, jsonc_text_t *out, jsonc_fault_t *fault);

/*
 * Hands out the value at a path as it is written. The path is a JSON text, an array of names.
 *
 * 0: it is done. 1, 3 and 4 as of `jsonc_check`. 2: the path is not UTF-8. 5 and 6: it is no document, or no
 * array of strings. 11: nothing stands there.
 */
uint32_t jsonc_get(const void *text, size_t text_len, const void *path, size_t path_len, uint32_t options,
                   jsonc_text_t *out, jsonc_fault_t *fault);

/*
 * Puts the value of a JSON text at a path. Names that are missing come with it.
 *
 * 12: a value of another kind than an object stands on the path, and stays. Else as `jsonc_get` and
 * `jsonc_set`.
 */
uint32_t jsonc_put(const void *text, size_t text_len, const void *path, size_t path_len, const void *json,
                   size_t json_len, uint32_t options, jsonc_text_t *out, jsonc_fault_t *fault);

/*
 * Drops what stands at a path. Where nothing stands there the text stays as it is.
 *
 * As `jsonc_get`, but never 11.
 */
uint32_t jsonc_drop(const void *text, size_t text_len, const void *path, size_t path_len, uint32_t options,
                    jsonc_text_t *out, jsonc_fault_t *fault);

/*
 * Makes edits in order, and hands out the text after them. Where one is refused, none is made.
 *
 * 0: it is done. 1, 3 and 4 as of `jsonc_check`. 2: a name, comment or JSON text is not UTF-8. 7 and 8: a JSON
 * text is no document, or has no value. 13: an edit has no place. 16: an edit has no such kind. 25: a text to
 * be inserted as a comment is not one comment. 26: such a comment ends with its line, and something follows
 * there on the line. The fault tells how many edits stand before it.
 */
uint32_t jsonc_edit(const void *text, size_t text_len, const jsonc_edit_t *edits, size_t edits_len,
                    uint32_t options, jsonc_text_t *out, jsonc_fault_t *fault);

/*
 * Hands out the value that a JSON Pointer (RFC 6901) refers to, as it is written.
 *
 * 0: it is done. 1, 3 and 4 as of `jsonc_check`. 2 and 19: the pointer is not UTF-8, or none. 20: it refers to
 * nothing. 21: a name on its way stands twice in its object.
 */
uint32_t jsonc_find(const void *text, size_t text_len, const void *pointer, size_t pointer_len, uint32_t options,
                    jsonc_text_t *out, jsonc_fault_t *fault);

/*
 * Makes the operations of a JSON Patch (RFC 6902), and hands out the text after them. Where one is not made,
 * none is.
 *
 * The patch is a JSON text, which is read under the options of the document's.
 *
 * 0: it is done. 1, 3 and 4 as of `jsonc_check`. 2 and 7: the patch is not UTF-8, or no document of the
 * options. 22: it is no patch. Of an operation that is not made, 20: a pointer leads to nothing; 21: a name on
 * its way stands twice in its object; 23: a value would be moved into itself; 24: the value is another than
 * that of a `test`; 28: a value would be nested deeper than texts are parsed. With 20 to 24 and 28 the fault
 * tells how many operations stand before.
 */
uint32_t jsonc_apply_patch(const void *text, size_t text_len, const void *patch, size_t patch_len, uint32_t options,
                           jsonc_text_t *out, jsonc_fault_t *fault);

/*
 * Merges a JSON Merge Patch (RFC 7396) into the document, and hands out the text after it. Where a name cannot
 * be looked up, nothing is merged.
 *
 * The patch is a JSON text, which is read under the options of the document's.
 *
 * 0: it is done. 1, 3 and 4 as of `jsonc_check`. 2, 7 and 8: the patch is not UTF-8, or no document of the
 * options, or has no value. 21: a name stands twice in an object of the patch, or in one of the document where
 * it is looked up. 28: a value would be nested deeper than texts are parsed.
 */
uint32_t jsonc_merge_patch(const void *text, size_t text_len, const void *patch, size_t patch_len, uint32_t options,
                           jsonc_text_t *out, jsonc_fault_t *fault);

/*
 * Hands out the path of the value that a JSON Pointer (RFC 6901) refers to, as an edit takes it.
 *
 * Each step is a place among elements or properties, from 0. The path of a member's value is that of the
 * member. In a list of edits each path is one of the text after the edits before it.
 *
 * 0: it is done. 1, 3 and 4 as of `jsonc_check`. 2 and 19: the pointer is not UTF-8, or none. 20: it refers to
 * nothing. 21: a name on its way stands twice in its object.
 */
uint32_t jsonc_path_of(const void *text, size_t text_len, const void *pointer, size_t pointer_len, uint32_t options,
                       jsonc_path_t *out, jsonc_fault_t *fault);

/*
 * Hands out the string that a JSON Pointer (RFC 6901) refers to, its escapes decoded and without quotes.
 *
 * 29: the value that it refers to is no string. Else as `jsonc_find`.
 */
uint32_t jsonc_find_string(const void *text, size_t text_len, const void *pointer, size_t pointer_len,
                           uint32_t options, jsonc_text_t *out, jsonc_fault_t *fault);

/*
 * Removes the element or property to which a JSON Pointer (RFC 6901) leads, with the comments that belong to
 * it, and hands out the text after it. Of equal names the first leads on.
 *
 * 0: it is done. 1, 3 and 4 as of `jsonc_check`. 2 and 19: the pointer is not UTF-8, or none. 20: it leads to
 * no element or property.
 */
uint32_t jsonc_remove_with_comments(const void *text, size_t text_len, const void *pointer, size_t pointer_len,
                                    uint32_t options, jsonc_text_t *out, jsonc_fault_t *fault);

/*
 * Tells every fault of a text with a change for it, and hands out the text with all changes made, which is a
 * document.
 *
 * 0: it is done. 1: an allocation failed. 3: the text is not UTF-8. The mends are in order, and there are none
 * where the text is a document within the nesting. The first one's fault is the one that `jsonc_check` tells.
 * What a mend writes stands in the mended text. The list is one block of `malloc`, as the text is.
 */
uint32_t jsonc_mend(const void *text, size_t text_len, uint32_t options, jsonc_text_t *out, jsonc_mends_t *mends);

/*
 * Hands out the text with the same literals, comments and punctuation in the same order, and with other blanks
 * between them.
 *
 * 0: it is done. 1, 3 and 4 as of `jsonc_check`. An array or object that is on one line stays on it, and any
 * other has each entry on a line of its own. The text can be longer than it was by its depth: a line begins
 * with one level of indent for each array and object that is open.
 */
uint32_t jsonc_format(const void *text, size_t text_len, uint32_t options, const jsonc_style_t *style,
                      jsonc_text_t *out, jsonc_fault_t *fault);

/*
 * Hands out the text as JSON (RFC 8259), with the same value, without comments and trailing commas.
 *
 * 0: it is done. 1, 3 and 4 as of `jsonc_check`. 30: the text has no value. 31: a number of it is `Infinity` or
 * `NaN`, perhaps with a sign, and the fault tells its place, line and column.
 */
uint32_t jsonc_to_json(const void *text, size_t text_len, uint32_t options, jsonc_text_t *out, jsonc_fault_t *fault);

/*
 * Writes the text that the document prints into a buffer, as `jsonc_print` hands it out.
 *
 * 17: the buffer is too small. `len` tells how long the text is then, too.
 */
uint32_t jsonc_print_into(const void *text, size_t text_len, uint32_t options, void *room, size_t room_len,
                          size_t *len, jsonc_fault_t *fault);

/*
 * Writes the text with a property set into a buffer, as `jsonc_set` hands it out.
 *
 * 17: the buffer is too small. `len` tells how long the text is then, too.
 */
uint32_t jsonc_set_into(const void *text, size_t text_len, const void *name, size_t name_len, const void *json,
                        size_t json_len, uint32_t options, void *room, size_t room_len, size_t *len,
                        jsonc_fault_t *fault);

/*
 * Writes the text with an element appended into a buffer, as `jsonc_append` hands it out.
 *
 * 17: the buffer is too small. `len` tells how long the text is then, too.
 */
uint32_t jsonc_append_into(const void *text, size_t text_len, const void *json, size_t json_len, uint32_t options,
                           void *room, size_t room_len, size_t *len, jsonc_fault_t *fault);

/*
 * Writes the text without a property into a buffer, as `jsonc_remove` hands it out.
 *
 * 17: the buffer is too small. `len` tells how long the text is then, too.
 */
uint32_t jsonc_remove_into(const void *text, size_t text_len, const void *name, size_t name_len, uint32_t options,
                           void *room, size_t room_len, size_t *len, jsonc_fault_t *fault);

/*
 * Writes the text with its properties sorted into a buffer, as `jsonc_sort` hands it out.
 *
 * 17: the buffer is too small. `len` tells how long the text is then, too.
 */
uint32_t jsonc_sort_into(const void *text, size_t text_len, uint32_t options, void *room, size_t room_len,
                         size_t *len, jsonc_fault_t *fault);

/*
 * Writes the value at a path, as it is written, into a buffer, as `jsonc_get` hands it out.
 *
 * 17: the buffer is too small. `len` tells how long the value is then, too.
 */
uint32_t jsonc_get_into(const void *text, size_t text_len, const void *path, size_t path_len, uint32_t options,
                        void *room, size_t room_len, size_t *len, jsonc_fault_t *fault);

/*
 * Writes the text with a value put at a path into a buffer, as `jsonc_put` hands it out.
 *
 * 17: the buffer is too small. `len` tells how long the text is then, too.
 */
uint32_t jsonc_put_into(const void *text, size_t text_len, const void *path, size_t path_len, const void *json,
                        size_t json_len, uint32_t options, void *room, size_t room_len, size_t *len,
                        jsonc_fault_t *fault);

/*
 * Writes the text without what stands at a path into a buffer, as `jsonc_drop` hands it out.
 *
 * 17: the buffer is too small. `len` tells how long the text is then, too.
 */
uint32_t jsonc_drop_into(const void *text, size_t text_len, const void *path, size_t path_len, uint32_t options,
                         void *room, size_t room_len, size_t *len, jsonc_fault_t *fault);

/*
 * Writes the text after edits into a buffer, as `jsonc_edit` hands it out.
 *
 * 17: the buffer is too small. `len` tells how long the text is then, too.
 */
uint32_t jsonc_edit_into(const void *text, size_t text_len, const jsonc_edit_t *edits, size_t edits_len,
                         uint32_t options, void *room, size_t room_len, size_t *len, jsonc_fault_t *fault);

/*
 * Writes the value that a JSON Pointer refers to, as it is written, into a buffer, as `jsonc_find` hands it
 * out.
 *
 * 17: the buffer is too small. `len` tells how long the value is then, too.
 */
uint32_t jsonc_find_into(const void *text, size_t text_len, const void *pointer, size_t pointer_len,
                         uint32_t options, void *room, size_t room_len, size_t *len, jsonc_fault_t *fault);

/*
 * Writes the text after the operations of a JSON Patch into a buffer, as `jsonc_apply_patch` hands it out.
 *
 * 17: the buffer is too small. `len` tells how long the text is then, too.
 */
uint32_t jsonc_apply_patch_into(const void *text, size_t text_len, const void *patch, size_t patch_len,
                                uint32_t options, void *room, size_t room_len, size_t *len, jsonc_fault_t *fault);

/*
 * Writes the text after a JSON Merge Patch into a buffer, as `jsonc_merge_patch` hands it out.
 *
 * 17: the buffer is too small. `len` tells how long the text is then, too.
 */
uint32_t jsonc_merge_patch_into(const void *text, size_t text_len, const void *patch, size_t patch_len,
                                uint32_t options, void *room, size_t room_len, size_t *len, jsonc_fault_t *fault);

/*
 * Writes the formatted text into a buffer, as `jsonc_format` hands it out.
 *
 * 17: the buffer is too small. `len` tells how long the text is then, too.
 */
uint32_t jsonc_format_into(const void *text, size_t text_len, uint32_t options, const jsonc_style_t *style,
                           void *room, size_t room_len, size_t *len, jsonc_fault_t *fault);

/* The bytes of a C string, as a text of edits. They are not copied. */
static inline jsonc_text_t jsonc_text_of(const char *text) {
  jsonc_text_t made = {(const uint8_t *)text, strlen(text)};
  return made;
}

/* What a status says, as `The text is no document`. */
static inline const char *jsonc_status_text(uint32_t status) {
  switch (status) {
  case JSONC_OK: return "It succeeded";
  case JSONC_OUT_OF_MEMORY: return "An allocation failed";
  case JSONC_WORD_NOT_UTF8: return "A name, comment, path, pointer or JSON text is not UTF-8";
  case JSONC_NOT_UTF8: return "The text is not UTF-8";
  case JSONC_TEXT: return "The text is no document";
  case JSONC_PATH: return "The path is no document";
  case JSONC_NOT_NAMES: return "The path is no array of strings";
  case JSONC_JSON: return "The JSON text of a value or patch is no document";
  case JSONC_NO_VALUE: return "The JSON text has no value";
  case JSONC_NOT_OBJECT: return "The document's value is no object";
  case JSONC_NOT_ARRAY: return "The document's value is no array";
  case JSONC_NO_SETTING: return "Nothing stands at the path";
  case JSONC_ON_THE_WAY: return "A value of another kind than an object stands on the path";
  case JSONC_NO_SUCH_PLACE: return "The path of an edit leads to nothing that it needs, or no comment has its number";
  case JSONC_MISSING_BRACKETS: return "An array or object lacks a bracket";
  case JSONC_MISSING_NAME: return "A property lacks its name or colon";
  case JSONC_NO_SUCH_EDIT: return "No edit has this kind";
  case JSONC_NO_ROOM: return "The caller's buffer is too small";
  case JSONC_OTHER: return "Anything else";
  case JSONC_POINTER: return "The pointer is no JSON Pointer";
  case JSONC_NO_SUCH_VALUE: return "A pointer leads to nothing";
  case JSONC_REPEATED_NAME: return "A name stands twice in an object where it is looked up, or in one of a merge patch";
  case JSONC_NOT_PATCH: return "The patch is no array, or an operation is none";
  case JSONC_INTO_ITSELF: return "A value was to be moved into itself";
  case JSONC_NOT_EQUAL: return "A value is not equal to the one that it was tested against";
  case JSONC_INVALID_COMMENT: return "The text of a comment that is to be inserted is not one comment and nothing else";
  case JSONC_LINE_CONTINUES: return "A comment that ends with its line is to be inserted, and something follows there on the line";
  case JSONC_NOT_AN_ENTRY: return "A comment is to be inserted at a node that is no entry";
  case JSONC_NESTED_TOO_DEEP: return "A value would be nested deeper in the document than texts are parsed";
  case JSONC_NOT_STRING: return "The value that the pointer refers to is no string";
  case JSONC_NO_ROOT: return "The text has no value";
  case JSONC_NON_FINITE: return "A number of the text is `Infinity` or `NaN`, which JSON does not have";
  default: return "No call answers this status";
  }
}

/* Replaces the value at the path. */
static inline jsonc_edit_t jsonc_edit_replace(jsonc_path_t path, jsonc_text_t json) {
  jsonc_text_t none = JSONC_NO_TEXT;
  jsonc_edit_t edit = {JSONC_EDIT_REPLACE, path, none, json, 0, false, false};
  return edit;
}

/* Removes the element or property at the path, or the document's value. */
static inline jsonc_edit_t jsonc_edit_remove(jsonc_path_t path) {
  jsonc_text_t none = JSONC_NO_TEXT;
  jsonc_edit_t edit = {JSONC_EDIT_REMOVE, path, none, none, 0, false, false};
  return edit;
}

/* Removes the comment of the number in `index`. */
static inline jsonc_edit_t jsonc_edit_remove_comment(size_t index) {
  jsonc_path_t whole = JSONC_NO_PATH;
  jsonc_text_t none = JSONC_NO_TEXT;
  jsonc_edit_t edit = {JSONC_EDIT_REMOVE_COMMENT, whole, none, none, index, false, false};
  return edit;
}

/* Sets the document's value. */
static inline jsonc_edit_t jsonc_edit_set_root(jsonc_text_t json) {
  jsonc_path_t whole = JSONC_NO_PATH;
  jsonc_text_t none = JSONC_NO_TEXT;
  jsonc_edit_t edit = {JSONC_EDIT_SET_ROOT, whole, none, json, 0, false, false};
  return edit;
}

/* Removes all that the document has. */
static inline jsonc_edit_t jsonc_edit_clear_root(void) {
  jsonc_path_t whole = JSONC_NO_PATH;
  jsonc_text_t none = JSONC_NO_TEXT;
  jsonc_edit_t edit = {JSONC_EDIT_CLEAR_ROOT, whole, none, none, 0, false, false};
  return edit;
}

/* Replaces the property at the path by one of a name and value. */
static inline jsonc_edit_t jsonc_edit_replace_property(jsonc_path_t path, jsonc_text_t name, jsonc_text_t json) {
  jsonc_edit_t edit = {JSONC_EDIT_REPLACE_PROPERTY, path, name, json, 0, false, false};
  return edit;
}

/* Sees that the document has an object, or an array if `is_array`. */
static inline jsonc_edit_t jsonc_edit_ensure_root(bool is_array, bool replaces) {
  jsonc_path_t whole = JSONC_NO_PATH;
  jsonc_text_t none = JSONC_NO_TEXT;
  jsonc_edit_t edit = {JSONC_EDIT_ENSURE_ROOT, whole, none, none, 0, is_array, replaces};
  return edit;
}

/* Sets the value of the property at the path. */
static inline jsonc_edit_t jsonc_edit_set_value(jsonc_path_t path, jsonc_text_t json) {
  jsonc_text_t none = JSONC_NO_TEXT;
  jsonc_edit_t edit = {JSONC_EDIT_SET_VALUE, path, none, json, 0, false, false};
  return edit;
}

/* Sees that the property at the path has an object, or an array if `is_array`. */
static inline jsonc_edit_t jsonc_edit_ensure_value(jsonc_path_t path, bool is_array) {
  jsonc_text_t none = JSONC_NO_TEXT;
  jsonc_edit_t edit = {JSONC_EDIT_ENSURE_VALUE, path, none, none, 0, is_array, false};
  return edit;
}

/* Sets the truth value at the path to `value`. */
static inline jsonc_edit_t jsonc_edit_set_boolean(jsonc_path_t path, bool value) {
  jsonc_text_t none = JSONC_NO_TEXT;
  jsonc_edit_t edit = {JSONC_EDIT_SET_BOOLEAN, path, none, none, 0, value, false};
  return edit;
}

/* Puts the array or object at the path on several lines. */
static inline jsonc_edit_t jsonc_edit_ensure_multiline(jsonc_path_t path) {
  jsonc_text_t none = JSONC_NO_TEXT;
  jsonc_edit_t edit = {JSONC_EDIT_ENSURE_MULTILINE, path, none, none, 0, false, false};
  return edit;
}

/* Inserts a value into the array at the path, at `index`. */
static inline jsonc_edit_t jsonc_edit_insert_element(jsonc_path_t path, size_t index, jsonc_text_t json) {
  jsonc_text_t none = JSONC_NO_TEXT;
  jsonc_edit_t edit = {JSONC_EDIT_INSERT_ELEMENT, path, none, json, index, false, false};
  return edit;
}

/* Appends a value to the array at the path. */
static inline jsonc_edit_t jsonc_edit_append_element(jsonc_path_t path, jsonc_text_t json) {
  jsonc_text_t none = JSONC_NO_TEXT;
  jsonc_edit_t edit = {JSONC_EDIT_APPEND_ELEMENT, path, none, json, 0, false, false};
  return edit;
}

/* Inserts a property into the object at the path, at `index`. */
static inline jsonc_edit_t jsonc_edit_insert_property(jsonc_path_t path, size_t index, jsonc_text_t name, jsonc_text_t json) {
  jsonc_edit_t edit = {JSONC_EDIT_INSERT_PROPERTY, path, name, json, index, false, false};
  return edit;
}

/* Appends a property to the object at the path. */
static inline jsonc_edit_t jsonc_edit_append_property(jsonc_path_t path, jsonc_text_t name, jsonc_text_t json) {
  jsonc_edit_t edit = {JSONC_EDIT_APPEND_PROPERTY, path, name, json, 0, false, false};
  return edit;
}

/* Sees that the object at the path has an object at the name, or an array if `is_array`. */
static inline jsonc_edit_t jsonc_edit_ensure_property(jsonc_path_t path, jsonc_text_t name, bool is_array, bool replaces) {
  jsonc_text_t none = JSONC_NO_TEXT;
  jsonc_edit_t edit = {JSONC_EDIT_ENSURE_PROPERTY, path, name, none, 0, is_array, replaces};
  return edit;
}

/* Sets trailing commas from the path down, or removes them if `never`. */
static inline jsonc_edit_t jsonc_edit_set_trailing_commas(jsonc_path_t path, bool never) {
  jsonc_text_t none = JSONC_NO_TEXT;
  jsonc_edit_t edit = {JSONC_EDIT_SET_TRAILING_COMMAS, path, none, none, 0, never, false};
  return edit;
}

/* Sorts the array or object at the path. */
static inline jsonc_edit_t jsonc_edit_sort(jsonc_path_t path, bool pins, bool by_groups) {
  jsonc_text_t none = JSONC_NO_TEXT;
  jsonc_edit_t edit = {JSONC_EDIT_SORT, path, none, none, 0, pins, by_groups};
  return edit;
}

/* Gives the property at the path another name. */
static inline jsonc_edit_t jsonc_edit_rename_property(jsonc_path_t path, jsonc_text_t name) {
  jsonc_text_t none = JSONC_NO_TEXT;
  jsonc_edit_t edit = {JSONC_EDIT_RENAME_PROPERTY, path, name, none, 0, false, false};
  return edit;
}

/* Inserts the comment in `comment` above the element or property at the path, or after it if `is_after`. */
static inline jsonc_edit_t jsonc_edit_insert_comment(jsonc_path_t path, bool is_after, jsonc_text_t comment) {
  jsonc_text_t none = JSONC_NO_TEXT;
  jsonc_edit_t edit = {JSONC_EDIT_INSERT_COMMENT, path, comment, none, 0, is_after, false};
  return edit;
}

/* Frees a text that was handed out. */
static inline void jsonc_free(jsonc_text_t text) {
  if (text.len) free((void *)text.at);
}

/* Frees a path that was handed out. */
static inline void jsonc_free_path(jsonc_path_t path) {
  if (path.len) free((void *)path.at);
}

/* Frees mends that were handed out. */
static inline void jsonc_free_mends(jsonc_mends_t mends) {
  if (mends.len) free((void *)mends.at);
}

#ifdef __cplusplus
}
#endif
#endif
