/* Each call from C: what it answers, threads that call at once, and each allocation refused in turn.
 * The last needs -Wl,--wrap=malloc,--wrap=realloc,--wrap=free, and is left out where REFUSE is not defined. */
#include "jsonc.h"
#include <pthread.h>
#include <stdio.h>
#include <string.h>

#define B(s) (s), strlen(s)
#define T(s) {(const uint8_t *)(s), sizeof(s) - 1}

static int checks, wrong;

static void is(int holds, const char *what) {
  checks++;
  if (!holds) {
    wrong++;
    printf("wrong: %s\n", what);
  }
}

static int made(uint32_t status, jsonc_text_t out, const char *want) {
  int same = status == JSONC_OK && out.len == strlen(want) && !memcmp(out.at, want, out.len);
  jsonc_free(out);
  return same;
}

static void faults(void) {
  jsonc_fault_t fault = {0};
  jsonc_text_t out = JSONC_NO_TEXT;
  is(jsonc_check(B("[1,\n @]"), JSONC_ALL, &fault) == JSONC_TEXT, "a refused text is told");
  is(fault.kind == JSONC_KIND_UNEXPECTED_TOKEN && fault.start == 5 && fault.end == 6, "its kind and range");
  is(fault.line == 2 && fault.column == 2, "its line and column");
  const char *text = "Unexpected token on line 2 column 2";
  is(fault.text_len == strlen(text) && !memcmp(fault.text, text, fault.text_len), "its printed text");
  is(jsonc_check(B("[1]"), JSONC_ALL, &fault) == JSONC_OK && fault.kind == 0 && fault.text_len == 0, "no fault");
  is(jsonc_check(B("\xff"), JSONC_ALL, &fault) == JSONC_NOT_UTF8, "bytes that are no UTF-8");
  is(jsonc_check(B("// c"), JSONC_JSON_ALONE, &fault) == JSONC_TEXT, "a comment that is not allowed");
  is(jsonc_check(B("// c"), JSONC_WITH_COMMENTS, &fault) == JSONC_OK, "a comment that is");
  is(jsonc_set(B("{}"), B("\xff"), B("1"), JSONC_ALL, &out, &fault) == JSONC_WORD_NOT_UTF8, "a name");
  is(jsonc_set(B("{}"), B("a"), B("dark"), JSONC_ALL, &out, &fault) == JSONC_JSON && out.len == 0, "a JSON text");
  is(fault.kind == JSONC_KIND_UNEXPECTED_WORD && fault.column == 1, "what is wrong with it");
  is(jsonc_set(B("[]"), B("a"), B("1"), JSONC_ALL, &out, &fault) == JSONC_NOT_OBJECT, "no object");
  is(jsonc_append(B("{}"), B("1"), JSONC_ALL, &out, &fault) == JSONC_NOT_ARRAY, "no array");
  is(jsonc_append(B("[]"), B(" "), JSONC_ALL, &out, &fault) == JSONC_NO_VALUE, "no value");
  is(jsonc_get(B("{}"), B("[\"a\"]"), JSONC_ALL, &out, &fault) == JSONC_NO_SETTING, "no setting");
  is(jsonc_get(B("{}"), B("[1]"), JSONC_ALL, &out, &fault) == JSONC_NOT_NAMES, "no names");
  is(jsonc_get(B("{}"), B("["), JSONC_ALL, &out, &fault) == JSONC_PATH && fault.kind != 0, "no path");
  is(jsonc_put(B("[]"), B("[\"a\"]"), B("1"), JSONC_ALL, &out, &fault) == JSONC_ON_THE_WAY, "on the way");
  is(out.len == 0, "nothing is handed out");
}

/* Whether the fault has this printed text. */
static int told(const jsonc_fault_t *fault, const char *want) {
  return fault->text_len == strlen(want) && !memcmp(fault->text, want, fault->text_len);
}

/* RFC 6901, 3 and 4; RFC 6902, 3 to 5 and A.9, A.12 and A.13; RFC 7396. */
static void patch_faults(void) {
  const char *twice = "{\"a\": 1, \"a\": 2}", *bar = "{\"foo\": \"bar\"}";
  jsonc_fault_t fault = {0};
  jsonc_text_t out = JSONC_NO_TEXT;
  is(jsonc_find(B(bar), B("foo"), JSONC_ALL, &out, &fault) == JSONC_POINTER, "a pointer without a slash");
  is(fault.kind == JSONC_KIND_POINTER_NO_LEADING_SLASH && fault.start == 0, "its kind and place");
  is(jsonc_find(B(bar), B("/foo~"), JSONC_ALL, &out, &fault) == JSONC_POINTER, "a pointer with a loose tilde");
  is(fault.kind == JSONC_KIND_POINTER_INVALID_ESCAPE && fault.start == 4 && fault.end == 4, "its kind and place");
  is(told(&fault, "Neither 0 nor 1 after the tilde at byte 4"), "its printed text");
  is(jsonc_find(B(bar), B("/\xff"), JSONC_ALL, &out, &fault) == JSONC_WORD_NOT_UTF8 && fault.kind == 0, "no UTF-8");
  is(jsonc_find(B(bar), B("/bar"), JSONC_ALL, &out, &fault) == JSONC_NO_SUCH_VALUE && fault.text_len == 0, "no value");
  is(jsonc_find(B(twice), B("/a"), JSONC_ALL, &out, &fault) == JSONC_REPEATED_NAME, "a name that stands twice");
  is(told(&fault, "Name stands twice: a"), "which name");
  is(jsonc_find(B("[1,]"), B("/0"), JSONC_JSON_ALONE, &out, &fault) == JSONC_TEXT && fault.kind != 0, "a refused text");
  const char *p = "[{\"op\": \"test\", \"path\": \"/foo\", \"value\": 1}]";
  is(jsonc_apply_patch(B(bar), B(p), JSONC_ALL, &out, &fault) == JSONC_NOT_EQUAL && fault.made == 0, "another value");
  is(told(&fault, "Operation 0: Value is another"), "its printed text");
  p = "[{\"op\": \"remove\", \"path\": \"/foo\"}, {\"op\": \"add\", \"path\": \"/baz/bat\", \"value\": \"qux\"}]";
  is(jsonc_apply_patch(B(bar), B(p), JSONC_ALL, &out, &fault) == JSONC_NO_SUCH_VALUE && fault.made == 1, "no target");
  p = "[{\"op\": \"move\", \"from\": \"/foo\", \"path\": \"/foo/a\"}]";
  is(jsonc_apply_patch(B(bar), B(p), JSONC_ALL, &out, &fault) == JSONC_INTO_ITSELF, "a move into itself");
  p = "[{\"op\": \"remove\", \"path\": \"/a\"}]";
  is(jsonc_apply_patch(B(twice), B(p), JSONC_ALL, &out, &fault) == JSONC_REPEATED_NAME, "a name that stands twice");
  p = "[{\"op\": \"add\", \"path\": \"/baz\", \"value\": \"qux\", \"op\": \"remove\"}]";
  is(jsonc_apply_patch(B(bar), B(p), JSONC_ALL, &out, &fault) == JSONC_NOT_PATCH && fault.made == 0, "no operation");
  is(fault.kind == JSONC_KIND_OPERATION_REPEATED_NAME, "what is wrong with it");
  is(jsonc_apply_patch(B(bar), B("{}"), JSONC_ALL, &out, &fault) == JSONC_NOT_PATCH, "no array");
  is(fault.kind == JSONC_KIND_PATCH_NOT_AN_ARRAY, "that it is none");
  is(jsonc_apply_patch(B(bar), B("[/**/]"), JSONC_JSON_ALONE, &out, &fault) == JSONC_JSON, "a patch of other options");
  is(fault.kind == JSONC_KIND_COMMENTS_NOT_ALLOWED && fault.made == 0, "which it needs");
  is(jsonc_merge_patch(B(bar), B(" "), JSONC_ALL, &out, &fault) == JSONC_NO_VALUE && fault.kind == 0, "no merge patch");
  is(jsonc_merge_patch(B(bar), B(twice), JSONC_ALL, &out, &fault) == JSONC_REPEATED_NAME, "a name twice in a patch");
  is(jsonc_merge_patch(B(twice), B("{\"a\": 3}"), JSONC_ALL, &out, &fault) == JSONC_REPEATED_NAME, "and in a text");
  is(told(&fault, "Name stands twice: a") && out.len == 0, "nothing is handed out");
}

static const char *const text = "{\n  // one\n  \"b\": 1, // first\n  \"a\": {\"c\": [1, 2]}\n}\n";

static void texts(void) {
  jsonc_fault_t fault;
  jsonc_text_t out = JSONC_NO_TEXT;
  uint32_t s = jsonc_print(B(text), JSONC_ALL, &out, &fault);
  is(made(s, out, text), "print");
  s = jsonc_print(B(""), JSONC_ALL, &out, &fault);
  is(made(s, out, ""), "print of an empty text");
  s = jsonc_set(B("{\"a\": 1 /* c */}"), B("a"), B("[true]"), JSONC_ALL, &out, &fault);
  is(made(s, out, "{\"a\": [true] /* c */}"), "set");
  s = jsonc_append(B("[1, 2]"), B("9"), JSONC_ALL, &out, &fault);
  is(made(s, out, "[1, 2, 9]"), "append");
  s = jsonc_remove(B("{ \"a\": 1, \"b\": 2 }"), B("b"), JSONC_ALL, &out, &fault);
  is(made(s, out, "{ \"a\": 1 }"), "remove");
  s = jsonc_sort(B("{\"b\":1,\"a\":2}"), JSONC_ALL, &out, &fault);
  is(made(s, out, "{\"a\":2,\"b\":1}"), "sort");
  s = jsonc_get(B(text), B("[\"a\", \"c\"]"), JSONC_ALL, &out, &fault);
  is(made(s, out, "[1, 2]"), "get");
  s = jsonc_put(B("{\"a\": {\"b\": 1}}"), B("[\"a\", \"b\"]"), B("2"), JSONC_ALL, &out, &fault);
  is(made(s, out, "{\"a\": {\"b\": 2}}"), "put");
  s = jsonc_drop(B("{ \"a\": 1, \"b\": 2 }"), B("[\"b\"]"), JSONC_ALL, &out, &fault);
  is(made(s, out, "{ \"a\": 1 }"), "drop");
  s = jsonc_find(B(text), B("/a/c/1"), JSONC_ALL, &out, &fault);
  is(made(s, out, "2"), "find");
  s = jsonc_apply_patch(B("{ \"foo\": [\"bar\", \"qux\", \"baz\"] } // c"), B("[{\"op\": \"remove\", \"path\": \"/foo/1\"}]"), JSONC_ALL, &out, &fault);
  is(made(s, out, "{ \"foo\": [\"bar\", \"baz\"] } // c"), "a patch (RFC 6902, A.4)");
  s = jsonc_merge_patch(B("{\"a\":[\"b\"]} // c"), B("{\"a\":\"c\"}"), JSONC_ALL, &out, &fault);
  is(made(s, out, "{\"a\":\"c\"} // c"), "a merge patch (RFC 7396, A)");
}

/* What a pointer leads to (RFC 6901, 4; RFC 8259, 7), and texts as JSON. What is removed by hand, from docs/EDITS.md. */
static void pointers(void) {
  const char *twice = "{\"a\": 1, \"a\": 2}";
  jsonc_fault_t fault = {0};
  jsonc_text_t out = JSONC_NO_TEXT;
  jsonc_path_t path = JSONC_NO_PATH;
  uint32_t s = jsonc_path_of(B(text), B("/a/c/1"), JSONC_ALL, &path, &fault);
  is(s == JSONC_OK && path.len == 3 && path.at[0] == 1 && path.at[1] == 0 && path.at[2] == 1, "the path of a pointer");
  jsonc_edit_t edit = jsonc_edit_replace(path, jsonc_text_of("9"));
  s = jsonc_edit(B(text), &edit, 1, JSONC_ALL, &out, &fault);
  is(made(s, out, "{\n  // one\n  \"b\": 1, // first\n  \"a\": {\"c\": [1, 9]}\n}\n"), "an edit takes it");
  jsonc_free_path(path);
  s = jsonc_path_of(B("[1]"), B(""), JSONC_ALL, &path, &fault);
  is(s == JSONC_OK && path.len == 0 && path.at, "the path of the whole");
  s = jsonc_path_of(B("[1]"), B("/1"), JSONC_ALL, &path, &fault);
  is(s == JSONC_NO_SUCH_VALUE && path.len == 0, "a pointer to nothing has no path");
  is(jsonc_path_of(B(twice), B("/a"), JSONC_ALL, &path, &fault) == JSONC_REPEATED_NAME && fault.text_len, "a name that stands twice");
  s = jsonc_find_string(B("{\"a\": \"x\\n\\u00e9\"}"), B("/a"), JSONC_ALL, &out, &fault);
  is(made(s, out, "x\n\xc3\xa9"), "a string, its escapes decoded");
  is(jsonc_find_string(B(text), B("/b"), JSONC_ALL, &out, &fault) == JSONC_NOT_STRING && out.len == 0, "a value that is no string");
  is(jsonc_find_string(B(text), B("/z"), JSONC_ALL, &out, &fault) == JSONC_NO_SUCH_VALUE, "no value");
  is(jsonc_find_string(B(text), B("z"), JSONC_ALL, &out, &fault) == JSONC_POINTER && fault.kind, "no pointer");
  s = jsonc_remove_with_comments(B(text), B("/b"), JSONC_ALL, &out, &fault);
  is(made(s, out, "{\n  \"a\": {\"c\": [1, 2]}\n}\n"), "remove with comments");
  is(jsonc_remove_with_comments(B(text), B("/z"), JSONC_ALL, &out, &fault) == JSONC_NO_SUCH_VALUE && out.len == 0, "nothing to be removed");
  is(jsonc_remove_with_comments(B("[1,"), B("/0"), JSONC_ALL, &out, &fault) == JSONC_TEXT && fault.kind, "from no document");
  s = jsonc_to_json(B(text), JSONC_ALL, &out, &fault);
  is(made(s, out, "{\n  \n  \"b\": 1, \n  \"a\": {\"c\": [1, 2]}\n}\n"), "a text as JSON");
  s = jsonc_to_json(B("[0x1F, 'a',]"), JSONC_ALL, &out, &fault);
  is(made(s, out, "[31, \"a\"]"), "numbers and strings as JSON has them");
  s = jsonc_to_json(B("[1,\n -Infinity]"), JSONC_ALL, &out, &fault);
  is(s == JSONC_NON_FINITE && out.len == 0 && fault.start == 5 && fault.line == 2 && fault.column == 2, "a number that JSON does not have");
  is(jsonc_to_json(B(" // c"), JSONC_ALL, &out, &fault) == JSONC_NO_ROOT && fault.line == 0, "a text without a value");
  is(jsonc_to_json(B("[1,]"), JSONC_JSON_ALONE, &out, &fault) == JSONC_TEXT && fault.kind, "a text of other options");
}

/* Rows of docs/FAULTS.md. */
static void mends(void) {
  const char *broken = "{\n  \"a\": 1 \"b\": [1, 2\n}";
  jsonc_text_t out = JSONC_NO_TEXT;
  jsonc_mends_t list = JSONC_NO_MENDS;
  uint32_t s = jsonc_mend(B(broken), JSONC_JSON_ALONE, &out, &list);
  is(list.len == 2, "every fault");
  const jsonc_mend_t *comma = list.at, *bracket = list.at + 1;
  is(comma->kind == JSONC_KIND_EXPECTED_COMMA && comma->line == 2 && comma->column == 9, "the first fault");
  is(comma->fault_start == 10 && comma->fault_end == 10 && comma->start == 10 && comma->end == 10, "where it is");
  is(comma->written_end == comma->written_start + 1 && out.at[comma->written_start] == ',', "what mends it");
  is(bracket->kind == JSONC_KIND_UNEXPECTED_CLOSE_BRACE && bracket->line == 3 && bracket->start == 21, "the second");
  is(out.at[bracket->written_start] == ']', "what mends that");
  is(made(s, out, "{\n  \"a\": 1, \"b\": [1, 2]\n}"), "the mended text");
  jsonc_free_mends(list);
  s = jsonc_mend(B("[1] // c"), JSONC_ALL, &out, &list);
  is(list.len == 0, "a document has no faults");
  is(made(s, out, "[1] // c"), "and stays");
  s = jsonc_mend(B("\xff"), JSONC_ALL, &out, &list);
  is(s == JSONC_NOT_UTF8 && out.len == 0 && list.len == 0, "bytes that are no UTF-8, to be mended");
}

/* By hand, from the rules in docs/COMMAND.md. */
static void formats(void) {
  const char *broken = "{ // head\n\n\"a\":[1,{}] } // end";
  jsonc_style_t style = {0};
  jsonc_fault_t fault = {0};
  jsonc_text_t out = JSONC_NO_TEXT;
  uint32_t s = jsonc_format(B("{\"a\":1,\"b\":[1,2]}"), JSONC_ALL, &style, &out, &fault);
  is(made(s, out, "{ \"a\": 1, \"b\": [1, 2] }\n"), "what is on one line stays on it");
  s = jsonc_format(B("{\r\n\t\"a\":1,\"b\":2}"), JSONC_ALL, &style, &out, &fault);
  is(made(s, out, "{\r\n\t\"a\": 1,\r\n\t\"b\": 2\r\n}\r\n"), "the text tells its line end and its indent");
  style = (jsonc_style_t){JSONC_LINE_END_CR, JSONC_LEVEL_SPACES, 9, true};
  s = jsonc_format(B(broken), JSONC_ALL, &style, &out, &fault);
  is(made(s, out, "{ // head\r\r        \"a\": [\r                1,\r                {}\r        ]\r} // end\r"), "a style");
  style = (jsonc_style_t){JSONC_LINE_END_CR_LF, JSONC_LEVEL_TAB, 0, false};
  s = jsonc_format(B("[\n1]"), JSONC_ALL, &style, &out, &fault);
  is(made(s, out, "[\r\n\t1\r\n]\r\n"), "a tab");
  style = (jsonc_style_t){JSONC_LINE_END_LF, 99, 3, false};
  s = jsonc_format(B("[\r\n 1]"), JSONC_ALL, &style, &out, &fault);
  is(made(s, out, "[\n 1\n]\n"), "another number than that of a level");
  s = jsonc_format(B("[1,"), JSONC_ALL, &style, &out, &fault);
  is(s == JSONC_TEXT && fault.kind == JSONC_KIND_UNTERMINATED_ARRAY && out.len == 0, "a text with a fault is not formatted");
  s = jsonc_format(B("\xff"), JSONC_ALL, &style, &out, &fault);
  is(s == JSONC_NOT_UTF8 && out.len == 0, "bytes that are no UTF-8, to be formatted");
}

/* The mended text alone. */
static uint32_t mended(jsonc_text_t *out) {
  jsonc_mends_t list = JSONC_NO_MENDS;
  uint32_t s = jsonc_mend(B("{\"a\": tru \"b\": [1"), JSONC_JSON_ALONE, out, &list);
  is((s == JSONC_OK) == (list.len != 0), "mends are handed out with a text");
  jsonc_free_mends(list);
  return s;
}

/* Whether a pointer has a path, which is freed. */
static uint32_t pathed(jsonc_fault_t *fault) {
  jsonc_path_t path = JSONC_NO_PATH;
  uint32_t s = jsonc_path_of(B(text), B("/a/c/1"), JSONC_ALL, &path, fault);
  is((s == JSONC_OK) == (path.len == 3), "a path is handed out with success alone");
  jsonc_free_path(path);
  return s;
}

static void lists(void) {
  static const size_t nowhere[1], first[1] = {0};
  jsonc_edit_t edits[] = {
      {JSONC_EDIT_REMOVE, {first, 1}, JSONC_NO_TEXT, JSONC_NO_TEXT, 0, false, false},
      {JSONC_EDIT_APPEND_ELEMENT, {nowhere, 0}, JSONC_NO_TEXT, T("true"), 0, false, false},
      {JSONC_EDIT_SORT, {nowhere, 0}, JSONC_NO_TEXT, JSONC_NO_TEXT, 0, false, false},
      {99, {nowhere, 0}, JSONC_NO_TEXT, JSONC_NO_TEXT, 0, false, false},
  };
  jsonc_fault_t fault = {0};
  jsonc_text_t out = JSONC_NO_TEXT;
  uint32_t s = jsonc_edit(B("[\n  3,\n  2\n]"), edits, 3, JSONC_ALL, &out, &fault);
  is(made(s, out, "[\n  2,\n  true\n]"), "a list of edits");
  s = jsonc_edit(B("1"), edits, 3, JSONC_ALL, &out, &fault);
  is(s == JSONC_NO_SUCH_PLACE && fault.made == 0 && out.len == 0, "an edit without a place");
  s = jsonc_edit(B("[3]"), edits, 4, JSONC_ALL, &out, &fault);
  is(s == JSONC_NO_SUCH_EDIT && fault.made == 3 && out.len == 0, "an edit of no kind");
  s = jsonc_edit(B("[3"), edits, 3, JSONC_ALL, &out, &fault);
  is(s == JSONC_TEXT && fault.made == 0 && out.len == 0, "edits of a text that is no document");
  fault.made = 3;
  s = jsonc_edit(B("\xff"), edits, 3, JSONC_ALL, &out, &fault);
  is(s == JSONC_NOT_UTF8 && fault.made == 0 && out.len == 0, "edits of bytes that are no UTF-8");
}

/* Whether an edit has these fields, of its path the length, and of its texts what they are. */
static int has(jsonc_edit_t edit, uint32_t kind, size_t steps, const char *name, const char *json, size_t index, bool first, bool second) {
  return edit.kind == kind && edit.path.len == steps && edit.path.at && edit.name.len == strlen(name) && edit.name.at &&
         !memcmp(edit.name.at, name, edit.name.len) && edit.json.len == strlen(json) && edit.json.at && !memcmp(edit.json.at, json, edit.json.len) &&
         edit.index == index && edit.first == first && edit.second == second;
}

/* Each edit as it is made, by the fields that docs/EDITS.md and the header have for its kind. */
static void makers(void) {
  static const size_t steps[2] = {1, 0};
  const jsonc_path_t at = {steps, 2};
  const jsonc_text_t n = jsonc_text_of("n"), v = jsonc_text_of("[1]"), c = jsonc_text_of("// c");
  is(has(jsonc_edit_replace(at, v), JSONC_EDIT_REPLACE, 2, "", "[1]", 0, false, false), "replace");
  is(has(jsonc_edit_remove(at), JSONC_EDIT_REMOVE, 2, "", "", 0, false, false), "remove");
  is(has(jsonc_edit_remove_comment(3), JSONC_EDIT_REMOVE_COMMENT, 0, "", "", 3, false, false), "remove a comment");
  is(has(jsonc_edit_set_root(v), JSONC_EDIT_SET_ROOT, 0, "", "[1]", 0, false, false), "set the root");
  is(has(jsonc_edit_clear_root(), JSONC_EDIT_CLEAR_ROOT, 0, "", "", 0, false, false), "clear the root");
  is(has(jsonc_edit_replace_property(at, n, v), JSONC_EDIT_REPLACE_PROPERTY, 2, "n", "[1]", 0, false, false), "replace a property");
  is(has(jsonc_edit_ensure_root(true, false), JSONC_EDIT_ENSURE_ROOT, 0, "", "", 0, true, false), "ensure an array");
  is(has(jsonc_edit_ensure_root(false, true), JSONC_EDIT_ENSURE_ROOT, 0, "", "", 0, false, true), "ensure an object, whatever is there");
  is(has(jsonc_edit_set_value(at, v), JSONC_EDIT_SET_VALUE, 2, "", "[1]", 0, false, false), "set a value");
  is(has(jsonc_edit_ensure_value(at, true), JSONC_EDIT_ENSURE_VALUE, 2, "", "", 0, true, false), "ensure a value");
  is(has(jsonc_edit_set_boolean(at, true), JSONC_EDIT_SET_BOOLEAN, 2, "", "", 0, true, false), "set a truth value");
  is(has(jsonc_edit_ensure_multiline(at), JSONC_EDIT_ENSURE_MULTILINE, 2, "", "", 0, false, false), "ensure several lines");
  is(has(jsonc_edit_insert_element(at, 4, v), JSONC_EDIT_INSERT_ELEMENT, 2, "", "[1]", 4, false, false), "insert an element");
  is(has(jsonc_edit_append_element(at, v), JSONC_EDIT_APPEND_ELEMENT, 2, "", "[1]", 0, false, false), "append an element");
  is(has(jsonc_edit_insert_property(at, 4, n, v), JSONC_EDIT_INSERT_PROPERTY, 2, "n", "[1]", 4, false, false), "insert a property");
  is(has(jsonc_edit_append_property(at, n, v), JSONC_EDIT_APPEND_PROPERTY, 2, "n", "[1]", 0, false, false), "append a property");
  is(has(jsonc_edit_ensure_property(at, n, true, false), JSONC_EDIT_ENSURE_PROPERTY, 2, "n", "", 0, true, false), "ensure a property");
  is(has(jsonc_edit_ensure_property(at, n, false, true), JSONC_EDIT_ENSURE_PROPERTY, 2, "n", "", 0, false, true), "ensure one, whatever is there");
  is(has(jsonc_edit_set_trailing_commas(at, true), JSONC_EDIT_SET_TRAILING_COMMAS, 2, "", "", 0, true, false), "no trailing commas");
  is(has(jsonc_edit_sort(at, true, false), JSONC_EDIT_SORT, 2, "", "", 0, true, false), "sort, and pin comments");
  is(has(jsonc_edit_sort(at, false, true), JSONC_EDIT_SORT, 2, "", "", 0, false, true), "sort within groups");
  is(has(jsonc_edit_rename_property(at, n), JSONC_EDIT_RENAME_PROPERTY, 2, "n", "", 0, false, false), "rename a property");
  is(has(jsonc_edit_insert_comment(at, true, c), JSONC_EDIT_INSERT_COMMENT, 2, "// c", "", 0, true, false), "insert a comment");
  is(!strcmp(jsonc_status_text(JSONC_TEXT), "The text is no document"), "the text of a status");
  is(!strcmp(jsonc_status_text(99), "No call answers this status"), "the text of another number");
}

/* By hand: above on a line of its own with the entry's indent, after it one space behind its comma. */
static void comments(void) {
  static const size_t first[1] = {0}, third[1] = {2};
  jsonc_edit_t edits[] = {
      {JSONC_EDIT_INSERT_COMMENT, {first, 1}, T("// above"), JSONC_NO_TEXT, 0, false, false},
      {JSONC_EDIT_INSERT_COMMENT, {first, 1}, T("/* after */"), JSONC_NO_TEXT, 0, true, false},
      {JSONC_EDIT_INSERT_COMMENT, {first, 1}, T("// after"), JSONC_NO_TEXT, 0, true, false},
      {JSONC_EDIT_INSERT_COMMENT, {first, 1}, T("/* c */ "), JSONC_NO_TEXT, 0, true, false},
      {JSONC_EDIT_INSERT_COMMENT, {third, 1}, T("// c"), JSONC_NO_TEXT, 0, false, false},
      {JSONC_EDIT_INSERT_COMMENT, {first, 1}, T("// \xff"), JSONC_NO_TEXT, 0, false, false},
  };
  jsonc_fault_t fault = {0};
  jsonc_text_t out = JSONC_NO_TEXT;
  uint32_t s = jsonc_edit(B("{\n  \"a\": 1, \"b\": 2\n}\n"), edits, 2, JSONC_WITH_COMMENTS, &out, &fault);
  is(made(s, out, "{\n  // above\n  \"a\": 1, /* after */ \"b\": 2\n}\n"), "comments above and after a property");
  s = jsonc_edit(B("[\n\t1,\n\t2\n]"), edits + 2, 1, JSONC_WITH_COMMENTS, &out, &fault);
  is(made(s, out, "[\n\t1, // after\n\t2\n]"), "a line comment after an element");
  s = jsonc_edit(B("[1, 2]"), edits + 1, 2, JSONC_WITH_COMMENTS, &out, &fault);
  is(s == JSONC_LINE_CONTINUES && fault.made == 1 && out.len == 0, "a line comment where the line continues");
  s = jsonc_edit(B("[1, 2]"), edits + 3, 1, JSONC_WITH_COMMENTS, &out, &fault);
  is(s == JSONC_INVALID_COMMENT && fault.made == 0 && out.len == 0, "a text that is not one comment");
  s = jsonc_edit(B("[1, 2]"), edits + 4, 1, JSONC_WITH_COMMENTS, &out, &fault);
  is(s == JSONC_NO_SUCH_PLACE && fault.made == 0 && out.len == 0, "a comment without a place");
  s = jsonc_edit(B("[1, 2]"), edits + 4, 2, JSONC_WITH_COMMENTS, &out, &fault);
  is(s == JSONC_WORD_NOT_UTF8 && fault.made == 1 && out.len == 0, "a comment that is not UTF-8");
}

static const size_t whole_document[1], first_entry[1] = {0}, nested_entry[2] = {1, 0};
static const jsonc_edit_t edits_made[] = {
    {JSONC_EDIT_APPEND_PROPERTY, {whole_document, 0}, T("z"), T("{\"x\": [1, \"two\"]}"), 0, false, false},
    {JSONC_EDIT_SORT, {whole_document, 0}, JSONC_NO_TEXT, JSONC_NO_TEXT, 0, false, false},
    {JSONC_EDIT_INSERT_COMMENT, {first_entry, 1}, T("// above"), JSONC_NO_TEXT, 0, false, false},
    {JSONC_EDIT_INSERT_COMMENT, {first_entry, 1}, T("/* after */"), JSONC_NO_TEXT, 0, true, false},
};
static const jsonc_edit_t edits_refused[] = {
    {JSONC_EDIT_INSERT_COMMENT, {nested_entry, 2}, T("// c"), JSONC_NO_TEXT, 0, true, false},
    {JSONC_EDIT_INSERT_COMMENT, {nested_entry, 2}, T("c"), JSONC_NO_TEXT, 0, false, false},
};

#define PATCH "[{\"op\": \"copy\", \"from\": \"/a\", \"path\": \"/d\"}, {\"op\": \"move\", \"from\": \"/b\", \"path\": \"/a/c/-\"}]"
#define MERGE "{\"b\": null, \"a\": {\"c\": {\"x\": null, \"y\": [1]}}, \"z\": 1}"

/* The greatest number of a call, and of one into a buffer. */
enum { LAST_CALL = 27, LAST_INTO = 13 };

/* Each array and object on several lines, with tabs. */
static const jsonc_style_t expanded = {JSONC_LINE_END_LF, JSONC_LEVEL_TAB, 0, true};

/* One of the calls, by its number. */
static uint32_t call(int which, jsonc_text_t *out, jsonc_fault_t *fault) {
  switch (which) {
  case 0: return jsonc_check(B(text), JSONC_ALL, fault);
  case 1: return jsonc_print(B(text), JSONC_ALL, out, fault);
  case 2: return jsonc_set(B(text), B("z"), B("{\"x\": [1]}"), JSONC_ALL, out, fault);
  case 3: return jsonc_append(B(" "), B("[1, \"two\"]"), JSONC_ALL, out, fault);
  case 4: return jsonc_remove(B(text), B("a"), JSONC_ALL, out, fault);
  case 5: return jsonc_sort(B(text), JSONC_ALL, out, fault);
  case 6: return jsonc_get(B(text), B("[\"a\", \"c\"]"), JSONC_ALL, out, fault);
  case 7: return jsonc_put(B(text), B("[\"x\", \"y\"]"), B("1"), JSONC_ALL, out, fault);
  case 8: return jsonc_drop(B(text), B("[\"a\", \"c\"]"), JSONC_ALL, out, fault);
  case 9: return jsonc_edit(B(text), edits_made, 4, JSONC_ALL, out, fault);
  case 10: return jsonc_find(B(text), B("/a/c"), JSONC_ALL, out, fault);
  case 11: return jsonc_apply_patch(B(text), B(PATCH), JSONC_ALL, out, fault);
  case 12: return jsonc_merge_patch(B(text), B(MERGE), JSONC_ALL, out, fault);
  case 13: return jsonc_format(B(text), JSONC_ALL, &expanded, out, fault);
  case 14: return jsonc_find(B(text), B("/~"), JSONC_ALL, out, fault);
  case 15: return jsonc_apply_patch(B(text), B("[{\"op\": \"remove\"}]"), JSONC_ALL, out, fault);
  case 16: return jsonc_apply_patch(B(text), B("[{\"op\": \"remove\", \"path\": \"/e\"}]"), JSONC_ALL, out, fault);
  case 17: return jsonc_merge_patch(B(text), B("[{\"a\": 1, \"a\": 2}]"), JSONC_ALL, out, fault);
  case 18: return jsonc_edit(B(text), edits_refused, 1, JSONC_ALL, out, fault);
  case 19: return jsonc_edit(B(text), edits_refused + 1, 1, JSONC_ALL, out, fault);
  case 20: return mended(out);
  case 21: return jsonc_find_string(B("{\"\\u0061\": \"\\n\"}"), B("/a"), JSONC_ALL, out, fault);
  case 22: return jsonc_find_string(B(text), B("/a"), JSONC_ALL, out, fault);
  case 23: return jsonc_remove_with_comments(B(text), B("/b"), JSONC_ALL, out, fault);
  case 24: return jsonc_to_json(B("{a: '\\x41', /* c */ b: 0x1F,}"), JSONC_ALL, out, fault);
  case 25: return jsonc_to_json(B("[NaN]"), JSONC_ALL, out, fault);
  case 26: return pathed(fault);
  default: return jsonc_check(B("[1,"), JSONC_ALL, fault);
  }
}

/* The same into a buffer. */
static uint32_t call_into(int which, char *room, size_t size, size_t *len, jsonc_fault_t *fault) {
  switch (which) {
  case 1: return jsonc_print_into(B(text), JSONC_ALL, room, size, len, fault);
  case 2: return jsonc_set_into(B(text), B("z"), B("{\"x\": [1]}"), JSONC_ALL, room, size, len, fault);
  case 3: return jsonc_append_into(B(" "), B("[1, \"two\"]"), JSONC_ALL, room, size, len, fault);
  case 4: return jsonc_remove_into(B(text), B("a"), JSONC_ALL, room, size, len, fault);
  case 5: return jsonc_sort_into(B(text), JSONC_ALL, room, size, len, fault);
  case 6: return jsonc_get_into(B(text), B("[\"a\", \"c\"]"), JSONC_ALL, room, size, len, fault);
  case 7: return jsonc_put_into(B(text), B("[\"x\", \"y\"]"), B("1"), JSONC_ALL, room, size, len, fault);
  case 8: return jsonc_drop_into(B(text), B("[\"a\", \"c\"]"), JSONC_ALL, room, size, len, fault);
  case 9: return jsonc_edit_into(B(text), edits_made, 4, JSONC_ALL, room, size, len, fault);
  case 10: return jsonc_find_into(B(text), B("/a/c"), JSONC_ALL, room, size, len, fault);
  case 11: return jsonc_apply_patch_into(B(text), B(PATCH), JSONC_ALL, room, size, len, fault);
  case 12: return jsonc_merge_patch_into(B(text), B(MERGE), JSONC_ALL, room, size, len, fault);
  default: return jsonc_format_into(B(text), JSONC_ALL, &expanded, room, size, len, fault);
  }
}

static void buffers(void) {
  for (int which = 1; which <= LAST_INTO; which++) {
    char room[256];
    size_t len = 0;
    jsonc_text_t out = JSONC_NO_TEXT;
    jsonc_fault_t fault = {0};
    is(call(which, &out, &fault) == JSONC_OK, "a call");
    is(call_into(which, room, sizeof room, &len, &fault) == JSONC_OK, "the same into a buffer");
    is(len == out.len && !memcmp(room, out.at, len), "it writes what the other hands out");
    is(call_into(which, room, out.len, &len, &fault) == JSONC_OK && len == out.len, "a buffer that just fits");
    is(call_into(which, room, out.len - 1, &len, &fault) == JSONC_NO_ROOM && len == out.len, "a small buffer");
    jsonc_free(out);
  }
}

static void *many(void *bad) {
  for (int i = 0; i < 200; i++) {
    jsonc_fault_t fault = {0};
    jsonc_text_t out = JSONC_NO_TEXT;
    uint32_t s = jsonc_sort(B(text), JSONC_ALL, &out, &fault);
    if (s || out.len != strlen(text)) *(int *)bad = 1;
    jsonc_free(out);
  }
  return 0;
}

static void threads(void) {
  pthread_t thread[4];
  int bad[4] = {0};
  for (int i = 0; i < 4; i++) pthread_create(&thread[i], 0, many, &bad[i]);
  for (int i = 0; i < 4; i++) {
    pthread_join(thread[i], 0);
    is(!bad[i], "a thread's calls");
  }
}

#ifdef REFUSE
void *__real_malloc(size_t n);
void *__real_realloc(void *p, size_t n);
void __real_free(void *p);
static long left = -1;
/* How many blocks are out. No thread calls beside the calls that are counted. */
static long out_now;
static int refuses(void) { return left >= 0 && left-- == 0; }
void *__wrap_malloc(size_t n) {
  void *p = refuses() ? 0 : __real_malloc(n);
  out_now += p != 0;
  return p;
}
void *__wrap_realloc(void *p, size_t n) {
  void *q = refuses() ? 0 : __real_realloc(p, n);
  out_now += !p && q;
  return q;
}
void __wrap_free(void *p) {
  out_now -= p != 0;
  __real_free(p);
}

/* So numbered, or, past the last of these, into a buffer, which is copied. */
static uint32_t call_either(int which, jsonc_text_t *out, jsonc_fault_t *fault) {
  if (which <= LAST_CALL) return call(which, out, fault);
  char room[256];
  size_t len = 0;
  uint32_t s = call_into(which - LAST_CALL, room, sizeof room, &len, fault);
  if (len) {
    *out = (jsonc_text_t){memcpy(__real_malloc(len), room, len), len};
    out_now++;
  }
  return s;
}

static void refusals(void) {
  for (int which = 0; which <= LAST_CALL + LAST_INTO; which++) {
    jsonc_text_t whole = JSONC_NO_TEXT;
    jsonc_fault_t fault = {0};
    out_now = 0;
    uint32_t ample = call_either(which, &whole, &fault);
    int used = 1;
    for (long n = 0; used && n < 100000; n++) {
      jsonc_text_t out = JSONC_NO_TEXT;
      left = n;
      uint32_t s = call_either(which, &out, &fault);
      used = left < 0;
      left = -1;
      if (s == JSONC_OUT_OF_MEMORY) is(out.len == 0 && fault.kind == 0, "want of memory hands nothing out");
      else is(s == ample && out.len == whole.len && !memcmp(out.at, whole.at, out.len), "a refused allocation");
      jsonc_free(out);
    }
    jsonc_free(whole);
    is(out_now == 0, "all memory is given back");
  }
}
#endif

int main(void) {
  faults();
  patch_faults();
  texts();
  pointers();
  mends();
  formats();
  lists();
  makers();
  comments();
  buffers();
  threads();
#ifdef REFUSE
  refusals();
#endif
  printf("%d checks from C, %d wrong\n", checks, wrong);
  return wrong != 0;
}
