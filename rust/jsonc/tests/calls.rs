//! Each call: its text, its faults, and its threads.
use jsonc::{Document, Edit, Error, Level, LineEnd, Options, Place, Shape, Style, append, apply_patch, check, drop_at, edit, find, format, get, mend};
use jsonc::{find_string, merge_patch, path_of, print, put, remove_with_comments, to_json};
use jsonc::{append_into, apply_patch_into, drop_at_into, edit_into, find_into, format_into, get_into, merge_patch_into, print_into};
use jsonc::{put_into, remove, remove_into, set, set_into, sort, sort_into};

const TEXT: &str = "{\n  // one\n  \"a\": 1, // first\n  \"b\": {\"c\": [1, 2]},\n}\n";

fn made(result: Result<jsonc::Text, Error>) -> String {
    result.expect("it is made").to_string()
}

#[test]
fn a_text_prints_as_it_is() {
    for text in ["", " ", "null", TEXT, "[1,2 /* c */ ,3]", "{a:'\\x41',}", "\u{e9}".repeat(0).as_str()] {
        assert_eq!(check(text, Options::ALL), Ok(()));
        assert_eq!(made(print(text, Options::ALL)), text);
    }
}

#[test]
fn a_fault_has_its_place_and_text() {
    // (the Rust crate jsonc-parser 0.34.0 tells the same)
    let rows = [
        ("[1,\n @]", Options::ALL, "UNEXPECTED_TOKEN", 5..6, 2, 2, "Unexpected token on line 2 column 2"),
        ("[1, /* c ]", Options::ALL, "UNTERMINATED_COMMENT_BLOCK", 4..10, 1, 5, "Unterminated comment block on line 1 column 5"),
        ("[1,]", Options::JSON, "TRAILING_COMMAS_NOT_ALLOWED", 2..3, 1, 3, "Trailing commas are not allowed on line 1 column 3"),
        ("// c", Options::JSON, "COMMENTS_NOT_ALLOWED", 0..4, 1, 1, "Comments are not allowed on line 1 column 1"),
        ("{\"a\"", Options::ALL, "EXPECTED_COLON_AFTER_OBJECT_KEY", 4..4, 1, 5, "Expected colon after the string or word in object property on line 1 column 5"),
    ];
    for (text, options, kind, range, line, column, printed) in rows {
        for refused in [check(text, options), print(text, options).map(drop)] {
            let Err(Error::Text(fault)) = refused else { panic!("{text} is refused: {refused:?}") };
            assert_eq!((fault.kind, fault.range.clone(), fault.line, fault.column), (kind, range.clone(), line, column), "{text}");
            assert_eq!(fault.to_string(), printed);
        }
    }
    assert!(matches!(set("{}", Options::ALL, "a", "dark"), Err(Error::Json(_))));
    assert!(matches!(set("[]", Options::ALL, "a", "1"), Err(Error::NotObject)));
    assert!(matches!(append("{}", Options::ALL, "1"), Err(Error::NotArray)));
    assert!(matches!(put("[]", Options::ALL, &["a"], "1"), Err(Error::OnTheWay)));
    assert!(matches!(put("{}", Options::ALL, &["a"], " "), Err(Error::NoValue)));
}

#[test]
fn every_fault_has_a_change() {
    // (docs/FAULTS.md has these)
    let broken = "{\n  \"a\": 1 \"b\": [1, 2\n}";
    let mends = mend(broken, Options::JSON).expect("it is mended");
    assert_eq!(&*mends.text, "{\n  \"a\": 1, \"b\": [1, 2]\n}");
    let told: Vec<_> = mends.list.iter().map(|it| (it.kind, it.line, it.column, it.range.clone(), mends.new_text(it))).collect();
    assert_eq!(told, [("EXPECTED_COMMA", 2, 9, 10..10, ","), ("UNEXPECTED_CLOSE_BRACE", 3, 1, 21..21, "]")]);
    assert_eq!(mends.list[1].fault, 22..23);
    let document = mend(TEXT, Options::JSONC).expect("it is mended");
    assert_eq!((&*document.text, document.list.len()), (TEXT, 0));
}

#[test]
fn a_text_is_formatted() {
    // (by hand, from the rules in docs/COMMAND.md)
    let own = Style::default();
    let rows = [
        ("{\"a\":1,\"b\":[1,2]}", own, "{ \"a\": 1, \"b\": [1, 2] }\n"),
        ("{\r\n\t\"a\":1,\"b\":2}", own, "{\r\n\t\"a\": 1,\r\n\t\"b\": 2\r\n}\r\n"),
        ("[1 // one\n, 2]", own, "[\n  1 // one\n  ,\n  2\n]\n"),
        ("[[1]]", Style { line_end: Some(LineEnd::Cr), level: Some(Level::Spaces(1)), expand: true }, "[\r [\r  1\r ]\r]\r"),
        ("[\n1]", Style { line_end: Some(LineEnd::CrLf), level: Some(Level::Tab), expand: false }, "[\r\n\t1\r\n]\r\n"),
        ("[\r\n 1]", Style { line_end: Some(LineEnd::Lf), ..own }, "[\n 1\n]\n"),
        ("", own, ""),
    ];
    for (text, style, formatted) in rows {
        assert_eq!(made(format(text, Options::ALL, style)), formatted, "{text}");
        assert_eq!(made(format(formatted, Options::ALL, style)), formatted, "{text}, twice");
        let mut room = vec![0; formatted.len()];
        assert_eq!(format_into(text, Options::ALL, style, &mut room), Ok(formatted.len()));
        assert_eq!(room, formatted.as_bytes());
    }
    assert_eq!(format_into("[1]", Options::ALL, own, &mut [0; 3]), Err(Error::NoRoom(4)));
    assert!(matches!(format("[1,]", Options::JSON, own), Err(Error::Text(_))));
}

#[test]
fn edits_keep_the_rest() {
    assert_eq!(made(set(TEXT, Options::ALL, "a", "2")), TEXT.replace("\"a\": 1", "\"a\": 2"));
    assert_eq!(made(put(TEXT, Options::ALL, &["b", "c"], "[]")), TEXT.replace("[1, 2]", "[]"));
    assert_eq!(made(append("[1, 2]", Options::ALL, "9")), "[1, 2, 9]");
    assert_eq!(made(remove("{ \"a\": 1, \"b\": 2 }", Options::ALL, "b")), "{ \"a\": 1 }");
    assert_eq!(made(drop_at("{ \"a\": 1, \"b\": 2 }", Options::ALL, &["b"])), "{ \"a\": 1 }");
    assert_eq!(made(drop_at(TEXT, Options::ALL, &["z"])), TEXT);
    assert_eq!(made(sort("{\"b\":1,\"a\":2}", Options::ALL)), "{\"a\":2,\"b\":1}");
}

#[test]
fn values_are_read_as_they_are_written() {
    assert_eq!(get(TEXT, Options::ALL, &["b", "c"]).expect("it is read").as_deref(), Some("[1, 2]"));
    assert!(get(TEXT, Options::ALL, &["b", "d"]).expect("it is read").is_none());
    assert_eq!(get("{\"a\\\"\\\\\\n\": 1}", Options::ALL, &["a\"\\\n"]).expect("it is read").as_deref(), Some("1"));
    let mut room = [0; 6];
    assert_eq!(get_into(TEXT, Options::ALL, &["b", "c"], &mut room), Ok(Some(6)));
    assert_eq!(&room, b"[1, 2]");
    assert_eq!(get_into(TEXT, Options::ALL, &["b", "c"], &mut room[..5]), Err(Error::NoRoom(6)));
    assert_eq!(get_into(TEXT, Options::ALL, &["z"], &mut room), Ok(None));
}

#[test]
fn each_edit_is_made() {
    // (docs/EDITS.md has these, or the Rust crate answers them so)
    let list = |edits: &[Edit], text: &str| made(edit(text, Options::ALL, edits));
    let at = |steps: &[usize]| steps.to_vec();
    let value = || "9".to_string();
    let name = || "z".to_string();
    let none: Vec<usize> = vec![];
    assert_eq!(list(&[Edit::Replace { path: at(&[1]), value: value() }], "[1, 2]"), "[1, 9]");
    assert_eq!(list(&[Edit::Remove { path: at(&[1]) }], "[1, 2]"), "[1]");
    assert_eq!(list(&[Edit::RemoveComment { index: 0 }], "[1/*c*/2]"), "[1 2]");
    assert_eq!(list(&[Edit::SetRoot { value: value() }], "// c"), "// c\n9\n");
    assert_eq!(list(&[Edit::ClearRoot], TEXT), "");
    assert_eq!(list(&[Edit::ReplaceProperty { path: at(&[0]), name: name(), value: value() }], "{\"a\": 1}"), "{\"z\": 9}");
    assert_eq!(list(&[Edit::EnsureRoot { shape: Shape::Array, replace: true }], "1"), "[]");
    assert_eq!(list(&[Edit::EnsureRoot { shape: Shape::Array, replace: false }], "1"), "1");
    assert_eq!(list(&[Edit::SetValue { path: at(&[0]), value: value() }], "{\"a\": 1}"), "{\"a\": 9}");
    assert_eq!(list(&[Edit::EnsureValue { path: at(&[0]), shape: Shape::Object }], "{\"a\": 1}"), "{\"a\": {}}");
    assert_eq!(list(&[Edit::SetBoolean { path: at(&[1]), value: false }], "[0x1true]"), "[0x1 false]");
    assert_eq!(list(&[Edit::EnsureMultiline { path: none.clone() }], "[1]"), "[\n  1\n]");
    assert_eq!(list(&[Edit::InsertElement { path: none.clone(), index: 1, value: value() }], "[1, 2]"), "[1, 9,  2]");
    assert_eq!(list(&[Edit::AppendElement { path: none.clone(), value: value() }], "[1, 2]"), "[1, 2, 9]");
    let two = "{\n  \"z\": 9,\n  \"a\": 1\n}";
    assert_eq!(list(&[Edit::InsertProperty { path: none.clone(), index: 0, name: name(), value: value() }], "{\n  \"a\": 1\n}"), two);
    assert_eq!(list(&[Edit::AppendProperty { path: none.clone(), name: name(), value: value() }], "{\"a\":1}"), "{\n  \"a\":1,\n  \"z\": 9\n}");
    let ensured = Edit::EnsureProperty { path: none.clone(), name: name(), shape: Shape::Array, replace: false };
    assert_eq!(list(&[ensured], "{\"z\":1}"), "{\"z\":1}");
    assert_eq!(list(&[Edit::SetTrailingCommas { path: none.clone(), never: true }], "[1,]"), "[1]");
    assert_eq!(list(&[Edit::Sort { path: none.clone(), pin: false, groups: false }], "[3, 1]"), "[1, 3]");
    assert_eq!(list(&[Edit::RenameProperty { path: at(&[1]), name: name() }], "{a:1b:2}"), "{a:1\"z\":2}");
    let stopped = [Edit::Remove { path: at(&[0]) }, Edit::Remove { path: at(&[5]) }];
    assert_eq!(edit("[1, 2]", Options::ALL, &stopped).map(drop), Err(Error::NoSuchPlace(1)));
    let mut room = [0; 16];
    assert_eq!(edit_into("[1, 2]", Options::ALL, &stopped[..1], &mut room), Ok(4));
    assert_eq!(&room[..4], b"[ 2]");
}

#[test]
fn comments_are_inserted() {
    // (by hand: above on a line of its own with the entry's indent, after it one space behind its comma)
    let insert = |path: &[usize], place, text: &str| Edit::InsertComment { path: path.to_vec(), place, text: text.to_string() };
    let list = |edits: &[Edit], text: &str| made(edit(text, Options::JSONC, edits));
    let text = "{\r\n\t\"a\": 1,\r\n\t\"b\": [3, 4]\r\n}";
    assert_eq!(list(&[insert(&[0], Place::Above, "// c")], text), text.replace("\t\"a\"", "\t// c\r\n\t\"a\""));
    assert_eq!(list(&[insert(&[0], Place::After, "// c")], text), text.replace("1,", "1, // c"));
    assert_eq!(list(&[insert(&[1, 0], Place::After, "/* \u{e9} */")], text), text.replace("3,", "3, /* \u{e9} */"));
    assert_eq!(list(&[insert(&[], Place::Above, "/**/")], "1"), "/**/\n1");
    assert_eq!(list(&[insert(&[], Place::After, "// c"), Edit::RemoveComment { index: 0 }], "1\n"), "1\n");
    let first = insert(&[0], Place::Above, "// c");
    for (text, path, comment, why) in [
        ("[1, 2]", 0, "c", Error::InvalidComment(1)),
        ("[1, 2]", 0, "// c\n", Error::InvalidComment(1)),
        ("[1, 2]", 0, "// c", Error::LineContinues(1)),
        ("[1, 2]", 2, "// c", Error::NoSuchPlace(1)),
    ] {
        let edits = [first.clone(), insert(&[path], Place::After, comment)];
        assert_eq!(edit(text, Options::JSONC, &edits).map(drop), Err(why.clone()), "{comment}");
        assert_eq!(edit_into(text, Options::JSONC, &edits, &mut [0; 64]), Err(why), "{comment}");
    }
}

#[test]
fn pointers_find_values() {
    // (RFC 6901, 5)
    let text = r##"{ "foo": ["bar", "baz"], "": 0, "a/b": 1, "c%d": 2, "e^f": 3, "g|h": 4, "i\\j": 5, "k\"l": 6, " ": 7, "m~n": 8 }"##;
    let rows = [
        ("", text), ("/foo", r#"["bar", "baz"]"#), ("/foo/0", r#""bar""#), ("/", "0"), ("/a~1b", "1"), ("/c%d", "2"),
        ("/e^f", "3"), ("/g|h", "4"), ("/i\\j", "5"), ("/k\"l", "6"), ("/ ", "7"), ("/m~0n", "8"),
    ];
    let mut room = [0; 128];
    for (pointer, value) in rows {
        assert_eq!(find(text, Options::JSON, pointer).expect("it is found").as_deref(), Some(value), "{pointer}");
        assert_eq!(find_into(text, Options::JSON, pointer, &mut room), Ok(Some(value.len())));
        assert_eq!(&room[..value.len()], value.as_bytes());
    }
    // (4: `-` is the element behind the last, and an index has no leading zeros)
    for pointer in ["/foo/2", "/foo/-", "/foo/00", "/bar", "/foo/0/0"] {
        assert!(find(text, Options::JSON, pointer).expect("it is followed").is_none(), "{pointer}");
        assert_eq!(find_into(text, Options::JSON, pointer, &mut room), Ok(None));
    }
    // (3: the place, counted by hand)
    for (pointer, kind, place) in [("foo", "POINTER_NO_LEADING_SLASH", 0), ("/a~2", "POINTER_INVALID_ESCAPE", 2), ("/\u{e9}/~", "POINTER_INVALID_ESCAPE", 4)] {
        let Err(Error::Pointer(fault)) = find(text, Options::JSON, pointer) else { panic!("{pointer} is none") };
        assert_eq!((fault.kind, fault.range), (kind, place..place), "{pointer}");
    }
    let Err(Error::RepeatedName(0, fault)) = find(r#"{"a": 1, "a": 2}"#, Options::JSON, "/a") else { panic!("the name stands twice") };
    assert_eq!(fault.to_string(), "Name stands twice: a");
    assert!(matches!(find("[1,]", Options::JSON, "/0"), Err(Error::Text(_))));
    assert_eq!(find_into("[100]", Options::JSON, "/0", &mut room[..2]), Err(Error::NoRoom(3)));
}

#[test]
fn pointers_lead_to_paths_and_strings() {
    // (RFC 6901, 4; RFC 8259, 7)
    assert_eq!(path_of(TEXT, Options::ALL, "/b/c/1"), Ok(Some(vec![1, 0, 1])));
    assert_eq!(path_of(TEXT, Options::ALL, ""), Ok(Some(vec![])));
    assert_eq!(path_of(TEXT, Options::ALL, "/b/c/2"), Ok(None));
    assert!(matches!(path_of(TEXT, Options::ALL, "b"), Err(Error::Pointer(_))));
    assert!(matches!(path_of(r#"{"a": 1, "a": 2}"#, Options::ALL, "/a"), Err(Error::RepeatedName(0, _))));
    let text = r#"{"a": "\"\\\n\u00e9\ud834\udd1e", "b": 1}"#;
    assert_eq!(find_string(text, Options::JSON, "/a").expect("it is found").as_deref(), Some("\"\\\n\u{e9}\u{1d11e}"));
    assert!(find_string(text, Options::JSON, "/c").expect("it is followed").is_none());
    assert_eq!(find_string(text, Options::JSON, "/b").map(drop), Err(Error::NotString));
}

#[test]
fn an_entry_is_removed_with_its_comments() {
    assert_eq!(made(remove_with_comments(TEXT, Options::ALL, "/a")), "{\n  \"b\": {\"c\": [1, 2]},\n}\n");
    assert_eq!(remove_with_comments(TEXT, Options::ALL, "/z").map(drop), Err(Error::NoSuchValue(0)));
}

#[test]
fn a_text_is_written_as_json() {
    assert_eq!(made(to_json("{a: 0x1F, /* c */ 'b': +.5,}", Options::ALL)), "{\"a\": 31,  \"b\": 0.5}");
    assert_eq!(to_json("// c", Options::ALL).map(drop), Err(Error::NoRoot));
    let Err(Error::NonFinite(fault)) = to_json("[1,\n NaN]", Options::ALL) else { panic!("it has a NaN") };
    assert_eq!((fault.range.start, fault.line, fault.column), (5, 2, 2));
}

#[test]
fn a_document_keeps_its_text() -> Result<(), Error> {
    let mut document = Document::parse(TEXT, Options::ALL)?;
    let path = document.path_of("/b/c/0")?.expect("it is there");
    document.edit(&[Edit::Replace { path, value: "9".to_string() }])?;
    assert_eq!(document.text(), TEXT.replace("[1, 2]", "[9, 2]"));
    assert_eq!(document.edit(&[Edit::Remove { path: vec![7] }]), Err(Error::NoSuchPlace(0)));
    document.apply_patch(r#"[{"op": "replace", "path": "/a", "value": "x"}]"#)?;
    document.merge_patch(r#"{"b": {"c": 3}}"#)?;
    assert_eq!(document.text(), TEXT.replace("[1, 2]", "3").replace("\"a\": 1", "\"a\": \"x\""));
    assert_eq!(document.find_string("/a")?.as_deref(), Some("x"));
    document.remove_with_comments("/a")?;
    assert_eq!(document.find("/b")?.as_deref(), Some("{\"c\": 3}"));
    assert_eq!(&*document.to_json()?, "{\n  \"b\": {\"c\": 3}\n}\n");
    document.format(Style { expand: true, ..Style::default() })?;
    assert_eq!(document.text(), "{\n  \"b\": {\n    \"c\": 3\n  },\n}\n");
    assert!(matches!(Document::parse("[1,", Options::ALL), Err(Error::Text(_))));
    Ok(())
}

#[test]
fn patches_are_made_whole_or_not() {
    // (RFC 6902, appendix A: 4, 5, 8, and of those that are errors 9, 12 and 13)
    let patched = |text: &str, patch: &str| apply_patch(text, Options::JSONC, patch);
    assert_eq!(made(patched(r#"{ "foo": ["bar", "qux", "baz"] } // c"#, r#"[{ "op": "remove", "path": "/foo/1" }]"#)), r#"{ "foo": ["bar", "baz"] } // c"#);
    assert_eq!(made(patched(r#"{ "baz": "qux", "foo": "bar" }"#, r#"[{ "op": "replace", "path": "/baz", "value": "boo" }, /* c */]"#)), r#"{ "baz": "boo", "foo": "bar" }"#);
    let tests = r#"[{ "op": "test", "path": "/baz", "value": "qux" }, { "op": "test", "path": "/foo/1", "value": 2 }]"#;
    assert_eq!(made(patched(r#"{ "baz": "qux", "foo": ["a", 2.0, "c"] }"#, tests)), r#"{ "baz": "qux", "foo": ["a", 2.0, "c"] }"#);
    assert_eq!(patched(r#"{ "baz": "qux" }"#, r#"[{ "op": "test", "path": "/baz", "value": "bar" }]"#).map(drop), Err(Error::NotEqual(0)));
    let behind = r#"[{ "op": "remove", "path": "/a" }, { "op": "add", "path": "/baz/bat", "value": "qux" }]"#;
    assert_eq!(patched(r#"{ "a": 1, "foo": "bar" }"#, behind).map(drop), Err(Error::NoSuchValue(1)));
    let within = r#"[{ "op": "move", "from": "/a", "path": "/a/b" }]"#;
    assert_eq!(patched(r#"{ "a": {} }"#, within).map(drop), Err(Error::IntoItself(0)));
    let rows = [
        (r#"{}"#, "PATCH_NOT_AN_ARRAY", 0, 0),
        (r#"[1]"#, "OPERATION_NOT_AN_OBJECT", 0, 0),
        (r#"[{ "op": "remove" }]"#, "OPERATION_MISSING", 0, 0),
        (r#"[{ "op": "take", "path": "" }]"#, "OPERATION_WRONG", 0, 0),
        (r#"[{ "op": "remove", "path": "" }, { "op": "remove", "path": "/a~" }]"#, "POINTER_INVALID_ESCAPE", 1, 2),
        (r#"[{ "op": "add", "path": "/baz", "value": "qux", "op": "remove" }]"#, "OPERATION_REPEATED_NAME", 0, 0),
    ];
    for (patch, kind, before, place) in rows {
        let Err(Error::NotPatch(number, fault)) = patched("{}", patch) else { panic!("{patch} is none") };
        assert_eq!((number, fault.kind, fault.range), (before, kind, place..place), "{patch}");
    }
    // (it is read under the options of the document)
    let Err(Error::NotPatch(0, fault)) = apply_patch("[]", Options::JSON, "[/* c */]") else { panic!("it has a comment") };
    assert_eq!((fault.kind, fault.line, fault.column), ("COMMENTS_NOT_ALLOWED", 1, 2));
    assert_eq!(Error::NotPatch(0, fault).to_string(), "patch: Comments are not allowed on line 1 column 2");
    let twice = patched(r#"{ "a": 1, "a": 2 }"#, r#"[{ "op": "remove", "path": "/a" }]"#);
    let Err(Error::RepeatedName(0, fault)) = twice else { panic!("the name stands twice: {twice:?}") };
    assert_eq!(fault.to_string(), "Operation 0: Name stands twice: \"a\"");
}

#[test]
fn merge_patches_are_merged() {
    // (RFC 7396, appendix A, but for its rows that add a member or take one away, whose blanks no standard says)
    let rows = [
        (r#"{"a":"b"}"#, r#"{"a":"c"}"#, r#"{"a":"c"}"#),
        (r#"{"a":["b"]}"#, r#"{"a":"c"}"#, r#"{"a":"c"}"#),
        (r#"{"a":"c"}"#, r#"{"a":["b"]}"#, r#"{"a":["b"]}"#),
        (r#"{"a":[{"b":"c"}]}"#, r#"{"a":[1]}"#, r#"{"a":[1]}"#),
        (r#"["a","b"]"#, r#"["c"]"#, r#"["c"]"#),
        (r#"{"a":"foo"}"#, "null", "null"),
        (r#"{"a":"foo"}"#, r#""bar""#, r#""bar""#),
        (r#"{"e":null}"#, r#"{"a":null}"#, r#"{"e":null}"#),
    ];
    for (text, patch, value) in rows {
        assert_eq!(made(merge_patch(text, Options::JSON, patch)), value, "{text} {patch}");
    }
    assert_eq!(made(merge_patch(TEXT, Options::ALL, r#"{"b": {"c": 3}}"#)), TEXT.replace("[1, 2]", "3"));
    for (text, patch) in [(r#"{"a": 1, "a": 2}"#, r#"{"a": 3}"#), ("{}", r#"{"b": {"a": 1, "a": 2}}"#)] {
        let Err(Error::RepeatedName(0, fault)) = merge_patch(text, Options::JSON, patch) else { panic!("the name stands twice") };
        assert_eq!(fault.to_string(), "Name stands twice: a");
    }
    assert!(matches!(merge_patch("1", Options::ALL, "// c"), Err(Error::EmptyPatch)));
    assert!(matches!(merge_patch("1", Options::JSON, "[2,]"), Err(Error::NotPatch(0, _))));
    assert_eq!(merge_patch_into("1", Options::ALL, "// c", &mut []), Err(Error::EmptyPatch));
}

#[test]
fn buffers_take_the_same() {
    const ALL: Options = Options::ALL;
    type Call<'a> = Box<dyn Fn(&mut [u8]) -> Result<usize, Error> + 'a>;
    const PATCH: &str = r#"[{"op": "replace", "path": "/a", "value": 2}]"#;
    const MERGE: &str = r#"{"a": 2}"#;
    let rows: [(Result<jsonc::Text, Error>, Call); 10] = [
        (print(TEXT, ALL), Box::new(|room| print_into(TEXT, ALL, room))),
        (set(TEXT, ALL, "a", "2"), Box::new(|room| set_into(TEXT, ALL, "a", "2", room))),
        (append("[1]", ALL, "2"), Box::new(|room| append_into("[1]", ALL, "2", room))),
        (remove(TEXT, ALL, "b"), Box::new(|room| remove_into(TEXT, ALL, "b", room))),
        (sort(TEXT, ALL), Box::new(|room| sort_into(TEXT, ALL, room))),
        (put(TEXT, ALL, &["b", "c"], "2"), Box::new(|room| put_into(TEXT, ALL, &["b", "c"], "2", room))),
        (drop_at(TEXT, ALL, &["b", "c"]), Box::new(|room| drop_at_into(TEXT, ALL, &["b", "c"], room))),
        (apply_patch(TEXT, ALL, PATCH), Box::new(|room| apply_patch_into(TEXT, ALL, PATCH, room))),
        (merge_patch(TEXT, ALL, MERGE), Box::new(|room| merge_patch_into(TEXT, ALL, MERGE, room))),
        (edit(TEXT, ALL, &[Edit::ClearRoot]), Box::new(|room| edit_into(TEXT, ALL, &[Edit::ClearRoot], room))),
    ];
    for (handed, call) in rows {
        let text = made(handed);
        let mut room = [0; 128];
        assert_eq!(call(&mut room), Ok(text.len()));
        assert_eq!(&room[..text.len()], text.as_bytes());
        if let Some(less) = text.len().checked_sub(1) {
            assert_eq!(call(&mut room[..less]), Err(Error::NoRoom(text.len())));
        }
    }
    assert_eq!(set_into("[]", ALL, "a", "1", &mut []), Err(Error::NotObject));
}

#[test]
fn threads_call_at_once() {
    std::thread::scope(|scope| {
        for thread in 0..4 {
            scope.spawn(move || {
                for count in 0..200 {
                    let value = (thread * 1000 + count).to_string();
                    let text = made(set(TEXT, Options::ALL, "a", &value));
                    assert_eq!(get(&text, Options::ALL, &["a"]).expect("it is read").as_deref(), Some(value.as_str()));
                }
            });
        }
    });
}
