//! What the Rust crate makes of a text, in the words of the bench (docs/proofs/BENCH.md).
use jsonc_parser::ast;
use jsonc_parser::common::Ranged;
use jsonc_parser::cst::*;
use jsonc_parser::errors::{ParseError, ParseErrorKind};
use jsonc_parser::tokens::Token;
use jsonc_parser::*;
use std::borrow::Cow;
use std::fmt::Write;

pub fn options_of(bits: u32) -> ParseOptions {
    let has = |bit: u32| bits >> bit & 1 == 1;
    ParseOptions {
        allow_comments: has(0),
        allow_loose_object_property_names: has(1),
        allow_trailing_commas: has(2),
        allow_missing_commas: has(3),
        allow_single_quoted_strings: has(4),
        allow_hexadecimal_numbers: has(5),
        allow_unary_plus_numbers: has(6),
        allow_bare_decimal_point_numbers: has(7),
        allow_non_finite_numbers: has(8),
        allow_extended_string_escapes: has(9),
    }
}

/// A field, or a word, in which the blank is escaped too.
pub fn escaped(text: &str, word: bool) -> String {
    let mut out = String::new();
    for byte in text.bytes() {
        let plain = (0x20..=0x7E).contains(&byte) && byte != b'\\' && !(word && byte == b' ');
        if plain { out.push(byte as char) } else { write!(out, "\\x{byte:02X}").unwrap() }
    }
    out
}

pub fn kind(kind: &ParseErrorKind) -> String {
    match kind {
        ParseErrorKind::String(of) => format!("String/{}", format!("{of:?}").split('(').next().unwrap()),
        other => format!("{other:?}"),
    }
}

pub fn fault(e: &ParseError) -> String {
    let range = e.range();
    let (line, column, printed) = (e.line_display(), e.column_display(), escaped(&e.to_string(), false));
    format!("fault {} {} {} {line} {column} {printed}", kind(e.kind()), range.start, range.end)
}

fn token(token: &Token, start: usize, end: usize) -> String {
    let kind = match token {
        Token::OpenBrace => "OpenBrace",
        Token::CloseBrace => "CloseBrace",
        Token::OpenBracket => "OpenBracket",
        Token::CloseBracket => "CloseBracket",
        Token::Comma => "Comma",
        Token::Colon => "Colon",
        Token::String(Cow::Borrowed(_)) => "StringBorrowed",
        Token::String(Cow::Owned(_)) => "StringOwned",
        Token::Word(_) => "Word",
        Token::Boolean(_) => "Boolean",
        Token::Number(_) => "Number",
        Token::Null => "Null",
        Token::CommentLine(_) => "CommentLine",
        Token::CommentBlock(_) => "CommentBlock",
    };
    format!("\t{kind} {start} {end} {}", escaped(token.as_str(), false))
}

pub fn scan(text: &str, bits: u32) -> String {
    let all = options_of(bits);
    let options = ScannerOptions {
        allow_single_quoted_strings: all.allow_single_quoted_strings,
        allow_hexadecimal_numbers: all.allow_hexadecimal_numbers,
        allow_unary_plus_numbers: all.allow_unary_plus_numbers,
        allow_bare_decimal_point_numbers: all.allow_bare_decimal_point_numbers,
        allow_non_finite_numbers: all.allow_non_finite_numbers,
        allow_extended_string_escapes: all.allow_extended_string_escapes,
    };
    let (mut scanner, mut tokens) = (Scanner::new(text, &options), String::new());
    loop {
        match scanner.scan() {
            Ok(Some(found)) => tokens += &token(&found, scanner.token_start(), scanner.token_end()),
            Ok(None) => return format!("ok {}{tokens}", scanner.token_start()),
            Err(e) => return format!("{}\tat {}{tokens}", fault(&e), scanner.token_start()),
        }
    }
}

fn at(out: &mut String, mark: &str, range: common::Range) {
    let blank = if out.is_empty() { "" } else { " " };
    write!(out, "{blank}{mark}@{}-{}", range.start, range.end).unwrap();
}

fn push_ast(out: &mut String, value: &ast::Value) {
    match value {
        ast::Value::NullKeyword(it) => at(out, "N", it.range),
        ast::Value::BooleanLit(it) => at(out, if it.value { "T" } else { "F" }, it.range),
        ast::Value::NumberLit(it) => {
            at(out, "#", it.range);
            write!(out, ":{}", escaped(it.value, true)).unwrap();
        }
        ast::Value::StringLit(it) => {
            at(out, "'", it.range);
            write!(out, ":{}", escaped(&it.value, true)).unwrap();
        }
        ast::Value::Array(it) => {
            at(out, "[", it.range);
            write!(out, "*{}", it.elements.len()).unwrap();
            it.elements.iter().for_each(|element| push_ast(out, element));
        }
        ast::Value::Object(it) => {
            at(out, "{", it.range);
            write!(out, "*{}", it.properties.len()).unwrap();
            for property in &it.properties {
                at(out, "p", property.range);
                let mark = if matches!(property.name, ast::ObjectPropName::String(_)) { "'" } else { "w" };
                at(out, mark, property.name.range());
                write!(out, ":{}", escaped(property.name.as_str(), true)).unwrap();
                push_ast(out, &property.value);
            }
        }
    }
}

fn push_comments(out: &mut String, comments: &CommentMap) {
    let mut places: Vec<usize> = comments.keys().copied().collect();
    places.sort();
    write!(out, "\tmap {}", places.len()).unwrap();
    for place in places {
        write!(out, "\t{place}:").unwrap();
        for comment in comments[&place].iter() {
            let (mark, range, text) = match comment {
                ast::Comment::Line(it) => ("l", it.range, it.text),
                ast::Comment::Block(it) => ("b", it.range, it.text),
            };
            write!(out, " {mark}@{}-{}:{}", range.start, range.end, escaped(text, true)).unwrap();
        }
    }
}

/// The document of a text. Comments that are not allowed are refused here too, as docs/DIFFERENCES.md says.
pub fn document(text: &str, bits: u32) -> Result<CstRootNode, ParseError> {
    let options = options_of(bits);
    if !options.allow_comments {
        parse_to_ast(text, &CollectOptions::default(), &options)?;
    }
    CstRootNode::parse(text, &options)
}

/// What `parse_to_ast` answers, with comments as the letter says, and tokens.
pub fn ast(text: &str, bits: u32, comments: char, tokens: bool) -> String {
    let strategy = match comments {
        'O' => CommentCollectionStrategy::Off,
        'S' => CommentCollectionStrategy::Separate,
        _ => CommentCollectionStrategy::AsTokens,
    };
    let read = match parse_to_ast(text, &CollectOptions { comments: strategy, tokens }, &options_of(bits)) {
        Ok(read) => read,
        Err(e) => return fault(&e),
    };
    let mut out = String::new();
    match &read.value {
        Some(value) => push_ast(&mut out, value),
        None => out.push('-'),
    }
    out.insert_str(0, "ok\t");
    match &read.comments {
        Some(comments) => push_comments(&mut out, comments),
        None => out += "\tno-map",
    }
    match &read.tokens {
        Some(tokens) => {
            write!(out, "\ttokens {}", tokens.len()).unwrap();
            tokens.iter().for_each(|it| out += &token(&it.token, it.range.start, it.range.end));
        }
        None => out += "\tno-tokens",
    }
    out
}

fn push_value(out: &mut String, value: &JsonValue) {
    if !out.is_empty() {
        out.push(' ');
    }
    match value {
        JsonValue::Null => out.push('N'),
        JsonValue::Boolean(it) => out.push(if *it { 'T' } else { 'F' }),
        JsonValue::Number(it) => write!(out, "#{}", escaped(it, true)).unwrap(),
        JsonValue::String(it) => write!(out, "'{}", escaped(it, true)).unwrap(),
        JsonValue::Array(it) => {
            write!(out, "[{}", it.len()).unwrap();
            it.iter().for_each(|element| push_value(out, element));
        }
        JsonValue::Object(it) => {
            write!(out, "{{{}", it.len()).unwrap();
            for (name, value) in it.clone().take_inner().iter() {
                write!(out, " '{}", escaped(name, true)).unwrap();
                push_value(out, value);
            }
        }
    }
}

pub fn value(text: &str, bits: u32) -> String {
    match parse_to_value(text, &options_of(bits)) {
        Err(e) => fault(&e),
        Ok(None) => "ok\t-".to_string(),
        Ok(Some(value)) => {
            let mut out = String::new();
            push_value(&mut out, &value);
            format!("ok\t{out}")
        }
    }
}

fn optional(text: Option<String>) -> String {
    text.map_or("-".to_string(), |text| format!("={}", escaped(&text, true)))
}

fn place(place: Option<usize>) -> String {
    place.map_or("-".to_string(), |place| place.to_string())
}

fn places(comments: Vec<CstComment>) -> String {
    let all: Vec<String> = comments.iter().map(|it| it.child_index().to_string()).collect();
    if all.is_empty() { "-".to_string() } else { all.join(",") }
}

fn decoded_name(property: &CstObjectProp) -> Option<String> {
    property.decoded_name()
}

/// A node's kind, as its variant is called.
fn node_kind(node: &CstNode) -> String {
    let shown = match node {
        CstNode::Container(it) => format!("{it:?}"),
        CstNode::Leaf(it) => format!("{it:?}"),
    };
    shown.split('(').next().unwrap().to_string()
}

/// What each node tells, but for its indents, which the crate keeps to itself.
fn push_node(out: &mut String, node: &CstNode, depth: usize) {
    let property = node.as_object_prop();
    write!(
        out,
        "\t{} d={depth} ci={} it={} bl={} tc={} ut={} ei={} pi={} lc={} tr={} ",
        node_kind(node),
        node.child_index(),
        optional(node.indent_text()),
        node.has_blank_line_before() as u8,
        place(node.trailing_comma().map(|it| it.child_index())),
        node.uses_trailing_commas() as u8,
        place(node.element_index()),
        place(property.as_ref().map(|it| it.property_index())),
        places(node.leading_comments_same_line().collect()),
        places(node.trailing_comments_same_line().collect()),
    )
    .unwrap();
    match node {
        CstNode::Leaf(leaf) => write!(out, "t={}", escaped(&leaf.to_string(), true)).unwrap(),
        _ => write!(out, "n={}", node.children().len()).unwrap(),
    }
    if let Some(it) = &property {
        let (value, before, behind) = (it.value(), it.previous_property(), it.next_property());
        let name = optional(decoded_name(it));
        write!(out, " name={name} v={}", place(value.map(|it| it.child_index()))).unwrap();
        write!(out, " pp={} np={}", place(before.map(|it| it.child_index())), place(behind.map(|it| it.child_index()))).unwrap();
    }
    if let Some(it) = node.as_string_lit() {
        write!(out, " dec={}", optional(it.decoded_value().ok())).unwrap();
    }
    node.children().iter().for_each(|child| push_node(out, child, depth + 1));
}

fn push_input(out: &mut String, value: &CstInputValue) {
    if !out.is_empty() {
        out.push(' ');
    }
    out.push_str(&words(value));
}

/// The words of a value.
pub fn words(value: &CstInputValue) -> String {
    match value {
        CstInputValue::Null => "N".to_string(),
        CstInputValue::Bool(it) => if *it { "T" } else { "F" }.to_string(),
        CstInputValue::Number(it) => format!("#{}", escaped(it, true)),
        CstInputValue::String(it) => format!("'{}", escaped(it, true)),
        CstInputValue::Array(it) => {
            let mut out = format!("[{}", it.len());
            it.iter().for_each(|element| push_input(&mut out, element));
            out
        }
        CstInputValue::Object(it) => {
            let mut out = format!("{{{}", it.len());
            for (name, value) in it {
                write!(out, " '{} {}", escaped(name, true), words(value)).unwrap();
            }
            out
        }
    }
}

/// The JSON text of a value.
pub fn json(value: &CstInputValue) -> String {
    let quoted = |text: &str| {
        let mut out = String::from("\"");
        for c in text.chars() {
            match c {
                '"' | '\\' => out.extend(['\\', c]),
                c if c < ' ' => write!(out, "\\u{:04x}", c as u32).unwrap(),
                c => out.push(c),
            }
        }
        out.push('"');
        out
    };
    match value {
        CstInputValue::Null => "null".to_string(),
        CstInputValue::Bool(it) => it.to_string(),
        CstInputValue::Number(it) => it.clone(),
        CstInputValue::String(it) => quoted(it),
        CstInputValue::Array(it) => format!("[{}]", it.iter().map(json).collect::<Vec<_>>().join(",")),
        CstInputValue::Object(it) => {
            let all: Vec<String> = it.iter().map(|(name, value)| format!("{}:{}", quoted(name), json(value))).collect();
            format!("{{{}}}", all.join(","))
        }
    }
}

/// How lines end, one level of indent, where the value stands; and each node.
pub fn readings(root: &CstRootNode) -> String {
    let ends = match root.newline_kind() {
        CstNewlineKind::LineFeed => "LF",
        CstNewlineKind::CarriageReturnLineFeed => "CRLF",
        CstNewlineKind::CarriageReturn => "CR",
    };
    let mut out = String::from("ok\t");
    let value = place(root.value().map(|it| it.child_index()));
    write!(out, "nk={ends} si={} value={value}", optional(root.single_indent_text())).unwrap();
    push_node(&mut out, &root.clone().into(), 0);
    out
}
