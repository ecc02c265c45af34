//! Times calls of this library and of the Rust crate in one process: times FILE..
//!
//! Of each call the least of some runs counts, in microseconds: both check a text, parse and print it, and set the value
//! of the first property, from bytes to bytes.
use jsonc::Options;
use jsonc_parser::cst::{CstInputValue, CstRootNode};
use jsonc_parser::{CollectOptions, ParseOptions, parse_to_ast};
use std::hint::black_box;
use std::time::Instant;

/// The least time of one call, of calls that take half a second together.
fn least(mut call: impl FnMut()) -> f64 {
    let (begun, mut least) = (Instant::now(), f64::MAX);
    while begun.elapsed().as_millis() < 500 {
        let one = Instant::now();
        call();
        least = least.min(one.elapsed().as_secs_f64() * 1e6);
    }
    least
}

fn theirs_set(bytes: &[u8], name: &str) -> String {
    let root = CstRootNode::parse(std::str::from_utf8(bytes).expect("UTF-8"), &ParseOptions::default()).expect("a document");
    let object = root.object_value_or_create().expect("an object");
    match object.get(name) {
        Some(property) => property.set_value(CstInputValue::Null),
        None => drop(object.append(name, CstInputValue::Null)),
    }
    root.to_string()
}

fn main() {
    for path in std::env::args().skip(1) {
        let text = std::fs::read_to_string(&path).expect("a text");
        let all = ParseOptions::default();
        let root = CstRootNode::parse(&text, &all).expect("a document");
        let name = root.object_value().and_then(|it| it.properties()[0].decoded_name()).expect("an object");
        assert_eq!(&*jsonc::set(&text, Options::ALL, &name, "null").expect("it is set"), theirs_set(text.as_bytes(), &name));
        let rows = [
            (
                "check",
                least(|| assert!(black_box(jsonc::check(&text, Options::ALL)).is_ok())),
                least(|| assert!(black_box(parse_to_ast(&text, &CollectOptions::default(), &all)).is_ok())),
            ),
            (
                "parse and print",
                least(|| assert!(black_box(jsonc::print(&text, Options::ALL)).is_ok())),
                least(|| drop(black_box(CstRootNode::parse(&text, &all).expect("a document").to_string()))),
            ),
            (
                "set, bytes to bytes",
                least(|| assert!(black_box(jsonc::set(&text, Options::ALL, &name, "null")).is_ok())),
                least(|| drop(black_box(theirs_set(text.as_bytes(), &name)))),
            ),
        ];
        for (call, ours, theirs) in rows {
            println!("{path} ({} bytes): {call}: ours {ours:.0} us, theirs {theirs:.0} us, {:.2}", text.len(), theirs / ours);
        }
    }
}
