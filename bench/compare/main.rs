//! Compares this library with the Rust crate in one process: compare COUNT [SEED]
//!
//! Of each fresh case one of these is asked: the tokens of a scan, each of the three parses, what a document's nodes
//! tell, a command, or a list of edits. What differs is printed as a case of the bench (docs/proofs/BENCH.md), with both
//! answers. A space that only this library writes, between literals that would meet, is counted apart.
mod commands;
mod edits;
mod generate;
mod theirs;

use commands::Command;
use generate::{Draw, NAMES};
use jsonc::{Error, Options};
use jsonc_parser::errors::ParseError;
use std::collections::BTreeMap;
use std::time::Instant;

#[repr(C)]
struct Slice {
    at: *const u8,
    len: usize,
}

unsafe extern "C" {
    fn compare_answer(line: *const u8, len: usize, out: *mut Slice) -> u32;
    fn free(at: *mut std::ffi::c_void);
}

/// This library's answer to a case, without its name.
fn ours(case: &str) -> String {
    let mut out = Slice { at: std::ptr::dangling(), len: 0 };
    // SAFETY: the call takes a text, and hands out one block, which is freed here alone.
    unsafe {
        if compare_answer(case.as_ptr(), case.len(), &mut out) != 0 {
            return "no answer".to_string();
        }
        let answer = String::from_utf8_lossy(std::slice::from_raw_parts(out.at, out.len)).into_owned();
        free(out.at.cast_mut().cast());
        answer.split_once('\t').map_or(String::new(), |(_, answer)| answer.to_string())
    }
}

/// The options of a case: ten digits.
fn digits(bits: u32) -> String {
    (0..10).map(|bit| if bits >> bit & 1 == 1 { '1' } else { '0' }).collect()
}

/// What was asked, and what differed.
#[derive(Default)]
struct Counts {
    asked: BTreeMap<String, usize>,
    spaces: usize,
    differ: usize,
}

impl Counts {
    fn compare(&mut self, kind: &str, case: impl FnOnce() -> String, ours: &str, theirs: &str) {
        *self.asked.entry(kind.to_string()).or_default() += 1;
        if ours == theirs {
            return;
        }
        if has_spaces_more(ours, theirs) {
            self.spaces += 1;
            return;
        }
        self.differ += 1;
        if self.differ <= 20 {
            println!("{}\n  ours   {ours}\n  theirs {theirs}", case());
        }
    }
}

/// Whether the first text is the second with spaces between literals without quotes.
fn has_spaces_more(ours: &str, theirs: &str) -> bool {
    let literal = |c: Option<char>| c.is_some_and(|c| c.is_alphanumeric() || "_$+-.".contains(c));
    let (mut theirs, mut before, mut more) = (theirs.chars().peekable(), None, 0);
    for c in ours.chars() {
        if theirs.peek() == Some(&c) {
            theirs.next();
        } else if c == ' ' && literal(before) && literal(theirs.peek().copied()) {
            more += 1;
        } else {
            return false;
        }
        before = Some(c);
    }
    more > 0 && theirs.peek().is_none()
}

/// A fault of this library in the words of the other's.
fn fault(error: &Error) -> String {
    match error {
        Error::Text(it) => format!("{} {} {} {} {} {it}", it.kind, it.range.start, it.range.end, it.line, it.column),
        other => format!("{other:?}"),
    }
}

/// A kind in capitals, its words apart.
fn capitals(kind: &str) -> String {
    let mut out = String::new();
    for c in kind.replace('/', "").chars() {
        if c.is_uppercase() && !out.is_empty() {
            out.push('_');
        }
        out.push(c.to_ascii_uppercase());
    }
    out
}

fn told(e: &ParseError) -> String {
    let range = e.range();
    format!("{} {} {} {} {} {e}", capitals(&theirs::kind(e.kind())), range.start, range.end, e.line_display(), e.column_display())
}

/// A case of `scan`, `ast` or `value`.
fn reads(draw: &mut Draw, counts: &mut Counts) {
    let damaged = draw.flag();
    let (text, bits) = (generate::text(draw, damaged), generate::options(draw));
    let (options, field) = (digits(bits), theirs::escaped(&text, false));
    let (kind, case, answer) = match draw.below(3) {
        0 => ("scan", format!("x\tscan\t{options}\t{field}"), theirs::scan(&text, bits)),
        1 => ("value", format!("x\tvalue\t{options}\t{field}"), theirs::value(&text, bits)),
        _ => {
            // (comments as tokens, where they are not allowed, are among the differences)
            let comments = ['O', 'S', 'T'][draw.below(if bits & 1 == 1 { 3 } else { 2 })];
            let tokens = draw.flag();
            let mark = if tokens { 't' } else { '-' };
            ("ast", format!("x\tast\t{options}\t{comments}{mark}\t{field}"), theirs::ast(&text, bits, comments, tokens))
        }
    };
    counts.compare(kind, || case.clone(), &ours(&case), &answer);
}

/// The document's parse: its fault, and that it prints as it is; and what its nodes tell.
fn documents(draw: &mut Draw, counts: &mut Counts) {
    let damaged = draw.below(3) == 0;
    let (text, bits) = (generate::text(draw, damaged), generate::options(draw));
    let case = format!("x\tread\t{}\t{}\t", digits(bits), theirs::escaped(&text, false));
    let root = theirs::document(&text, bits);
    let printed = match jsonc::print(&text, Options::from_bits(bits)) {
        Ok(made) => made.to_string(),
        Err(error) => fault(&error),
    };
    let checked = jsonc::check(&text, Options::from_bits(bits)).err().map(|it| fault(&it));
    let refused = root.as_ref().err().map(told);
    counts.compare("check", || case.clone(), &format!("{checked:?}"), &format!("{refused:?}"));
    counts.compare("print", || case.clone(), &printed, refused.as_ref().unwrap_or(&text));
    let Ok(root) = root else { return };
    let answer = ours(&case);
    // (the value stands in the second field and each node's indents in theirs: the crate has no call for either)
    let fields: Vec<&str> = answer.split('\t').collect();
    let nodes = fields.iter().enumerate().filter(|(place, _)| *place != 2).map(|(_, field)| without_indents(field));
    counts.compare("read", || case.clone(), &nodes.collect::<Vec<_>>().join("\t"), &theirs::readings(&root));
}

fn without_indents(field: &str) -> String {
    match field.split_once(" in=") {
        Some((before, behind)) => format!("{before} {}", behind.split_once(' ').map_or("", |(_, rest)| rest)),
        None => field.to_string(),
    }
}

/// Whether the first edits of a list write a space between literals: what later ones make of it differs too.
fn writes_a_space(text: &str, bits: u32, list: &[edits::Drawn]) -> bool {
    let Ok(root) = theirs::document(text, bits) else { return false };
    let given: Vec<jsonc::Edit> = list.iter().map(|it| it.edit.clone()).collect();
    let all = list.iter().all(|it| edits::make(&root, it).is_some());
    let made = jsonc::edit(text, Options::from_bits(bits), &given);
    all && made.is_ok_and(|made| has_spaces_more(&made, &root.to_string()))
}

/// A list of one to four edits. Each is drawn for the document that the ones before it made.
fn lists(draw: &mut Draw, counts: &mut Counts) {
    let (text, bits) = (generate::text(draw, false), generate::options(draw));
    let Ok(root) = theirs::document(&text, bits) else { return };
    let (mut list, mut stop) = (vec![], None);
    for count in 0..1 + draw.below(4) {
        let drawn = edits::draw(draw, &root);
        let made = edits::make(&root, &drawn);
        list.push(drawn);
        if made.is_none() {
            stop = Some(count);
            break;
        }
    }
    let case = || {
        let shown: Vec<String> = list.iter().map(edits::shown).collect();
        format!("x\tedit\t{}\t{}\t{}", digits(bits), theirs::escaped(&text, false), shown.join(" ; "))
    };
    let given: Vec<jsonc::Edit> = list.iter().map(|it| it.edit.clone()).collect();
    let made = match jsonc::edit(&text, Options::from_bits(bits), &given) {
        Ok(made) => made.to_string(),
        Err(error) => format!("{error:?}"),
    };
    let answer = stop.map_or_else(|| root.to_string(), |count| format!("{:?}", Error::NoSuchPlace(count)));
    if made != answer && (1..list.len()).any(|count| writes_a_space(&text, bits, &list[..count])) {
        counts.spaces += 1;
        return;
    }
    counts.compare(if stop.is_some() { "refused edits" } else { "edits" }, case, &made, &answer);
}

/// A command.
fn command(draw: &mut Draw, counts: &mut Counts) {
    let text = generate::text(draw, false);
    let Ok(root) = theirs::document(&text, 1023) else { return };
    let name = draw.one(&NAMES).to_string();
    let names: Vec<String> = (0..draw.below(3)).map(|_| draw.one(&NAMES).to_string()).collect();
    let value = generate::value(draw, 2);
    let (path, json) = (names.iter().map(String::as_str).collect::<Vec<_>>(), theirs::json(&value));
    let all = Options::ALL;
    let (kind, made, asked) = match draw.below(7) {
        0 => ("set", jsonc::set(&text, all, &name, &json).map(Some), Command::Set(name.clone(), value)),
        1 => ("append", jsonc::append(&text, all, &json).map(Some), Command::Append(value)),
        2 => ("remove", jsonc::remove(&text, all, &name).map(Some), Command::Remove(name.clone())),
        3 => ("sort", jsonc::sort(&text, all).map(Some), Command::Sort),
        4 => ("get", jsonc::get(&text, all, &path), Command::Get(names.clone())),
        5 => ("put", jsonc::put(&text, all, &path, &json).map(Some), Command::Put(names.clone(), value)),
        _ => ("drop", jsonc::drop_at(&text, all, &path).map(Some), Command::Drop(names.clone())),
    };
    let made = match made {
        Ok(made) => Ok(made.map(|it| it.to_string())),
        Err(error) => Err(format!("{error:?}")),
    };
    let answer = commands::made(&root, &asked).map_err(str::to_string);
    let shown = |of: &Result<Option<String>, String>| match of {
        Ok(Some(text)) => text.clone(),
        other => format!("{other:?}"),
    };
    counts.compare(kind, || format!("{kind} {name:?} {names:?} {json} < {text:?}"), &shown(&made), &shown(&answer));
}

fn main() {
    let words: Vec<String> = std::env::args().collect();
    let number = |place: usize, or: u64| words.get(place).map_or(or, |word| word.parse().expect("a number"));
    let (count, seed) = (number(1, 1_000_000), number(2, 1));
    let (mut draw, mut counts) = (Draw::new(seed), Counts::default());
    let begun = Instant::now();
    let asked = |counts: &Counts| counts.asked.values().sum::<usize>() as u64;
    while asked(&counts) < count {
        match draw.below(8) {
            0..=2 => reads(&mut draw, &mut counts),
            3 => documents(&mut draw, &mut counts),
            4 => command(&mut draw, &mut counts),
            _ => lists(&mut draw, &mut counts),
        }
    }
    let (total, seconds) = (asked(&counts), begun.elapsed().as_secs_f64());
    println!("{:?}", counts.asked);
    println!("seed {seed}: {total} cases in {seconds:.0} s, {} with a space more, {} differ", counts.spaces, counts.differ);
    std::process::exit((counts.differ > 0) as i32);
}
