//! The calls of `crates/jsonc_speed`, made of the Rust crate: the same words, the same answers.

use jsonc_parser::cst::{CstArray, CstInputValue, CstObjectProp, CstRootNode};
use jsonc_parser::{
    CollectOptions, CommentCollectionStrategy, ParseOptions, Scanner, ScannerOptions,
    parse_to_ast, parse_to_value,
};
use std::error::Error;
use std::hint::black_box;
use std::io::Read;

type Answer = Result<usize, Box<dyn Error>>;

fn scan(text: &str) -> Answer {
    let mut scanner = Scanner::new(text, &ScannerOptions::default());
    let mut count = 0;
    while let Some(token) = scanner.scan()? {
        black_box(token);
        count += 1;
    }
    Ok(count)
}

/// The crate has no call that keeps nothing: this is its parse that keeps least.
fn check(text: &str) -> Answer {
    black_box(parse_to_value(text, &ParseOptions::default())?);
    Ok(1)
}

fn ast(text: &str) -> Answer {
    let parsed = parse_to_ast(text, &CollectOptions::default(), &ParseOptions::default())?;
    Ok(black_box(parsed).value.is_some() as usize)
}

fn tokens(text: &str) -> Answer {
    let collect = CollectOptions {
        comments: CommentCollectionStrategy::AsTokens,
        tokens: true,
    };
    let parsed = parse_to_ast(text, &collect, &ParseOptions::default())?;
    Ok(black_box(parsed).tokens.map_or(0, |tokens| tokens.len()))
}

fn value(text: &str) -> Answer {
    let value = parse_to_value(text, &ParseOptions::default())?;
    Ok(black_box(value).is_some() as usize)
}

fn document(text: &str) -> Answer {
    black_box(CstRootNode::parse(text, &ParseOptions::default())?);
    Ok(1)
}

fn program(input: &[u8]) -> Answer {
    let text = std::str::from_utf8(input)?;
    let document = CstRootNode::parse(text, &ParseOptions::default())?;
    Ok(black_box(document.to_string()).len())
}

fn print(text: &str, count: u64) -> Answer {
    let document = CstRootNode::parse(text, &ParseOptions::default())?;
    let mut sum = 0;
    for _ in 0..count {
        sum += black_box(document.to_string()).len();
    }
    Ok(sum)
}

fn array(document: &CstRootNode) -> Result<CstArray, Box<dyn Error>> {
    document.array_value().ok_or_else(|| "no array".into())
}

fn last_property(document: &CstRootNode) -> Result<CstObjectProp, Box<dyn Error>> {
    let object = document.object_value().ok_or("no object")?;
    object.properties().pop().ok_or_else(|| "no property".into())
}

fn seven() -> CstInputValue {
    CstInputValue::Number("7".to_string())
}

fn siblings(text: &str, count: u64) -> Answer {
    let document = CstRootNode::parse(text, &ParseOptions::default())?;
    let elements = array(&document)?.elements();
    let mut sum = 0;
    for _ in 0..count {
        sum += elements.iter().filter(|element| black_box(element.next_sibling()).is_some()).count();
    }
    Ok(sum)
}

fn replaced(text: &str, count: u64) -> Answer {
    let document = CstRootNode::parse(text, &ParseOptions::default())?;
    let mut last = array(&document)?.elements().pop().ok_or("no element")?;
    let mut sum = 0;
    for _ in 0..count {
        let number = last.as_number_lit().ok_or("no number")?;
        last = number.replace_with(seven()).ok_or("no parent")?;
        sum += 1;
    }
    Ok(sum)
}

fn set(text: &str, count: u64) -> Answer {
    let document = CstRootNode::parse(text, &ParseOptions::default())?;
    let last = last_property(&document)?;
    let mut sum = 0;
    for _ in 0..count {
        last.set_value(seven());
        sum += 1;
    }
    Ok(sum)
}

fn appended(text: &str, count: u64) -> Answer {
    let document = CstRootNode::parse(text, &ParseOptions::default())?;
    let mut sum = 0;
    for _ in 0..count {
        array(&document)?.append(seven());
        sum += 1;
    }
    Ok(sum)
}

fn inserted(text: &str, count: u64) -> Answer {
    let document = CstRootNode::parse(text, &ParseOptions::default())?;
    let mut sum = 0;
    for _ in 0..count {
        array(&document)?.insert(0, seven());
        sum += 1;
    }
    Ok(sum)
}

fn removed(text: &str, count: u64) -> Answer {
    let document = CstRootNode::parse(text, &ParseOptions::default())?;
    let mut elements = array(&document)?.elements();
    let mut sum = 0;
    for _ in 0..count {
        if let Some(last) = elements.pop() {
            last.remove();
            sum += 1;
        }
    }
    Ok(sum)
}

fn repeat(call: &str, input: &[u8], count: u64) -> Answer {
    let text = std::str::from_utf8(input)?;
    match call {
        "print" => return print(text, count),
        "replaced" => return replaced(text, count),
        "siblings" => return siblings(text, count),
        "set" => return set(text, count),
        "appended" => return appended(text, count),
        "inserted" => return inserted(text, count),
        "removed" => return removed(text, count),
        _ => {}
    }
    let mut sum = 0;
    for _ in 0..count {
        sum += match call {
            "nothing" => 0,
            "scan" => scan(text)?,
            "check" => check(text)?,
            "ast" => ast(text)?,
            "tokens" => tokens(text)?,
            "value" => value(text)?,
            "document" => document(text)?,
            "program" => program(input)?,
            _ => return Err("no such call".into()),
        };
    }
    Ok(sum)
}

fn main() -> Result<(), Box<dyn Error>> {
    let words: Vec<String> = std::env::args().skip(1).collect();
    let [call, count] = words.as_slice() else {
        return Err("usage: CALL COUNT".into());
    };
    let mut input = Vec::new();
    std::io::stdin().read_to_end(&mut input)?;
    input.shrink_to_fit();
    println!("{}", repeat(call, &input, count.parse()?)?);
    Ok(())
}
