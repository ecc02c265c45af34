//! Texts, values and edits, drawn at random.
use jsonc_parser::cst::{CstInputValue, CstNode, CstRootNode};

/// Numbers drawn from a seed (xorshift64*).
pub struct Draw(u64);

impl Draw {
    pub fn new(seed: u64) -> Draw {
        Draw(seed.wrapping_mul(0x9E37_79B9_7F4A_7C15) | 1)
    }

    pub fn below(&mut self, count: usize) -> usize {
        self.0 ^= self.0 >> 12;
        self.0 ^= self.0 << 25;
        self.0 ^= self.0 >> 27;
        (self.0.wrapping_mul(0x2545_F491_4F6C_DD1D) >> 33) as usize % count
    }

    pub fn flag(&mut self) -> bool {
        self.below(2) == 0
    }

    pub fn one<'a>(&mut self, of: &[&'a str]) -> &'a str {
        of[self.below(of.len())]
    }
}

const BLANKS: [&str; 14] = [" ", " ", "  ", "\n", "\n", "\n  ", "\r\n", "\t", "// c\n", "/* d */", "\n\n", "/* e\nf */", "\n    ", "\r\n\t"];
pub const NAMES: [&str; 6] = ["a", "b", "c d", "é", "a\"", ""];
const WRITTEN: [&str; 11] = ["\"a\"", "\"b\"", "\"c d\"", "\"é\"", "\"a\\\"\"", "\"\"", "'a'", "a", "b", "1", "true"];
const NUMBERS: [&str; 13] = ["0", "-1", "12", "1.5e3", "1E-2", "0xFF", "+7", ".5", "5.", "Infinity", "-NaN", "12345678901234567890", "1e+2"];
const STRINGS: [&str; 10] = ["\"x\"", "'y'", "\"a\\nb\"", "\"\\uD83D\\uDE00\"", "\"世界\"", "\"\\v\"", "\"\\\n\"", "'\\''", "\"\\/\"", "\"z z\""];
const DAMAGE: [&str; 24] = ["{", "}", "[", "]", ",", ":", "\"", "'", "/", "*", "//", "/*", "\\", "-", "+", "0", "1e", "0x", "u", "\\u12", "\u{0}", "é", "\u{feff}", "\u{2028}"];

fn push_blanks(draw: &mut Draw, text: &mut String) {
    for _ in 0..draw.below(3) {
        text.push_str(draw.one(&BLANKS));
    }
}

fn push_value(draw: &mut Draw, text: &mut String, depth: usize) {
    match draw.below(if depth == 0 { 8 } else { 16 }) {
        0 => text.push_str("null"),
        1 => text.push_str("true"),
        2 => text.push_str("false"),
        3 | 4 => text.push_str(draw.one(&NUMBERS)),
        5..=7 => text.push_str(draw.one(&STRINGS)),
        k => push_container(draw, text, depth, k % 2 == 0),
    }
}

fn push_container(draw: &mut Draw, text: &mut String, depth: usize, object: bool) {
    text.push(if object { '{' } else { '[' });
    let count = draw.below(5);
    for place in 0..count {
        push_blanks(draw, text);
        if object {
            text.push_str(draw.one(&WRITTEN));
            push_blanks(draw, text);
            text.push(':');
            push_blanks(draw, text);
        }
        push_value(draw, text, depth - 1);
        push_blanks(draw, text);
        let last = place + 1 == count;
        text.push_str(draw.one(if last { &["", "", ","] } else { &[",", ",", ",", ", ", ",\n", "\n", ",// g\n", "/* h */"] }));
    }
    push_blanks(draw, text);
    text.push(if object { '}' } else { ']' });
}

/// A text. Two in three have a container for their value.
pub fn text(draw: &mut Draw, damaged: bool) -> String {
    let mut text = String::new();
    push_blanks(draw, &mut text);
    match draw.below(12) {
        0 => {}
        1..=3 => push_value(draw, &mut text, 4),
        k => push_container(draw, &mut text, 4, k % 3 != 0),
    }
    push_blanks(draw, &mut text);
    for _ in 0..if damaged { 1 + draw.below(3) } else { 0 } {
        let mut all: Vec<char> = text.chars().collect();
        let place = draw.below(all.len() + 1);
        match draw.below(4) {
            0 | 1 => {
                let put: Vec<char> = draw.one(&DAMAGE).chars().collect();
                all.splice(place..place, put);
            }
            2 if place < all.len() => drop(all.remove(place)),
            _ => all.truncate(place),
        }
        text = all.into_iter().collect();
    }
    text
}

/// Bits of options: all of them, those of settings, none, or any.
pub fn options(draw: &mut Draw) -> u32 {
    match draw.below(6) {
        0 => draw.below(1024) as u32,
        1 => 5,
        2 => 1023 & !(1 << draw.below(10)),
        _ => 1023,
    }
}

/// A value for an edit to write.
pub fn value(draw: &mut Draw, depth: usize) -> CstInputValue {
    match draw.below(if depth == 0 { 5 } else { 8 }) {
        0 => CstInputValue::Null,
        1 => CstInputValue::Bool(draw.flag()),
        2 => CstInputValue::Number(draw.one(&["0", "-1", "1.5e3", "0x1F", "12345678901234567890"]).to_string()),
        3 | 4 => CstInputValue::String(draw.one(&["", "x", "a\nb", "\"q\"", "世\u{1}", "\\"]).to_string()),
        5 | 6 => CstInputValue::Array((0..draw.below(3)).map(|_| value(draw, depth - 1)).collect()),
        _ => {
            let count = draw.below(3);
            CstInputValue::Object((0..count).map(|k| (NAMES[k * 2].to_string(), value(draw, depth - 1))).collect())
        }
    }
}

/// The paths of a document: of its values, of what holds entries, and of its properties.
#[derive(Default)]
pub struct Paths {
    pub values: Vec<Vec<usize>>,
    pub arrays: Vec<Vec<usize>>,
    pub objects: Vec<Vec<usize>>,
    pub properties: Vec<Vec<usize>>,
    pub booleans: Vec<Vec<usize>>,
}

impl Paths {
    pub fn of(root: &CstRootNode) -> Paths {
        let mut paths = Paths::default();
        if let Some(value) = root.value() {
            paths.walk(&value, &mut vec![]);
        }
        paths
    }

    fn walk(&mut self, node: &CstNode, path: &mut Vec<usize>) {
        self.values.push(path.clone());
        if node.as_boolean_lit().is_some() {
            self.booleans.push(path.clone());
        }
        if let Some(array) = node.as_array() {
            self.arrays.push(path.clone());
            for (place, element) in array.elements().iter().enumerate() {
                path.push(place);
                self.walk(element, path);
                path.pop();
            }
        }
        if let Some(object) = node.as_object() {
            self.objects.push(path.clone());
            for (place, property) in object.properties().iter().enumerate() {
                path.push(place);
                self.properties.push(path.clone());
                if let Some(value) = property.value() {
                    self.walk(&value, path);
                }
                path.pop();
            }
        }
    }
}
