//! serde_json's `Value`, made and dropped as often as is told.

use serde_json::Value;
use std::error::Error;
use std::hint::black_box;

fn main() -> Result<(), Box<dyn Error>> {
    let words: Vec<String> = std::env::args().skip(1).collect();
    let [call, count] = words.as_slice() else {
        return Err("usage: CALL COUNT".into());
    };
    if call != "value" {
        return Err("no such call".into());
    }
    let text = std::io::read_to_string(std::io::stdin())?;
    let mut sum = 0;
    for _ in 0..count.parse::<u64>()? {
        sum += !black_box(serde_json::from_str::<Value>(&text)?).is_null() as usize;
    }
    println!("{sum}");
    Ok(())
}
