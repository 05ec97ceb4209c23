//! Reads a text from standard input and lexes it 200 times.
#[path = "../plain/lexer.rs"]
mod lexer;

use std::io::Read;

fn main() {
    let mut text = Vec::new();
    std::io::stdin().read_to_end(&mut text).unwrap();
    let mut sum = 0u64;
    for _ in 0..200 {
        if let Ok(tokens) = lexer::tokens(std::hint::black_box(&text)) {
            sum += tokens.len() as u64;
            if let Some(last) = tokens.last() {
                sum += last.column as u64 + last.line as u64;
            }
        }
    }
    println!("{sum}");
}
