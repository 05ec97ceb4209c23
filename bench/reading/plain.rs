//! Reads a text from standard input and reads the file in it 20 times.
#[path = "../plain/lexer.rs"]
mod lexer;
#[path = "../plain/parser.rs"]
mod parser;

use std::io::Read;

fn main() {
    let mut text = Vec::new();
    std::io::stdin().read_to_end(&mut text).unwrap();
    let mut sum = 0u64;
    for _ in 0..20 {
        match parser::read_file(std::hint::black_box(&text)) {
            Ok(file) => sum += file.len() as u64,
            Err(place) => sum += place as u64 + 1,
        }
    }
    println!("{sum}");
}
