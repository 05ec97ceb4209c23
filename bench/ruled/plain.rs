//! Reads two frames from standard input, one a line, and compares them 20 times under the rules of pairs, of symmetric and
//! asymmetric encryption and of signatures.
#[path = "../plain/rules.rs"]
mod rules;

use rules::{Rule, Term, Test, compare};
use std::io::Read;

fn terms(text: &str) -> Vec<Term> {
    let mut stack = Vec::new();
    for word in text.split_ascii_whitespace() {
        let number = word[1..].parse().unwrap();
        let term = match word.as_bytes()[0] {
            b'a' => Term::Public(number),
            b'n' => Term::Private(u64::from(number)),
            b'x' => Term::Var(number),
            _ => {
                let arity = match number {
                    1 | 4 | 6 | 7 | 8 => 1,
                    3 => 3,
                    _ => 2,
                };
                let arguments = stack.split_off(stack.len() - arity);
                Term::App(number, arguments)
            }
        };
        stack.push(term);
    }
    stack
}

fn rule(text: &str) -> Rule {
    let mut sides = terms(text);
    let right = sides.pop().unwrap();
    let left = sides.pop().unwrap();
    Rule { left, right }
}

fn main() {
    let mut text = String::new();
    std::io::stdin().read_to_string(&mut text).unwrap();
    let (line, rest) = text.split_once('\n').unwrap();
    let rules = [
        rule("x0 x1 s0 s7 x0"),
        rule("x0 x1 s0 s8 x1"),
        rule("x0 x1 s2 x1 s9 x0"),
        rule("x0 x1 x2 s4 s3 x2 s10 x0"),
        rule("x0 x1 s5 x1 s6 s11 x0"),
    ];
    let first = terms(line);
    let second = terms(rest);
    let mut nodes = 0;
    for _ in 0..20 {
        nodes = match compare(&rules, std::hint::black_box(&first), std::hint::black_box(&second)) {
            Some(Test::Equal(one, other)) => one.size() + other.size(),
            Some(Test::Value(one)) => one.size(),
            None => 0,
        };
    }
    println!("{nodes} nodes");
}
