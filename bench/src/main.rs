//! Times the C calls (a), plain Rust that does the same work (b) and a full search (c) on the same random stores, and prints
//! Markdown.

mod calls;
mod cases;
mod plain;
mod report;
mod stack;
mod thesis;
mod timing;

use std::process::ExitCode;

const USAGE: &str = "usage: halyard-bench [SEED [STORES [ROUNDS]]]

Times the C calls on STORES random pairs of stores of each shape (100), in ROUNDS rounds (51), beside
plain Rust that does the same work and a full search, and prints Markdown.";

/// The numbers given, or those that stand for them.
fn arguments() -> Option<[u64; 3]> {
    let mut numbers = [1, 100, 51];
    let words: Vec<String> = std::env::args().skip(1).collect();
    if words.len() > numbers.len() {
        return None;
    }
    for (number, word) in numbers.iter_mut().zip(&words) {
        *number = word.parse().ok().filter(|&given| given > 0)?;
    }
    Some(numbers)
}

fn main() -> ExitCode {
    let Some([seed, stores, rounds]) = arguments() else {
        eprintln!("{USAGE}");
        return ExitCode::FAILURE;
    };
    print!("{}", report::whole(seed, stores as usize, rounds as usize));
    ExitCode::SUCCESS
}
