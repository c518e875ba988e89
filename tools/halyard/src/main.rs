//! Stores as text and as images, and lists played and logs followed for a person to see.

mod commands;
mod depth;
mod draw;
mod files;
mod followed;
mod played;

use std::io::Write;
use std::process::ExitCode;

fn main() -> ExitCode {
    let words: Vec<String> = std::env::args().skip(1).collect();
    let words: Vec<&str> = words.iter().map(String::as_str).collect();
    let wrong = match commands::run(&words) {
        Ok(said) => {
            // A reader that has seen enough may close the pipe.
            let _ = std::io::stdout().write_all(said.text.as_bytes());
            said.wrong
        }
        Err(wrong) => Some(wrong),
    };
    match wrong {
        None => ExitCode::SUCCESS,
        Some(wrong) => {
            eprintln!("halyard: {wrong}");
            ExitCode::FAILURE
        }
    }
}
