//! What the tool reads from files and writes to them.

use crate::commands::{meaning, not_understood};
use halyard_model::log::{self, Entry};
use halyard_model::{Store, image, log_text, text};
use std::fs;
use std::io::Read;

/// The store of an image file, or of a text, which has a bracket.
pub fn read_store(word: &str) -> Result<Store, String> {
    if word.contains('[') {
        return text::read(word);
    }
    read_image(word)
}

/// The store of an image file.
pub fn read_image(file: &str) -> Result<Store, String> {
    let refused = |number| format!("{file}: refused {number}, {}", meaning(number));
    image::read(&read_file(file)?).map_err(refused)
}

/// A list as the program prints it, or as bytes.
pub fn read_list(file: &str, bytes: bool) -> Result<Vec<u8>, String> {
    let content = read(file)?;
    if bytes {
        return Ok(content);
    }
    text::read_list(&String::from_utf8_lossy(&content))
}

/// The bytes of a log that is text.
pub fn read_log_text(file: &str) -> Result<Vec<u8>, String> {
    let content = read(file)?;
    let entries: Vec<Entry> = log_text::read(&String::from_utf8_lossy(&content))
        .map_err(|wrong| format!("{file}: {wrong}"))?;
    Ok(log::pack(&entries))
}

/// What a file has, or standard input where it is '-'.
pub fn read(file: &str) -> Result<Vec<u8>, String> {
    if file != "-" {
        return read_file(file);
    }
    let mut content = Vec::new();
    let read = std::io::stdin().read_to_end(&mut content);
    read.map_err(|wrong| format!("standard input: {wrong}"))?;
    Ok(content)
}

fn read_file(file: &str) -> Result<Vec<u8>, String> {
    fs::read(file).map_err(|wrong| format!("{file}: {wrong}"))
}

/// Writes bytes to the file named, or shows them where there is none.
pub fn written(bytes: &[u8], file: &[&str]) -> Result<String, String> {
    match file {
        [] => Ok(hexadecimal(bytes)),
        [file] => {
            fs::write(file, bytes).map_err(|wrong| format!("{file}: {wrong}"))?;
            Ok(format!("{file}: {} bytes\n", bytes.len()))
        }
        _ => Err(not_understood()),
    }
}

fn hexadecimal(bytes: &[u8]) -> String {
    let words: Vec<String> = bytes.iter().map(|byte| format!("{byte:02x}")).collect();
    words.join(" ") + "\n"
}

#[cfg(test)]
pub mod scratch {
    use std::fs;

    /// A file that is removed when the test ends.
    pub struct Scratch(pub String);

    impl Scratch {
        pub fn holding(name: &str, content: &[u8]) -> Scratch {
            let name = format!("halyard-{}-{name}", std::process::id());
            let path = std::env::temp_dir().join(name);
            fs::write(&path, content).unwrap();
            Scratch(path.to_str().unwrap().to_string())
        }
    }

    impl Drop for Scratch {
        fn drop(&mut self) {
            fs::remove_file(&self.0).unwrap();
        }
    }
}
