//! Logs as text, an entry in each line: `0>1 17` is a lift of cassette 17 from shaft 0 to shaft 1, `1 top 4` a sighting of cassette 4 on top of shaft 1, `2 top 0`
//! one of an empty shaft, with `b` for a blank. What follows a `#` is a comment, and empty lines say nothing.

use crate::log::{Entry, LIFT, SIGHTING};
use crate::store::{BLANK, MOST_SHAFTS};
use crate::text::{self, BLANK_WORD};

/// The word between the shaft and the number of a sighting.
const TOP: &str = "top";

/// An entry as text. One that no text has, of another kind or a sighting with a second shaft, by its fields.
pub fn write(entry: Entry) -> String {
    let Entry {
        kind,
        shaft,
        second,
        number,
    } = entry;
    let word = text::write_cassette(number);
    match (kind, second) {
        (LIFT, _) => format!("{shaft}>{second} {word}"),
        (SIGHTING, 0) => format!("{shaft} {TOP} {word}"),
        _ => format!("kind {kind}, shaft {shaft}, second shaft {second}, number {word}"),
    }
}

/// The entries of a text, or in which line it is wrong, counted from 1, and how.
pub fn read(text: &str) -> Result<Vec<Entry>, String> {
    let mut entries = Vec::new();
    for (line, text) in (1..).zip(text.lines()) {
        let said = text.split('#').next().unwrap_or("").trim();
        if !said.is_empty() {
            let wrong = |wrong| format!("line {line}: {wrong}");
            entries.push(read_entry(said).map_err(wrong)?);
        }
    }
    Ok(entries)
}

fn read_entry(text: &str) -> Result<Entry, String> {
    let words: Vec<&str> = text.split_whitespace().collect();
    match words[..] {
        [shaft, TOP, top] => Ok(Entry::sighting(read_shaft(shaft)?, read_number(top)?)),
        [shafts, cassette] => {
            let (from, to) = shafts.split_once('>').ok_or_else(|| not_an_entry(text))?;
            let cassette = read_number(cassette)?;
            Ok(Entry::lift(read_shaft(from)?, read_shaft(to)?, cassette))
        }
        _ => Err(not_an_entry(text)),
    }
}

fn not_an_entry(text: &str) -> String {
    format!("not an entry like '0>1 17' or '1 {TOP} 4': {text}")
}

fn read_shaft(word: &str) -> Result<usize, String> {
    let most = MOST_SHAFTS - 1;
    read_up_to(word, most).ok_or_else(|| format!("not a shaft from 0 to {most}: {word}"))
}

/// Any number of 12 bits, or the word for a blank.
fn read_number(word: &str) -> Result<u16, String> {
    if word == BLANK_WORD {
        return Ok(BLANK);
    }
    let number = read_up_to(word, BLANK.into());
    let wrong = || format!("not a number from 0 to {BLANK}, nor {BLANK_WORD}: {word}");
    Ok(number.ok_or_else(wrong)? as u16)
}

fn read_up_to(word: &str, most: usize) -> Option<usize> {
    word.parse().ok().filter(|&value| value <= most)
}

#[cfg(test)]
mod tests {
    use super::*;

    #[test]
    fn there_and_back() {
        for (entry, text) in [
            (Entry::lift(0, 1, 17), "0>1 17"),
            (Entry::lift(15, 0, BLANK), "15>0 b"),
            (Entry::lift(3, 3, 0), "3>3 0"),
            (Entry::sighting(1, 4), "1 top 4"),
            (Entry::sighting(2, 0), "2 top 0"),
            (Entry::sighting(15, BLANK), "15 top b"),
            (Entry::sighting(0, 4094), "0 top 4094"),
        ] {
            assert_eq!(write(entry), text);
            assert_eq!(read(text), Ok(vec![entry]));
        }
        assert_eq!(read("0>1 4095"), read("0>1 b"));
    }

    #[test]
    fn comments_and_empty_lines() {
        let text = "# Monday\n\n  0>1 17   # the first\r\n\t\n1  top\tb#seen\n#2 top 0\n";
        let entries = [Entry::lift(0, 1, 17), Entry::sighting(1, BLANK)];
        assert_eq!(read(text), Ok(entries.to_vec()));
        for nothing in ["", "\n", "# 0>1 2"] {
            assert_eq!(read(nothing), Ok(vec![]), "{nothing:?}");
        }
    }

    #[test]
    fn entries_that_no_text_has() {
        let odd = |kind, second| Entry {
            kind,
            shaft: 1,
            second,
            number: BLANK,
        };
        let fields = "kind 2, shaft 1, second shaft 0, number b";
        assert_eq!(write(odd(2, 0)), fields);
        let fields = "kind 1, shaft 1, second shaft 3, number b";
        assert_eq!(write(odd(1, 3)), fields);
    }

    #[test]
    fn what_is_wrong_and_where() {
        let like = "not an entry like '0>1 17' or '1 top 4'";
        for (text, wrong) in [
            ("0>1", format!("line 1: {like}: 0>1")),
            ("\n0-1 17", format!("line 2: {like}: 0-1 17")),
            ("0>1 17 3", format!("line 1: {like}: 0>1 17 3")),
            ("0>1 17\n1 on 4", format!("line 2: {like}: 1 on 4")),
            ("top 4", format!("line 1: {like}: top 4")),
            ("0>16 17", "line 1: not a shaft from 0 to 15: 16".into()),
            ("16 top 4", "line 1: not a shaft from 0 to 15: 16".into()),
            ("0> 17", "line 1: not a shaft from 0 to 15: ".into()),
            ("-1>0 17", "line 1: not a shaft from 0 to 15: -1".into()),
            (
                "# one\n0>1 4096",
                "line 2: not a number from 0 to 4095, nor b: 4096".into(),
            ),
            (
                "1 top B",
                "line 1: not a number from 0 to 4095, nor b: B".into(),
            ),
        ] {
            assert_eq!(read(text), Err(wrong), "{text:?}");
        }
    }
}
