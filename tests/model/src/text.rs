//! Stores as text such as `3x2: [1 2] [b] [3 b]`: shafts, depth, and the cassettes of each shaft bottom first, with `b` for a blank. Where the depths are
//! unequal there is one for each shaft: `3x3,2,2: [1 2 3] [4] [5]`.
//! Lists as text such as the program `plan` prints.

use crate::play;
use crate::store::{BLANK, MOST_DEPTH, MOST_SHAFTS, NUMBERS, Store};

/// What a blank is called.
pub const BLANK_WORD: &str = "b";

/// The text of a store.
pub fn write(store: &Store) -> String {
    let shafts: Vec<String> = store
        .shafts
        .iter()
        .map(|shaft| write_shaft(shaft))
        .collect();
    let depths = write_depths(store);
    format!("{}x{depths}: {}", store.m(), shafts.join(" "))
}

/// The depth of all shafts, or, where they are unequal, that of each.
fn write_depths(store: &Store) -> String {
    let depths: Vec<String> = store.depths.iter().map(usize::to_string).collect();
    if store.equal_depths() {
        depths[0].clone()
    } else {
        depths.join(",")
    }
}

fn write_shaft(shaft: &[u16]) -> String {
    let cassettes: Vec<String> = shaft.iter().map(|&it| write_cassette(it)).collect();
    format!("[{}]", cassettes.join(" "))
}

/// A cassette's number, or the word for a blank.
pub fn write_cassette(cassette: u16) -> String {
    match cassette {
        BLANK => BLANK_WORD.into(),
        _ => cassette.to_string(),
    }
}

/// The store of a text, or what is wrong with it.
pub fn read(text: &str) -> Result<Store, String> {
    let (shape, shafts) = text.split_once(':').ok_or("no ':' after the shape")?;
    let (m, depths) = shape
        .split_once('x')
        .ok_or("the shape is not like 3x2 or 3x3,2,2")?;
    let m = number(m, 1, MOST_SHAFTS)?;
    let store = Store {
        depths: read_depths(depths, m)?,
        shafts: read_shafts(shafts)?,
    };
    check(&store)?;
    Ok(store)
}

/// One depth for all of `m` shafts, or one for each.
fn read_depths(text: &str, m: usize) -> Result<Vec<usize>, String> {
    let depth = |word| number(word, 1, MOST_DEPTH);
    let depths: Vec<usize> = text.split(',').map(depth).collect::<Result<_, _>>()?;
    match depths[..] {
        [depth] => Ok(vec![depth; m]),
        _ if depths.len() == m => Ok(depths),
        _ => Err(format!(
            "one depth or {m} depths are due, there are {}",
            depths.len()
        )),
    }
}

fn read_shafts(mut text: &str) -> Result<Vec<Vec<u16>>, String> {
    let mut shafts = Vec::new();
    loop {
        text = text.trim_start();
        if text.is_empty() {
            return Ok(shafts);
        }
        let (shaft, rest) = text
            .strip_prefix('[')
            .and_then(|text| text.split_once(']'))
            .ok_or_else(|| format!("not a shaft like [1 2]: {text}"))?;
        shafts.push(read_shaft(shaft)?);
        text = rest;
    }
}

fn read_shaft(text: &str) -> Result<Vec<u16>, String> {
    text.split_whitespace().map(read_cassette).collect()
}

/// A cassette's number, also where it is the blank's, or the word for a blank.
fn read_cassette(word: &str) -> Result<u16, String> {
    match word {
        BLANK_WORD => Ok(BLANK),
        _ => Ok(number(word, 1, NUMBERS)? as u16),
    }
}

fn number(word: &str, least: usize, most: usize) -> Result<usize, String> {
    word.trim()
        .parse()
        .ok()
        .filter(|value| (least..=most).contains(value))
        .ok_or_else(|| format!("not a number from {least} to {most}: {}", word.trim()))
}

/// The store has as many shafts as depths, none higher than its depth, and no cassette twice but blanks.
fn check(store: &Store) -> Result<(), String> {
    let (due, there) = (store.depths.len(), store.m());
    if due != there {
        return Err(format!("{due} shafts are due, there are {there}"));
    }
    let too_high = |&shaft: &usize| store.shafts[shaft].len() > store.depths[shaft];
    if let Some(shaft) = (0..store.m()).find(too_high) {
        let depth = store.depths[shaft];
        return Err(format!("shaft {shaft} is higher than its depth, {depth}"));
    }
    let twice = |two: &&[u16]| two[0] == two[1] && two[0] != BLANK;
    match store.sorted().windows(2).find(twice) {
        Some(two) => Err(format!("cassette {} stands twice", two[0])),
        None => Ok(()),
    }
}

/// A lift as `S>D`.
pub fn write_lift(lift: u8) -> String {
    let (left, entered) = play::shafts_of(lift);
    format!("{left}>{entered}")
}

/// The list that the program `plan` printed: a line `lifts N`, then N lines `S>D`.
pub fn read_list(text: &str) -> Result<Vec<u8>, String> {
    let mut lines = text.lines();
    let first = lines.next().unwrap_or("");
    let count = first
        .strip_prefix("lifts ")
        .and_then(|count| count.parse::<usize>().ok())
        .ok_or_else(|| format!("the first line is not like 'lifts 3': {first}"))?;
    let list: Vec<u8> = lines.map(read_lift).collect::<Result<_, _>>()?;
    if list.len() == count {
        Ok(list)
    } else {
        Err(format!("{count} lifts are due, there are {}", list.len()))
    }
}

fn read_lift(line: &str) -> Result<u8, String> {
    let shafts = line
        .split_once('>')
        .ok_or_else(|| format!("not a lift like 0>2: {line}"))?;
    let left = number(shafts.0, 0, MOST_SHAFTS - 1)?;
    let entered = number(shafts.1, 0, MOST_SHAFTS - 1)?;
    Ok(play::lift_byte(left, entered))
}

#[cfg(test)]
mod tests {
    use super::*;

    #[test]
    fn there_and_back() {
        for text in [
            "3x2: [1 2] [] [3]",
            "1x1: []",
            "2x16: [b] [16 4 9]",
            "2x3: [b 1 b] [b b]",
            "3x3,2,2: [1 2 3] [4] [5]",
            "2x1,16: [] [1 2 3]",
            "2x3: [254 255 256] [4094 b]",
        ] {
            assert_eq!(write(&read(text).unwrap()), text);
        }
        let spaced = read(" 2 x 3 :[ 1  2 ][3]").unwrap();
        assert_eq!(write(&spaced), "2x3: [1 2] [3]");
    }

    #[test]
    fn depths_by_shaft() {
        let unequal = read("3x3,2,2: [1 2 3] [4] []").unwrap();
        assert_eq!(unequal.depths, [3, 2, 2]);
        assert_eq!(unequal.shafts, [vec![1, 2, 3], vec![4], vec![]]);
        let spaced = read("3x 3, 2 ,2:[1 2 3][4][]").unwrap();
        assert_eq!(spaced, unequal);
        for text in ["3x2,2,2: [1 2] [] [3]", "3x2: [1 2] [] [3]"] {
            let equal = read(text).unwrap();
            assert_eq!(equal.depths, [2, 2, 2]);
            assert_eq!(write(&equal), "3x2: [1 2] [] [3]");
        }
    }

    #[test]
    fn what_is_wrong_with_depths() {
        for (text, wrong) in [
            (
                "3x3,2: [] [] []",
                "one depth or 3 depths are due, there are 2",
            ),
            (
                "3x3,2,2,1: [] [] []",
                "one depth or 3 depths are due, there are 4",
            ),
            ("1x3,2: []", "one depth or 1 depths are due, there are 2"),
            ("3x3,0,2: [] [] []", "not a number from 1 to 16: 0"),
            ("3x3,2,17: [] [] []", "not a number from 1 to 16: 17"),
            ("3x0: [] [] []", "not a number from 1 to 16: 0"),
            ("3x3,,2: [] [] []", "not a number from 1 to 16: "),
            ("3x3,2,2: [] []", "3 shafts are due, there are 2"),
            (
                "3x3,2,2: [] [1 2 3] []",
                "shaft 1 is higher than its depth, 2",
            ),
            (
                "3x2,2,1: [1 2] [] [3 4]",
                "shaft 2 is higher than its depth, 1",
            ),
            ("2x1: [1 2] []", "shaft 0 is higher than its depth, 1"),
        ] {
            assert_eq!(read(text), Err(wrong.into()), "{text}");
        }
    }

    #[test]
    fn a_blank_by_its_number() {
        let blanks = read(&format!("2x2: [1 {BLANK}] [{BLANK}]")).unwrap();
        assert_eq!(blanks.shafts, [vec![1, BLANK], vec![BLANK]]);
        assert_eq!(write(&blanks), "2x2: [1 b] [b]");
        let before = BLANK - 1;
        assert!(read(&format!("2x2: [1 {before}] [b]")).is_ok());
        assert!(read(&format!("2x2: [1 {before}] [{before}]")).is_err());
    }

    #[test]
    fn wrong_texts() {
        for text in [
            "",
            "3x2",
            "3: [] [] []",
            "3x2: [] []",
            "2x2: [] [] []",
            "0x2:",
            "1x17: []",
            "2x1: [1 2] []",
            "2x2: [1] [1]",
            "2x2: [1 b] [b 1]",
            "2x2: [bb] []",
            "2x2: [B] []",
            "2x2: [0] []",
            "2x2: [4096] []",
            "2x2: [255] [255]",
            "2x2: [4094] [4094]",
            "2x2: [1 []",
            "2x2: [1] [2] 3",
        ] {
            assert!(read(text).is_err(), "{text}");
        }
    }

    #[test]
    fn printed_lists() {
        assert_eq!(read_list("lifts 2\n0>2\n15>1\n"), Ok(vec![0x02, 0xF1]));
        assert_eq!(read_list("lifts 0\n"), Ok(vec![]));
        for text in [
            "",
            "refused 15 both\n",
            "lifts 1\n",
            "lifts 0\n0>1\n",
            "lifts 1\n0-1\n",
            "lifts 1\n16>0\n",
        ] {
            assert!(read_list(text).is_err(), "{text}");
        }
    }
}
