//! How deep cassettes are buried, for a person to see.

use crate::commands::{Said, meaning};
use crate::draw;
use halyard_model::Store;
use halyard_model::store::BLANK;
use halyard_model::text::{self, BLANK_WORD};
use halyard_model::uncover::{self, Place};

/// The store with the cassettes named, and a line for each of them.
pub fn run(store: &Store, words: &[&str]) -> Result<Said, String> {
    let named = words
        .iter()
        .map(|word| cassette(word))
        .collect::<Result<Vec<u16>, _>>()?;
    let marked: Vec<Place> = named.iter().flat_map(|&it| marked(store, it)).collect();
    let lines: String = named.iter().map(|&it| line(store, it)).collect();
    let fails = |it: &&u16| uncover::uncover(store, **it).is_err();
    let failed = named.iter().filter(fails).count();
    Ok(Said {
        text: format!("{}\n{lines}", draw::store(store, &marked)),
        wrong: (failed > 0).then(|| format!("{failed} of {} orders fail", named.len())),
    })
}

fn cassette(word: &str) -> Result<u16, String> {
    if word == BLANK_WORD {
        return Ok(BLANK);
    }
    let wrong = |_| format!("'{word}' is no number from 0 to 65535, nor {BLANK_WORD}");
    word.parse().map_err(wrong)
}

/// The place that a number is nearest in, or all its places where it can't be uncovered.
fn marked(store: &Store, cassette: u16) -> Vec<Place> {
    match uncover::nearest(store, cassette) {
        Some(place) => vec![place],
        None => uncover::places(store, cassette).collect(),
    }
}

/// A cassette and its answer: what is to be lifted away, from the top down, or why that can't be.
fn line(store: &Store, cassette: u16) -> String {
    let answer = match uncover::uncover(store, cassette) {
        Ok(0) => "on top".into(),
        Ok(1) => format!("1 lift, of {}", above(store, cassette)),
        Ok(lifts) => format!("{lifts} lifts, of {}", above(store, cassette)),
        Err(17) => format!("17, {}: {}", meaning(17), no_room(store, cassette)),
        Err(number) => format!("{number}, {}", meaning(number)),
    };
    let count = uncover::places(store, cassette).count();
    let nearest = uncover::nearest(store, cassette).filter(|_| count > 1);
    let which = nearest.map_or(String::new(), |_| format!(", the nearest of {count}"));
    format!("{:>5}: {answer}{which}\n", text::write_cassette(cassette))
}

/// What stands on a cassette, from the top down.
fn above(store: &Store, cassette: u16) -> String {
    let (shaft, row) = uncover::nearest(store, cassette).expect("one that can be uncovered");
    let words: Vec<String> = store.shafts[shaft][row..]
        .iter()
        .rev()
        .map(|&it| text::write_cassette(it))
        .collect();
    words.join(", ")
}

/// How many stand on a cassette, and how many the other shafts have room for; of a number that stands more than once, under which rows.
fn no_room(store: &Store, cassette: u16) -> String {
    let places: Vec<Place> = uncover::places(store, cassette).collect();
    let [place] = places[..] else {
        return format!(
            "all {} are below {}",
            places.len(),
            lowest_rows(store, &places)
        );
    };
    let above = uncover::above(store, place);
    let elsewhere = store.e() - store.room(place.0);
    match store.m() {
        1 => format!("{above} on it, and no other shaft"),
        _ => format!("{above} on it, and room for {elsewhere} on the other shafts"),
    }
}

/// The lowest row that can be uncovered in the shafts of these places, or, where they differ, that of each shaft.
fn lowest_rows(store: &Store, places: &[Place]) -> String {
    let mut shafts: Vec<usize> = places.iter().map(|&(shaft, _)| shaft).collect();
    shafts.dedup();
    let lowest = store.floor(shafts[0]);
    if shafts.iter().all(|&shaft| store.floor(shaft) == lowest) {
        return format!("row {lowest}");
    }
    let row = |&shaft: &usize| format!("row {} of shaft {shaft}", store.floor(shaft));
    let rows: Vec<String> = shafts.iter().map(row).collect();
    rows.join(", ")
}

#[cfg(test)]
mod tests {
    use super::*;
    use halyard_model::text;

    #[test]
    fn what_a_person_sees() {
        let store = text::read("3x4: [1 4 5 6] [2 7 8] [3 9 10]").unwrap();
        let said = run(&store, &["10", "7", "4", "1", "11", "0", "65535"]).unwrap();
        let shown = "\
row  4 |    6 |      |      |
row  3 |    5 |    8 |  *10 |
row  2 |   *4 |   *7 |    9 |
row  1 |   *1 |    2 |    3 |
       +------+------+------+
shaft       0      1      2

   10: on top
    7: 1 lift, of 8
    4: 2 lifts, of 6, 5
    1: 17, no list of lifts uncovers it: 3 on it, and room for 2 on the other shafts
   11: 16, it is not in the store
    0: 16, it is not in the store
65535: 16, it is not in the store
";
        assert_eq!(said.text, shown);
        assert_eq!(said.wrong.as_deref(), Some("4 of 7 orders fail"));
    }

    /// Four digits, with a star and without, stay in their columns.
    #[test]
    fn numbers_of_four_digits() {
        let store = text::read("2x3: [255 4094 b] [1000 1]").unwrap();
        let said = run(&store, &["4094", "1000", "255", "4093"]).unwrap();
        let shown = format!(
            "\
row  3 |    b |      |
row  2 |*4094 |    1 |
row  1 | *255 |*1000 |
       +------+------+
shaft       0      1
b is a blank, cassette number {BLANK}

 4094: 1 lift, of b
 1000: 17, no list of lifts uncovers it: 1 on it, and room for 0 on the other shafts
  255: 17, no list of lifts uncovers it: 2 on it, and room for 1 on the other shafts
 4093: 16, it is not in the store
"
        );
        assert_eq!(said.text, shown);
    }

    /// Only the nearest blank is marked, and what stands on it named.
    #[test]
    fn the_nearest_blank() {
        let store = text::read("3x4: [b 1 2] [3 b 4] [b b]").unwrap();
        let said = run(&store, &["b", &BLANK.to_string(), "4"]).unwrap();
        let shown = format!(
            "\
row  4 |      |      |      |
row  3 |    2 |   *4 |      |
row  2 |    1 |    b |   *b |
row  1 |    b |    3 |    b |
       +------+------+------+
shaft       0      1      2
b is a blank, cassette number {BLANK}

    b: on top, the nearest of 4
    b: on top, the nearest of 4
    4: on top
"
        );
        assert_eq!(said.text, shown);
        assert_eq!(said.wrong, None);
        let store = text::read("3x4: [b b 2] [3 b 4 5] []").unwrap();
        let said = run(&store, &["b", "3"]).unwrap();
        assert!(
            said.text
                .ends_with("\n    b: 1 lift, of 2, the nearest of 3\n    3: 3 lifts, of 5, 4, b\n")
        );
    }

    /// Two blanks under the rows that can be uncovered; one alone, as any cassette; and none.
    #[test]
    fn blanks_that_stay_covered() {
        for (store, line) in [
            ("3x2: [b 1] [b 2] [3 4]", "all 2 are below row 2"),
            (
                "3x2: [b 1] [5 2] [3 4]",
                "1 on it, and room for 0 on the other shafts",
            ),
        ] {
            let said = run(&text::read(store).unwrap(), &["b"]).unwrap();
            let wanted = format!("\n    b: 17, no list of lifts uncovers it: {line}\n");
            assert!(said.text.ends_with(&wanted), "{}", said.text);
            assert_eq!(said.text.matches('*').count(), store.matches('b').count());
            assert!(said.wrong.is_some());
        }
        let said = run(&text::read("1x1: [1]").unwrap(), &["b"]).unwrap();
        assert!(said.text.ends_with("\n    b: 16, it is not in the store\n"));
    }

    /// With two empty slots row 2 of the shaft of depth 4 is the lowest to be uncovered, row 3 of the one of depth 5, and any of the others.
    #[test]
    fn shafts_of_unequal_depth() {
        let store = text::read("4x4,5,2,1: [1 2 3 4] [b 6 b 7] [8 9] []").unwrap();
        let said = run(&store, &["1", "2", "8", "b"]).unwrap();
        let shown = format!(
            "\
row  5 |######|      |######|######|
row  4 |    4 |    7 |######|######|
row  3 |    3 |   *b |######|######|
row  2 |   *2 |    6 |    9 |######|
row  1 |   *1 |    b |   *8 |      |
       +------+------+------+------+
shaft       0      1      2      3
b is a blank, cassette number {BLANK}
###### is no slot: the shaft ends below

    1: 17, no list of lifts uncovers it: 3 on it, and room for 2 on the other shafts
    2: 2 lifts, of 4, 3
    8: 1 lift, of 9
    b: 1 lift, of 7, the nearest of 2
"
        );
        assert_eq!(said.text, shown);
        assert_eq!(said.wrong.as_deref(), Some("1 of 4 orders fail"));
    }

    /// Blanks in two shafts with other floors, and in two shafts with the same one beside a shorter one.
    #[test]
    fn blanks_below_the_floors_of_their_shafts() {
        for (store, rows) in [
            (
                "3x3,4,1: [b 1 2] [b b 3 4] []",
                "all 3 are below row 2 of shaft 0, row 3 of shaft 1",
            ),
            ("3x3,3,1: [b 1 2] [b 3 4] []", "all 2 are below row 2"),
        ] {
            let said = run(&text::read(store).unwrap(), &["b"]).unwrap();
            let wanted = format!("\n    b: 17, no list of lifts uncovers it: {rows}\n");
            assert!(said.text.ends_with(&wanted), "{}", said.text);
        }
    }

    #[test]
    fn one_shaft() {
        let said = run(&text::read("1x3: [1 2]").unwrap(), &["1"]).unwrap();
        let line = "    1: 17, no list of lifts uncovers it: 1 on it, and no other shaft\n";
        assert!(said.text.ends_with(line), "{}", said.text);
    }

    #[test]
    fn words_that_are_no_cassette() {
        let store = text::read("1x1: [1]").unwrap();
        for word in ["", "x", "-1", "65536", "1.5", "B", "bb"] {
            assert!(run(&store, &[word]).is_err(), "{word}");
        }
    }
}
