//! The changer's log followed on a store, for a person to see.

use crate::commands::{Said, meaning};
use crate::draw;
use crate::played::named;
use halyard_model::log::{self, ENTRY_BYTES, Entry, LIFT};
use halyard_model::text;
use halyard_model::{Store, log_text};

/// A line for each entry that is true and for the first that can't be, and the store there.
pub fn run(start: &Store, log: &[u8]) -> Said {
    match log::entries(log) {
        Some(entries) => entries_followed(start, &entries),
        None => wrong_length(start, log.len()),
    }
}

fn entries_followed(start: &Store, entries: &[Entry]) -> Said {
    let end = log::follow_entries(start, entries);
    let mut store = start.clone();
    let mut lines = String::new();
    for (place, &entry) in entries[..end.count].iter().enumerate() {
        log::apply(&mut store, entry);
        lines += &line(entry, place, &true_entry(&store, entry));
    }
    let count = entries.len();
    if end.number == 0 {
        let head = match count {
            1 => "after 1 entry, which is true".to_string(),
            _ => format!("after {count} entries, all true"),
        };
        return Said {
            text: parts(&lines, &head, &end.store),
            wrong: None,
        };
    }
    let (place, entry) = (end.count, entries[end.count]);
    let why = format!("{}, {}", end.number, reason(end.number));
    let shows = shows(&store, entry).map_or(String::new(), |it| format!(": {it}"));
    lines += &line(entry, place, &format!("can't be true: {why}{shows}"));
    Said {
        text: parts(&lines, &format!("before entry {place}"), &end.store),
        wrong: Some(format!(
            "entry {place}, counted from 0, of {count} can't be true: {why}"
        )),
    }
}

/// No entry is looked at.
fn wrong_length(start: &Store, length: usize) -> Said {
    let why = format!("19, its length, {length}, is no multiple of {ENTRY_BYTES}");
    Said {
        text: parts("", "as it came", start),
        wrong: Some(format!("the log can't be followed: {why}")),
    }
}

/// The lines, if there are any, and the store drawn under a head.
fn parts(lines: &str, head: &str, store: &Store) -> String {
    let drawn = draw::store(store, &[]);
    let gap = if lines.is_empty() { "" } else { "\n" };
    format!("{lines}{gap}{head}\n{drawn}")
}

/// An entry as a text of a log has it, where a text has such entries, and what there is to say as a comment, so that the line can be copied into one.
fn line(entry: Entry, place: usize, said: &str) -> String {
    format!("{:<12} # {place}: {said}\n", log_text::write(entry))
}

/// What a true entry says, and of a lift the row it landed in, in the store after it.
fn true_entry(store: &Store, entry: Entry) -> String {
    let (shaft, other) = (entry.first(), entry.other());
    let named = named(entry.number);
    match (entry.kind, entry.number) {
        (LIFT, _) => {
            let row = store.shafts[other].len();
            format!("{named} from shaft {shaft} to shaft {other}, row {row}")
        }
        (_, 0) => format!("shaft {shaft} is empty"),
        _ => format!("{named} is on top of shaft {shaft}"),
    }
}

/// What a number says of an entry.
fn reason(number: u8) -> &'static str {
    match number {
        19 => {
            "a kind above 1, a shaft that is not there, a sighting with a second shaft, or a lift with one shaft twice"
        }
        _ => meaning(number),
    }
}

/// What the store shows for the shafts of an entry, those that are there.
fn shows(store: &Store, entry: Entry) -> Option<String> {
    let mut shafts = vec![entry.first()];
    if entry.kind == LIFT && entry.other() != entry.first() {
        shafts.push(entry.other());
    }
    shafts.retain(|&shaft| shaft < store.m());
    let words: Vec<String> = shafts.iter().map(|&it| shaft_shows(store, it)).collect();
    (!words.is_empty()).then(|| words.join(", "))
}

fn shaft_shows(store: &Store, shaft: usize) -> String {
    let full = if store.room(shaft) == 0 {
        " and is full"
    } else {
        ""
    };
    match log::shown(store, shaft) {
        0 => format!("shaft {shaft} is empty"),
        top => format!(
            "shaft {shaft} has {} on top{full}",
            text::write_cassette(top)
        ),
    }
}

#[cfg(test)]
mod tests {
    use super::*;
    use halyard_model::store::BLANK;

    fn store(text: &str) -> Store {
        text::read(text).unwrap()
    }

    fn packed(text: &str) -> Vec<u8> {
        log::pack(&log_text::read(text).unwrap())
    }

    #[test]
    fn a_true_log() {
        let start = store("3x2: [1 b] [] [3]");
        let log = packed("0>1 b\n1 top b\n0>2 1\n0 top 0\n");
        let shown = format!(
            "\
0>1 b        # 0: a blank from shaft 0 to shaft 1, row 1
1 top b      # 1: a blank is on top of shaft 1
0>2 1        # 2: 1 from shaft 0 to shaft 2, row 2
0 top 0      # 3: shaft 0 is empty

after 4 entries, all true
row  2 |      |      |    1 |
row  1 |      |    b |    3 |
       +------+------+------+
shaft       0      1      2
b is a blank, cassette number {BLANK}
"
        );
        assert_eq!(run(&start, &log), Said::from(shown));
    }

    /// The lines are a text of the same log, up to the entry that can't be true.
    #[test]
    fn lines_can_be_copied() {
        let start = store("3x3,2,2: [1 255 4094] [300] [b]");
        let text = "0 top 4094\n0>1 4094\n2>0 b\n2 top 0\n0>1 b\n0 top 1\n";
        let log = packed(text);
        let said = run(&start, &log);
        let lines: Vec<&str> = said.text.lines().take(5).collect();
        assert_eq!(packed(&lines.join("\n")), log[..15]);
        assert!(said.wrong.is_some());
    }

    /// Each number, with what the store shows where the log is wrong, and the store before that entry.
    #[test]
    fn the_first_entry_that_can_not_be_true() {
        let start = store("3x2,2,1: [1 2] [] [3]");
        for (entry, said) in [
            (
                "0 top 1",
                "20, the number is not the one that the store shows: shaft 0 has 2 on top and is full",
            ),
            (
                "1 top 4",
                "20, the number is not the one that the store shows: shaft 1 is empty",
            ),
            (
                "2>1 b",
                "20, the number is not the one that the store shows: shaft 2 has 3 on top and is full, shaft 1 is empty",
            ),
            (
                "1>0 2",
                "13, the shaft left is empty: shaft 1 is empty, shaft 0 has 2 on top and is full",
            ),
            (
                "0>2 2",
                "14, the shaft entered is full, by its own depth: \
                 shaft 0 has 2 on top and is full, shaft 2 has 3 on top and is full",
            ),
        ] {
            let log = packed(&format!("2 top 3\n{entry}\n0>1 2\n"));
            let followed = run(&start, &log);
            let line = format!("{entry:<12} # 1: can't be true: {said}");
            let lines: Vec<&str> = followed.text.lines().collect();
            assert_eq!(
                lines[..2],
                ["2 top 3      # 0: 3 is on top of shaft 2", &line]
            );
            assert_eq!(lines[2..4], ["", "before entry 1"]);
            let drawn = draw::store(&start, &[]);
            assert!(followed.text.ends_with(&drawn), "{}", followed.text);
            let (why, _) = said.split_once(": ").unwrap();
            let wrong = format!("entry 1, counted from 0, of 3 can't be true: {why}");
            assert_eq!(followed.wrong, Some(wrong));
        }
    }

    /// Entries that no text has are told by their fields; a shaft that is not there shows nothing.
    #[test]
    fn malformed_entries() {
        let start = store("2x2: [1] []");
        let why = "19, a kind above 1, a shaft that is not there, a sighting with a second shaft, \
                   or a lift with one shaft twice";
        for (bytes, line) in [
            (
                [0x20, 0x10, 0x01],
                format!(
                    "kind 2, shaft 0, second shaft 1, number 1 # 0: can't be true: {why}: shaft 0 has 1 on top"
                ),
            ),
            (
                [0x11, 0x10, 0x00],
                format!(
                    "kind 1, shaft 1, second shaft 1, number 0 # 0: can't be true: {why}: shaft 1 is empty"
                ),
            ),
            (
                [0x05, 0x50, 0x01],
                format!("5>5 1        # 0: can't be true: {why}"),
            ),
            (
                [0x00, 0x00, 0x01],
                format!("0>0 1        # 0: can't be true: {why}: shaft 0 has 1 on top"),
            ),
        ] {
            let said = run(&start, &bytes);
            assert_eq!(said.text.lines().next(), Some(&line[..]));
            assert!(said.text.contains("\n\nbefore entry 0\n"));
            let wrong = format!("entry 0, counted from 0, of 1 can't be true: {why}");
            assert_eq!(said.wrong, Some(wrong));
        }
    }

    /// The store as it came, whatever the entries say.
    #[test]
    fn a_wrong_length_and_an_empty_log() {
        let start = store("2x2: [1] []");
        let drawn = draw::store(&start, &[]);
        for length in [1, 2, 4, 5] {
            let said = run(&start, &packed("0>1 1\n1>0 1\n")[..length]);
            assert_eq!(said.text, format!("as it came\n{drawn}"));
            let why = format!("19, its length, {length}, is no multiple of 3");
            let wrong = format!("the log can't be followed: {why}");
            assert_eq!(said.wrong, Some(wrong));
        }
        let said = run(&start, &[]);
        assert_eq!(said.text, format!("after 0 entries, all true\n{drawn}"));
        assert_eq!(said.wrong, None);
    }
}
