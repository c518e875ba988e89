//! The changer's log: its entries as packed bits, and the store that following it gives (document 02, 9/13).

use crate::image::{self, Field};
use crate::store::Store;

/// The bytes of an entry.
pub const ENTRY_BYTES: usize = 3;

/// The kind of a lift, and that of a sighting. There are no others.
pub const LIFT: u8 = 0;
pub const SIGHTING: u8 = 1;

/// An entry as its four fields, which may be any bits.
#[derive(Clone, Copy, Debug, PartialEq, Eq)]
pub struct Entry {
    pub kind: u8,
    pub shaft: u8,
    pub second: u8,
    pub number: u16,
}

impl Entry {
    /// A lift of a cassette from one shaft to another.
    pub fn lift(from: usize, to: usize, cassette: u16) -> Entry {
        Entry {
            kind: LIFT,
            shaft: from as u8,
            second: to as u8,
            number: cassette,
        }
    }

    /// A sighting of a cassette on top of a shaft, or with 0 of an empty shaft.
    pub fn sighting(shaft: usize, top: u16) -> Entry {
        Entry {
            kind: SIGHTING,
            shaft: shaft as u8,
            second: 0,
            number: top,
        }
    }

    /// The first shaft.
    pub fn first(self) -> usize {
        self.shaft.into()
    }

    /// The second shaft.
    pub fn other(self) -> usize {
        self.second.into()
    }

    fn fields(self) -> [Field; 4] {
        let field = |width, value| Field { width, value };
        [
            field(4, self.kind.into()),
            field(4, self.first()),
            field(4, self.other()),
            field(12, self.number.into()),
        ]
    }
}

/// The bytes of a log.
pub fn pack(entries: &[Entry]) -> Vec<u8> {
    let fields: Vec<Field> = entries.iter().flat_map(|entry| entry.fields()).collect();
    image::pack(&fields)
}

/// The entry of three bytes.
pub fn unpack(bytes: [u8; ENTRY_BYTES]) -> Entry {
    let [first, second, last] = bytes;
    Entry {
        kind: first / 16,
        shaft: first % 16,
        second: second / 16,
        number: u16::from(second % 16) * 256 + u16::from(last),
    }
}

/// The entries of a log, or None where its length is no multiple of 3.
pub fn entries(log: &[u8]) -> Option<Vec<Entry>> {
    let (entries, rest) = log.as_chunks();
    rest.is_empty()
        .then(|| entries.iter().copied().map(unpack).collect())
}

/// The number that a store shows for a shaft: its top cassette, or 0 where it is empty.
pub fn shown(store: &Store, shaft: usize) -> u16 {
    store.shafts[shaft].last().copied().unwrap_or(0)
}

/// An entry is a 19: a kind above 1, a shaft that is not there, a sighting with a second shaft, or a lift with one shaft twice.
fn malformed(store: &Store, entry: Entry) -> bool {
    let there = entry.first() < store.m() && entry.other() < store.m();
    let shafts = match entry.kind {
        LIFT => entry.shaft != entry.second,
        SIGHTING => entry.second == 0,
        _ => false,
    };
    !(there && shafts)
}

/// Why an entry can't be true of a store: 19, then for a lift 13 and 14, then 20.
pub fn fault(store: &Store, entry: Entry) -> Option<u8> {
    if malformed(store, entry) {
        return Some(19);
    }
    if entry.kind == LIFT {
        if store.shafts[entry.first()].is_empty() {
            return Some(13);
        }
        if store.room(entry.other()) == 0 {
            return Some(14);
        }
    }
    (entry.number != shown(store, entry.first())).then_some(20)
}

/// Does what an entry says that can be true: a sighting changes nothing.
pub fn apply(store: &mut Store, entry: Entry) {
    if entry.kind == LIFT {
        let cassette = store.shafts[entry.first()].pop().expect("a true lift");
        store.shafts[entry.other()].push(cassette);
    }
}

/// What following a log gives: the store after it, the count of entries and 0; or the store before the first entry that can't be true, its place from 0
/// and its number.
#[derive(Debug, PartialEq, Eq)]
pub struct Followed {
    pub store: Store,
    pub count: usize,
    pub number: u8,
}

/// Follows a log. A wrong length is tested before any entry.
pub fn follow(start: &Store, log: &[u8]) -> Followed {
    match entries(log) {
        Some(entries) => follow_entries(start, &entries),
        None => Followed {
            store: start.clone(),
            count: 0,
            number: 19,
        },
    }
}

/// Follows the entries of a log.
pub fn follow_entries(start: &Store, entries: &[Entry]) -> Followed {
    let mut store = start.clone();
    for (count, &entry) in entries.iter().enumerate() {
        if let Some(number) = fault(&store, entry) {
            return Followed {
                store,
                count,
                number,
            };
        }
        apply(&mut store, entry);
    }
    Followed {
        store,
        count: entries.len(),
        number: 0,
    }
}

#[cfg(test)]
mod tests {
    use super::*;
    use crate::store::BLANK;
    use crate::{Random, play, text};

    fn store(text: &str) -> Store {
        text::read(text).unwrap()
    }

    /// Bytes packed by hand: a lift of 300 from shaft 2 to shaft 15, and a sighting of a blank on shaft 3.
    #[test]
    fn entries_by_hand() {
        let log = [
            (Entry::lift(2, 15, 300), [0x02, 0xF1, 0x2C]),
            (Entry::sighting(3, BLANK), [0x13, 0x0F, 0xFF]),
            (Entry::sighting(0, 0), [0x10, 0x00, 0x00]),
            (Entry::lift(0, 1, 255), [0x00, 0x10, 0xFF]),
        ];
        for (entry, bytes) in log {
            assert_eq!(pack(&[entry]), bytes);
            assert_eq!(unpack(bytes), entry);
        }
        let all: Vec<Entry> = log.iter().map(|it| it.0).collect();
        let bytes: Vec<u8> = log.iter().flat_map(|it| it.1).collect();
        assert_eq!(pack(&all), bytes);
        assert_eq!(entries(&bytes), Some(all));
    }

    /// Any three bytes are an entry, which packs to them.
    #[test]
    fn there_and_back() {
        let mut random = Random::new(9);
        for _ in 0..2_000 {
            let count = random.below(9);
            let bytes = random.bytes(count * ENTRY_BYTES);
            let read = entries(&bytes).unwrap();
            assert_eq!((read.len(), pack(&read)), (count, bytes));
        }
        for length in [1, 2, 4, 5, 3_001] {
            assert_eq!(entries(&vec![0; length]), None, "{length}");
        }
    }

    /// Each reason for 19, whatever the number.
    #[test]
    fn malformed_entries() {
        let store = store("3x2: [1 2] [] [3]");
        let entry = |kind, shaft, second, number| Entry {
            kind,
            shaft,
            second,
            number,
        };
        for number in [0, 2, 3] {
            for (kind, shaft, second) in [
                (2, 0, 1),
                (2, 0, 0),
                (15, 0, 0),
                (0, 3, 1),
                (0, 0, 3),
                (0, 15, 15),
                (0, 0, 0),
                (0, 1, 1),
                (1, 3, 0),
                (1, 15, 0),
                (1, 0, 1),
                (1, 1, 15),
            ] {
                let entry = entry(kind, shaft, second, number);
                assert_eq!(fault(&store, entry), Some(19), "{entry:?}");
            }
        }
        assert_eq!(fault(&store, Entry::sighting(2, 3)), None);
        assert_eq!(fault(&store, Entry::lift(2, 0, 3)), Some(14));
        assert_eq!(fault(&store, Entry::lift(2, 1, 3)), None);
    }

    /// 13, then 14 by the shaft's own depth, then 20.
    #[test]
    fn faults_in_their_order() {
        let store = store("4x2,3,1,1: [1 2] [] [3] []");
        for (entry, fault) in [
            (Entry::lift(1, 0, 2), 13),
            (Entry::lift(1, 2, 0), 13),
            (Entry::lift(3, 1, 7), 13),
            (Entry::lift(0, 2, 2), 14),
            (Entry::lift(0, 2, 7), 14),
            (Entry::lift(2, 0, 0), 14),
            (Entry::lift(0, 1, 1), 20),
            (Entry::lift(0, 1, 0), 20),
            (Entry::lift(0, 3, 3), 20),
            (Entry::sighting(0, 1), 20),
            (Entry::sighting(0, 0), 20),
            (Entry::sighting(1, 1), 20),
        ] {
            assert_eq!(super::fault(&store, entry), Some(fault), "{entry:?}");
        }
        for entry in [
            Entry::lift(0, 1, 2),
            Entry::lift(0, 3, 2),
            Entry::lift(2, 3, 3),
            Entry::sighting(0, 2),
            Entry::sighting(1, 0),
            Entry::sighting(2, 3),
        ] {
            assert_eq!(super::fault(&store, entry), None, "{entry:?}");
        }
    }

    #[test]
    fn a_true_log_and_a_false_one() {
        let start = store("3x2: [1 b] [] [3]");
        let mut log = vec![
            Entry::lift(0, 1, BLANK),
            Entry::sighting(1, BLANK),
            Entry::lift(0, 2, 1),
            Entry::sighting(0, 0),
        ];
        let end = store("3x2: [] [b] [3 1]");
        let whole = follow(&start, &pack(&log));
        assert_eq!((whole.count, whole.number), (4, 0));
        assert_eq!(whole.store, end);
        log.extend([Entry::lift(1, 2, BLANK), Entry::lift(1, 0, BLANK)]);
        let stopped = follow(&start, &pack(&log));
        assert_eq!((stopped.count, stopped.number), (4, 14));
        assert_eq!(stopped.store, end);
        log[1].number = 255;
        let stopped = follow(&start, &pack(&log));
        assert_eq!((stopped.count, stopped.number), (1, 20));
        assert_eq!(stopped.store, store("3x2: [1] [b] [3]"));
    }

    /// Before any entry, whether the first is true, false or malformed.
    #[test]
    fn a_wrong_length() {
        let start = store("2x2: [1] [2]");
        for first in [[0x00, 0x10, 1], [0x00, 0x10, 2], [0xFF, 0xFF, 0xFF]] {
            for more in [&[0x10][..], &[0x10, 0x00]] {
                let end = follow(&start, &[&first[..], more].concat());
                assert_eq!((end.count, end.number), (0, 19));
                assert_eq!(end.store, start);
                let short = follow(&start, &first[..more.len()]);
                assert_eq!((short.count, short.number), (0, 19));
            }
        }
        let none = follow(&start, &[]);
        assert_eq!((none.count, none.number, none.store), (0, 0, start));
    }

    /// "A log on an accepted store is accepted exactly if nothing in it is 19, every lift is legal and each number is the one the store shows": of lifts alone it goes as a replay of
    /// them does, where they name what is carried.
    #[test]
    fn lifts_as_a_replay_does_them() {
        let mut random = Random::new(10);
        let mut met = [0; 256];
        for _ in 0..2_000 {
            let start = random.store_with_blanks(4, 3, 7, 2);
            let list: Vec<u8> = (0..random.below(5))
                .map(|_| play::lift_byte(random.below(5), random.below(4)))
                .collect();
            let mut store = start.clone();
            let mut log = Vec::new();
            for &lift in &list {
                let (from, to) = play::shafts_of(lift);
                let carried = play::lift(&mut store, lift);
                log.push(Entry::lift(from, to, carried.map_or(1, |it| it.cassette)));
            }
            let (replayed, followed) = (play::replay(&start, &list), follow_entries(&start, &log));
            let number = if replayed.number == 11 {
                19
            } else {
                replayed.number
            };
            assert_eq!(followed.store, replayed.store);
            assert_eq!((followed.count, followed.number), (replayed.count, number));
            met[usize::from(number)] += 1;
        }
        assert!([0, 13, 14, 19].iter().all(|&it| met[it] > 50), "{met:?}");
    }
}
