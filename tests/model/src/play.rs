//! Single lifts and the replay of a list (document 01, "The store" and "The list"), and what they carried (document 02, 2/13).

use crate::store::{NUMBERS, Store};

/// The byte of a lift: the shaft left in the high four bits, the shaft entered in the low four.
pub fn lift_byte(left: usize, entered: usize) -> u8 {
    (left << 4 | entered) as u8
}

/// The shaft left and the shaft entered.
pub fn shafts_of(lift: u8) -> (usize, usize) {
    ((lift >> 4).into(), (lift & 15).into())
}

/// The number a lift is refused with: 11, 13 or 14.
pub fn refusal(store: &Store, lift: u8) -> Option<u8> {
    let (left, entered) = shafts_of(lift);
    if left >= store.m() || entered >= store.m() || left == entered {
        Some(11)
    } else if store.shafts[left].is_empty() {
        Some(13)
    } else if store.room(entered) == 0 {
        Some(14)
    } else {
        None
    }
}

/// What a lift carried, and the row it landed in. Rows count from 1.
#[derive(Clone, Copy, Debug, PartialEq, Eq)]
pub struct Carried {
    pub cassette: u16,
    pub row: usize,
}

/// Does a lift and tells what it carried, or gives the lift's number and changes nothing.
pub fn lift(store: &mut Store, lift: u8) -> Result<Carried, u8> {
    if let Some(number) = refusal(store, lift) {
        return Err(number);
    }
    let (left, entered) = shafts_of(lift);
    let cassette = store.shafts[left].pop().expect("a legal lift");
    store.shafts[entered].push(cassette);
    let row = store.shafts[entered].len();
    Ok(Carried { cassette, row })
}

/// How a replay ended: the store reached, the lifts done, 0 or the number it stopped with, and how often each cassette
/// was carried, by its number.
#[derive(Debug, PartialEq, Eq)]
pub struct Replayed {
    pub store: Store,
    pub count: usize,
    pub number: u8,
    pub carries: Vec<usize>,
}

/// Does the lifts of a list until one is refused.
pub fn replay(start: &Store, list: &[u8]) -> Replayed {
    let mut end = Replayed {
        store: start.clone(),
        count: 0,
        number: 0,
        carries: vec![0; NUMBERS + 1],
    };
    for &byte in list {
        match lift(&mut end.store, byte) {
            Ok(carried) => {
                end.count += 1;
                end.carries[usize::from(carried.cassette)] += 1;
            }
            Err(number) => {
                end.number = number;
                break;
            }
        }
    }
    end
}

/// The list is legal from the start and ends at the goal.
pub fn leads(start: &Store, list: &[u8], goal: &Store) -> bool {
    let end = replay(start, list);
    end.number == 0 && end.store == *goal
}

/// Every legal lift of a store.
pub fn legal_lifts(store: &Store) -> Vec<u8> {
    let m = store.m();
    (0..m * m)
        .map(|both| lift_byte(both / m, both % m))
        .filter(|&lift| refusal(store, lift).is_none())
        .collect()
}

#[cfg(test)]
mod tests {
    use super::*;
    use crate::store::BLANK;
    use crate::{Random, text};

    fn store(text: &str) -> Store {
        text::read(text).unwrap()
    }

    /// The cassettes that were carried and how often, rising by number.
    fn carries(end: &Replayed) -> Vec<(usize, usize)> {
        let all = end.carries.iter().copied().enumerate();
        all.filter(|&(_, times)| times > 0).collect()
    }

    #[test]
    fn swap_of_document_01() {
        let start = store("3x1: [1] [2] []");
        let goal = store("3x1: [2] [1] []");
        assert!(leads(&start, &[0x02, 0x10, 0x21], &goal));
        assert!(!leads(&start, &[0x02, 0x10], &goal));
        assert!(!leads(&start, &[0x02, 0x10, 0x21, 0x33], &goal));
    }

    #[test]
    fn refused_lifts() {
        let mut s = store("2x1: [] [1]");
        for (byte, number) in [(0x02, 11), (0x20, 11), (0x00, 11), (0x01, 13)] {
            assert_eq!(lift(&mut s, byte), Err(number));
        }
        let mut s = store("2x1: [1] [2]");
        assert_eq!(lift(&mut s, 0x01), Err(14));
        assert_eq!(s, store("2x1: [1] [2]"));
    }

    /// Three cassettes fill the first shaft, one the second, two the third.
    #[test]
    fn a_shaft_is_full_by_its_own_depth() {
        let mut s = store("3x3,1,2: [1 2 3] [] [4 5]");
        assert_eq!(legal_lifts(&s), [0x01, 0x21]);
        assert_eq!(lift(&mut s, 0x01).unwrap().row, 1);
        for byte in [0x01, 0x21, 0x02, 0x12] {
            assert_eq!(lift(&mut s, byte), Err(14), "{byte:02x}");
        }
        assert_eq!(lift(&mut s, 0x20).unwrap().row, 3);
        assert_eq!(lift(&mut s, 0x10), Err(14));
        assert_eq!(s, store("3x3,1,2: [1 2 5] [3] [4]"));
    }

    #[test]
    fn a_goal_has_the_depths_of_its_start() {
        let start = store("3x2,2,1: [1] [2] []");
        assert!(leads(&start, &[0x02], &store("3x2,2,1: [] [2] [1]")));
        assert!(!leads(&start, &[0x02], &store("3x2: [] [2] [1]")));
    }

    #[test]
    fn what_a_lift_carried() {
        let mut s = store("3x3: [1 2] [] [3]");
        let carried = |cassette, row| Ok(Carried { cassette, row });
        assert_eq!(lift(&mut s, 0x01), carried(2, 1));
        assert_eq!(lift(&mut s, 0x21), carried(3, 2));
        assert_eq!(lift(&mut s, 0x01), carried(1, 3));
        assert_eq!(s, store("3x3: [] [2 3 1] []"));
    }

    #[test]
    fn carries_of_a_list_run_through() {
        let end = replay(&store("3x1: [1] [2] []"), &[0x02, 0x10, 0x21]);
        assert_eq!((end.count, end.number), (3, 0));
        assert_eq!(carries(&end), [(1, 2), (2, 1)]);
        let end = replay(&store("3x1: [1] [2] []"), &[]);
        assert_eq!(carries(&end), []);
    }

    #[test]
    fn a_stopped_lift_counts_nothing() {
        let start = store("3x2: [1 2] [] [b]");
        for (stop, number) in [(0x03, 11), (0x00, 11), (0x20, 13), (0x21, 13), (0x01, 14)] {
            let end = replay(&start, &[0x01, 0x21, stop, 0x10, 0x10]);
            assert_eq!((end.count, end.number), (2, number));
            assert_eq!(carries(&end), [(2, 1), (BLANK.into(), 1)]);
        }
    }

    /// Three blanks, of which one is carried twice, one once and one not at all.
    #[test]
    fn carries_of_blanks_are_counted_together() {
        let end = replay(&store("3x2: [b b] [] [b 1]"), &[0x01, 0x10, 0x21, 0x21]);
        assert_eq!(end.store, store("3x2: [b b] [1 b] []"));
        assert_eq!(carries(&end), [(1, 1), (BLANK.into(), 3)]);
    }

    #[test]
    fn any_blank_in_its_slot_is_the_goal() {
        let (start, goal) = (store("3x1: [b] [b] []"), store("3x1: [] [b] [b]"));
        assert!(leads(&start, &[0x02], &goal));
        assert!(leads(&start, &[0x12, 0x01], &goal));
        assert!(!leads(&start, &[0x12], &goal));
    }

    #[test]
    fn carries_add_up_to_the_lifts() {
        let mut random = Random::new(2);
        let mut lifts = 0;
        for _ in 0..1000 {
            let blanks = random.from_to(0, 6);
            let start = random.store_with_blanks(4, 3, 6, blanks);
            let mut any_lift = || {
                let left = random.below(4);
                lift_byte(left, (left + random.from_to(1, 3)) % 4)
            };
            let list: Vec<u8> = (0..20).map(|_| any_lift()).collect();
            let end = replay(&start, &list);
            assert_eq!(end.carries.iter().sum::<usize>(), end.count);
            lifts += end.count;
        }
        assert!(lifts > 1000, "{lifts} lifts were done");
    }

    #[test]
    fn a_stopped_replay() {
        let end = replay(&store("3x1: [1] [2] []"), &[0x02, 0x12, 0x10]);
        assert_eq!(end.store, store("3x1: [] [2] [1]"));
        assert_eq!((end.count, end.number), (1, 14));
    }

    #[test]
    fn legal_lifts_of_a_store() {
        assert_eq!(legal_lifts(&store("3x1: [1] [2] []")), [0x02, 0x12]);
        assert_eq!(legal_lifts(&store("1x2: [1]")), []);
    }
}
