//! How deep a cassette is buried (document 02, 1/13), and how deep some blank (5/13), in shafts of any depths (7/13).

use crate::store::Store;

/// A shaft, and a row, which counts from 1.
pub type Place = (usize, usize);

/// The answer for a number: 16 where it isn't in the store, 17 where no lifts uncover it, or else the fewest lifts after which nothing stands on it. Of a
/// number that stands more than once, on one of its places.
pub fn uncover(store: &Store, cassette: u16) -> Result<usize, u8> {
    match nearest(store, cassette) {
        Some(place) => Ok(above(store, place)),
        None if places(store, cassette).next().is_none() => Err(16),
        None => Err(17),
    }
}

/// Of the places that show a number and can be uncovered, one that the fewest cassettes stand on.
pub fn nearest(store: &Store, cassette: u16) -> Option<Place> {
    places(store, cassette)
        .filter(|&(shaft, row)| row >= store.floor(shaft))
        .min_by_key(|&place| above(store, place))
}

/// The places that show a number.
pub fn places(store: &Store, cassette: u16) -> impl Iterator<Item = Place> {
    let shafts = store.shafts.iter().enumerate();
    shafts.flat_map(move |(at, shaft)| {
        let rows = (1..).zip(shaft);
        rows.filter(move |&(_, &it)| it == cassette)
            .map(move |(row, _)| (at, row))
    })
}

/// How many cassettes stand on a place.
pub fn above(store: &Store, (shaft, row): Place) -> usize {
    store.shafts[shaft].len() - row
}

/// The store shows the cassette on top of some shaft.
pub fn uncovered(store: &Store, cassette: u16) -> bool {
    let mut shafts = store.shafts.iter();
    shafts.any(|shaft| shaft.last() == Some(&cassette))
}

#[cfg(test)]
mod tests {
    use super::*;
    use crate::store::{BLANK, MOST_ORDINARY};
    use crate::text;

    fn answers(store: &str, cassettes: &[u16]) -> Vec<Result<usize, u8>> {
        let store = text::read(store).unwrap();
        cassettes.iter().map(|&it| uncover(&store, it)).collect()
    }

    fn blank(store: &str) -> Result<usize, u8> {
        uncover(&text::read(store).unwrap(), BLANK)
    }

    #[test]
    fn room_for_all_for_some_and_for_none() {
        let roomy = answers("3x4: [1 2 3] [4] []", &[1, 2, 3, 4]);
        assert_eq!(roomy, [Ok(2), Ok(1), Ok(0), Ok(0)]);
        let crowded = answers("3x4: [1 4 5 6] [2 7 8] [3 9]", &[1, 4, 2, 7, 9]);
        assert_eq!(crowded, [Ok(3), Ok(2), Ok(2), Ok(1), Ok(0)]);
        let full = answers("2x2: [1 2] [3 4]", &[1, 2, 3, 4]);
        assert_eq!(full, [Err(17), Ok(0), Err(17), Ok(0)]);
    }

    /// With two empty slots row 2 is the lowest to be uncovered in the shaft of depth 4, row 1 in those of depth 3 and 2, full or not.
    #[test]
    fn each_shaft_has_its_own_floor() {
        let deep = answers("3x4,3,2: [1 2 3 4] [5 6] [7]", &[1, 2, 3, 5, 7]);
        assert_eq!(deep, [Err(17), Ok(2), Ok(1), Ok(1), Ok(0)]);
        let full = answers("3x4,3,2: [1 2] [5 6 8] [7 9]", &[1, 2, 5, 7]);
        assert_eq!(full, [Err(17), Ok(0), Ok(2), Ok(1)]);
        let two = answers("2x4,2: [1 2 3] [4]", &[1, 2, 3, 4]);
        assert_eq!(two, [Err(17), Ok(1), Ok(0), Ok(0)]);
        assert_eq!(blank("3x4,3,2: [b 1] [2 b 3] [4 5]"), Ok(1));
        assert_eq!(blank("3x4,3,2: [b 1] [b 2 3] [4 5]"), Ok(2));
        assert_eq!(blank("3x4,1,1: [b b 2 3] [1] []"), Err(17));
    }

    #[test]
    fn one_shaft_uncovers_its_top_alone() {
        assert_eq!(answers("1x3: [1 2]", &[1, 2]), [Err(17), Ok(0)]);
    }

    #[test]
    fn the_nearest_blank() {
        assert_eq!(blank("3x4: [b 1 2] [3 b 4] []"), Ok(1));
        assert_eq!(blank("3x4: [3 b 4] [b 1 2] []"), Ok(1));
        assert_eq!(blank("3x4: [b 1 b 2] [3] []"), Ok(1));
        assert_eq!(blank("3x4: [b 1 b] [b b b] []"), Ok(0));
    }

    /// With two empty slots row 2 can be uncovered in a full shaft, and row 1 in none: fewer stand on it, but where the slots are.
    #[test]
    fn the_nearest_blank_that_can_be_uncovered() {
        assert_eq!(blank("3x4: [b 1] [2 b 3 4] [5 6 7 8]"), Ok(2));
        assert_eq!(blank("3x4: [2 b 3 4] [b 1] [5 6 7 8]"), Ok(2));
        let store = text::read("3x4: [b 1] [2 b 3 4] [5 6 b 8]").unwrap();
        assert_eq!(nearest(&store, BLANK), Some((2, 3)));
        let all: Vec<_> = places(&store, BLANK).collect();
        assert_eq!(all, [(0, 1), (1, 2), (2, 3)]);
    }

    #[test]
    fn no_blank_that_can_be_uncovered() {
        assert_eq!(blank("3x2: [b 1] [b 2] [3 4]"), Err(17));
        assert_eq!(blank("3x2: [b 1] [b 2] [3 b]"), Ok(0));
        assert_eq!(blank("1x4: [b b 1]"), Err(17));
        assert_eq!(blank("3x2: [1] [2] [3]"), Err(16));
    }

    #[test]
    fn numbers_that_are_not_there() {
        let numbers = [0, 4, 255, MOST_ORDINARY, BLANK, BLANK + 1, 65_535];
        assert_eq!(answers("2x2: [1 2] [3]", &numbers), [Err(16); 7]);
    }

    /// Numbers past a byte, and the blank's, which is no other number's low bits.
    #[test]
    fn numbers_past_a_byte() {
        let store = "3x4: [255 256 1] [4094 b 511] []";
        let numbers = [255, 256, 1, 4094, BLANK, 511, 254, 257, 0];
        let [one, two, top, gone] = [Ok(1), Ok(2), Ok(0), Err(16)];
        let wanted = [two, one, top, two, one, top, gone, gone, gone];
        assert_eq!(answers(store, &numbers), wanted);
    }
}
