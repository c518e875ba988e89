//! What stands where.

/// The most shafts a store has.
pub const MOST_SHAFTS: usize = 16;
/// The greatest depth.
pub const MOST_DEPTH: usize = 16;
/// The cassette number of a blank, the only one that may stand more than once (document 02, 5/13 and 8/13).
pub const BLANK: u16 = 4095;
/// The greatest cassette number but the blank's.
pub const MOST_ORDINARY: u16 = BLANK - 1;
/// How many different cassette numbers there are, the blank's included.
pub const NUMBERS: usize = BLANK as usize;
/// The most cassettes a store has: one in every slot.
pub const MOST_CASSETTES: usize = MOST_SHAFTS * MOST_DEPTH;

/// Shafts, each with a depth of its own (document 02, 7/13) and its cassettes from row 1 upward.
#[derive(Clone, Debug, PartialEq, Eq, Hash)]
pub struct Store {
    pub depths: Vec<usize>,
    pub shafts: Vec<Vec<u16>>,
}

impl Store {
    /// An empty store of `m` shafts of depth `h`.
    pub fn empty(m: usize, h: usize) -> Store {
        Store::empty_of(&vec![h; m])
    }

    /// An empty store of shafts of these depths.
    pub fn empty_of(depths: &[usize]) -> Store {
        Store {
            depths: depths.to_vec(),
            shafts: vec![Vec::new(); depths.len()],
        }
    }

    /// Shafts of depth `h` with these cassettes.
    pub fn of_depth(h: usize, shafts: Vec<Vec<u16>>) -> Store {
        Store {
            depths: vec![h; shafts.len()],
            shafts,
        }
    }

    /// m, the count of shafts.
    pub fn m(&self) -> usize {
        self.shafts.len()
    }

    /// n, the count of cassettes.
    pub fn n(&self) -> usize {
        self.shafts.iter().map(Vec::len).sum()
    }

    /// How many of the cassettes are blanks.
    pub fn blanks(&self) -> usize {
        let slots = self.shafts.iter().flatten();
        slots.filter(|&&cassette| cassette == BLANK).count()
    }

    /// e, the count of empty slots: the sum of the depths less n.
    pub fn e(&self) -> usize {
        self.depths.iter().sum::<usize>() - self.n()
    }

    /// The depth of the deepest shaft.
    pub fn deepest(&self) -> usize {
        self.depths.iter().copied().max().expect("a shaft")
    }

    /// All shafts have one depth.
    pub fn equal_depths(&self) -> bool {
        self.depths.iter().all(|&depth| depth == self.depths[0])
    }

    /// How many cassettes more a shaft takes.
    pub fn room(&self, shaft: usize) -> usize {
        self.depths[shaft] - self.shafts[shaft].len()
    }

    /// All cassettes, shaft by shaft from row 1.
    pub fn cassettes(&self) -> Vec<u16> {
        self.shafts.concat()
    }

    /// All cassettes, rising.
    pub fn sorted(&self) -> Vec<u16> {
        let mut all = self.cassettes();
        all.sort_unstable();
        all
    }

    /// How many rows the floor of a shaft has, which never changes: its depth less e, or none.
    pub fn floor(&self, shaft: usize) -> usize {
        self.depths[shaft].saturating_sub(self.e())
    }

    /// The floor of each shaft.
    pub fn floors(&self) -> Vec<usize> {
        (0..self.m()).map(|shaft| self.floor(shaft)).collect()
    }

    /// The list space that a plan asks for: 4hn + 8n, where h is the deepest shaft.
    pub fn list_space(&self) -> usize {
        4 * self.deepest() * self.n() + 8 * self.n()
    }
}

#[cfg(test)]
mod tests {
    use super::*;
    use crate::text;

    #[test]
    fn blanks_count_as_cassettes() {
        let store = text::read("3x4: [b 1 b] [b] [2 b b b]").unwrap();
        assert_eq!((store.n(), store.blanks(), store.e()), (8, 6, 4));
        assert_eq!((store.floors(), store.list_space()), (vec![0; 3], 192));
        let crowded = text::read("3x2: [b b] [b b] [b]").unwrap();
        assert_eq!((crowded.e(), crowded.floors()), (1, vec![1; 3]));
        assert_eq!(text::read("2x2: [1] [2 3]").unwrap().blanks(), 0);
    }

    #[test]
    fn each_shaft_has_its_depth() {
        let store = text::read("3x3,2,2: [1 2 3] [4] [5]").unwrap();
        assert_eq!((store.e(), store.deepest()), (2, 3));
        assert_eq!((store.floors(), store.list_space()), (vec![1, 0, 0], 100));
        let rooms: Vec<usize> = (0..3).map(|shaft| store.room(shaft)).collect();
        assert_eq!(rooms, [0, 1, 1]);
        let full = text::read("4x1,5,1,3: [1] [2 3 4 5 6] [7] [8 9 b]").unwrap();
        assert_eq!((full.e(), full.floors()), (0, vec![1, 5, 1, 3]));
        let last = text::read("4x1,5,1,3: [] [2 3 4 5 6] [7] [8 9]").unwrap();
        assert_eq!((last.e(), last.floors()), (2, vec![0, 3, 0, 1]));
        assert_eq!((last.deepest(), last.list_space()), (5, 224));
    }

    #[test]
    fn equal_and_unequal_depths() {
        for (depths, equal) in [
            (&[4][..], true),
            (&[4, 4, 4], true),
            (&[3, 4, 4], false),
            (&[4, 4, 3], false),
        ] {
            assert_eq!(Store::empty_of(depths).equal_depths(), equal, "{depths:?}");
        }
        assert_eq!(Store::empty(3, 4), Store::empty_of(&[4, 4, 4]));
        let shafts = vec![vec![1, 2], vec![]];
        let filled = Store::of_depth(2, shafts.clone());
        assert_eq!((filled.depths, filled.shafts), (vec![2, 2], shafts));
        assert_ne!(Store::empty_of(&[4, 3]), Store::empty_of(&[3, 4]));
    }
}
