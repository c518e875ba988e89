//! Random stores from a seed, the same on every machine.

use crate::rule;
use crate::store::{BLANK, MOST_ORDINARY, Store};

/// The greatest number but the blank's that every form holds.
pub const MOST_IN_A_BYTE: u16 = 254;

/// The last number of a byte, those past it, and the greatest.
const EDGES: [u16; 4] = [MOST_IN_A_BYTE, 255, 256, MOST_ORDINARY];

/// A splitmix64 generator.
#[derive(Clone)]
pub struct Random {
    state: u64,
}

impl Random {
    pub fn new(seed: u64) -> Random {
        Random { state: seed }
    }

    pub fn word(&mut self) -> u64 {
        self.state = self.state.wrapping_add(0x9E37_79B9_7F4A_7C15);
        let mut z = self.state;
        z = (z ^ z >> 30).wrapping_mul(0xBF58_476D_1CE4_E5B9);
        z = (z ^ z >> 27).wrapping_mul(0x94D0_49BB_1331_11EB);
        z ^ z >> 31
    }

    /// A number below `bound`, which is not 0.
    pub fn below(&mut self, bound: usize) -> usize {
        (self.word() % bound as u64) as usize
    }

    /// A number from `low` to `high`, both included.
    pub fn from_to(&mut self, low: usize, high: usize) -> usize {
        low + self.below(high - low + 1)
    }

    pub fn byte(&mut self) -> u8 {
        self.word() as u8
    }

    pub fn bytes(&mut self, count: usize) -> Vec<u8> {
        let mut bytes = Vec::with_capacity(count);
        while bytes.len() < count {
            let more = self.word().to_le_bytes();
            let wanted = (count - bytes.len()).min(more.len());
            bytes.extend_from_slice(&more[..wanted]);
        }
        bytes
    }

    pub fn shuffle<T>(&mut self, items: &mut [T]) {
        for i in (1..items.len()).rev() {
            items.swap(i, self.below(i + 1));
        }
    }

    pub fn one_of<'a, T>(&mut self, items: &'a [T]) -> &'a T {
        &items[self.below(items.len())]
    }

    /// `count` different cassettes, in any order: numbers that every form holds, or any. One of them may be a blank.
    pub fn cassettes(&mut self, count: usize) -> Vec<u16> {
        let blank = count > 0 && self.below(3) == 0;
        self.cassettes_with_blanks(count, blank.into())
    }

    /// `count` cassettes of which so many are blanks, and no other two are the same, in any order: numbers that every form holds, or any.
    pub fn cassettes_with_blanks(&mut self, count: usize, blanks: usize) -> Vec<u16> {
        let others = count - blanks;
        let bytes = others <= MOST_IN_A_BYTE.into() && self.below(2) == 0;
        let others = if bytes {
            self.different(MOST_IN_A_BYTE, others)
        } else {
            self.different_past_a_byte(others)
        };
        self.with_blanks(others, blanks)
    }

    /// The same with numbers that every form holds.
    pub fn byte_cassettes_with_blanks(&mut self, count: usize, blanks: usize) -> Vec<u16> {
        let others = self.different(MOST_IN_A_BYTE, count - blanks);
        self.with_blanks(others, blanks)
    }

    fn with_blanks(&mut self, mut others: Vec<u16>, blanks: usize) -> Vec<u16> {
        others.resize(others.len() + blanks, BLANK);
        self.shuffle(&mut others);
        others
    }

    /// `count` different numbers from 1 to `most`, in any order.
    fn different(&mut self, most: u16, count: usize) -> Vec<u16> {
        let mut all: Vec<u16> = (1..=most).collect();
        assert!(count <= all.len(), "{count} different cassettes");
        for i in 0..count {
            all.swap(i, self.from_to(i, usize::from(most) - 1));
        }
        all.truncate(count);
        all
    }

    /// `count` different numbers from 1 to 4,094, often with those at the edges among them.
    fn different_past_a_byte(&mut self, count: usize) -> Vec<u16> {
        let mut numbers = self.different(MOST_ORDINARY, count);
        for edge in EDGES {
            if count > 0 && self.below(2) == 0 && !numbers.contains(&edge) {
                numbers[self.below(count)] = edge;
            }
        }
        numbers
    }

    /// A store of `m` shafts of depth `h` with `n` different cassettes.
    pub fn store(&mut self, m: usize, h: usize, n: usize) -> Store {
        let cassettes = self.cassettes(n);
        self.in_shafts(&vec![h; m], cassettes)
    }

    /// A store of `m` shafts of depth `h` with `n` cassettes of which so many are blanks.
    pub fn store_with_blanks(&mut self, m: usize, h: usize, n: usize, blanks: usize) -> Store {
        let cassettes = self.cassettes_with_blanks(n, blanks);
        self.in_shafts(&vec![h; m], cassettes)
    }

    /// A store of the same depths and cassettes, each anywhere.
    pub fn rearranged(&mut self, store: &Store) -> Store {
        self.in_shafts(&store.depths, store.cassettes())
    }

    /// These cassettes, each anywhere in shafts of these depths.
    pub fn in_shafts(&mut self, depths: &[usize], mut cassettes: Vec<u16>) -> Store {
        self.shuffle(&mut cassettes);
        self.stand(Store::empty_of(depths), &cassettes)
    }

    /// Depths for `m` shafts, each from 1 to `most`.
    pub fn depths(&mut self, m: usize, most: usize) -> Vec<usize> {
        (0..m).map(|_| self.from_to(1, most)).collect()
    }

    /// A goal that can be reached from a store.
    pub fn reachable_goal(&mut self, store: &Store) -> Store {
        match store.m() {
            1 => store.clone(),
            2 => self.same_reading(store),
            _ => self.same_floor(store),
        }
    }

    /// A goal as close to a store as one that can't be reached may be, if there is one.
    ///
    /// A reachable goal in which a cassette that is bound to its place has changed places with one of another number.
    pub fn unreachable_goal(&mut self, store: &Store) -> Option<Store> {
        let mut goal = self.reachable_goal(store);
        let mut bound = bound_slots(&goal);
        let mut others = all_slots(&goal);
        self.shuffle(&mut bound);
        let &one = bound.first()?;
        others.retain(|&slot| shown(&goal, slot) != shown(&goal, one));
        if others.is_empty() {
            return None;
        }
        let &other = self.one_of(&others);
        swap_slots(&mut goal, one, other);
        Some(goal)
    }

    /// Sets the cassettes on shafts with room: one at a time, or in runs, which leave more shafts full or empty.
    fn stand(&mut self, mut store: Store, cassettes: &[u16]) -> Store {
        let in_runs = self.below(2) == 1;
        let mut left = cassettes;
        while !left.is_empty() {
            let open = with_room(&store);
            let shaft = *self.one_of(&open);
            let most = left.len().min(store.room(shaft));
            let run = if in_runs { self.from_to(1, most) } else { 1 };
            store.shafts[shaft].extend_from_slice(&left[..run]);
            left = &left[run..];
        }
        store
    }

    fn same_reading(&mut self, store: &Store) -> Store {
        let reading = rule::two_shaft_reading(store);
        let least = reading.len().saturating_sub(store.depths[1]);
        let most = reading.len().min(store.depths[0]);
        let (up, down) = reading.split_at(self.from_to(least, most));
        Store {
            depths: store.depths.clone(),
            shafts: vec![up.to_vec(), down.iter().rev().copied().collect()],
        }
    }

    fn same_floor(&mut self, store: &Store) -> Store {
        let mut goal = store.clone();
        let mut free: Vec<u16> = goal
            .shafts
            .iter_mut()
            .zip(store.floors())
            .flat_map(|(shaft, rows)| shaft.split_off(rows))
            .collect();
        self.shuffle(&mut free);
        self.stand(goal, &free)
    }
}

/// A shaft and an index into it.
type Slot = (usize, usize);

fn with_room(store: &Store) -> Vec<usize> {
    (0..store.m())
        .filter(|&shaft| store.room(shaft) > 0)
        .collect()
}

fn all_slots(store: &Store) -> Vec<Slot> {
    (0..store.m())
        .flat_map(|shaft| (0..store.shafts[shaft].len()).map(move |row| (shaft, row)))
        .collect()
}

/// The slots whose number is bound to its place, or to its place in the reading: of fewer than three shafts, all.
fn bound_slots(store: &Store) -> Vec<Slot> {
    let mut slots = all_slots(store);
    if store.m() >= 3 {
        slots.retain(|&(shaft, row)| row < store.floor(shaft));
    }
    slots
}

fn shown(store: &Store, (shaft, row): Slot) -> u16 {
    store.shafts[shaft][row]
}

fn swap_slots(store: &mut Store, (a, i): Slot, (b, j): Slot) {
    let cassette = store.shafts[a][i];
    store.shafts[a][i] = store.shafts[b][j];
    store.shafts[b][j] = cassette;
}

#[cfg(test)]
mod tests {
    use super::*;

    #[test]
    fn first_numbers_of_seed_0() {
        let mut random = Random::new(0);
        assert_eq!(random.word(), 0xE220_A839_7B1D_CDAF);
        assert_eq!(random.word(), 0x6E78_9E6A_A1B9_65F4);
    }

    /// Cassettes for so many slots: different ones, blanks alone, blanks but for a few, or half of them blanks.
    fn any_cassettes(random: &mut Random, n: usize) -> Vec<u16> {
        match random.below(4) {
            0 => random.cassettes(n),
            1 => random.cassettes_with_blanks(n, n),
            2 => random.cassettes_with_blanks(n, n.saturating_sub(3)),
            _ => random.cassettes_with_blanks(n, n.div_ceil(2)),
        }
    }

    /// Goals for stores of these depths. They have the depths and cassettes of the store, and no shaft is too high. Of those that can't be reached, how many
    /// there were without blanks and with them, each for two shafts at most and for more.
    fn goals_of(seed: u64, depths: fn(&mut Random, usize) -> Vec<usize>) -> [usize; 4] {
        let mut random = Random::new(seed);
        let mut refused = [0; 4];
        for _ in 0..6000 {
            let m = random.from_to(1, 16);
            let depths = depths(&mut random, m);
            let n = random.from_to(0, depths.iter().sum());
            let cassettes = any_cassettes(&mut random, n);
            let store = random.in_shafts(&depths, cassettes);
            assert_eq!((&store.depths, store.m(), store.n()), (&depths, m, n));
            let fits = |goal: &Store| {
                let in_depth = |shaft: usize| goal.shafts[shaft].len() <= depths[shaft];
                goal.depths == depths && (0..m).all(in_depth) && goal.sorted() == store.sorted()
            };
            let goal = random.reachable_goal(&store);
            assert!(fits(&goal) && rule::reachable(&store, &goal));
            assert!(fits(&random.rearranged(&store)));
            if let Some(goal) = random.unreachable_goal(&store) {
                assert!(fits(&goal) && !rule::reachable(&store, &goal));
                refused[usize::from(store.blanks() > 1) * 2 + usize::from(m > 2)] += 1;
            }
        }
        refused
    }

    #[test]
    fn goals_are_what_they_are_called() {
        let refused = goals_of(1, |random, m| vec![random.from_to(1, 16); m]);
        assert!(refused.iter().all(|&count| count > 100), "{refused:?}");
    }

    #[test]
    fn goals_in_shafts_of_unequal_depth() {
        let refused = goals_of(4, |random, m| random.depths(m, 16));
        assert!(refused.iter().all(|&count| count > 100), "{refused:?}");
    }

    /// Every depth in every shaft.
    #[test]
    fn depths_from_1_to_the_most() {
        let mut random = Random::new(5);
        let mut met = [[false; 6]; 3];
        for _ in 0..300 {
            let depths = random.depths(3, 5);
            (0..3).for_each(|shaft| met[shaft][depths[shaft]] = true);
        }
        assert_eq!(met, [[false, true, true, true, true, true]; 3]);
    }

    /// The splits of a reading that two shafts of depth 4 and 1 have room for, each met.
    #[test]
    fn readings_of_two_unequal_shafts() {
        let mut random = Random::new(6);
        let store = random.in_shafts(&[4, 1], vec![1, 2, 3]);
        let mut heights = [0; 4];
        for _ in 0..100 {
            heights[random.reachable_goal(&store).shafts[0].len()] += 1;
        }
        assert!(heights[0] == 0 && heights[1] == 0, "{heights:?}");
        assert!(heights[2] > 0 && heights[3] > 0, "{heights:?}");
    }

    /// "If there is one": none where all cassettes are blanks, and one wherever a bound cassette has another beside it that differs.
    #[test]
    fn a_goal_out_of_reach_needs_two_numbers() {
        let mut random = Random::new(2);
        for (m, n) in [(1, 3), (2, 5), (3, 12)] {
            let alone = random.store_with_blanks(m, 4, n, n);
            assert_eq!(random.unreachable_goal(&alone), None);
            for blanks in 0..n {
                let mixed = random.store_with_blanks(m, 4, n, blanks);
                assert!(random.unreachable_goal(&mixed).is_some());
            }
        }
    }

    /// The different numbers among cassettes, rising.
    fn numbers(mut cassettes: Vec<u16>) -> Vec<u16> {
        cassettes.sort_unstable();
        cassettes.dedup();
        cassettes
    }

    #[test]
    fn as_many_blanks_as_asked_for() {
        let mut random = Random::new(3);
        for (n, blanks) in [
            (0, 0),
            (9, 0),
            (9, 4),
            (9, 9),
            (256, 0),
            (256, 2),
            (256, 256),
        ] {
            for _ in 0..20 {
                let store = random.store_with_blanks(16, 16, n, blanks);
                assert_eq!((store.n(), store.blanks()), (n, blanks));
                let numbers = numbers(store.cassettes());
                assert_eq!(numbers.len(), n - blanks + blanks.min(1));
            }
        }
        let bytes = random.byte_cassettes_with_blanks(256, 2);
        assert_eq!(
            numbers(bytes),
            [&Vec::from_iter(1..=254)[..], &[BLANK]].concat()
        );
    }

    /// Numbers that every form holds about as often as others, a blank now and then, and each number at the edges often.
    #[test]
    fn numbers_of_a_byte_and_past_it() {
        let mut random = Random::new(8);
        let (mut bytes, mut blank, mut edges) = (0, 0, [0; 4]);
        for _ in 0..2_000 {
            let cassettes = random.cassettes(20);
            assert_eq!(numbers(cassettes.clone()).len(), 20);
            assert!(cassettes.iter().all(|it| (1..=BLANK).contains(it)));
            let in_a_byte = |&it: &u16| it <= MOST_IN_A_BYTE || it == BLANK;
            bytes += usize::from(cassettes.iter().all(in_a_byte));
            blank += usize::from(cassettes.contains(&BLANK));
            for (edge, met) in EDGES.iter().zip(&mut edges) {
                *met += usize::from(cassettes.contains(edge));
            }
        }
        assert!((800..1_200).contains(&bytes), "{bytes} times");
        assert!((500..850).contains(&blank), "{blank} times");
        assert!(edges.iter().all(|&met| met > 300), "{edges:?}");
    }
}
