//! A full search, breadth first, over every store that lifts can reach.

use crate::{play, store::Store};
use std::collections::{HashMap, VecDeque};

/// The stores found from a start, each with the lift that first reached it and the store that lift left.
pub struct Search {
    found: HashMap<Store, usize>,
    steps: Vec<Step>,
    ended: bool,
}

struct Step {
    from: usize,
    lift: u8,
}

impl Search {
    /// Searches until no store is left or more than `most` have been found.
    pub fn all(start: &Store, most: usize) -> Search {
        Search::run(start, None, most)
    }

    /// Searches until the goal is found, no store is left, or more than `most` have been found.
    pub fn towards(start: &Store, goal: &Store, most: usize) -> Search {
        Search::run(start, Some(goal), most)
    }

    fn run(start: &Store, goal: Option<&Store>, most: usize) -> Search {
        let mut search = Search {
            found: HashMap::from([(start.clone(), 0)]),
            steps: vec![Step { from: 0, lift: 0 }],
            ended: true,
        };
        let mut waiting = VecDeque::from([start.clone()]);
        let mut from = 0;
        while let Some(store) = waiting.pop_front() {
            if goal.is_some_and(|goal| search.reaches(goal)) {
                return search;
            }
            if search.count() > most {
                search.ended = false;
                return search;
            }
            for lift in play::legal_lifts(&store) {
                waiting.extend(search.add(&store, from, lift));
            }
            from += 1;
        }
        search
    }

    /// The store after a lift, if it is a new one.
    fn add(&mut self, store: &Store, from: usize, lift: u8) -> Option<Store> {
        let mut next = store.clone();
        play::lift(&mut next, lift).expect("a legal lift");
        if self.found.contains_key(&next) {
            return None;
        }
        self.found.insert(next.clone(), self.count());
        self.steps.push(Step { from, lift });
        Some(next)
    }

    /// How many stores were found.
    pub fn count(&self) -> usize {
        self.steps.len()
    }

    /// The search did not stop for the count of stores.
    pub fn ended(&self) -> bool {
        self.ended
    }

    /// A store was found.
    pub fn reaches(&self, goal: &Store) -> bool {
        self.found.contains_key(goal)
    }

    /// The stores found.
    pub fn stores(&self) -> impl Iterator<Item = &Store> {
        self.found.keys()
    }

    /// A shortest list from the start to a store that was found.
    pub fn list_to(&self, goal: &Store) -> Option<Vec<u8>> {
        let mut at = *self.found.get(goal)?;
        let mut list = Vec::new();
        while at != 0 {
            list.push(self.steps[at].lift);
            at = self.steps[at].from;
        }
        list.reverse();
        Some(list)
    }
}

/// Every store of shafts of these depths with these cassettes, each once, also where a number stands more than once among them.
pub fn every_store(depths: &[usize], cassettes: &[u16]) -> Vec<Store> {
    let mut stores = Vec::new();
    extend_every(&Store::empty_of(depths), 0, cassettes, &mut stores);
    stores
}

/// Adds to `stores` each way to place the cassettes left in the shafts from `shaft` upward.
fn extend_every(store: &Store, shaft: usize, left: &[u16], stores: &mut Vec<Store>) {
    if shaft == store.m() {
        if left.is_empty() {
            stores.push(store.clone());
        }
        return;
    }
    extend_every(store, shaft + 1, left, stores);
    if store.room(shaft) == 0 {
        return;
    }
    for i in 0..left.len() {
        if left[..i].contains(&left[i]) {
            continue;
        }
        let mut next = store.clone();
        let mut rest = left.to_vec();
        next.shafts[shaft].push(rest.remove(i));
        extend_every(&next, shaft, &rest, stores);
    }
}

/// Some stores, with those that one lift leads to from each.
pub struct Lifts<'a> {
    stores: &'a [Store],
    next: Vec<Vec<usize>>,
}

impl<'a> Lifts<'a> {
    /// Of stores among which each is that a lift leads to.
    pub fn between(stores: &'a [Store]) -> Lifts<'a> {
        let places: HashMap<_, _> = stores.iter().zip(0..).collect();
        let after = |store: &Store, lift| {
            let mut next = store.clone();
            play::lift(&mut next, lift).expect("a legal lift");
            places[&next]
        };
        let lifts = |store| play::legal_lifts(store).into_iter();
        let next = stores
            .iter()
            .map(|store| lifts(store).map(|lift| after(store, lift)).collect())
            .collect();
        Lifts { stores, next }
    }

    /// For each store, the fewest lifts after which one is met that is as wanted, or none where no lifts lead to one.
    pub fn fewest(&self, wanted: impl Fn(&Store) -> bool) -> Vec<Option<usize>> {
        let here = |store| wanted(store).then_some(0);
        let mut fewest: Vec<_> = self.stores.iter().map(here).collect();
        for lifts in 1.. {
            let met = |&at: &usize| fewest[at] == Some(lifts - 1);
            let now: Vec<usize> = (0..fewest.len())
                .filter(|&at| fewest[at].is_none() && self.next[at].iter().any(met))
                .collect();
            if now.is_empty() {
                break;
            }
            for at in now {
                fewest[at] = Some(lifts);
            }
        }
        fewest
    }
}

#[cfg(test)]
mod tests {
    use super::*;
    use crate::store::BLANK;
    use crate::text;
    use std::collections::HashSet;

    fn store(text: &str) -> Store {
        text::read(text).unwrap()
    }

    #[test]
    fn counts_of_stores() {
        assert_eq!(every_store(&[2; 3], &[]).len(), 1);
        assert_eq!(every_store(&[1; 3], &[7, 9]).len(), 6);
        assert_eq!(every_store(&[2; 2], &[1, 2, 3]).len(), 12);
        assert_eq!(every_store(&[2; 3], &[1, 2, 3, 4, 5, 6]).len(), 720);
        assert_eq!(every_store(&[1; 3], &[BLANK, BLANK]).len(), 3);
        assert_eq!(every_store(&[2; 2], &[BLANK, 1, BLANK]).len(), 6);
        assert_eq!(
            every_store(&[2; 3], &[1, 2, 3, BLANK, BLANK, BLANK]).len(),
            120
        );
        assert_eq!(every_store(&[2; 3], &[BLANK; 6]).len(), 1);
    }

    /// In depths 2 and 1, three different cassettes fill all slots, and two leave one of them empty: on top of either shaft.
    #[test]
    fn counts_of_stores_of_unequal_depths() {
        assert_eq!(every_store(&[2, 1], &[1, 2, 3]).len(), 6);
        assert_eq!(every_store(&[2, 1], &[1, 2]).len(), 4);
        assert_eq!(every_store(&[1, 2], &[1, 2]).len(), 4);
        assert_eq!(every_store(&[3, 1, 1], &[BLANK, 1, BLANK]).len(), 12);
        assert_eq!(every_store(&[1, 2, 3], &[1, 2, 3, 4, 5, 6]).len(), 720);
        for store in every_store(&[1, 3, 2], &[1, 2, 3, 4]) {
            assert_eq!((store.depths.as_slice(), store.n()), (&[1, 3, 2][..], 4));
            assert!((0..3).all(|shaft| store.shafts[shaft].len() <= store.depths[shaft]));
        }
    }

    #[test]
    fn no_store_twice() {
        for depths in [[2; 3], [3, 1, 2]] {
            for cassettes in [[1, 2, 3, 4], [BLANK, 1, BLANK, 2]] {
                let stores = every_store(&depths, &cassettes);
                let different: HashSet<_> = stores.iter().collect();
                assert_eq!(different.len(), stores.len());
            }
        }
    }

    /// Stores with blanks are those in which as many different cassettes stand, all but the first two painted over.
    #[test]
    fn stores_with_blanks_are_stores_painted_over() {
        let paint = |cassette: &u16| if *cassette > 2 { BLANK } else { *cassette };
        let painted = every_store(&[2; 3], &[1, 2, 3, 4, 5])
            .into_iter()
            .map(|mut store| {
                let slots = store.shafts.iter_mut().flatten();
                slots.for_each(|slot| *slot = paint(slot));
                store
            });
        let painted: HashSet<_> = painted.collect();
        let stores = every_store(&[2; 3], &[1, 2, BLANK, BLANK, BLANK]);
        assert_eq!(painted, stores.into_iter().collect());
    }

    #[test]
    fn shortest_list() {
        let (start, goal) = (store("3x1: [1] [2] []"), store("3x1: [2] [1] []"));
        let search = Search::towards(&start, &goal, 100);
        assert!(search.ended());
        assert_eq!(search.list_to(&goal).unwrap().len(), 3);
        assert!(play::leads(&start, &search.list_to(&goal).unwrap(), &goal));
    }

    #[test]
    fn fewest_lifts_to_a_store() {
        let stores = every_store(&[1; 3], &[1, 2]);
        let (from, to) = (store("3x1: [1] [2] []"), store("3x1: [2] [1] []"));
        let fewest = Lifts::between(&stores).fewest(|it| *it == to);
        for (it, fewest) in stores.iter().zip(fewest) {
            let search = Search::towards(it, &to, 100);
            assert_eq!(fewest, search.list_to(&to).map(|list| list.len()));
            assert!(*it != from || fewest == Some(3));
        }
    }

    /// With different cassettes the goal would take three lifts.
    #[test]
    fn blanks_need_not_change_places() {
        let (start, goal) = (store("3x1: [b] [b] []"), store("3x1: [] [b] [b]"));
        let search = Search::all(&start, 100);
        assert_eq!(search.count(), 3);
        assert_eq!(search.list_to(&goal), Some(vec![0x02]));
    }

    #[test]
    fn a_search_that_finds_nothing_more() {
        let search = Search::all(&store("1x2: [1 2]"), 100);
        assert_eq!((search.count(), search.ended()), (1, true));
        assert!(search.list_to(&store("1x2: [2 1]")).is_none());
    }

    #[test]
    fn a_search_that_stops_at_its_limit() {
        let start = store("3x3: [1 2 3] [4 5] []");
        let search = Search::towards(&start, &store("3x3: [5 4 3] [2 1] []"), 10);
        assert!(!search.ended());
    }
}
