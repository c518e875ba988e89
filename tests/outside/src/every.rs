//! Every store of a frame with some cassettes, against a full search.

use crate::calls::{Answer, Caller, Order};
use crate::{checks, expected, inputs};
use halyard_model::search::{Lifts, Search, every_store};
use halyard_model::store::BLANK;
use halyard_model::{Random, Store, rule, uncover};
use std::collections::HashMap;

/// Every pair of stores with these cassettes, as start and as goal each in some form that holds it: the calls, and the rule that the other tests go by, agree
/// with the search. Gives how many stores there are.
pub fn pairs(
    caller: &mut Caller,
    random: &mut Random,
    depths: &[usize],
    cassettes: &[u16],
) -> usize {
    let stores = every_store(depths, cassettes);
    let classes = classes(&stores);
    assert_eq!(classes.len(), stores.len(), "the search found other stores");
    let classes: Vec<usize> = stores.iter().map(|store| classes[store]).collect();
    let mut images = || -> Vec<Vec<u8>> {
        let image = |store| inputs::image(random, store);
        stores.iter().map(image).collect()
    };
    let (from, to) = (images(), images());
    for (i, start) in stores.iter().enumerate() {
        for (j, goal) in stores.iter().enumerate() {
            let yes = classes[i] == classes[j];
            assert_eq!(rule::reachable(start, goal), yes, "{start:?} {goal:?}");
            let number = if yes { 0 } else { 15 };
            checks::reachable(caller, &from[i], &to[j], number);
            checks::plans(caller, &from[i], &to[j], start.list_space(), number);
        }
    }
    stores.len()
}

/// For each store, which of the sets of stores that lead to each other it is in.
fn classes(stores: &[Store]) -> HashMap<Store, usize> {
    let mut classes = HashMap::new();
    for (number, store) in stores.iter().enumerate() {
        if !classes.contains_key(store) {
            let search = Search::all(store, usize::MAX);
            classes.extend(search.stores().map(|store| (store.clone(), number)));
        }
    }
    classes
}

/// No blank or one, by chance, since all cassettes differ with both, and every count above.
pub fn counts_of_blanks(random: &mut Random, n: usize) -> impl Iterator<Item = usize> + use<> {
    [random.below(2).min(n)].into_iter().chain(2..=n)
}

/// Names that no slot shows: 0, the numbers just past what a slot can hold, the greatest, the first that is absent, the last, those next to 255, and such as
/// differ from the first cassette in one bit.
fn absent(cassettes: &[u16]) -> Vec<u16> {
    let mut absent = vec![0, BLANK + 1, BLANK + 2, 65_535];
    let free = |number: &u16| !cassettes.contains(number);
    absent.extend((1..=BLANK).find(free));
    absent.extend((1..=BLANK).rfind(free));
    absent.extend([254, 255, 256].into_iter().filter(free));
    if let Some(first) = cassettes.first() {
        absent.extend((0..16).map(|bit| first ^ (1 << bit)).filter(free));
    }
    absent
}

/// Every store with these cassettes: a row that names each of them, each twice, and some that are absent, answered as the search has it. The rule that the
/// other tests go by agrees with the search too.
pub fn orders(caller: &mut Caller, random: &mut Random, depths: &[usize], cassettes: &[u16]) {
    let stores = every_store(depths, cassettes);
    let lifts = Lifts::between(&stores);
    let mut there = cassettes.to_vec();
    there.sort_unstable();
    there.dedup();
    let fewest: Vec<Vec<Option<usize>>> = there
        .iter()
        .map(|&cassette| lifts.fewest(|store| uncover::uncovered(store, cassette)))
        .collect();
    for (at, store) in stores.iter().enumerate() {
        let found = fewest.iter().map(|fewest| fewest[at].ok_or(17));
        let mut answers: Vec<_> = there.iter().copied().zip(found).collect();
        answers.extend(absent(cassettes).into_iter().map(|name| (name, Err(16))));
        answers.extend_from_within(..there.len());
        compare_row(caller, random, store, &answers);
    }
}

fn compare_row(
    caller: &mut Caller,
    random: &mut Random,
    store: &Store,
    answers: &[(u16, Result<usize, u8>)],
) {
    let mut orders = Vec::new();
    let mut row = Vec::new();
    for &(name, answer) in answers {
        assert_eq!(uncover::uncover(store, name), answer, "{name} of {store:?}");
        let order = Order::naming(name, random);
        orders.push(order);
        row.push(expected::answered(order, answer));
    }
    let image = inputs::image(random, store);
    checks::row_is(caller, &image, &orders, Answer::of(0, 0), &row);
}
