//! Every pair of stores of the shapes with at most six slots, with blanks among the cassettes and without, in every two forms, against a full search.

use halyard_model::Random;
use halyard_model::image::Form;
use halyard_outside::calls::Caller;
use halyard_outside::{every, guarded::GUARD};

const SLOTS: usize = 6;

/// Every shape of `m` shafts with at most six slots, every count of cassettes, and of blanks among them.
fn compare_shapes(m: usize, largest: usize) {
    let mut caller = Caller::new(m as u64, GUARD);
    let mut random = Random::new(m as u64);
    let mut most = 0;
    for h in 1..=SLOTS / m {
        for n in 0..=m * h {
            for blanks in every::counts_of_blanks(&mut random, n) {
                let cassettes = random.cassettes_with_blanks(n, blanks);
                let stores = every::pairs(&mut caller, &mut random, &vec![h; m], &cassettes);
                most = most.max(stores);
            }
        }
    }
    assert_eq!(most, largest, "stores of the largest set");
    for (start, goal) in Form::ALL
        .iter()
        .flat_map(|one| Form::ALL.map(|two| (*one, two)))
    {
        let answers = [0, 15].map(|number| caller.pairs_with(start, goal, number));
        assert!(
            answers.iter().sum::<u64>() > 20,
            "{start:?}, {goal:?}: {answers:?} times"
        );
    }
    let past = caller.past_a_byte_with(0);
    assert!(past > 100, "numbers past a byte: {past} times");
}

#[test]
fn one_shaft() {
    compare_shapes(1, 720);
}

#[test]
fn two_shafts() {
    compare_shapes(2, 720);
}

#[test]
fn three_shafts() {
    compare_shapes(3, 720);
}

#[test]
fn four_shafts() {
    compare_shapes(4, 24);
}

#[test]
fn five_shafts() {
    compare_shapes(5, 120);
}

#[test]
fn six_shafts() {
    compare_shapes(6, 720);
}
