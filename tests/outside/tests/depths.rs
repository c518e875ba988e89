//! Shafts of unequal depth (document 02, 7/13): cases for each of its rules with the answers written out, and every pair of stores of small frames and every
//! order against a full search.

use halyard_model::image::{self, Form};
use halyard_model::store::{BLANK, MOST_DEPTH};
use halyard_model::{Random, Store, text};
use halyard_outside::calls::{Answer, Caller, Order};
use halyard_outside::{checks, every, guarded::GUARD};

fn caller() -> Caller {
    Caller::new(81, GUARD)
}

fn store(text: &str) -> Store {
    text::read(text).unwrap()
}

/// The image of a store in form 1, which all depths have.
fn image(store: &Store) -> Vec<u8> {
    image::write_in(store, Form::Depths)
}

fn bytes(text: &str) -> Vec<u8> {
    image(&store(text))
}

/// The yes or no gives this number, and so does a plan into as much space as it asks for, whose list is replayed.
fn pair_is(start: &Store, goal: &Store, number: u8) {
    let (from, to) = (image(start), image(goal));
    checks::reachable(&mut caller(), &from, &to, number);
    checks::plans(&mut caller(), &from, &to, start.list_space(), number);
}

fn pair(start: &str, goal: &str, number: u8) {
    pair_is(&store(start), &store(goal), number);
}

/// "Form, m - 1, and then for each shaft its depth - 1 (4 bits), height (5) and cassettes": m = 2, depth 3 with [1 2] and depth 1 with [3].
#[test]
fn an_image_of_unequal_depths() {
    let image = [0x11, 0x21, 0x00, 0x81, 0x00, 0x40, 0xC0];
    assert_eq!(bytes("2x3,1: [1 2] [3]"), image);
    assert_eq!(caller().check(&image), Answer::of(0, 0));
    let replayed = caller().replay(&image, &[0x10], image.len());
    assert_eq!(replayed.answer, Answer::of(0, 1));
    assert_eq!(replayed.space.content(), bytes("2x3,1: [1 2 3] []"));
    let replayed = caller().replay(&image, &[], image.len());
    assert_eq!(replayed.space.content(), image);
}

/// "3 uses the shaft's own depth": a height of one more than it, in each shaft.
#[test]
fn heights_above_their_own_depth() {
    let depths = [3, 1, 16, 2];
    for (shaft, &depth) in depths.iter().enumerate() {
        for (height, number) in [(depth, 0), (depth + 1, 3)] {
            let mut store = Store::empty_of(&depths);
            store.shafts[shaft] = (1..=height as u16).collect();
            let answer = caller().check(&image(&store));
            assert_eq!(answer, Answer::of(number, 0), "{store:?}");
        }
    }
}

/// The first fault met, field by field, also in the depths: each cut of an image, a padding bit and a byte more.
#[test]
fn faults_of_reading() {
    let image = bytes("2x3,1: [1 2] [3]");
    for len in 0..image.len() {
        assert_eq!(caller().check(&image[..len]), Answer::of(2, 0), "{len}");
    }
    let mut changed = image.clone();
    changed[6] |= 1;
    assert_eq!(caller().check(&changed), Answer::of(7, 0));
    let longer = [&image[..], &[0]].concat();
    assert_eq!(caller().check(&longer), Answer::of(7, 0));
    let twice = Store {
        depths: vec![3, 1],
        shafts: vec![vec![1, 3], vec![3]],
    };
    assert_eq!(caller().check(&self::image(&twice)), Answer::of(5, 0));
    let zero = Store {
        depths: vec![3, 1],
        shafts: vec![vec![1, 3], vec![0]],
    };
    assert_eq!(caller().check(&self::image(&zero)), Answer::of(4, 0));
}

/// "14 uses the shaft's own depth": a shaft of depth 1 is full with one cassette, one of depth 3 takes a third.
#[test]
fn full_by_its_own_depth() {
    let image = bytes("3x3,1,2: [1 2] [3] [4 5]");
    for (lift, number, end) in [
        (0x01, 14, "3x3,1,2: [1 2] [3] [4 5]"),
        (0x02, 14, "3x3,1,2: [1 2] [3] [4 5]"),
        (0x21, 14, "3x3,1,2: [1 2] [3] [4 5]"),
        (0x10, 0, "3x3,1,2: [1 2 3] [] [4 5]"),
        (0x20, 0, "3x3,1,2: [1 2 5] [3] [4]"),
    ] {
        let replayed = caller().replay(&image, &[lift], image.len());
        let count = usize::from(number == 0);
        assert_eq!(replayed.answer, Answer::of(number, count), "{lift:02x}");
        assert_eq!(replayed.space.content(), bytes(end), "{lift:02x}");
    }
}

/// "8 is given if any depth differs": each alone, by one and by more, also where the cassettes stand in the same slots or differ too, and m.
#[test]
fn any_depth_that_differs() {
    let start = store("4x3,2,2,5: [1] [2] [] [3]");
    for shaft in 0..4 {
        for depth in 1..=MOST_DEPTH {
            let mut goal = start.clone();
            goal.depths[shaft] = depth;
            let number = if goal.depths == start.depths { 0 } else { 8 };
            pair_is(&start, &goal, number);
            pair_is(&goal, &start, number);
        }
    }
    pair("3x2: [1] [2] [3]", "3x2,2,1: [1] [2] [3]", 8);
    pair("3x2,2,1: [1] [2] [3]", "3x2: [1] [2] [3]", 8);
    pair("3x2,2,1: [1] [2] [3]", "3x1,2,2: [1] [2] [3]", 8);
    pair("3x2,2,1: [1] [2] [3]", "3x2,2,3: [1] [2] [4]", 8);
    pair("3x2,2,1: [1] [2] []", "4x2,2,1,1: [1] [2] [] []", 8);
    pair("4x2,2,1,1: [1] [2] [] []", "3x2,2,1: [1] [2] []", 8);
}

/// "e is now the sum of the depths less n", and for m = 2 the reading of shaft 0 upward, then shaft 1 downward.
#[test]
fn two_shafts() {
    pair("2x3,1: [1 2] [3]", "2x3,1: [1 2 3] []", 0);
    pair("2x3,1: [1 2] [3]", "2x3,1: [1 3 2] []", 15);
    pair("2x3,1: [1 2] [3]", "2x3,1: [1 3] [2]", 15);
    pair("2x1,3: [] [1 2 3]", "2x1,3: [3] [1 2]", 0);
    pair("2x1,3: [] [1 2 3]", "2x1,3: [1] [3 2]", 15);
    pair("2x5,2: [1 b 2] [b]", "2x5,2: [1 b] [b 2]", 0);
    pair("2x5,2: [1 b 2] [b]", "2x5,2: [1 b] [2 b]", 15);
    pair("2x2,1: [1 2] [3]", "2x2,1: [1 2] [3]", 0);
    pair("2x2,1: [1 2] [3]", "2x2,1: [1 3] [2]", 15);
}

/// "For m >= 3, rows 1 to (depth of that shaft) - e" never change: with e = 2 row 1 of the shaft of depth 3, with e = 1 rows 1 and 2 of it and row 1 of the
/// others.
#[test]
fn three_shafts() {
    let start = "3x3,2,2: [1 2 3] [4] [5]";
    pair(start, "3x3,2,2: [1 3] [2 4] [5]", 0);
    pair(start, "3x3,2,2: [1] [5 4] [3 2]", 0);
    pair(start, "3x3,2,2: [4 2 3] [1] [5]", 15);
    pair(start, "3x3,2,2: [2 1 3] [4] [5]", 15);
    let fuller = "3x3,2,2: [1 2 3] [4 6] [5]";
    pair(fuller, "3x3,2,2: [1 2] [4 3] [5 6]", 0);
    pair(fuller, "3x3,2,2: [1 3 2] [4 6] [5]", 15);
    pair(fuller, "3x3,2,2: [1 2 3] [5 6] [4]", 15);
    let full = "3x1,3,2: [1] [2 3 4] [5 b]";
    pair(full, full, 0);
    pair(full, "3x1,3,2: [2] [1 3 4] [5 b]", 15);
}

/// Depths 1, 1 and 3: the floor of the deep shaft is rows 1 and 2 with one empty slot, row 1 with two, and nothing with three.
#[test]
fn one_deep_shaft() {
    let one = "3x1,1,3: [1] [] [4 2 3]";
    pair(one, "3x1,1,3: [3] [1] [4 2]", 0);
    pair(one, "3x1,1,3: [] [3] [4 2 1]", 0);
    pair(one, "3x1,1,3: [2] [1] [4 3]", 15);
    let two = "3x1,1,3: [1] [] [4 2]";
    pair(two, "3x1,1,3: [] [] [4 2 1]", 0);
    pair(two, "3x1,1,3: [2] [1] [4]", 0);
    pair(two, "3x1,1,3: [4] [] [2 1]", 15);
    let three = "3x1,1,3: [1] [] [4]";
    pair(three, "3x1,1,3: [4] [] [1]", 0);
    pair(three, "3x1,1,3: [] [] [4 1]", 0);
    pair(three, "3x1,1,3: [] [] [1 4]", 0);
}

/// One shaft, and shafts of equal depth, in form 1.
#[test]
fn equal_depths() {
    pair("1x3: [1 2]", "1x3: [1 2]", 0);
    pair("1x3: [1 2]", "1x3: [2 1]", 15);
    pair("3x2: [1 2] [] [3]", "3x2: [1] [2] [3]", 0);
    pair("3x2: [1 2] [3 4] [5]", "3x2: [3 2] [1 4] [5]", 15);
}

/// "In 4hn + 8n, h is the deepest shaft", whichever it is: five cassettes and a depth of 3 ask for 100 bytes.
#[test]
fn list_space_by_the_deepest() {
    for (start, goal, need) in [
        ("3x3,2,2: [1 2 3] [4] [5]", "3x3,2,2: [1 3] [2 4] [5]", 100),
        ("3x2,3,2: [4] [1 2 3] [5]", "3x2,3,2: [2 4] [1 3] [5]", 100),
        ("3x2,2,3: [4] [5] [1 2 3]", "3x2,2,3: [2 4] [5] [1 3]", 100),
        ("2x1,16: [1] [2]", "2x1,16: [] [2 1]", 144),
        ("2x1,16: [1] [2]", "2x1,16: [1] [2]", 144),
    ] {
        let (from, to) = (bytes(start), bytes(goal));
        let lent = |space| caller().plan(&from, &to, space).answer;
        assert_eq!(lent(need).number, 0, "{start}");
        for short in [0, 1, need / 2, need - 1] {
            assert_eq!(lent(short), Answer::of(10, 0), "{start}, {short} bytes");
        }
    }
}

/// What orders for these cassettes are answered with: the number and the lifts.
fn answers(store: &str, cassettes: &[u16]) -> Vec<(u8, u8)> {
    let mut random = Random::new(82);
    let mut named = |&it: &u16| Order::naming(it, &mut random);
    let orders: Vec<Order> = cassettes.iter().map(&mut named).collect();
    let written = caller().uncover(&bytes(store), &orders);
    assert_eq!(written.answer, Answer::of(0, 0));
    let row = written.space.content().iter();
    row.map(|order| (order.number, order.lifts)).collect()
}

/// "17 follows them": with two empty slots row 2 is the lowest to be uncovered in a shaft of depth 4, row 1 in those of depth 3 and less.
#[test]
fn orders_by_the_floor_of_the_shaft() {
    let buried = answers("3x4,3,2: [1 2 3 4] [5 6] [7]", &[1, 2, 3, 4, 5, 6, 7, 8]);
    let wanted = [
        (17, 0),
        (0, 2),
        (0, 1),
        (0, 0),
        (0, 1),
        (0, 0),
        (0, 0),
        (16, 0),
    ];
    assert_eq!(buried, wanted);
    let full = answers("3x4,3,2: [1 2] [5 6 8] [7 9]", &[1, 2, 5, 7]);
    assert_eq!(full, [(17, 0), (0, 0), (0, 2), (0, 1)]);
    let two = answers("2x2,4: [4] [1 2 3]", &[1, 2, 3, 4]);
    assert_eq!(two, [(17, 0), (0, 1), (0, 0), (0, 0)]);
    let small = answers("3x1,1,16: [] [] [1 2 3 4 5 6 7]", &[1, 4, 5, 7]);
    assert_eq!(small, [(17, 0), (17, 0), (0, 2), (0, 0)]);
}

/// A blank in a deep shaft may be below its floor where one in another shaft, with as many or more on it, is not.
#[test]
fn orders_for_blanks_by_the_floor_of_the_shaft() {
    for (store, wanted) in [
        ("3x4,3,2: [b 1] [2 b 3] [4 5]", (0, 1)),
        ("3x4,3,2: [b 1] [b 2 3] [4 5]", (0, 2)),
        ("3x3,4,2: [b 2 3] [b 1] [4 5]", (0, 2)),
        ("3x4,1,1: [b b 2 3] [1] []", (17, 0)),
        ("3x4,1,1: [b b b 3] [1] []", (0, 1)),
    ] {
        assert_eq!(answers(store, &[BLANK]), [wanted], "{store}");
    }
}

/// Every list of depths with so many slots and two shafts or more that are not all equal.
fn unequal_frames(slots: usize) -> Vec<Vec<usize>> {
    let mut frames = vec![vec![]];
    for _ in 0..slots {
        let longer = frames.iter().flat_map(|depths: &Vec<usize>| {
            let one_more = [&depths[..], &[1]].concat();
            let deeper = depths
                .split_last()
                .map(|(last, rest)| [rest, &[last + 1]].concat());
            [Some(one_more), deeper].into_iter().flatten()
        });
        frames = longer.collect();
    }
    frames.retain(|depths| !Store::empty_of(depths).equal_depths());
    frames
}

#[test]
fn frames_of_each_count_of_slots() {
    assert_eq!(unequal_frames(3), [vec![1, 2], vec![2, 1]]);
    assert_eq!(unequal_frames(4).len(), 8 - 3);
    assert_eq!(unequal_frames(5).len(), 16 - 2);
    assert_eq!(unequal_frames(6).len(), 32 - 4);
}

/// Every pair of stores of these frames with up to `most` different cassettes, or with any count of blanks among them.
fn compare_frames(seed: u64, frames: &[Vec<usize>], most: usize) {
    let mut caller = Caller::new(seed, GUARD);
    let mut random = Random::new(seed);
    for depths in frames {
        for n in 0..=depths.iter().sum() {
            for blanks in every::counts_of_blanks(&mut random, n) {
                let different = n - blanks + usize::from(blanks > 0);
                if different <= most {
                    let cassettes = random.cassettes_with_blanks(n, blanks);
                    every::pairs(&mut caller, &mut random, depths, &cassettes);
                }
            }
        }
    }
    for number in [0, 10, 15] {
        let answers = caller.unequal_with(number);
        assert!(answers > 1_000, "{number}: {answers} times");
        let past = caller.past_a_byte_with(number);
        assert!(past > 1_000, "{number}, past a byte: {past} times");
        for form in [Form::Depths, Form::Wide] {
            let answers = caller.in_form_with(form, number);
            assert!(answers > 300, "{number} in {form:?}: {answers} times");
        }
    }
}

#[test]
fn every_pair_of_three_and_four_slots() {
    compare_frames(84, &[unequal_frames(3), unequal_frames(4)].concat(), 4);
}

#[test]
fn every_pair_of_five_slots() {
    compare_frames(85, &unequal_frames(5), 5);
}

#[test]
fn every_pair_of_six_slots_with_few_different_cassettes() {
    compare_frames(86, &unequal_frames(6), 3);
}

/// Up to five different cassettes, in some frames of six slots.
#[test]
fn every_pair_of_six_slots_in_some_frames() {
    compare_frames(87, &[vec![5, 1], vec![1, 2, 3]], 5);
}

/// Every order in every store of the frames of three to six slots, with each count of blanks.
#[test]
fn every_order_in_every_small_store() {
    let mut caller = Caller::new(88, GUARD);
    let mut random = Random::new(88);
    for depths in (3..=6).flat_map(unequal_frames) {
        for n in 0..=depths.iter().sum() {
            for blanks in 0..=n {
                let cassettes = random.cassettes_with_blanks(n, blanks);
                every::orders(&mut caller, &mut random, &depths, &cassettes);
            }
        }
    }
    for number in [0, 16, 17] {
        assert!(caller.orders_with(number) > 1_000, "{number} is rare");
    }
}
