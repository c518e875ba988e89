//! Blank carriers (document 02, 5/13): cases of each rule with the answers written out, in every form, the largest stores of blanks, and a single blank, which
//! is answered like any other cassette.

use halyard_model::image::{self, Form};
use halyard_model::store::{BLANK, MOST_DEPTH, MOST_SHAFTS};
use halyard_model::{Random, Store, text};
use halyard_outside::calls::{Answer, Caller, Order};
use halyard_outside::inputs::{self, MOST_LIST_SPACE};
use halyard_outside::{checks, guarded::GUARD};

fn caller() -> Caller {
    Caller::new(61, GUARD)
}

fn store(text: &str) -> Store {
    text::read(text).unwrap()
}

/// The image of a text's store, in form 0.
fn bytes(text: &str) -> Vec<u8> {
    image::write_in(&store(text), Form::OneDepth)
}

/// The image of a store in each form. All hold it.
fn images(store: &Store) -> [Vec<u8>; 3] {
    Form::ALL.map(|form| image::write_in(store, form))
}

/// The yes or no gives this number in every two forms, and so does a plan into as much space as it asks for, whose list is replayed.
fn pair_is(start: &Store, goal: &Store, number: u8) {
    for from in images(start) {
        for to in images(goal) {
            checks::reachable(&mut caller(), &from, &to, number);
            checks::plan(&mut caller(), &from, &to, start.list_space(), number);
        }
    }
}

fn pair(start: &str, goal: &str, number: u8) {
    pair_is(&store(start), &store(goal), number);
}

/// What an order is answered with: the number and the lifts.
fn order_for(cassette: u16, store: &Store) -> (u8, u8) {
    let named = Order::naming(cassette, &mut Random::new(62));
    let written = caller().uncover(&image::write_first(store), &[named]);
    assert_eq!(written.answer, Answer::of(0, 0));
    let [answered] = written.space.content() else {
        panic!("one order");
    };
    assert_eq!(answered.cassette, named.cassette);
    (answered.number, answered.lifts)
}

/// What an order for a blank is answered with.
fn order(store: &Store) -> (u8, u8) {
    order_for(BLANK, store)
}

/// "May stand any number of times"; "number 5 no longer applies to it", and still does to every other number.
#[test]
fn only_blanks_stand_twice() {
    for number in 1..=BLANK {
        let shafts = vec![vec![BLANK, number], vec![BLANK, number, BLANK]];
        let twice = Store::of_depth(3, shafts);
        let wanted = if number == BLANK { 0 } else { 5 };
        for form in Form::ALL.into_iter().filter(|form| form.holds(&twice)) {
            let answer = caller().check(&image::write_in(&twice, form));
            assert_eq!(answer, Answer::of(wanted, 0), "{number} in {form:?}");
        }
    }
}

/// An image with its bytes written out: m = 2, h = 2, a blank in each shaft and another on the first.
#[test]
fn an_image_of_three_blanks() {
    let image = [0x01, 0x11, 0x7F, 0xFF, 0x87, 0xFC];
    assert_eq!(bytes("2x2: [b b] [b]"), image);
    assert_eq!(caller().check(&image), Answer::of(0, 0));
    let replayed = caller().replay(&image, &[0x01], image.len());
    assert_eq!(replayed.answer, Answer::of(0, 1));
    assert_eq!(replayed.space.content(), bytes("2x2: [b] [b b]"));
}

/// "Number 9 compares how often each number stands."
#[test]
fn counts_of_blanks_that_differ() {
    pair("3x2: [1 b] [b] []", "3x2: [1 b] [] []", 9);
    pair("3x2: [1 b] [] []", "3x2: [1 b] [b] []", 9);
    pair("3x2: [b b] [b] []", "3x2: [b b] [b b] []", 9);
    pair("3x2: [1] [2] []", "3x2: [1] [2] [b]", 9);
    pair("3x2: [1 b] [b] []", "3x2: [1 b] [2] []", 9);
    pair("3x2: [1 b] [2] []", "3x2: [b b] [2] []", 9);
    pair("3x2: [1 b] [2] []", "3x2: [3 b] [2] []", 9);
    pair("2x2: [b b] [b]", "2x2: [b b] [b b]", 9);
    pair("1x3: [b b b]", "1x3: [b b]", 9);
}

#[test]
fn one_shaft() {
    pair("1x3: [b 1 b]", "1x3: [b 1 b]", 0);
    pair("1x3: [b 1 b]", "1x3: [b b 1]", 15);
    pair("1x3: [b 1 b]", "1x3: [1 b b]", 15);
    pair("1x4: [b b b]", "1x4: [b b b]", 0);
}

/// The same reading, and another.
#[test]
fn two_shafts() {
    pair("2x3: [1 b] [b]", "2x3: [1] [b b]", 0);
    pair("2x3: [1 b] [b]", "2x3: [1 b b] []", 0);
    pair("2x3: [1 b] [b]", "2x3: [b] [b 1]", 15);
    pair("2x3: [b 1] [b]", "2x3: [b] [b 1]", 0);
    pair("2x3: [b 1] [b]", "2x3: [b 1 b] []", 0);
    pair("2x3: [b 1] [b]", "2x3: [b b] [1]", 15);
    pair("2x3: [b 1 b] [2 b]", "2x3: [b 1] [2 b b]", 0);
    pair("2x3: [b 1 b] [2 b]", "2x3: [b b] [2 b 1]", 15);
    pair("2x2: [b b] [b]", "2x2: [b] [b b]", 0);
    pair("2x2: [b 1] [b 2]", "2x2: [b 1] [b 2]", 0);
    pair("2x2: [b 1] [b 2]", "2x2: [b 2] [b 1]", 15);
}

#[test]
fn three_shafts_with_room() {
    pair("3x1: [b] [b] []", "3x1: [] [b] [b]", 0);
    pair("3x1: [b] [1] []", "3x1: [1] [b] []", 0);
    pair("3x2: [b 1] [b b] []", "3x2: [] [1 b] [b b]", 0);
    pair("3x3: [b b b] [] []", "3x3: [b] [b] [b]", 0);
}

/// With three empty slots of depth 4 row 1 never changes; a blank there is as good as any other blank, and as no other cassette.
#[test]
fn three_shafts_crowded() {
    let crowded = "3x4: [b 4 5 6] [b 7 b] [3 9]";
    pair(crowded, "3x4: [b b] [b 6 5 4] [3 7 9]", 0);
    pair(crowded, "3x4: [b 9 7] [b b 4] [3 5 6]", 0);
    pair(crowded, "3x4: [b 4 5 6] [3 7 b] [b 9]", 15);
    pair(crowded, "3x4: [4 b 5 6] [b 7 b] [3 9]", 15);
    pair(crowded, "3x4: [b 4 5 6] [b 7 3] [b 9]", 15);
    pair(
        "3x4: [b b b b] [b b b] [1 b]",
        "3x4: [b b] [b b b] [1 b b b]",
        0,
    );
    pair(
        "3x4: [b b b b] [b b b] [1 b]",
        "3x4: [b b b b] [b b b] [b 1]",
        15,
    );
}

#[test]
fn full_shafts() {
    pair("3x2: [1 b] [b 2] [b 3]", "3x2: [1 b] [b 2] [b 3]", 0);
    pair("3x2: [1 b] [b 2] [b 3]", "3x2: [1 b] [2 b] [b 3]", 15);
    pair("3x2: [b b] [b b] [b b]", "3x2: [b b] [b b] [b b]", 0);
    pair("4x1: [b] [1] [b] [b]", "4x1: [b] [b] [1] [b]", 15);
    pair(
        "4x2: [b 1] [b 2] [b] [b 3]",
        "4x2: [b 2] [b] [b 1] [b 3]",
        0,
    );
}

/// "Start equal to goal gives the empty list", and stores that differ only in which blank stands where are equal.
#[test]
fn equal_stores() {
    for text in ["3x2: [b b] [1 b] []", "2x3: [b b] [b]", "1x2: [b b]"] {
        let (image, space) = (bytes(text), store(text).list_space());
        let planned = caller().plan(&image, &image, space);
        assert_eq!(planned.answer, Answer::of(0, 0), "{text}");
    }
}

/// n counts each blank, so that three of depth 2 ask for 48 bytes.
#[test]
fn list_space() {
    for start in [
        "3x2: [b b] [b] []",
        "3x2: [b b] [1] []",
        "3x2: [1 2] [b] []",
    ] {
        let (from, to) = (bytes(start), image::write_first(&turned(&store(start))));
        let lent = |space| caller().plan(&from, &to, space).answer;
        assert_eq!(lent(48).number, 0, "{start}");
        for short in [0, 16, 32, 47] {
            assert_eq!(lent(short), Answer::of(10, 0), "{start}, {short} bytes");
        }
    }
}

/// The same shafts in another order.
fn turned(store: &Store) -> Store {
    let mut turned = store.clone();
    turned.shafts.rotate_left(1);
    turned
}

/// "The fewest lifts that uncover some blank": in the first shaft, a later one, and where one stands on another.
#[test]
fn the_nearest_blank() {
    for (text, lifts) in [
        ("3x4: [b 1 2] [3 b 4] []", 1),
        ("3x4: [3 b 4] [b 1 2] []", 1),
        ("3x4: [b 1 2] [b 3 4] [5 b]", 0),
        ("3x4: [b 1 b 2] [3] []", 1),
        ("3x4: [b b 1 2] [3] []", 2),
        ("4x3: [b 1 2] [b 3] [4 5] [b 6 7]", 1),
        ("2x4: [b 1 2] [b 3]", 1),
        ("2x4: [b 3] [b 1 2]", 1),
        ("1x4: [b 1 b]", 0),
    ] {
        assert_eq!(order(&store(text)), (0, lifts), "{text}");
    }
}

/// With two empty slots of depth 4 row 1 is never uncovered: the blank there has one cassette on it, the nearest that can be uncovered two.
#[test]
fn a_blank_under_the_rows_that_never_change() {
    for (text, lifts) in [
        ("3x4: [b 1] [2 b 3 4] [5 6 7 8]", 2),
        ("3x4: [2 b 3 4] [b 1] [5 6 7 8]", 2),
        ("3x4: [b 1] [2 b 3 4] [5 6 b 8]", 1),
        ("3x2: [b 1] [2 b] [3 4]", 0),
        ("3x2: [2 b] [b 1] [3 4]", 0),
        ("3x2: [b b] [b 1] [3 4]", 0),
        ("2x3: [1 b 2] [b 3]", 1),
        ("2x3: [b 3] [1 b 2]", 1),
    ] {
        assert_eq!(order(&store(text)), (0, lifts), "{text}");
    }
}

/// "17 exactly if none can be uncovered", and 16 where there is none.
#[test]
fn no_blank_to_uncover() {
    for text in [
        "3x2: [b 1] [b 2] [3 4]",
        "3x2: [b 1] [2 3] [b 4]",
        "3x4: [b 1] [b 2 3 4] [5 6 7 8]",
        "2x3: [b 1 2] [b 3]",
        "1x4: [b b 1]",
    ] {
        assert_eq!(order(&store(text)), (17, 0), "{text}");
    }
    for text in ["3x2: [1] [2] [3]", "1x1: []", "2x2: [1 2] [3 4]"] {
        assert_eq!(order(&store(text)), (16, 0), "{text}");
    }
}

/// 16 x 16 blanks.
fn all_blanks() -> Store {
    Store::of_depth(MOST_DEPTH, vec![vec![BLANK; MOST_DEPTH]; MOST_SHAFTS])
}

/// A cassette in place of another, by its shaft and row.
fn with(mut store: Store, places: &[(usize, usize, u16)]) -> Store {
    for &(shaft, row, cassette) in places {
        store.shafts[shaft][row - 1] = cassette;
    }
    store
}

/// The top of each of these shafts taken away.
fn without_tops(mut store: Store, shafts: &[usize]) -> Store {
    for &shaft in shafts {
        store.shafts[shaft].pop();
    }
    store
}

/// "A store may now hold 256 cassettes", "the longest image has 268 bytes" (in form 0), "the program lends 18,432 bytes".
#[test]
fn all_256_blanks() {
    let image = image::write_in(&all_blanks(), Form::OneDepth);
    assert_eq!((image.len(), MOST_LIST_SPACE), (268, 18_432));
    assert_eq!(caller().check(&image), Answer::of(0, 0));
    assert_eq!(caller().reachable(&image, &image), Answer::of(0, 0));
    let planned = caller().plan(&image, &image, 18_432);
    assert_eq!(planned.answer, Answer::of(0, 0));
    let planned = caller().plan(&image, &image, 18_431);
    assert_eq!(planned.answer, Answer::of(10, 0));
    let replayed = caller().replay(&image, &[], 268);
    assert_eq!(replayed.answer, Answer::of(0, 0));
    assert_eq!(replayed.space.content(), image);
    let replayed = caller().replay(&image, &[0x0F], 268);
    assert_eq!(replayed.answer, Answer::of(14, 0));
    assert_eq!(replayed.space.content(), image);
    let replayed = caller().replay(&image, &[], 267);
    assert_eq!(replayed.answer, Answer::of(10, 0));
    assert_eq!(order(&all_blanks()), (0, 0));
    assert_eq!(caller().check(&image[..267]), Answer::of(2, 0));
}

/// What the C header defines a name as.
fn defined(name: &str) -> usize {
    let header = include_str!("../../../include/halyardgage.h");
    let line = format!("#define {name} ");
    let value = header.lines().find_map(|it| it.strip_prefix(&line));
    value.expect("a definition").parse().expect("a number")
}

/// The constants of the header are those of the largest store.
#[test]
fn constants_of_the_header() {
    assert_eq!(defined("HALYARD_BLANK"), BLANK.into());
    let image = image::write_in(&all_blanks(), Form::Wide);
    assert_eq!(defined("HALYARD_IMAGE_MAX"), image.len());
    assert_eq!(defined("HALYARD_LIST_MAX"), all_blanks().list_space());
}

/// 256 cassettes, blanks but for a few: every slot is bound.
#[test]
fn full_of_blanks_but_for_a_few() {
    let full = with(all_blanks(), &[(0, 16, 1), (5, 1, 254), (15, 16, 7)]);
    pair_is(&full, &full, 0);
    let exchanged = [(0, 16, 7), (5, 1, 254), (15, 16, 1)];
    pair_is(&full, &with(all_blanks(), &exchanged), 15);
    let moved = [(0, 16, 1), (5, 2, 254), (15, 16, 7)];
    pair_is(&full, &with(all_blanks(), &moved), 15);
    let twice = [(0, 16, 1), (5, 1, 254), (15, 16, 254)];
    for image in images(&with(all_blanks(), &twice)) {
        assert_eq!(caller().check(&image), Answer::of(5, 0));
    }
    pair_is(&full, &all_blanks(), 9);
    pair_is(&full, &without_tops(full.clone(), &[1]), 9);
}

/// With one empty slot rows 1 to 15 never change.
#[test]
fn blanks_but_for_a_few_and_one_slot() {
    let tops = [(0, 16, 1), (1, 16, 2), (9, 15, 3)];
    let start = without_tops(with(all_blanks(), &tops), &[15]);
    pair_is(&start, &without_tops(with(all_blanks(), &tops), &[7]), 0);
    let exchanged = with(all_blanks(), &[(0, 16, 2), (1, 16, 1), (9, 15, 3)]);
    pair_is(&start, &without_tops(exchanged, &[4]), 0);
    let under = with(all_blanks(), &[(0, 16, 1), (1, 16, 2), (8, 15, 3)]);
    pair_is(&start, &without_tops(under, &[15]), 15);
    let on_top = with(all_blanks(), &[(0, 16, 1), (1, 16, 2), (9, 16, 3)]);
    pair_is(&start, &without_tops(on_top, &[15]), 15);
    assert_eq!(order(&start), (0, 0));
}

/// With two empty slots rows 1 to 14 never change, and a cassette in row 15 may go anywhere above.
#[test]
fn blanks_but_for_a_few_and_two_slots() {
    let places = [(0, 15, 1), (1, 15, 2), (2, 14, 3)];
    let start = without_tops(with(all_blanks(), &places), &[3, 4]);
    let exchanged = with(all_blanks(), &[(0, 15, 2), (1, 15, 1), (2, 14, 3)]);
    pair_is(&start, &without_tops(exchanged, &[3, 4]), 0);
    let far = with(all_blanks(), &[(14, 15, 2), (15, 16, 1), (2, 14, 3)]);
    pair_is(&start, &without_tops(far, &[0, 0]), 0);
    let under = with(all_blanks(), &[(0, 15, 1), (1, 14, 2), (2, 15, 3)]);
    pair_is(&start, &without_tops(under, &[3, 4]), 15);
}

/// 254 cassettes, no two the same, in 16 x 16: rows 1 to 13 are never uncovered. Then blanks in place of some of them.
#[test]
fn orders_in_the_largest_store() {
    let others: Vec<u16> = (1..=254).collect();
    let shafts = others.chunks(MOST_DEPTH).map(<[u16]>::to_vec).collect();
    let different = Store::of_depth(MOST_DEPTH, shafts);
    let with_blanks = |places: &[(usize, usize)]| {
        let blanks: Vec<_> = places
            .iter()
            .map(|&(shaft, row)| (shaft, row, BLANK))
            .collect();
        order(&with(different.clone(), &blanks))
    };
    assert_eq!(with_blanks(&[]), (16, 0));
    assert_eq!(with_blanks(&[(3, 14)]), (0, 2));
    assert_eq!(with_blanks(&[(3, 13)]), (17, 0));
    assert_eq!(with_blanks(&[(3, 13), (12, 1), (15, 13)]), (17, 0));
    assert_eq!(with_blanks(&[(3, 13), (12, 14)]), (0, 2));
    assert_eq!(with_blanks(&[(3, 14), (12, 13), (14, 15)]), (0, 1));
    assert_eq!(with_blanks(&[(3, 13), (12, 14), (15, 14)]), (0, 0));
}

/// The store with its blank under another number.
fn renamed(store: &Store, number: u16) -> Store {
    let mut renamed = store.clone();
    let slots = renamed.shafts.iter_mut().flatten();
    slots
        .filter(|slot| **slot == BLANK)
        .for_each(|slot| *slot = number);
    renamed
}

/// A store with one blank is answered as if the blank were another cassette that the store has not.
#[test]
fn a_single_blank_is_like_any_cassette() {
    let mut random = Random::new(63);
    for _ in 0..3_000 {
        let (m, h) = (random.from_to(1, 16), random.from_to(1, 16));
        let n = random.from_to(1, m * h);
        let start = random.store_with_blanks(m, h, n, 1);
        let there = start.cassettes();
        let all = *random.one_of(&[256, BLANK]);
        let absent: Vec<u16> = (1..all).filter(|it| !there.contains(it)).collect();
        let number = *random.one_of(&absent);
        let goal = match random.below(3) {
            0 => random.rearranged(&start),
            1 => random.unreachable_goal(&start).unwrap_or(start.clone()),
            _ => random.reachable_goal(&start),
        };
        let space = inputs::list_len(&mut random, &start);
        let (as_start, as_goal) = (renamed(&start, number), renamed(&goal, number));
        let answers = pair_answers(&start, &goal, space);
        assert_eq!(answers, pair_answers(&as_start, &as_goal, space));
        assert_eq!(order(&start), order_for(number, &as_start));
        let list = inputs::list(&mut random, &start);
        let (answer, end) = replayed(&start, &list);
        let wanted = replayed(&as_start, &list);
        assert_eq!((answer, renamed(&end, number)), wanted);
    }
}

/// What the yes or no answers, and the number of a plan: which list it makes is free.
fn pair_answers(start: &Store, goal: &Store, space: usize) -> (Answer, u8) {
    let (from, to) = (image::write_first(start), image::write_first(goal));
    let planned = caller().plan(&from, &to, space);
    (caller().reachable(&from, &to), planned.answer.number)
}

/// What a replay answers, and the store that it writes.
fn replayed(store: &Store, list: &[u8]) -> (Answer, Store) {
    let image = image::write_first(store);
    let written = caller().replay(&image, list, image.len());
    let end = image::read(written.space.content()).unwrap();
    (written.answer, end)
}
