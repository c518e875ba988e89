//! Rows of orders (document 02, 1/13): every number in every store of the shapes with at most six slots, with every count of blanks, against a full search
//! for the fewest lifts, and random rows.

use halyard_model::image::{self, Form};
use halyard_model::{Random, text};
use halyard_outside::calls::{Answer, Caller, Order, c};
use halyard_outside::{checks, every, guarded::GUARD, rounds};
use std::ptr::null_mut;

const SLOTS: usize = 6;

#[test]
fn every_cassette_of_every_small_store() {
    let mut caller = Caller::new(41, GUARD);
    let mut random = Random::new(41);
    for m in 1..=SLOTS {
        for h in 1..=SLOTS / m {
            for n in 0..=m * h {
                for blanks in 0..=n {
                    let cassettes = random.cassettes_with_blanks(n, blanks);
                    every::orders(&mut caller, &mut random, &vec![h; m], &cassettes);
                }
            }
        }
    }
}

#[test]
fn random_rows() {
    let mut random = Random::new(42);
    let mut caller = Caller::new(random.word(), GUARD);
    for _ in 0..10_000 {
        rounds::orders(&mut caller, &mut random);
    }
    for number in [0, 1, 2, 3, 4, 5, 7] {
        assert!(caller.answers_with(number) > 100, "{number} is rare");
    }
    assert!(caller.unequal_with(0) > 1_000, "unequal depths are rare");
    for form in Form::ALL {
        assert!(caller.in_form_with(form, 0) > 1_000, "{form:?} is rare");
    }
    for number in [0, 16, 17] {
        assert!(caller.orders_with(number) > 10_000, "{number} is rare");
        let past = caller.orders_past_a_byte_with(number);
        assert!(past > 10_000, "{number} past a byte: {past} times");
    }
    for lifts in 0..16 {
        assert!(caller.orders_after(lifts) > 1_000, "{lifts} lifts are rare");
    }
}

/// The row of every number that an order can name, on 16 x 16 with none, one and sixteen empty slots, on three shafts, and on one, with and without blanks, in each
/// form that holds the store.
#[test]
fn every_name() {
    let mut random = Random::new(43);
    let mut caller = Caller::new(43, GUARD);
    let mut stores = Vec::new();
    for (m, h, n) in [(16, 16, 255), (16, 16, 240), (3, 16, 40), (1, 16, 9)] {
        stores.push(random.store(m, h, n));
        stores.push(random.store_with_blanks(m, h, n, n / 2));
    }
    stores.push(random.store_with_blanks(16, 16, 256, 0));
    stores.push(random.store_with_blanks(3, 16, 40, 0));
    for store in stores {
        let orders: Vec<_> = (0..=65_535)
            .map(|name| Order::naming(name, &mut random))
            .collect();
        for form in Form::ALL.into_iter().filter(|form| form.holds(&store)) {
            checks::uncover(&mut caller, &image::write_in(&store, form), &orders);
        }
    }
    for form in Form::ALL {
        assert!(caller.in_form_with(form, 0) > 2, "{form:?} is rare");
    }
    let found = caller.orders_past_a_byte_with(0);
    assert!(found > 100, "found past a byte: {found} times");
}

/// Answers written out: `[1 4 5 6] [2 7 8] [3 9]` of depth 4 has three empty slots, so that row 1 can just be uncovered; with one cassette more it can't.
#[test]
fn answers_by_hand() {
    let named = |cassette, number, lifts| Order {
        cassette,
        number,
        lifts,
    };
    let crowded = [
        named(1, 0, 3),
        named(7, 0, 1),
        named(9, 0, 0),
        named(0, 16, 0),
    ];
    answered("3x4: [1 4 5 6] [2 7 8] [3 9]", &crowded);
    let fuller = [
        named(1, 17, 0),
        named(4, 0, 2),
        named(11, 16, 0),
        named(4, 0, 2),
    ];
    answered("3x4: [1 4 5 6] [2 7 8] [3 9 10]", &fuller);
}

fn answered(store: &str, row: &[Order]) {
    let mut random = Random::new(44);
    let image = image::write_first(&text::read(store).unwrap());
    let orders: Vec<_> = row
        .iter()
        .map(|order| Order::naming(order.cassette, &mut random))
        .collect();
    let caller = &mut Caller::new(44, GUARD);
    checks::row_is(caller, &image, &orders, Answer::of(0, 0), row);
}

/// A row that begins two bytes past a multiple of four, as C may place it: an order is a word for its cassette and one for its answer.
#[test]
fn a_row_aligned_to_two() {
    let image = image::write_first(&text::read("3x4: [1 4 5 6] [2 7 8] [3 9 10]").unwrap());
    let mut words = [0, 4, 0xAAAA, 1, 0xAAAA, 11, 0xAAAA, 0xAAAA].to_vec();
    let place: *mut u16 = words.as_mut_ptr();
    if place.align_offset(4) != 0 {
        words.remove(0);
    }
    let first = words.iter().position(|&word| word == 4).unwrap();
    // SAFETY: the image has as many bytes as are named, and from its first word on there are three orders, aligned to two bytes.
    let number = unsafe {
        let row = words.as_mut_ptr().add(first).cast();
        c::halyard_uncover(image.as_ptr(), image.len(), row, 3)
    };
    let answers: Vec<_> = words[first..first + 6]
        .chunks(2)
        .map(|order| (order[0], order[1].to_ne_bytes()))
        .collect();
    assert_eq!(number, 0);
    assert_eq!(answers, [(4, [0, 2]), (1, [17, 0]), (11, [16, 0])]);
    assert_eq!(words.last(), Some(&0xAAAA));
}

/// A refused image leaves the row, whatever it holds.
#[test]
fn refused_images() {
    let mut caller = Caller::new(45, GUARD);
    let mut random = Random::new(45);
    let image = image::write_first(&random.store(3, 2, 4));
    let orders: Vec<_> = (0..300)
        .map(|name| Order::naming(name, &mut random))
        .collect();
    for (bytes, number) in [
        (&[][..], 2),
        (&[0x30], 1),
        (&[0x20], 2),
        (&[0x10], 2),
        (&image[..image.len() - 1], 2),
        (&[&image[..], &[0]].concat(), 7),
    ] {
        checks::row_is(&mut caller, bytes, &orders, Answer::of(number, 0), &orders);
    }
}

/// NULL is taken where there is no order.
#[test]
fn null_with_length_0() {
    let image = image::write_first(&text::read("3x1: [1] [2] []").unwrap());
    // SAFETY: the image has as many bytes as are named, NULL none, and there is no order.
    unsafe {
        let none = c::halyard_uncover(image.as_ptr(), image.len(), null_mut(), 0);
        assert_eq!(none, 0);
        assert_eq!(c::halyard_uncover(null_mut(), 0, null_mut(), 0), 2);
    }
}
