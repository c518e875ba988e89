//! Random stores up to 16 x 16, of equal and unequal depths, with numbers of a byte and past it, in every form of image, damaged images, conversions, lists and lent
//! lengths, from fixed seeds, and some inputs in full.

use halyard_model::image::{self, Form};
use halyard_model::store::{BLANK, MOST_DEPTH, MOST_ORDINARY};
use halyard_model::{Random, Store};
use halyard_outside::calls::{Answer, Caller};
use halyard_outside::{checks, guarded::GUARD, inputs, rounds};

fn rounds(seed: u64, count: usize, round: fn(&mut Caller, &mut Random)) -> Caller {
    let mut random = Random::new(seed);
    let mut caller = Caller::new(random.word(), GUARD);
    for _ in 0..count {
        round(&mut caller, &mut random);
    }
    caller
}

/// Each of these numbers was answered often enough.
fn met(caller: &Caller, numbers: &[u8], least: u64) {
    for &number in numbers {
        let answers = caller.answers_with(number);
        assert!(answers >= least, "{number} was answered {answers} times");
    }
}

/// Each of these numbers was answered often enough where the depths are unequal.
fn met_unequal(caller: &Caller, numbers: &[u8], least: u64) {
    for &number in numbers {
        let answers = caller.unequal_with(number);
        assert!(answers >= least, "{number}, unequal: {answers} times");
    }
}

/// Each of these numbers was answered often enough where a cassette is past a byte.
fn met_past_a_byte(caller: &Caller, numbers: &[u8], least: u64) {
    for &number in numbers {
        let answers = caller.past_a_byte_with(number);
        assert!(answers >= least, "{number}, past a byte: {answers} times");
    }
}

/// Each of these numbers was answered often enough in each form.
fn met_forms(caller: &Caller, numbers: &[u8], least: u64) {
    for (&number, form) in numbers
        .iter()
        .flat_map(|it| Form::ALL.map(|form| (it, form)))
    {
        let answers = caller.in_form_with(form, number);
        assert!(answers >= least, "{number} in {form:?}: {answers} times");
    }
}

/// Every two forms.
fn two_forms() -> impl Iterator<Item = (Form, Form)> {
    let with_all = |one| Form::ALL.map(|other| (one, other));
    Form::ALL.into_iter().flat_map(with_all)
}

/// Each of these numbers was answered often enough where start and goal came in these forms, for every two forms.
fn met_pairs(caller: &Caller, numbers: &[u8], least: u64) {
    for (start, goal) in two_forms() {
        for &number in numbers {
            let answers = caller.pairs_with(start, goal, number);
            assert!(
                answers >= least,
                "{number}, {start:?} to {goal:?}: {answers} times"
            );
        }
    }
}

/// Each of these numbers was answered often enough by conversions, for every two forms; 18 where the form named is not the last, which holds all.
fn met_conversions(caller: &Caller, numbers: &[u8], least: u64) {
    for (from, to) in two_forms() {
        for &number in numbers {
            let answers = caller.conversions_with(from, to, number);
            assert!(
                answers >= least,
                "{number}, {from:?} to {to:?}: {answers} times"
            );
        }
    }
    for (from, to) in [
        (Form::Depths, Form::OneDepth),
        (Form::Wide, Form::OneDepth),
        (Form::Wide, Form::Depths),
    ] {
        let answers = caller.conversions_with(from, to, 18);
        assert!(answers >= least, "18, {from:?} to {to:?}: {answers} times");
    }
}

#[test]
fn pairs() {
    let caller = rounds(21, 20_000, rounds::pair);
    met(&caller, &[0, 8, 9, 10, 15], 500);
    met_unequal(&caller, &[0, 8, 9, 10, 15], 500);
    met_past_a_byte(&caller, &[0, 8, 9, 10, 15], 500);
    met_pairs(&caller, &[0, 8, 9, 10, 15], 25);
}

#[test]
fn damage() {
    let caller = rounds(22, 10_000, rounds::damage);
    met(&caller, &[0, 1, 2, 3, 4, 5, 7, 10, 18], 500);
    met_unequal(&caller, &[0, 1, 2, 3, 4, 5, 7, 8], 100);
    met_past_a_byte(&caller, &[0, 1, 2, 3, 4, 5, 7, 8], 100);
    met_forms(&caller, &[2, 3, 4, 5, 7], 500);
    met_pairs(&caller, &[2, 3, 4, 5, 7, 8], 100);
}

#[test]
fn replays() {
    let caller = rounds(23, 20_000, rounds::replay);
    met(&caller, &[0, 10, 11, 13, 14], 100);
    met_unequal(&caller, &[0, 10, 11, 13, 14], 100);
    met_past_a_byte(&caller, &[0, 10, 11, 13, 14], 100);
    met_forms(&caller, &[0, 10, 11, 13, 14], 40);
}

#[test]
fn conversions() {
    let caller = rounds(31, 20_000, rounds::convert);
    met(&caller, &[0, 1, 10, 18], 1_000);
    met_unequal(&caller, &[0, 1, 10, 18], 500);
    met_past_a_byte(&caller, &[0, 1, 10, 18], 500);
    met_conversions(&caller, &[0, 10], 250);
}

#[test]
fn list_lengths() {
    let caller = rounds(24, 1_000, rounds::list_lengths);
    met(&caller, &[0, 10, 15], 1_000);
    met(&caller, &[8, 9], 300);
    met_unequal(&caller, &[0, 10, 15], 1_000);
    met_past_a_byte(&caller, &[0, 10, 15], 1_000);
    met_pairs(&caller, &[0, 10, 15], 100);
}

#[test]
fn out_lengths() {
    let caller = rounds(25, 1_000, rounds::out_lengths);
    met(&caller, &[0, 1, 10, 11, 18], 1_000);
    met_unequal(&caller, &[0, 10, 11], 500);
    met_past_a_byte(&caller, &[0, 10, 11], 500);
    met_conversions(&caller, &[0, 10], 150);
}

/// Every lent length for a start with such cassettes: for goals within reach, out of it, of other cassettes and of another depth, for a replay, and for a
/// conversion to each form.
fn every_length_from(
    caller: &mut Caller,
    random: &mut Random,
    depths: &[usize],
    cassettes: Vec<u16>,
) {
    let start = random.in_shafts(depths, cassettes.clone());
    let from = inputs::image(random, &start);
    let fewer = random.cassettes(start.n() - 1);
    let deeper = [&depths[..depths.len() - 1], &[5]].concat();
    let mut goals = vec![(random.reachable_goal(&start), 0)];
    goals.extend(random.unreachable_goal(&start).map(|goal| (goal, 15)));
    goals.push((random.in_shafts(depths, fewer), 9));
    goals.push((random.in_shafts(&deeper, cassettes), 8));
    for (goal, number) in goals {
        let to = inputs::image(random, &goal);
        for list_len in 0..start.list_space() + 20 {
            checks::plan(caller, &from, &to, list_len, number);
        }
    }
    let list = inputs::legal_list(random, &start, 5);
    for out_len in 0..from.len() + 20 {
        checks::replay(caller, &from, &list, out_len);
        (0..4).for_each(|form| checks::convert(caller, &from, form, out_len));
    }
}

/// Every lent length from none to a little more than the limit.
#[test]
fn every_length() {
    let mut random = Random::new(26);
    let mut caller = Caller::new(26, GUARD);
    for (depths, n, blanks) in [
        (&[3][..], 2, 0),
        (&[3], 3, 2),
        (&[3, 3], 4, 0),
        (&[3, 3], 4, 3),
        (&[2; 3], 5, 0),
        (&[2; 3], 5, 5),
        (&[3; 3], 6, 1),
        (&[3; 3], 6, 4),
        (&[2; 4], 3, 0),
        (&[2; 4], 6, 2),
        (&[4, 1], 4, 0),
        (&[1, 3], 3, 2),
        (&[3, 2, 2], 5, 0),
        (&[1, 1, 4], 5, 3),
        (&[2, 3, 1, 2], 6, 2),
    ] {
        let any = random.cassettes_with_blanks(n, blanks);
        let bytes = random.byte_cassettes_with_blanks(n, blanks);
        every_length_from(&mut caller, &mut random, depths, any);
        every_length_from(&mut caller, &mut random, depths, bytes);
    }
    met(&caller, &[0, 8, 9, 10, 15], 100);
    met_unequal(&caller, &[0, 8, 9, 10, 15], 100);
    met_past_a_byte(&caller, &[0, 8, 9, 10, 15], 100);
    met_forms(&caller, &[0, 8, 9, 10, 15], 20);
}

/// Images of small stores and of the largest, with equal depths and unequal ones, with and without blanks, with numbers of a byte and past it, in each form that
/// holds them.
fn some_images(random: &mut Random) -> Vec<Vec<u8>> {
    let equal = [
        (1, 1, 0),
        (1, 1, 1),
        (2, 2, 3),
        (3, 2, 3),
        (5, 7, 20),
        (16, 16, 256),
    ];
    let most = [vec![MOST_DEPTH; 15], vec![15]].concat();
    let mut frames = equal.map(|(m, h, n)| (vec![h; m], n)).to_vec();
    frames.extend([(vec![3, 1], 3), (vec![1, 7, 2, 16], 20), (most, 255)]);
    let mut images = Vec::new();
    for (depths, n) in frames {
        let least = usize::saturating_sub(n, 254);
        for cassettes in [
            random.byte_cassettes_with_blanks(n, least),
            random.byte_cassettes_with_blanks(n, n / 2),
            random.cassettes_with_blanks(n, n / 3),
            (255..255 + n as u16).collect(),
        ] {
            let store = random.in_shafts(&depths, cassettes);
            let forms = Form::ALL.into_iter().filter(|form| form.holds(&store));
            images.extend(forms.map(|form| image::write_in(&store, form)));
        }
    }
    images
}

/// Every prefix of an image, and images with many bytes after them.
#[test]
fn every_cut() {
    let mut random = Random::new(27);
    let mut caller = Caller::new(27, GUARD);
    for image in some_images(&mut random) {
        for len in 0..=image.len() {
            checks::check(&mut caller, &image[..len]);
        }
        for more in [1, 2, 300, 70_000] {
            checks::check(&mut caller, &[&image[..], &vec![0; more]].concat());
        }
    }
    met_forms(&caller, &[2, 7], 30);
}

/// All bytes of length 0, 1 and 2, and many of length 3.
#[test]
fn every_short_image() {
    let mut random = Random::new(30);
    let mut caller = Caller::new(30, GUARD);
    checks::check(&mut caller, &[]);
    for first in 0..=255 {
        checks::check(&mut caller, &[first]);
        for second in 0..=255 {
            checks::check(&mut caller, &[first, second]);
            checks::check(&mut caller, &[first, second, random.byte()]);
        }
    }
}

/// A check of a full store of 16 x 16, of all of these cassettes and one more, gives this number in each form that holds it.
fn full_store_is(cassettes: &[u16], last: u16, number: u8) {
    let cassettes = [cassettes, &[last]].concat();
    assert_eq!(cassettes.len(), 256);
    let shafts = cassettes.chunks(16).map(<[u16]>::to_vec).collect();
    let full = Store::of_depth(16, shafts);
    for form in Form::ALL.into_iter().filter(|form| form.holds(&full)) {
        let answer = Caller::new(33, GUARD).check(&image::write_in(&full, form));
        assert_eq!(answer, Answer::of(number, 0), "{last} in {form:?}");
    }
}

/// Every number as the 256th cassette where each of a byte has stood, and a blank: 0 is a 4, a blank may stand again, and so may no other that stood.
#[test]
fn a_256th_cassette() {
    let cassettes: Vec<u16> = (1..=254).chain([BLANK]).collect();
    for last in 0..=BLANK {
        let number = match last {
            0 => 4,
            1..=254 => 5,
            _ => 0,
        };
        full_store_is(&cassettes, last, number);
    }
}

/// The same behind the 255 greatest numbers but the blank's.
#[test]
fn a_256th_cassette_behind_the_greatest() {
    let cassettes: Vec<u16> = (3_840..=MOST_ORDINARY).collect();
    for last in 0..=BLANK {
        let number = match last {
            0 => 4,
            3_840..=MOST_ORDINARY => 5,
            _ => 0,
        };
        full_store_is(&cassettes, last, number);
    }
}

/// Every number as the 256th cassette behind blanks alone: no other stood earlier.
#[test]
fn a_256th_cassette_behind_blanks() {
    for last in 0..=BLANK {
        full_store_is(&[BLANK; 255], last, if last == 0 { 4 } else { 0 });
    }
}

/// Every bit of an image changed, one at a time.
#[test]
fn every_bit() {
    let mut random = Random::new(28);
    let mut caller = Caller::new(28, GUARD);
    for image in some_images(&mut random) {
        for bit in 0..image.len() * 8 {
            let mut changed = image.clone();
            changed[bit / 8] ^= 128 >> (bit % 8);
            checks::check(&mut caller, &changed);
            checks::replay(&mut caller, &changed, &[], changed.len());
            checks::convert(&mut caller, &changed, (bit % 4) as u8, 403);
        }
    }
}

/// Counts past 255 and past 65,535.
#[test]
fn long_replays() {
    let mut random = Random::new(29);
    let mut caller = Caller::new(29, GUARD);
    let store = random.store(3, 4, 7);
    let image = image::write_first(&store);
    for count in [255, 256, 257, 65_535, 65_536, 200_000] {
        let mut list = inputs::legal_list(&mut random, &store, count);
        checks::replay(&mut caller, &image, &list, image.len());
        list.push(0x33);
        checks::replay(&mut caller, &image, &list, image.len());
    }
}
