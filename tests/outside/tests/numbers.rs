//! Cassette numbers past 255 and form 2 of an image (document 02, 8/13): cases for each of its sentences with the answers written out, one store in every form that
//! holds it, conversions between the forms, and images of forms 0 and 1 against a full search.

use halyard_model::image::{self, Field, Form};
use halyard_model::search::{Search, every_store};
use halyard_model::store::{BLANK, MOST_DEPTH, MOST_ORDINARY, MOST_SHAFTS};
use halyard_model::{Random, Store, text};
use halyard_outside::calls::{Answer, Caller, Order};
use halyard_outside::{checks, guarded::GUARD, inputs};

fn caller() -> Caller {
    Caller::new(91, GUARD)
}

fn store(text: &str) -> Store {
    text::read(text).unwrap()
}

/// The images of a store in the forms that hold it.
fn images(store: &Store) -> Vec<Vec<u8>> {
    let forms = Form::ALL.into_iter().filter(|form| form.holds(store));
    forms.map(|form| image::write_in(store, form)).collect()
}

fn form_2(text: &str) -> Vec<u8> {
    image::write_in(&store(text), Form::Wide)
}

/// The same store in each form, with its bytes written out: m = 3, depth 2, shafts [1 b] [] [b].
const FORM_0: [u8; 7] = [0x02, 0x11, 0x00, 0xFF, 0x80, 0x3F, 0xE0];
const FORM_1: [u8; 8] = [0x12, 0x11, 0x00, 0xFF, 0x88, 0x04, 0x3F, 0xE0];
const FORM_2: [u8; 9] = [0x22, 0x11, 0x00, 0x0F, 0xFF, 0x88, 0x04, 0x3F, 0xFE];
const THREE: [&[u8]; 3] = [&FORM_0, &FORM_1, &FORM_2];

/// The store of those bytes.
fn three() -> Store {
    store("3x2: [1 b] [] [b]")
}

/// A conversion into this much space gives this answer, and these bytes where they are given, or nothing.
fn converts(image: &[u8], form: u8, out_len: usize, wanted: Result<&[u8], u8>) {
    let written = caller().convert(image, form, out_len);
    let about = || format!("{image:02x?} to form {form} in {out_len} bytes");
    let bytes = wanted.unwrap_or(&[]);
    let answer = Answer::of(wanted.err().unwrap_or(0), bytes.len());
    assert_eq!(written.answer, answer, "{}", about());
    let space = &written.space;
    assert_eq!(space.content()[..bytes.len()], *bytes, "{}", about());
    assert!(space.kept_but(bytes.len()), "{}", about());
}

/// "Number 1 covers forms above 2", also where nothing follows.
#[test]
fn forms_above_2() {
    for form in 0..16 {
        let number = if form > 2 { 1 } else { 2 };
        assert_eq!(caller().check(&[form << 4]), Answer::of(number, 0));
        for image in THREE {
            let mut image = image.to_vec();
            image[0] = form << 4 | 2;
            let answer = caller().check(&image);
            assert_eq!(answer.number == 1, form > 2, "form {form}");
            converts(&image, 3, 403, Err(answer.number.max(1)));
        }
    }
}

/// "Form 2 is form 1 with 12-bit numbers": the example of the C header, three shafts of depths 3, 2 and 2.
#[test]
fn the_example_of_the_header() {
    let image = [
        0x22, 0x21, 0x80, 0x08, 0x7F, 0xFF, 0xF0, 0x84, 0x4B, 0x04, 0x3F, 0xFE,
    ];
    let shown = image.map(|byte| format!("{byte:02X}")).join(" ");
    let header = include_str!("../../../include/halyardgage.h");
    assert!(header.contains(&shown), "{shown}");
    assert_eq!(form_2("3x3,2,2: [1 255 4094] [300] [b]"), image);
    assert_eq!(caller().check(&image), Answer::of(0, 0));
    let replayed = caller().replay(&image, &[0x01, 0x20], image.len());
    assert_eq!(replayed.answer, Answer::of(0, 2));
    let end = form_2("3x3,2,2: [1 255 b] [300 4094] []");
    assert_eq!(replayed.space.content(), end);
    let replayed = caller().replay(&image, &[], image.len());
    assert_eq!(replayed.space.content(), image);
}

/// The bytes written out are one store's.
#[test]
fn one_store_in_three_forms() {
    assert_eq!(images(&three()), THREE);
    for image in THREE {
        assert_eq!(caller().check(image), Answer::of(0, 0));
    }
}

/// "Start and goal may come in different forms and are compared by what they mean": the same store gives the empty list, whatever the forms, and the list to
/// another goal does not go by them either.
#[test]
fn start_and_goal_in_every_two_forms() {
    let goal = images(&store("3x2: [b] [1] [b]"));
    let space = three().list_space();
    let mut lists = Vec::new();
    for from in THREE {
        for (same, other) in THREE.iter().zip(&goal) {
            assert_eq!(caller().reachable(from, same), Answer::of(0, 0));
            assert_eq!(caller().plan(from, same, space).answer, Answer::of(0, 0));
            checks::reachable(&mut caller(), from, other, 0);
            checks::plan(&mut caller(), from, other, space, 0);
            let short = caller().plan(from, other, space - 1).answer;
            assert_eq!(short, Answer::of(10, 0));
            let planned = caller().plan(from, other, space);
            let count = planned.answer.count as usize;
            lists.push(planned.space.content()[..count].to_vec());
        }
    }
    assert!(lists.iter().all(|list| *list == lists[0]), "{lists:?}");
}

/// The same for every number that two stores can give, in every two forms that hold them.
#[test]
fn every_number_in_every_two_forms() {
    for (start, goal, number) in [
        ("3x2: [1 2] [] [3]", "3x2: [1] [2] [3]", 0),
        ("3x2: [1 2] [3 4] [5]", "3x2: [3 2] [1 4] [5]", 15),
        ("3x2: [1 b] [b 4] [5]", "3x2: [b 1] [b 4] [5]", 15),
        ("3x2: [1 2] [] [3]", "3x2: [1 2] [] [4]", 9),
        ("3x2: [1 2] [] [b]", "3x2: [1 2] [] [254]", 9),
        ("3x2: [1 2] [] [b]", "3x2: [1 2] [] [255]", 9),
        ("3x2: [1 255] [] [b]", "3x2: [1 b] [] [255]", 0),
        ("3x2: [1 2] [] [3]", "3x3: [1 2] [] [3]", 8),
        ("3x2: [1 2] [] [3]", "3x2,2,1: [1 2] [] [3]", 8),
        ("3x2: [1 2] [] [3]", "4x2: [1 2] [] [3] []", 8),
        ("2x3: [1 2] [b]", "2x3: [1] [b 2]", 0),
        ("2x3: [1 2] [b]", "2x3: [1] [2 b]", 15),
        ("2x3,1: [1 2] [300]", "2x3,1: [1 2 300] []", 0),
        ("2x3,1: [1 300] [2]", "2x3,1: [1 2 300] []", 15),
        ("1x2: [1 4094]", "1x2: [4094 1]", 15),
    ] {
        let space = store(start).list_space();
        for from in images(&store(start)) {
            for to in images(&store(goal)) {
                checks::reachable(&mut caller(), &from, &to, number);
                checks::plan(&mut caller(), &from, &to, space, number);
                let short = caller().plan(&from, &to, space - 1).answer;
                let wanted = if number == 0 { 10 } else { number };
                assert_eq!(short, Answer::of(wanted, 0), "{start} to {goal}");
            }
        }
    }
}

/// Stores in every form that holds them, at random: the forms change neither what is answered nor the list.
#[test]
fn forms_change_no_answer() {
    let mut random = Random::new(92);
    let mut caller = caller();
    for _ in 0..1_500 {
        let start = inputs::store(&mut random);
        let goal = inputs::goal(&mut random, &start);
        let list_len = inputs::list_len(&mut random, &start);
        let (from, to) = (images(&start), images(&goal));
        let mut answers = Vec::new();
        for (from, to) in from
            .iter()
            .flat_map(|one| to.iter().map(move |two| (one, two)))
        {
            let reachable = caller.reachable(from, to);
            let planned = caller.plan(from, to, list_len);
            let list = planned.space.content()[..planned.answer.count as usize].to_vec();
            answers.push((reachable, planned.answer, list));
        }
        let same = answers.iter().all(|it| *it == answers[0]);
        assert!(same, "{start:?} to {goal:?}");
        checks::pair(&mut caller, &from[0], &to[to.len() - 1], list_len);
    }
    for (start, goal) in [
        (Form::OneDepth, Form::Depths),
        (Form::OneDepth, Form::Wide),
        (Form::Depths, Form::Wide),
    ] {
        for number in [0, 9, 10, 15] {
            let there = caller.pairs_with(start, goal, number);
            let back = caller.pairs_with(goal, start, number);
            assert!(there > 20 && back > 20, "{number}: {there} and {back}");
        }
    }
}

/// "A replay called from C writes in the form of the image given", so that 10 goes by its length, after the faults of reading and before any lift.
#[test]
fn replays_write_in_the_form_given() {
    for (image, end) in THREE.iter().zip(images(&store("3x2: [1] [b] [b]"))) {
        let stops = [0x01, 0x01, 0x01, 0x01];
        let reached = images(&store("3x2: [] [b 1] [b]"));
        let form = usize::from(image[0] >> 4);
        for out_len in 0..20 {
            let replay = |list| caller().replay(image, list, out_len);
            let [run, stopped] = [replay(&stops[..1]), replay(&stops)];
            if out_len < image.len() {
                assert_eq!(run.answer, Answer::of(10, 0), "{out_len}");
                assert_eq!(stopped.answer, Answer::of(10, 0), "{out_len}");
                assert!(run.space.kept_but(0) && stopped.space.kept_but(0));
            } else {
                let len = image.len();
                assert_eq!(run.answer, Answer::of(0, 1), "{out_len}");
                assert_eq!(run.space.content()[..len], end);
                assert_eq!(stopped.answer, Answer::of(13, 2), "{out_len}");
                assert_eq!(stopped.space.content()[..len], reached[form]);
                assert!(run.space.kept_but(len) && stopped.space.kept_but(len));
            }
        }
        let cut = &image[..image.len() - 1];
        for out_len in [0, cut.len(), 403] {
            let answer = caller().replay(cut, &stops, out_len).answer;
            assert_eq!(answer, Answer::of(2, 0), "{out_len}");
        }
    }
}

/// What orders are answered with: the number and the lifts.
fn orders(image: &[u8], cassettes: &[u16]) -> Vec<(u8, u8)> {
    let mut random = Random::new(93);
    let mut named = |&it: &u16| Order::naming(it, &mut random);
    let orders: Vec<Order> = cassettes.iter().map(&mut named).collect();
    let written = caller().uncover(image, &orders);
    assert_eq!(written.answer, Answer::of(0, 0));
    let row = written.space.content();
    let names: Vec<u16> = row.iter().map(|order| order.cassette).collect();
    assert_eq!(names, cassettes);
    row.iter()
        .map(|order| (order.number, order.lifts))
        .collect()
}

/// "4,095 is the blank, in orders too": 255 is no name for a blank, in whatever form the image is, and no other number is, in whatever bits it is the same.
#[test]
fn orders_by_meaning() {
    let absent = [0, 2, 254, 255, 256, 4094, 4096, 8191, 65_535];
    for image in THREE {
        assert_eq!(orders(image, &[1, BLANK]), [(0, 1), (0, 0)]);
        assert_eq!(orders(image, &absent), [(16, 0); 9]);
    }
    let wide = form_2("3x4: [255 256 1] [4094 b 510] [300]");
    let there = [255, 256, 1, 4094, BLANK, 510, 300];
    let lifts = [2, 1, 0, 2, 1, 0, 0].map(|lifts| (0, lifts));
    assert_eq!(orders(&wide, &there), lifts);
    for name in there {
        let shared = [name + 4096, name ^ 256, name ^ 2048, name ^ 64];
        assert_eq!(orders(&wide, &shared), [(16, 0); 4], "{name}");
    }
    let crowded = form_2("3x2: [255 1] [4094 2] [b 256]");
    let buried = orders(&crowded, &[255, 4094, BLANK, 256, 1]);
    assert_eq!(buried, [(17, 0), (17, 0), (17, 0), (0, 0), (0, 0)]);
}

/// An image of one shaft of depth 2, with these fields as its cassettes.
fn with_fields(form: Form, values: &[usize]) -> Vec<u8> {
    let field = |width, value| Field { width, value };
    let head = [(4, form as usize), (4, 0), (4, 1), (5, values.len())];
    let mut fields = head.map(|(width, value)| field(width, value)).to_vec();
    fields.extend(values.iter().map(|&value| field(form.width(), value)));
    image::pack(&fields)
}

/// What the fields 254 to 256, 4,094 and 4,095 are in each form: as which cassette an order finds them, whether they may stand twice, and as what they are written in
/// each form that holds them.
#[test]
fn the_numbers_at_the_edges() {
    use Form::{Depths, OneDepth, Wide};
    for (form, number, cassette, written) in [
        (OneDepth, 254, 254, [Some(254), Some(254), Some(254)]),
        (Depths, 254, 254, [Some(254), Some(254), Some(254)]),
        (Wide, 254, 254, [Some(254), Some(254), Some(254)]),
        (OneDepth, 255, BLANK, [Some(255), Some(255), Some(4095)]),
        (Depths, 255, BLANK, [Some(255), Some(255), Some(4095)]),
        (Wide, 255, 255, [None, None, Some(255)]),
        (Wide, 256, 256, [None, None, Some(256)]),
        (Wide, 4094, 4094, [None, None, Some(4094)]),
        (Wide, 4095, BLANK, [Some(255), Some(255), Some(4095)]),
    ] {
        let image = with_fields(form, &[number]);
        let about = || format!("{number} in {form:?}");
        assert_eq!(caller().check(&image), Answer::of(0, 0), "{}", about());
        for name in [254, 255, 256, 4094, 4095] {
            let number = if name == cassette { 0 } else { 16 };
            assert_eq!(orders(&image, &[name]), [(number, 0)], "{}", about());
        }
        let twice = if cassette == BLANK { 0 } else { 5 };
        let answer = caller().check(&with_fields(form, &[number, number]));
        assert_eq!(answer, Answer::of(twice, 0), "{}", about());
        for (to, field) in Form::ALL.into_iter().zip(written) {
            let bytes = field.map(|field| with_fields(to, &[field]));
            let wanted = bytes.as_deref().ok_or(18);
            converts(&image, to as u8, 403, wanted);
        }
        let replayed = caller().replay(&image, &[], image.len());
        assert_eq!(replayed.space.content(), image, "{}", about());
    }
}

/// 255 may stand twice in forms 0 and 1 alone, where it is the blank; in form 2 only 4,095 may.
#[test]
fn twice_in_form_2() {
    for (shafts, number) in [
        ([vec![255, 1], vec![255]], 5),
        ([vec![255, 255], vec![]], 5),
        ([vec![4095, 255], vec![4095]], 0),
        ([vec![4095, 4095], vec![4095]], 0),
        ([vec![4094, 4095], vec![4094]], 5),
        ([vec![255, 4095], vec![255]], 5),
    ] {
        let image = image::write_in(&Store::of_depth(2, shafts.to_vec()), Form::Wide);
        assert_eq!(
            caller().check(&image),
            Answer::of(number, 0),
            "{image:02x?}"
        );
    }
    for form in [Form::OneDepth, Form::Depths] {
        let image = with_fields(form, &[255, 255]);
        assert_eq!(caller().check(&image), Answer::of(0, 0));
    }
}

/// Every number twice in form 2, and once with each that differs from it in one bit, or by 64, 256 or 4,032: only the same number is a 5, or 0 a 4.
#[test]
fn numbers_that_share_bits() {
    let mut caller = caller();
    let mut check = |one: usize, other: usize| {
        let image = with_fields(Form::Wide, &[one, other]);
        caller.check(&image).number
    };
    for one in 1..=4095 {
        assert_eq!(check(one, one), if one == 4095 { 0 } else { 5 }, "{one}");
        let steps = [64, 256, 2048, 4032].map(|step| (one + step) % 4096);
        for other in (0..12).map(|bit| one ^ (1 << bit)).chain(steps) {
            let wanted = if other == 0 { 4 } else { 0 };
            assert_eq!(check(one, other), wanted, "{one} and {other}");
        }
    }
}

/// Number 9 tells numbers apart that share bits, in every place of the store, and the blank from 255 and 4,094.
#[test]
fn number_9_for_numbers_that_share_bits() {
    for one in [
        1, 2, 63, 64, 65, 254, 255, 256, 320, 1_024, 2_047, 4_031, 4_094, 4_095,
    ] {
        let near = (0..12).map(|bit| one ^ (1 << bit));
        let steps = [64, 256, 2048, 4032].map(|step| (one + step) % 4096);
        for other in near.chain(steps).filter(|&other| other != 0) {
            let third = [3, 5]
                .into_iter()
                .find(|it| ![one, other].contains(it))
                .unwrap();
            let with = |number| Store::of_depth(2, vec![vec![number, third], vec![], vec![]]);
            let (start, goal) = (with(one), with(other));
            for (from, to) in images(&start).iter().zip(images(&goal)) {
                checks::reachable(&mut caller(), from, &to, 9);
                checks::reachable(&mut caller(), &to, from, 9);
            }
        }
    }
}

/// Reading in form 2: each cut is a 2, a padding bit and a byte more a 7, a height above its own depth a 3, and a 0 a 4, the first of them met.
#[test]
fn faults_of_reading() {
    let image = form_2("2x3,1: [1 4094] [300]");
    assert_eq!(image.len() * 8 - 62, 2);
    for len in 0..image.len() {
        assert_eq!(caller().check(&image[..len]), Answer::of(2, 0), "{len}");
    }
    for (place, bit) in [(7, 1), (7, 2)] {
        let mut changed = image.clone();
        changed[place] |= bit;
        assert_eq!(caller().check(&changed), Answer::of(7, 0));
    }
    let longer = [&image[..], &[0]].concat();
    assert_eq!(caller().check(&longer), Answer::of(7, 0));
    for (shafts, number) in [
        ([vec![1, 2, 3], vec![4]], 0),
        ([vec![1, 2, 3, 4], vec![]], 3),
        ([vec![1, 2], vec![3, 4]], 3),
        ([vec![1, 0], vec![3]], 4),
        ([vec![1, 0], vec![3, 4]], 4),
        ([vec![300, 300], vec![0]], 5),
        ([vec![300], vec![300]], 5),
    ] {
        let (depths, shafts) = (vec![3, 1], shafts.to_vec());
        let image = image::write_in(&Store { depths, shafts }, Form::Wide);
        assert_eq!(
            caller().check(&image),
            Answer::of(number, 0),
            "{image:02x?}"
        );
    }
}

/// The nine conversions of one store, into exactly the bytes, one less, and more.
#[test]
fn every_two_forms() {
    for from in THREE {
        for (form, to) in (0..).zip(THREE) {
            for more in [0, 1, 7, 403, 70_000] {
                converts(from, form, to.len() + more, Ok(to));
            }
            for less in 1..=to.len() {
                converts(from, form, to.len() - less, Err(10));
            }
        }
    }
}

/// Stores with and without blanks, of equal and unequal depths, with numbers past a byte and without: each in every form that holds it, to every form. A form that
/// can't hold it is an 18, whatever is lent.
#[test]
fn conversions_between_all_forms() {
    for (text, holds) in [
        ("1x1: []", [true, true, true]),
        ("1x1: [b]", [true, true, true]),
        ("2x2: [1 2] [3]", [true, true, true]),
        ("2x2: [1 254] [b b]", [true, true, true]),
        ("2x2,1: [1 254] [3]", [false, true, true]),
        ("2x2,1: [b b] [b]", [false, true, true]),
        ("2x1,2: [] []", [false, true, true]),
        ("2x2: [1 255] [3]", [false, false, true]),
        ("2x2: [b 1] [256]", [false, false, true]),
        ("2x2: [4094] []", [false, false, true]),
        ("2x2,1: [1 4094] [b]", [false, false, true]),
        ("3x16,1,2: [1 2 3] [255] []", [false, false, true]),
    ] {
        let store = store(text);
        assert_eq!(Form::ALL.map(|form| form.holds(&store)), holds, "{text}");
        for from in images(&store) {
            for to in Form::ALL {
                if !holds[to as usize] {
                    for out_len in [0, 1, from.len(), 403] {
                        converts(&from, to as u8, out_len, Err(18));
                    }
                    continue;
                }
                let image = image::write_in(&store, to);
                converts(&from, to as u8, image.len() - 1, Err(10));
                converts(&from, to as u8, image.len(), Ok(&image));
                converts(&from, to as u8, image.len() + 9, Ok(&image));
            }
        }
    }
}

/// "Number 1 covers forms above 2, read or named for writing": every other number, whatever the store and whatever is lent.
#[test]
fn forms_named_above_2() {
    let wide = form_2("2x2,1: [1 300] [b]");
    for form in 3..=255 {
        for out_len in [0, 8, 9, 403] {
            converts(&FORM_0, form, out_len, Err(1));
            converts(&wide, form, out_len, Err(1));
        }
    }
}

/// "Writing tests the store, then 1, 18, 10": here the store is one read, so that the faults of reading come first.
#[test]
fn the_order_of_the_faults() {
    let wide = form_2("2x2,1: [1 300] [b]");
    let narrow = image::write_in(&store("2x2,1: [1 2] [b]"), Form::Depths);
    for (image, number) in [
        (wide[..wide.len() - 1].to_vec(), 2),
        ([&wide[..], &[0]].concat(), 7),
        (with_fields(Form::Wide, &[300, 300]), 5),
        (with_fields(Form::Wide, &[300, 0]), 4),
        (with_fields(Form::Wide, &[300, 301, 302]), 3),
        (vec![0x30], 1),
        (vec![], 2),
    ] {
        for form in [0, 1, 2, 3, 255] {
            for out_len in [0, 403] {
                converts(&image, form, out_len, Err(number));
            }
        }
    }
    for out_len in [0, 403] {
        converts(&wide, 3, out_len, Err(1));
        converts(&wide, 1, out_len, Err(18));
        converts(&wide, 0, out_len, Err(18));
        converts(&narrow, 0, out_len, Err(18));
    }
    converts(&wide, 2, 0, Err(10));
    converts(&narrow, 1, 0, Err(10));
    converts(&narrow, 2, 0, Err(10));
}

/// What a conversion writes, into as much as any image has.
fn converted(caller: &mut Caller, image: &[u8], form: Form) -> Vec<u8> {
    let written = caller.convert(image, form as u8, 403);
    assert_eq!(written.answer.number, 0, "{image:02x?} to {form:?}");
    written.space.content()[..written.answer.count as usize].to_vec()
}

/// "And gives its own bytes if that is the form it was read in"; there and back they are its own too, over every form that holds the store.
#[test]
fn there_and_back() {
    let mut random = Random::new(94);
    let mut caller = caller();
    let mut met = [0; 3];
    for _ in 0..3_000 {
        let store = inputs::store(&mut random);
        let images = images(&store);
        met[images.len() - 1] += 1;
        for (one, other) in images
            .iter()
            .flat_map(|one| images.iter().map(move |it| (one, it)))
        {
            let forms = [one, other].map(|image| image::form_of(image).unwrap());
            assert_eq!(converted(&mut caller, one, forms[0]), *one);
            let there = converted(&mut caller, one, forms[1]);
            assert_eq!(there, *other);
            assert_eq!(converted(&mut caller, &there, forms[0]), *one);
        }
    }
    assert!(met.iter().all(|&times| times > 300), "{met:?}");
}

/// "An image may now have 403" bytes: 16 x 16, full, in form 2, with 256 different cassettes, with blanks alone, and with some of them.
#[test]
fn longest_images() {
    let different: Vec<u16> = (3_839..=MOST_ORDINARY).collect();
    let spread: Vec<u16> = (0..256).map(|i| 1 + 16 * i).collect();
    let mut mixed: Vec<u16> = (200..456).collect();
    mixed[100..150].fill(BLANK);
    for cassettes in [different, spread, mixed, vec![BLANK; 256]] {
        let shafts = cassettes.chunks(16).map(<[u16]>::to_vec).collect();
        let full = Store::of_depth(MOST_DEPTH, shafts);
        assert_eq!((full.m(), full.n()), (MOST_SHAFTS, 256));
        let image = image::write_in(&full, Form::Wide);
        assert_eq!(image.len(), 403);
        assert_eq!(caller().check(&image), Answer::of(0, 0));
        assert_eq!(caller().check(&image[..402]), Answer::of(2, 0));
        assert_eq!(caller().reachable(&image, &image), Answer::of(0, 0));
        let planned = caller().plan(&image, &image, 18_432);
        assert_eq!(planned.answer, Answer::of(0, 0));
        let planned = caller().plan(&image, &image, 18_431);
        assert_eq!(planned.answer, Answer::of(10, 0));
        for (list, number) in [(&[][..], 0), (&[0x0F], 14)] {
            let replayed = caller().replay(&image, list, 403);
            assert_eq!(replayed.answer, Answer::of(number, 0));
            assert_eq!(replayed.space.content(), image);
            let replayed = caller().replay(&image, list, 402);
            assert_eq!(replayed.answer, Answer::of(10, 0));
        }
        converts(&image, 2, 403, Ok(&image));
        converts(&image, 2, 402, Err(10));
        let tops: Vec<u16> = full.shafts.iter().map(|shaft| shaft[15]).collect();
        assert_eq!(orders(&image, &tops), [(0, 0); 16]);
    }
}

/// The longest images of each form, of one store: 268, 275 and 403 bytes, converted each to each.
#[test]
fn longest_images_of_each_form() {
    let full = Store::of_depth(MOST_DEPTH, vec![vec![BLANK; MOST_DEPTH]; MOST_SHAFTS]);
    let images = images(&full);
    let lengths: Vec<usize> = images.iter().map(Vec::len).collect();
    assert_eq!(lengths, [268, 275, 403]);
    for from in &images {
        for (form, to) in (0..).zip(&images) {
            converts(from, form, to.len(), Ok(to));
            converts(from, form, to.len() - 1, Err(10));
            assert_eq!(caller().reachable(from, to), Answer::of(0, 0));
            checks::plan(&mut caller(), from, to, 18_432, 0);
        }
        let cut = &from[..from.len() - 1];
        assert_eq!(caller().check(cut), Answer::of(2, 0));
    }
}

/// 256 different cassettes, none of them a blank: with no empty slot only the store itself is within reach.
#[test]
fn full_stores_with_no_blank() {
    let cassettes: Vec<u16> = (255..511).collect();
    let shafts: Vec<Vec<u16>> = cassettes.chunks(16).map(<[u16]>::to_vec).collect();
    let full = Store::of_depth(16, shafts);
    let mut swapped = full.clone();
    swapped.shafts[0].swap(3, 4);
    let mut other = full.clone();
    other.shafts[15][15] = 511;
    for (goal, number) in [(&full, 0), (&swapped, 15), (&other, 9)] {
        let (from, to) = (&images(&full)[0], &images(goal)[0]);
        checks::reachable(&mut caller(), from, to, number);
        checks::plans(&mut caller(), from, to, 18_432, number);
    }
    let (mut start, mut goal) = (full.clone(), full);
    start.shafts[0].pop();
    goal.shafts[9].pop();
    goal.shafts[0].pop();
    goal.shafts[0].push(255 + 9 * 16 + 15);
    let (from, to) = (&images(&start)[0], &images(&goal)[0]);
    checks::reachable(&mut caller(), from, to, 0);
    checks::plans(&mut caller(), from, to, start.list_space(), 0);
}

/// The numbers of the header that this request is about.
#[test]
fn numbers_of_the_header() {
    let header = include_str!("../../../include/halyardgage.h");
    for line in [
        "HALYARD_FORM = 1,",
        "HALYARD_FORM_CANNOT_HOLD = 18,",
        "#define HALYARD_BLANK 4095\n",
        "#define HALYARD_IMAGE_MAX 403\n",
    ] {
        assert_eq!(header.matches(line).count(), 1, "{line}");
    }
}

/// Every pair of some small stores in forms 0 and 1, the goals as a full search has them, with 255 as the byte of each blank.
#[test]
fn forms_0_and_1_against_the_search() {
    let mut caller = caller();
    for (depths, bytes, form) in [
        (&[2; 3][..], &[1, 2, 255, 255][..], Form::OneDepth),
        (&[2; 3], &[1, 254, 255, 255, 255], Form::OneDepth),
        (&[2; 3], &[1, 254, 3, 255], Form::Depths),
        (&[3; 2], &[1, 255, 3, 255], Form::OneDepth),
        (&[3], &[254, 255, 255], Form::OneDepth),
        (&[3, 1, 2], &[1, 254, 255, 255, 255], Form::Depths),
        (&[2, 3], &[1, 2, 255, 255], Form::Depths),
    ] {
        let meant = |&byte: &u16| if byte == 255 { BLANK } else { byte };
        let cassettes: Vec<u16> = bytes.iter().map(meant).collect();
        let stores = every_store(depths, &cassettes);
        for start in &stores {
            let search = Search::all(start, usize::MAX);
            let from = byte_image(start, form);
            for goal in &stores {
                let number = if search.reaches(goal) { 0 } else { 15 };
                let to = byte_image(goal, form);
                checks::reachable(&mut caller, &from, &to, number);
                checks::plans(&mut caller, &from, &to, start.list_space(), number);
            }
        }
    }
    for form in [Form::OneDepth, Form::Depths] {
        for number in [0, 10, 15] {
            let answers = caller.pairs_with(form, form, number);
            assert!(answers > 1_000, "{number} in {form:?}: {answers} times");
        }
    }
}

/// The image of a store in form 0 or 1, packed here with the byte 255 for each blank.
fn byte_image(store: &Store, form: Form) -> Vec<u8> {
    let field = |width, value| Field { width, value };
    let mut fields = vec![field(4, form as usize), field(4, store.m() - 1)];
    if form == Form::OneDepth {
        fields.push(field(4, store.depths[0] - 1));
    }
    for (shaft, depth) in store.shafts.iter().zip(&store.depths) {
        if form == Form::Depths {
            fields.push(field(4, depth - 1));
        }
        fields.push(field(5, shaft.len()));
        let byte = |&it: &u16| field(8, if it == BLANK { 255 } else { it.into() });
        fields.extend(shaft.iter().map(byte));
    }
    image::pack(&fields)
}
