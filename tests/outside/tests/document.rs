//! The cases that document 01 gives, "Filled stores to try", and NULL with length 0, with the answers written out.

use halyard_model::image::{self, Form};
use halyard_model::text;
use halyard_outside::calls::{Answer, Caller, c};
use halyard_outside::guarded::GUARD;
use std::ptr::{null, null_mut};

fn bytes(store: &str) -> Vec<u8> {
    image::write_in(&text::read(store).unwrap(), Form::OneDepth)
}

fn caller() -> Caller {
    Caller::new(31, GUARD)
}

/// The yes or no, and a plan into as much space as it asks for, both give this number.
fn pair(start: &str, goal: &str, number: u8) {
    let space = text::read(start).unwrap().list_space();
    let (start, goal) = (bytes(start), bytes(goal));
    let answer = caller().reachable(&start, &goal);
    assert_eq!(answer, Answer::of(number, 0));
    let planned = caller().plan(&start, &goal, space);
    assert_eq!(planned.answer.number, number);
}

const EXAMPLE: [u8; 7] = [0x02, 0x11, 0x00, 0x81, 0x00, 0x20, 0x60];

#[test]
fn images() {
    let mut caller = caller();
    assert_eq!(caller.check(&EXAMPLE), Answer::of(0, 0));
    assert_eq!(caller.check(&[]), Answer::of(2, 0));
    assert_eq!(caller.check(&EXAMPLE[..6]), Answer::of(2, 0));
    let mut changed = EXAMPLE;
    changed[6] = 0x61;
    assert_eq!(caller.check(&changed), Answer::of(7, 0));
    assert_eq!(caller.check(&[0x01, 0x11]), Answer::of(2, 0));
    let replayed = caller.replay(&EXAMPLE, &[0x01], 7);
    assert_eq!(replayed.answer, Answer::of(0, 1));
    assert_eq!(replayed.space.content(), bytes("3x2: [1] [2] [3]"));
}

#[test]
fn no_cassette() {
    let empty = bytes("3x3: [] [] []");
    let planned = caller().plan(&empty, &empty, 0);
    assert_eq!(planned.answer, Answer::of(0, 0));
}

#[test]
fn one_shaft() {
    pair("1x2: [1 2]", "1x2: [1 2]", 0);
    pair("1x2: [1 2]", "1x2: [2 1]", 15);
}

#[test]
fn two_shafts() {
    pair("2x3: [1 2] [3]", "2x3: [1] [3 2]", 0);
    pair("2x3: [1 2] [3]", "2x3: [1] [2 3]", 15);
}

#[test]
fn three_shafts() {
    pair("3x1: [1] [2] []", "3x1: [2] [1] []", 0);
    pair("3x2: [1 2] [3 4] [5 6]", "3x2: [1 2] [3 4] [5 6]", 0);
    pair("3x2: [1 2] [3 4] [5 6]", "3x2: [1 2] [3 5] [4 6]", 15);
    let crowded = "3x4: [1 4 5 6] [2 7 8] [3 9]";
    pair(crowded, "3x4: [2 4 5 6] [1 7 8] [3 9]", 15);
    pair(crowded, "3x4: [1 9] [2 6 5 4] [3 8 7]", 0);
}

#[test]
fn three_lifts() {
    let start = bytes("3x1: [1] [2] []");
    let replayed = caller().replay(&start, &[0x02, 0x10, 0x21], start.len());
    assert_eq!(replayed.answer, Answer::of(0, 3));
    assert_eq!(replayed.space.content(), bytes("3x1: [2] [1] []"));
}

/// "A lift from an empty shaft to a full one: 13."
#[test]
fn empty_before_full() {
    let store = bytes("2x1: [] [1]");
    let replayed = caller().replay(&store, &[0x01], store.len());
    assert_eq!(replayed.answer, Answer::of(13, 0));
    assert_eq!(replayed.space.content(), store);
}

/// "List space of 4hn + 8n bytes: taken; one byte less: 10."
#[test]
fn list_space() {
    let (start, goal) = (bytes("3x1: [1] [2] []"), bytes("3x1: [2] [1] []"));
    assert_eq!(caller().plan(&start, &goal, 24).answer.number, 0);
    assert_eq!(caller().plan(&start, &goal, 23).answer, Answer::of(10, 0));
    let no = bytes("3x1: [2] [3] []");
    assert_eq!(caller().plan(&start, &no, 23).answer, Answer::of(9, 0));
}

/// A replay's 10 comes before any lift is tried, and after the faults of reading.
#[test]
fn short_space_for_a_replay() {
    let store = bytes("2x1: [] [1]");
    let replayed = caller().replay(&store, &[0x01], store.len() - 1);
    assert_eq!(replayed.answer, Answer::of(10, 0));
    let replayed = caller().replay(&store[..1], &[0x01], 0);
    assert_eq!(replayed.answer, Answer::of(2, 0));
}

/// NULL is taken wherever a length is 0.
#[test]
fn null_with_length_0() {
    let empty = bytes("3x3: [] [] []");
    let store = bytes("3x1: [1] [2] []");
    let shafts = [bytes("1x2: [1 2]"), bytes("1x2: [2 1]")];
    let mut out = vec![0xAA; store.len()];
    let (image, len) = (store.as_ptr(), store.len());
    let (none, none_len) = (empty.as_ptr(), empty.len());
    let [one, other] = [shafts[0].as_ptr(), shafts[1].as_ptr()];
    let one_len = shafts[0].len();
    // SAFETY: every pointer has as many bytes as are named, NULL none, and `out` overlaps nothing.
    unsafe {
        assert_eq!(c::halyard_check(null(), 0), 2);
        assert_eq!(c::halyard_reachable(null(), 0, image, len), 2);
        assert_eq!(c::halyard_reachable(image, len, null(), 0), 2);
        assert_eq!(c::halyard_reachable(null(), 0, null(), 0), 2);
        let none_planned = c::halyard_plan(none, none_len, none, none_len, null_mut(), 0);
        assert_eq!(none_planned, 0);
        assert_eq!(c::halyard_plan(image, len, image, len, null_mut(), 0), 10);
        let no_way = c::halyard_plan(one, one_len, other, one_len, null_mut(), 0);
        assert_eq!(no_way, 15);
        assert_eq!(c::halyard_plan(null(), 0, null(), 0, null_mut(), 0), 2);
        assert_eq!(c::halyard_replay(null(), 0, null(), 0, null_mut(), 0), 2);
        assert_eq!(c::halyard_replay(image, len, null(), 0, null_mut(), 0), 10);
        let nothing_played = c::halyard_replay(image, len, null(), 0, out.as_mut_ptr(), len);
        assert_eq!(nothing_played, 0);
        assert_eq!(c::halyard_convert(null(), 0, 0, null_mut(), 0), 2);
        assert_eq!(c::halyard_convert(null(), 0, 3, null_mut(), 0), 2);
        assert_eq!(c::halyard_convert(image, len, 0, null_mut(), 0), 10);
        assert_eq!(c::halyard_convert(image, len, 3, null_mut(), 0), 1);
    }
    assert_eq!(out, store);
}

/// Bytes that are only read may be the same ones.
#[test]
fn start_and_goal_in_one_place() {
    let store = bytes("3x1: [1] [2] []");
    let mut list = [0xAA; 24];
    let (image, len) = (store.as_ptr(), store.len());
    // SAFETY: every pointer has as many bytes as are named, and `list` overlaps nothing.
    unsafe {
        assert_eq!(c::halyard_reachable(image, len, image, len), 0);
        let planned = c::halyard_plan(image, len, image, len, list.as_mut_ptr(), 24);
        assert_eq!(planned, 0);
    }
    assert_eq!(list, [0xAA; 24]);
}
