//! Too little space, or impossible (request 6/13): cases with the answers written out, each into no space, one byte, a byte less than
//! the list space, as much, a byte more, the most that any store asks for, and more than 16 bits can count.

use halyard_model::image::{self, Form};
use halyard_model::text;
use halyard_outside::calls::{Answer, Caller};
use halyard_outside::guarded::GUARD;
use halyard_outside::inputs::MOST_LIST_SPACE;

fn bytes(store: &str) -> Vec<u8> {
    image::write_in(&text::read(store).unwrap(), Form::OneDepth)
}

/// The number that a plan gives into space of this length. What has no list has count 0 and leaves every byte.
fn number(start: &[u8], goal: &[u8], list_len: usize) -> u8 {
    let planned = Caller::new(61, GUARD).plan(start, goal, list_len);
    let Answer { number, count } = planned.answer;
    assert!(number == 0 || count == 0, "{list_len} bytes");
    assert!(planned.space.kept_but(count as usize), "{list_len} bytes");
    number
}

/// The numbers for each length, where this much is needed: three of too little, and five of enough.
fn numbers(start: &[u8], goal: &[u8], need: usize) -> [u8; 8] {
    let lengths = [
        0,
        1,
        need - 1,
        need,
        need + 1,
        MOST_LIST_SPACE,
        65_536,
        70_000,
    ];
    lengths.map(|list_len| number(start, goal, list_len))
}

/// "When both apply, 15 shall be given": with each rule, and with blanks.
#[test]
fn out_of_reach() {
    for (start, goal, need) in [
        ("1x2: [1 2]", "1x2: [2 1]", 32),
        ("2x3: [1 2] [3]", "2x3: [1] [2 3]", 60),
        ("3x2: [1 2] [3 4] [5 6]", "3x2: [1 2] [3 5] [4 6]", 96),
        (
            "3x4: [1 4 5 6] [2 7 8] [3 9]",
            "3x4: [2 4 5 6] [1 7 8] [3 9]",
            216,
        ),
        ("1x2: [1 b]", "1x2: [b 1]", 32),
        ("2x2: [b 1] [b]", "2x2: [1 b] [b]", 48),
        ("3x2: [b b] [b b] [1 b]", "3x2: [b b] [b b] [b 1]", 96),
    ] {
        let answers = numbers(&bytes(start), &bytes(goal), need);
        assert_eq!(answers, [15; 8], "{start} to {goal}");
    }
}

/// "The promise of a list still needs enough of it": 10 where there is a list and less is lent, also where it would be short or empty.
#[test]
fn within_reach() {
    for (start, goal, need) in [
        ("1x2: [1 2]", "1x2: [1 2]", 32),
        ("2x3: [1 2] [3]", "2x3: [1] [3 2]", 60),
        ("3x1: [1] [2] []", "3x1: [2] [1] []", 24),
        ("3x2: [1 2] [3 4] [5 6]", "3x2: [1 2] [3 4] [5 6]", 96),
        (
            "3x4: [1 4 5 6] [2 7 8] [3 9]",
            "3x4: [1 9] [2 6 5 4] [3 8 7]",
            216,
        ),
        ("3x2: [b 1] [b b] []", "3x2: [b b] [1 b] []", 64),
    ] {
        let answers = numbers(&bytes(start), &bytes(goal), need);
        assert_eq!(answers, [10, 10, 10, 0, 0, 0, 0, 0], "{start} to {goal}");
    }
}

/// 9 and 8 come before 15, though no list leads to such a goal, and a fault of reading before all of them.
#[test]
fn not_to_be_compared() {
    for (start, goal, need, number) in [
        ("1x2: [1 2]", "1x2: [2 3]", 32, 9),
        ("1x2: [1 2]", "1x2: [2]", 32, 9),
        ("1x2: [1 b]", "1x2: [b b]", 32, 9),
        ("3x2: [1 2] [3 4] [5 6]", "3x2: [1 2] [3 4] [7 6]", 96, 9),
        ("1x2: [1 2]", "1x3: [2 1]", 32, 8),
        ("1x2: [1 2]", "2x2: [2] [3]", 32, 8),
    ] {
        let answers = numbers(&bytes(start), &bytes(goal), need);
        assert_eq!(answers, [number; 8], "{start} to {goal}");
    }
    let (store, turned) = (bytes("1x2: [1 2]"), bytes("1x2: [2 1]"));
    let cut = turned.len() - 1;
    assert_eq!(numbers(&store, &turned[..cut], 32), [2; 8]);
    assert_eq!(numbers(&turned[..cut], &store, 32), [2; 8]);
}

/// Without a cassette no space is needed, and there is one goal.
#[test]
fn no_cassette() {
    let empty = bytes("3x3: [] [] []");
    for list_len in [0, 1, MOST_LIST_SPACE, 65_536, 70_000] {
        assert_eq!(number(&empty, &empty, list_len), 0);
    }
}
