//! Lists played on stores, for a person to see.

use crate::commands::{Said, meaning};
use crate::draw;
use halyard_model::play::{self, Carried, Replayed};
use halyard_model::store::BLANK;
use halyard_model::{Store, text};

/// The store drawn before and after each lift, or only at the end, up to a lift that is refused, and then the carries.
pub fn run(start: &Store, list: &[u8], end_only: bool) -> Said {
    let end = play::replay(start, list);
    let mut shown = if end_only {
        let drawn = draw::store(&end.store, &[]);
        vec![format!("lifts done: {}\n{drawn}", end.count)]
    } else {
        each_lift(start, list, end.count)
    };
    shown.push(carries(&end, list));
    Said {
        text: shown.join("\n"),
        wrong: (end.number != 0).then(|| stopped(&end, list)),
    }
}

/// The store drawn before and after each of the lifts that are done.
fn each_lift(start: &Store, list: &[u8], count: usize) -> Vec<String> {
    let mut store = start.clone();
    let mut shown = vec![format!("start\n{}", draw::store(&store, &[]))];
    for done in 0..count {
        let carried = play::lift(&mut store, list[done]).expect("a lift that is done");
        shown.push(draw_lift(&store, list, done, carried));
    }
    shown
}

/// A store after a lift, with the cassette carried.
fn draw_lift(store: &Store, list: &[u8], done: usize, carried: Carried) -> String {
    let (left, entered) = play::shafts_of(list[done]);
    let Carried { cassette, row } = carried;
    format!(
        "lift {} of {}: {} from shaft {left} to shaft {entered}, row {row}\n{}",
        done + 1,
        list.len(),
        named(cassette),
        draw::store(store, &[(entered, row)])
    )
}

/// A cassette in a sentence.
pub fn named(cassette: u16) -> String {
    match cassette {
        BLANK => "a blank".into(),
        _ => cassette.to_string(),
    }
}

/// How many lifts were done, and how often each cassette of the store was carried by them, a line for each, rising by number, and one for all blanks.
fn carries(end: &Replayed, list: &[u8]) -> String {
    let mut numbers = end.store.sorted();
    numbers.dedup();
    let lines: String = numbers
        .into_iter()
        .map(|it| carries_line(end, it))
        .collect();
    let lines = if lines.is_empty() {
        "no cassette\n".to_string()
    } else {
        lines
    };
    format!(
        "times carried, {} of {} lifts done\n{lines}",
        end.count,
        list.len()
    )
}

/// How often the cassettes of a number were carried.
fn carries_line(end: &Replayed, cassette: u16) -> String {
    let times = end.carries[usize::from(cassette)];
    let word = text::write_cassette(cassette);
    match (cassette, end.store.blanks()) {
        (BLANK, 2..) => format!("{word:>5}: {times}, all {} together\n", end.store.blanks()),
        _ => format!("{word:>5}: {times}\n"),
    }
}

/// What to say of a replay that stopped.
fn stopped(end: &Replayed, list: &[u8]) -> String {
    format!(
        "lift {} of {}, {}, is refused {}, {}, in {}",
        end.count + 1,
        list.len(),
        text::write_lift(list[end.count]),
        end.number,
        meaning(end.number),
        text::write(&end.store)
    )
}

/// Whether a list leads from start to goal, or what it does instead.
pub fn leads(start: &Store, goal: &Store, list: &[u8]) -> Result<String, String> {
    if start.depths != goal.depths {
        return Err(format!("refused 8, {}", meaning(8)));
    }
    let end = play::replay(start, list);
    if end.number != 0 {
        return Err(stopped(&end, list));
    }
    if end.store != *goal {
        let (reached, goal) = (text::write(&end.store), text::write(goal));
        return Err(format!("the list leads to {reached}, not to {goal}"));
    }
    Ok(format!("{} lifts lead to the goal\n", end.count))
}
