//! One comparison of each call with what documents 01 and 02 have it answer and write.

use crate::calls::{Answer, Caller, Order, Written};
use crate::expected;
use halyard_model::{Store, image, log, log_text, play, text};

/// Compares a check.
pub fn check(caller: &mut Caller, bytes: &[u8]) {
    let answer = caller.check(bytes);
    assert_eq!(answer, expected::check(bytes), "check of {}", show(bytes));
}

/// Compares a yes or no and a plan, "no" by the rule.
pub fn pair(caller: &mut Caller, start: &[u8], goal: &[u8], list_len: usize) {
    let number = expected::reachable(start, goal);
    reachable(caller, start, goal, number);
    plan(caller, start, goal, list_len, number);
}

/// Compares a yes or no with the number that it should give.
pub fn reachable(caller: &mut Caller, start: &[u8], goal: &[u8], number: u8) {
    let answer = caller.reachable(start, goal);
    let wanted = Answer::of(number, 0);
    assert_eq!(answer, wanted, "reachable, {}", show_pair(start, goal));
}

/// Compares a plan, where `number` is what the yes or no should give: so should the plan, whatever is lent, but for 10 in place of a list.
pub fn plan(caller: &mut Caller, start: &[u8], goal: &[u8], list_len: usize, number: u8) {
    let written = caller.plan(start, goal, list_len);
    let about = || format!("plan into {list_len} bytes, {}", show_pair(start, goal));
    let (answer, list) = (written.answer, &written.space);
    match expected::pair(start, goal) {
        Ok((start, _)) if number == 0 && list_len < start.list_space() => {
            assert_eq!(answer, Answer::of(10, 0), "{}", about());
        }
        Ok((start, goal)) if number == 0 => {
            assert_eq!(answer.number, 0, "{}", about());
            let count = length_of_list(answer, &start, &about);
            let lifts = &list.content()[..count];
            assert!(play::leads(&start, lifts, &goal), "{}", about());
            assert!(start != goal || count == 0, "{}", about());
        }
        _ => assert_eq!(answer, Answer::of(number, 0), "{}", about()),
    }
    let count = answer.count as usize;
    assert!(list.kept_but(count), "bytes past the list: {}", about());
}

/// Compares plans into no space, a byte less than is needed, and as much.
pub fn plans(caller: &mut Caller, start: &[u8], goal: &[u8], need: usize, number: u8) {
    for list_len in [0, need.saturating_sub(1), need] {
        plan(caller, start, goal, list_len, number);
    }
}

/// The count of lifts of a list, which is within the bound.
fn length_of_list(answer: Answer, start: &Store, about: &dyn Fn() -> String) -> usize {
    let most = start.list_space();
    assert!(answer.count <= most as u64, "{answer:?}: {}", about());
    answer.count as usize
}

/// Compares a replay.
pub fn replay(caller: &mut Caller, image: &[u8], list: &[u8], out_len: usize) {
    let written = caller.replay(image, list, out_len);
    let about = || format!("replay of {list:x?} into {out_len} bytes, {}", show(image));
    let (answer, bytes) = expected::replay(image, list, out_len);
    wrote(&written, answer, &bytes, &about);
}

/// Compares the following of a log.
pub fn follow(caller: &mut Caller, image: &[u8], log: &[u8], out_len: usize) {
    let (answer, bytes) = expected::follow(image, log, out_len);
    follow_is(caller, image, log, out_len, (answer, &bytes));
}

/// Compares the following of a log with what it should answer and write.
pub fn follow_is(
    caller: &mut Caller,
    image: &[u8],
    log: &[u8],
    out_len: usize,
    (answer, bytes): (Answer, &[u8]),
) {
    let written = caller.follow(image, log, out_len);
    let about = || {
        let (log, image) = (show_log(log), show(image));
        format!("following {log} into {out_len} bytes, {image}")
    };
    wrote(&written, answer, bytes, &about);
}

/// Compares a conversion.
pub fn convert(caller: &mut Caller, image: &[u8], form: u8, out_len: usize) {
    let written = caller.convert(image, form, out_len);
    let about = || format!("to form {form} in {out_len} bytes, {}", show(image));
    let (answer, bytes) = expected::convert(image, form, out_len);
    wrote(&written, answer, &bytes, &about);
}

/// A call gave this answer, wrote these bytes, and nothing past them.
fn wrote(written: &Written, answer: Answer, bytes: &[u8], about: &dyn Fn() -> String) {
    assert_eq!(written.answer, answer, "{}", about());
    let out = &written.space;
    assert_eq!(out.content()[..bytes.len()], *bytes, "{}", about());
    assert!(
        out.kept_but(bytes.len()),
        "bytes past the image: {}",
        about()
    );
}

/// Compares a row of orders.
pub fn uncover(caller: &mut Caller, image: &[u8], orders: &[Order]) {
    let (answer, row) = expected::uncover(image, orders);
    row_is(caller, image, orders, answer, &row);
}

/// Compares a row of orders with what it should be after the call.
pub fn row_is(caller: &mut Caller, image: &[u8], orders: &[Order], answer: Answer, row: &[Order]) {
    let written = caller.uncover(image, orders);
    let about = || format!("orders {orders:?}, {}", show(image));
    assert_eq!(written.answer, answer, "{}", about());
    assert_eq!(written.space.content(), row, "{}", about());
    assert!(
        written.space.kept_but(orders.len()),
        "beside the row: {}",
        about()
    );
}

/// A store's image and its form, or the bytes that are none, for a person.
fn show(bytes: &[u8]) -> String {
    match image::read(bytes) {
        Ok(store) => format!("{} in form {}", text::write(&store), bytes[0] >> 4),
        Err(number) => format!("{bytes:02x?}, which is {number}"),
    }
}

/// A log's entries, or the bytes that are none, for a person.
fn show_log(log: &[u8]) -> String {
    match log::entries(log) {
        Some(entries) => {
            let words: Vec<String> = entries.into_iter().map(log_text::write).collect();
            format!("[{}]", words.join("; "))
        }
        None => format!("{log:02x?}"),
    }
}

fn show_pair(start: &[u8], goal: &[u8]) -> String {
    format!("from {} to {}", show(start), show(goal))
}
