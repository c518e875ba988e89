//! What documents 01 and 02 have the calls answer, worked out from the model.

use crate::calls::{Answer, Order};
use halyard_model::image::Form;
use halyard_model::{Store, image, log, play, rule, uncover};

/// The answer of a check.
pub fn check(bytes: &[u8]) -> Answer {
    Answer::of(image::read(bytes).err().unwrap_or(0), 0)
}

/// Two stores to plan between, or the first of their faults: the start's, the goal's, 8, 9.
pub fn pair(start: &[u8], goal: &[u8]) -> Result<(Store, Store), u8> {
    let start = image::read(start)?;
    let goal = image::read(goal)?;
    if start.depths != goal.depths {
        return Err(8);
    }
    if start.sorted() != goal.sorted() {
        return Err(9);
    }
    Ok((start, goal))
}

/// The number of a yes or no.
pub fn reachable(start: &[u8], goal: &[u8]) -> u8 {
    match pair(start, goal) {
        Err(number) => number,
        Ok((start, goal)) if rule::reachable(&start, &goal) => 0,
        Ok(_) => 15,
    }
}

/// The form and the store of an image, where there is room for another store to be written in its place: wherever lifts lead, the image is as long. Or the first
/// fault of reading, or 10.
fn written_over(image: &[u8], out_len: usize) -> Result<(Form, Store), u8> {
    let (form, store) = (image::form_of(image)?, image::read(image)?);
    if out_len < image.len() {
        return Err(10);
    }
    Ok((form, store))
}

/// What a replay answers and writes: nothing where it is refused, else the store reached in the form of the image given.
pub fn replay(image: &[u8], list: &[u8], out_len: usize) -> (Answer, Vec<u8>) {
    let (form, store) = match written_over(image, out_len) {
        Ok(both) => both,
        Err(number) => return (Answer::of(number, 0), Vec::new()),
    };
    let end = play::replay(&store, list);
    let written = image::write_in(&end.store, form);
    (Answer::of(end.number, end.count), written)
}

/// What following a log answers and writes: nothing where it is refused, else the store after it, or before the first entry that can't be true, in the form of
/// the image given.
pub fn follow(image: &[u8], log: &[u8], out_len: usize) -> (Answer, Vec<u8>) {
    let (form, store) = match written_over(image, out_len) {
        Ok(both) => both,
        Err(number) => return (Answer::of(number, 0), Vec::new()),
    };
    let end = log::follow(&store, log);
    let written = image::write_in(&end.store, form);
    (Answer::of(end.number, end.count), written)
}

/// What a conversion answers and writes: nothing where it is refused, for a fault of reading, 1, 18 or 10, in this order.
pub fn convert(image: &[u8], form: u8, out_len: usize) -> (Answer, Vec<u8>) {
    match image::convert(image, form) {
        Err(number) => (Answer::of(number, 0), Vec::new()),
        Ok(written) if out_len < written.len() => (Answer::of(10, 0), Vec::new()),
        Ok(written) => (Answer::of(0, written.len()), written),
    }
}

/// What a row of orders answers, and the row after it: as it came where the image is refused.
pub fn uncover(image: &[u8], orders: &[Order]) -> (Answer, Vec<Order>) {
    match image::read(image) {
        Err(number) => (Answer::of(number, 0), orders.to_vec()),
        Ok(store) => {
            let after = |order: &Order| answered(*order, uncover::uncover(&store, order.cassette));
            (Answer::of(0, 0), orders.iter().map(after).collect())
        }
    }
}

/// An order with its answer.
pub fn answered(order: Order, answer: Result<usize, u8>) -> Order {
    let (number, lifts) = match answer {
        Ok(lifts) => (0, lifts),
        Err(number) => (number, 0),
    };
    Order {
        number,
        lifts: u8::try_from(lifts).expect("at most 15 lifts"),
        ..order
    }
}
