//! Rounds of random comparisons. The tests do some with fixed seeds, the executable as many as it is told.

use crate::calls::Caller;
use crate::{checks, expected, inputs, logs};
use halyard_model::image::{self, Form};
use halyard_model::{Random, Store, play};

/// A pair of stores through the yes or no, the plan, and the replay of what was planned.
pub fn pair(caller: &mut Caller, random: &mut Random) {
    let start = inputs::store(random);
    let goal = inputs::goal(random, &start);
    let list_len = inputs::list_len(random, &start);
    let (start_image, goal_image) = (inputs::image(random, &start), inputs::image(random, &goal));
    checks::pair(caller, &start_image, &goal_image, list_len);

    let planned = caller.plan(&start_image, &goal_image, list_len);
    let list = &planned.space.content()[..planned.answer.count as usize];
    checks::replay(caller, &start_image, list, start_image.len());
}

/// Damaged bytes through every call on bytes alone, in each place of an image. Rows of orders and logs have rounds of their own.
pub fn damage(caller: &mut Caller, random: &mut Random) {
    let (bytes, others) = (inputs::damaged(random), inputs::damaged(random));
    let store = inputs::store(random);
    let image = inputs::image(random, &store);
    let list_len = inputs::list_len(random, &store);
    checks::check(caller, &bytes);
    checks::check(caller, &image);
    checks::pair(caller, &bytes, &image, list_len);
    checks::pair(caller, &image, &bytes, list_len);
    checks::pair(caller, &bytes, &others, list_len);
    let list = inputs::list(random, &store);
    let out_len = random.below(bytes.len() + 8);
    checks::replay(caller, &bytes, &list, out_len);
    let form = inputs::form_named(random);
    checks::convert(caller, &bytes, form, out_len);
}

/// A list, legal or not, through the replay, into space that is short, enough or more.
pub fn replay(caller: &mut Caller, random: &mut Random) {
    let store = inputs::store(random);
    let list = inputs::list(random, &store);
    let image = inputs::image(random, &store);
    let out_len = inputs::out_len(random, image.len());
    checks::replay(caller, &image, &list, out_len);
}

/// A log that is true, that is not, or of a wrong length, into space that is short, enough or more. What it gives is known by how it was made, and the model
/// agrees.
pub fn log(caller: &mut Caller, random: &mut Random) {
    let store = inputs::store(random);
    let made = logs::any(random, &store);
    let image = inputs::image(random, &store);
    logs::model_agrees(&image, &made);
    let out_len = inputs::out_len(random, image.len());
    checks::follow(caller, &image, &made.bytes, out_len);
}

/// Any bytes as a log, on damaged bytes into any space, and on a store.
pub fn log_noise(caller: &mut Caller, random: &mut Random) {
    let bytes = inputs::damaged(random);
    let log = logs::noise(random);
    let out_len = random.below(bytes.len() + 8);
    checks::follow(caller, &bytes, &log, out_len);
    let store = inputs::store(random);
    let image = inputs::image(random, &store);
    checks::follow(caller, &image, &log, image.len());
}

/// A store to each form that there is, two that there are not and any, into space that is short, enough or more.
pub fn convert(caller: &mut Caller, random: &mut Random) {
    let store = inputs::store(random);
    let image = inputs::image(random, &store);
    for form in [0, 1, 2, 3, 4, random.byte()] {
        let length = length_in(&store, form).unwrap_or(image.len());
        let out_len = inputs::out_len(random, length);
        checks::convert(caller, &image, form, out_len);
    }
}

/// How many bytes a store has in a form, where it holds it.
fn length_in(store: &Store, form: u8) -> Option<usize> {
    let form = Form::named(form).ok().filter(|form| form.holds(store));
    form.map(|form| image::length(store, form))
}

/// Goals that can be reached, that can't, and any, each planned into space of each length around the limit, none, and as long as the list itself is.
pub fn list_lengths(caller: &mut Caller, random: &mut Random) {
    let start = inputs::store(random);
    let mut goals = vec![random.reachable_goal(&start), inputs::goal(random, &start)];
    goals.extend(random.unreachable_goal(&start));
    let need = start.list_space();
    let from = inputs::image(random, &start);
    for goal in goals {
        let to = inputs::image(random, &goal);
        let number = expected::reachable(&from, &to);
        let count = caller.plan(&from, &to, need).answer.count as usize;
        let around = need.saturating_sub(3)..need + 4;
        for list_len in around.chain([0, count, count + 1]) {
            checks::plan(caller, &from, &to, list_len, number);
        }
    }
}

/// A replay into space of each length around that of the image, by a list that is legal and by one that stops, a log that is true, one that is not and one of a
/// wrong length, and a conversion to each form into space of each
/// length around that of what is written.
pub fn out_lengths(caller: &mut Caller, random: &mut Random) {
    let store = inputs::store(random);
    let image = inputs::image(random, &store);
    let legal = inputs::legal_list(random, &store, 9);
    let stopped = [&legal[..], &[play::lift_byte(0, 0)]].concat();
    let log = logs::true_log(random, &store, 9).bytes;
    let refused = [&log[..], &[0xFF; 3]].concat();
    let logs = [&log[..], &refused, &refused[..refused.len() - 1]];
    let mut around = |length: usize| {
        let near = length.saturating_sub(3)..length + 4;
        near.chain([0, random.below(length)])
    };
    for out_len in around(image.len()) {
        checks::replay(caller, &image, &legal, out_len);
        checks::replay(caller, &image, &stopped, out_len);
        for log in &logs {
            checks::follow(caller, &image, log, out_len);
        }
    }
    for form in 0..4 {
        for out_len in around(length_in(&store, form).unwrap_or(image.len())) {
            checks::convert(caller, &image, form, out_len);
        }
    }
}

/// A row of orders on a store, and on bytes that are mostly no image.
pub fn orders(caller: &mut Caller, random: &mut Random) {
    let store = inputs::store(random);
    let orders = inputs::orders(random, &store);
    checks::uncover(caller, &inputs::image(random, &store), &orders);
    checks::uncover(caller, &inputs::damaged(random), &orders);
}

/// One round of each kind.
pub fn all(caller: &mut Caller, random: &mut Random) {
    for _ in 0..4 {
        pair(caller, random);
        damage(caller, random);
        replay(caller, random);
        log(caller, random);
        log_noise(caller, random);
        convert(caller, random);
        orders(caller, random);
    }
    list_lengths(caller, random);
    out_lengths(caller, random);
}
