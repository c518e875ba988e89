//! The work of the C calls in plain Rust, from the same images. Reader, writer, lifts and rule are the model's, as the tests use
//! them; the plan is the thesis's, with blanks told apart.

use crate::cases::Case;
use crate::thesis::{self, Grid};
use halyard_model::store::{BLANK, NUMBERS};
use halyard_model::{Store, image, log, play, rule};
use halyard_outside::calls::{Answer, Order};
use halyard_outside::expected;

/// Checks the start's image.
pub fn check(case: &Case) -> Answer {
    expected::check(&case.start_image)
}

/// The yes or no.
pub fn reachable(case: &Case) -> Answer {
    let number = match pair(case) {
        Err(number) => number,
        Ok((start, goal)) if rule::reachable(&start, &goal) => 0,
        Ok(_) => 15,
    };
    Answer::of(number, 0)
}

/// Plans into a list. For three shafts or more of one depth h with at least h empty slots, where every goal can be reached.
pub fn plan(case: &Case, list: &mut [u8]) -> Answer {
    match pair(case) {
        Err(number) => Answer::of(number, 0),
        Ok((start, _)) if list.len() < start.list_space() => Answer::of(10, 0),
        Ok((mut start, mut goal)) => {
            tell_blanks_apart(&mut start);
            tell_blanks_apart(&mut goal);
            let count = thesis::solve(Grid::new(&start), &Grid::new(&goal), list);
            Answer::of(0, count)
        }
    }
}

/// Gives each blank but the first a number that the store has not: the thesis's blocks all differ. Two stores with the same cassettes get the same numbers,
/// so that the first blank of the one is to be the first of the other, and so on.
fn tell_blanks_apart(store: &mut Store) {
    if store.blanks() < 2 {
        return;
    }
    let Held { marks, .. } = held(store);
    let mut absent = (1..BLANK).filter(|&number| !marked(&marks, number));
    let slots = store.shafts.iter_mut().flatten();
    for blank in slots.filter(|slot| **slot == BLANK).skip(1) {
        *blank = absent.next().expect("a number for each blank");
    }
}

/// Replays a list on the start. It counts no carries, as the C call counts none.
pub fn replay(case: &Case, list: &[u8], out: &mut [u8]) -> Answer {
    let given = &case.start_image;
    let (form, mut store) = match (image::form_of(given), image::read(given)) {
        (Ok(form), Ok(store)) => (form, store),
        (Err(number), _) | (_, Err(number)) => return Answer::of(number, 0),
    };
    if out.len() < given.len() {
        return Answer::of(10, 0);
    }
    let (mut count, mut number) = (0, 0);
    for &byte in list {
        if let Err(refusal) = play::lift(&mut store, byte) {
            number = refusal;
            break;
        }
        count += 1;
    }
    let image = image::write_in(&store, form);
    out[..image.len()].copy_from_slice(&image);
    Answer::of(number, count)
}

/// Follows a log on the start.
pub fn follow(case: &Case, log: &[u8], out: &mut [u8]) -> Answer {
    let given = &case.start_image;
    let (form, mut store) = match (image::form_of(given), image::read(given)) {
        (Ok(form), Ok(store)) => (form, store),
        (Err(number), _) | (_, Err(number)) => return Answer::of(number, 0),
    };
    if out.len() < given.len() {
        return Answer::of(10, 0);
    }
    let (entries, rest) = log.as_chunks();
    let (mut count, mut number) = (0, 0);
    if rest.is_empty() {
        for &bytes in entries {
            let entry = log::unpack(bytes);
            if let Some(fault) = log::fault(&store, entry) {
                number = fault;
                break;
            }
            log::apply(&mut store, entry);
            count += 1;
        }
    } else {
        number = 19;
    }
    let image = image::write_in(&store, form);
    out[..image.len()].copy_from_slice(&image);
    Answer::of(number, count)
}

/// Writes the store of an image in a form.
pub fn convert(image: &[u8], form: u8, out: &mut [u8]) -> Answer {
    match image::convert(image, form) {
        Err(number) => Answer::of(number, 0),
        Ok(image) if out.len() < image.len() => Answer::of(10, 0),
        Ok(image) => {
            out[..image.len()].copy_from_slice(&image);
            Answer::of(0, image.len())
        }
    }
}

/// Answers a row of orders on the start, in place.
pub fn uncover(case: &Case, orders: &mut [Order]) -> Answer {
    let store = match image::read(&case.start_image) {
        Ok(store) => store,
        Err(number) => return Answer::of(number, 0),
    };
    for order in orders {
        let answer = fewest_lifts(&store, order.cassette);
        *order = expected::answered(*order, answer);
    }
    Answer::of(0, 0)
}

/// The answer to an order. A blank is looked for in every shaft; any other number stands once, and the search ends where it is found.
fn fewest_lifts(store: &Store, number: u16) -> Result<usize, u8> {
    let mut answer = Err(16);
    for (at, shaft) in store.shafts.iter().enumerate() {
        let mut downward = shaft.iter().rev();
        let Some(above) = downward.position(|&it| it == number) else {
            continue;
        };
        let row = shaft.len() - above;
        let found = if row < store.floor(at) {
            Err(17)
        } else {
            Ok(above)
        };
        if number != BLANK {
            return found;
        }
        answer = nearer(answer, found);
    }
    answer
}

fn nearer(one: Result<usize, u8>, other: Result<usize, u8>) -> Result<usize, u8> {
    match (one, other) {
        (Ok(one), Ok(other)) => Ok(one.min(other)),
        (Ok(_), Err(_)) => one,
        (Err(_), _) => other,
    }
}

/// Two stores to plan between, or the first of their faults: the start's, the goal's, 8, 9.
fn pair(case: &Case) -> Result<(Store, Store), u8> {
    let start = image::read(&case.start_image)?;
    let goal = image::read(&case.goal_image)?;
    if start.depths != goal.depths {
        return Err(8);
    }
    if held(&start) != held(&goal) {
        return Err(9);
    }
    Ok((start, goal))
}

/// A bit for each number.
type Marks = [u64; NUMBERS / 64 + 1];

/// What a store holds: which numbers, the blank's included, and how many cassettes. No other number than the blank's stands twice.
#[derive(PartialEq)]
struct Held {
    marks: Marks,
    n: usize,
}

/// Marks: to sort the cassettes, as the tests do, would take up to half of a yes or no.
fn held(store: &Store) -> Held {
    let mut marks = [0; NUMBERS / 64 + 1];
    for &cassette in store.shafts.iter().flatten() {
        marks[usize::from(cassette / 64)] |= 1 << (cassette % 64);
    }
    Held {
        marks,
        n: store.n(),
    }
}

fn marked(marks: &Marks, number: u16) -> bool {
    marks[usize::from(number / 64)] >> (number % 64) & 1 == 1
}

#[cfg(test)]
mod tests {
    use super::*;
    use crate::calls;
    use halyard_model::Random;
    use halyard_outside::{inputs, logs};

    /// A pair of stores that may be no pair, often with an image that may be none.
    fn any_case(random: &mut Random) -> Case {
        let start = inputs::store(random);
        let goal = inputs::goal(random, &start);
        let mut case = Case {
            start_image: inputs::image(random, &start),
            goal_image: inputs::image(random, &goal),
            start,
            goal,
        };
        match random.below(6) {
            0 => case.start_image = inputs::damaged(random),
            1 => case.goal_image = inputs::damaged(random),
            _ => (),
        }
        case
    }

    #[test]
    fn check_and_yes_or_no_answer_as_the_c_calls() {
        let mut random = Random::new(51);
        for _ in 0..5_000 {
            let case = any_case(&mut random);
            assert_eq!(check(&case), calls::check(&case));
            assert_eq!(reachable(&case), calls::reachable(&case));
        }
    }

    #[test]
    fn replay_answers_and_writes_as_the_c_call() {
        let mut random = Random::new(52);
        for _ in 0..5_000 {
            let case = any_case(&mut random);
            let list = inputs::list(&mut random, &case.start);
            let mut ours = vec![7; random.below(2 * case.start_image.len() + 1)];
            let mut theirs = ours.clone();
            let answer = replay(&case, &list, &mut ours);
            assert_eq!(answer, calls::replay(&case, &list, &mut theirs));
            assert_eq!(ours, theirs);
        }
    }

    #[test]
    fn follow_answers_and_writes_as_the_c_call() {
        let mut random = Random::new(57);
        let mut met = [0; 256];
        for _ in 0..5_000 {
            let case = any_case(&mut random);
            let log = logs::any(&mut random, &case.start).bytes;
            let mut ours = vec![7; random.below(3 * case.start_image.len() + 1)];
            let mut theirs = ours.clone();
            let answer = follow(&case, &log, &mut ours);
            assert_eq!(answer, calls::follow(&case, &log, &mut theirs));
            assert_eq!(ours, theirs);
            met[usize::from(answer.number)] += 1;
        }
        let often = [0, 10, 13, 14, 19, 20].iter().all(|&it| met[it] > 20);
        assert!(often, "{met:?}");
    }

    #[test]
    fn convert_answers_and_writes_as_the_c_call() {
        let mut random = Random::new(56);
        for _ in 0..5_000 {
            let image = any_case(&mut random).start_image;
            let form = inputs::form_named(&mut random);
            let mut ours = vec![7; random.below(2 * image.len() + 1)];
            let mut theirs = ours.clone();
            let answer = convert(&image, form, &mut ours);
            assert_eq!(answer, calls::convert(&image, form, &mut theirs));
            assert_eq!(ours, theirs);
        }
    }

    #[test]
    fn orders_are_answered_as_by_the_c_call() {
        let mut random = Random::new(54);
        for _ in 0..5_000 {
            let case = any_case(&mut random);
            let mut ours = inputs::orders(&mut random, &case.start);
            let mut theirs = ours.clone();
            let answer = uncover(&case, &mut ours);
            assert_eq!(answer, calls::uncover(&case, &mut theirs));
            assert_eq!(ours, theirs);
        }
    }

    #[test]
    fn plan_gives_the_number_of_the_c_call() {
        let mut random = Random::new(53);
        let mut planned = [0; 2];
        for _ in 0..12_000 {
            let case = any_case(&mut random);
            let solved = case.start.equal_depths() && case.start.e() >= case.start.deepest();
            if case.start.m() < 3 || !solved {
                continue;
            }
            let mut list = vec![0; inputs::list_len(&mut random, &case.start)];
            let number = calls::plan(&case, &mut list).number;
            assert_eq!(plan(&case, &mut list).number, number);
            planned[usize::from(case.start.blanks() > 1)] += usize::from(number == 0);
        }
        let often = planned.iter().all(|&pairs| pairs > 200);
        assert!(often, "{planned:?} pairs were planned");
    }

    /// With blanks told apart the list leads to the goal all the same.
    #[test]
    fn plans_with_blanks_lead_to_the_goal() {
        let mut random = Random::new(55);
        for _ in 0..2_000 {
            let (m, h) = (random.from_to(3, 16), random.from_to(1, 16));
            let n = random.from_to(1, h * (m - 1));
            let blanks = random.from_to(1, n);
            let start = random.store_with_blanks(m, h, n, blanks);
            let goal = random.rearranged(&start);
            let case = Case::new(start, goal);
            let mut list = vec![0; case.start.list_space()];
            let answer = plan(&case, &mut list);
            assert_eq!(answer.number, 0);
            let list = &list[..answer.count as usize];
            assert!(play::leads(&case.start, list, &case.goal));
        }
    }
}
