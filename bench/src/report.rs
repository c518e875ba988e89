//! The tables.

use crate::calls::{self, LENT};
use crate::cases::{self, Case, Shape};
use crate::stack;
use crate::timing::{self, MOST_IMAGE, MOST_STORES, Measured};
use halyard_model::Random;
use halyard_model::image::Form;
use halyard_outside::calls::Order;
use std::fmt::Write;

/// How many cases a full search is tried on.
const SEARCHED: usize = 3;

/// The most stack that a call may use, in bytes.
const MOST_STACK: usize = 64 << 10;

/// How many entries a log has that is timed.
const ENTRIES: usize = 1_000;

/// The six tables, and how they were made.
pub fn whole(seed: u64, stores: usize, rounds: usize) -> String {
    let mut random = Random::new(seed);
    let mut table = String::from(HEAD);
    let mut ratios = Ratios::default();
    let mut stacks = Stacks::default();
    let mut orders = Orders::default();
    let mut conversions = Conversions::default();
    let mut logs = Logs::default();
    for shape in cases::shapes() {
        let cases = cases::cases(&mut random, &shape, stores);
        let named = cases::orders(&mut Random::new(1), &shape);
        let followed = logs_of(&cases);
        stacks.add(&cases[0], &named, &followed[0]);
        let [calls, plain] = timing::in_rounds(&shape, &cases, rounds);
        row(&mut table, &shape, "(a)", &calls);
        row(&mut table, &shape, "(b)", &plain);
        if let Some(search) = timing::search(&cases, SEARCHED) {
            row(&mut table, &shape, "(c)", &search);
        }
        ratios.add(&shape, &calls, &plain);
        if shape.is_largest() {
            orders.add(&shape, &cases, &named, rounds);
            logs.add(&shape, &cases, &followed, rounds);
            if shape.e == shape.deepest() {
                conversions.add(&shape, &cases, rounds);
            }
        }
    }
    let notes = notes(seed, stores, rounds);
    let (ratios, orders) = (ratios.table(), orders.table());
    let (conversions, logs) = (conversions.table(), logs.table());
    let stacks = stacks.table();
    format!("{notes}\n{table}\n{ratios}\n{orders}\n{conversions}\n{logs}\n{stacks}")
}

/// A log for each case, from chance of their own, so that the cases do not change with them.
fn logs_of(cases: &[Case]) -> Vec<Vec<u8>> {
    let mut random = Random::new(1);
    let log = |case| cases::log(&mut random, case, ENTRIES);
    cases.iter().map(log).collect()
}

const HEAD: &str = "\
| m × h | e | n | by | plan, µs | yes or no, µs | check, µs | replay, µs | lifts | for a cassette | of 4hn + 8n | greatest |
|---|--:|--:|---|--:|--:|--:|--:|--:|--:|--:|--:|
";

fn notes(seed: u64, stores: usize, rounds: usize) -> String {
    format!(
        "\
Processor: {}. Seed {seed}.

- (a) is Halyardgage's C calls. (b) is plain Rust that does the same work from the same images, and refuses what the calls
  refuse: reader, writer, lifts and rule are those of the tests' model, none of it made for speed, and it allocates, where (a)
  does not. To answer an order it looks for a blank in every shaft, and for any other number until it is found. Its plan is
  the thesis's own solve, mended, on arrays, which covers equal depths and e ≥ h. (c) is a full search in Rust, from stores that
  have been read already, which also gives the fewest lifts; it is left out where it finds more than {MOST_STORES} stores.
- \"Half blank\": half of the cassettes are blanks. In all other rows no two cassettes are the same, so that at most one is a
  blank. \"Form 2\": all cassettes have numbers from 255 to 4,094, which only form 2 holds. The thesis knows no blanks: (b) first gives each a number of its own, in the order in which they stand, in start and
  goal alike, and so brings each to one slot where any blank would do.
- \"16 shafts of depths 1 to 16\": the first has depth 1, the next 2, and so on. Its images are in form 1, those of the rows that
  name form 2 in that, all others in form 0, and in 4hn + 8n the depth h is 16, that of the deepest shaft.
- Each row has {stores} random pairs of stores, every goal one that can be reached, the same pairs for (a) and (b); for (c)
  the first {SEARCHED} of them. A check is of the start. (a) and (b) replay the same lists, which are (a)'s.
- Each time is of one call: for each pair the median of {rounds} rounds, and the mean of these over the pairs. A round goes
  over all pairs with each of the calls in turn. The clock's own cost, {:.0} ns, is in each time. (c) is run once.
- A plan is lent {LENT} bytes, the same ones each time, which are not cleared. Each call was made once for each pair before, to
  see that its list leads to the goal and that (a) and (b) answer and write the same; nothing else was warmed, and no cache was
  cleared.
- Lifts are the mean of a row's lists. The last two columns are the mean and the greatest share of 4hn + 8n.
",
        processor(),
        timing::clock_cost()
    )
}

/// The processor's model, where the system tells it.
fn processor() -> String {
    let text = std::fs::read_to_string("/proc/cpuinfo").unwrap_or_default();
    text.lines()
        .find_map(|line| line.strip_prefix("model name"))
        .and_then(|rest| rest.split_once(':'))
        .map_or("not known".into(), |(_, model)| model.trim().into())
}

fn row(table: &mut String, shape: &Shape, by: &str, measured: &Measured) {
    writeln!(
        table,
        "| {shape} | {} | {} | {by} | {} | {} | {} | {} | {} |",
        shape.e,
        shape.n(),
        microseconds(measured.plan),
        microseconds(measured.yes_or_no),
        microseconds(measured.check),
        microseconds(measured.replay),
        lifts(shape, &measured.lifts),
    )
    .expect("a string takes every line");
}

fn microseconds(time: Option<f64>) -> String {
    decimals(time.map(|time| time / 1000.0))
}

/// Two decimals, or a dash.
fn decimals(number: Option<f64>) -> String {
    number.map_or("–".into(), |number| format!("{number:.2}"))
}

/// The last four columns.
fn lifts(shape: &Shape, lifts: &[usize]) -> String {
    let Some(&greatest) = lifts.iter().max() else {
        return "– | – | – | –".into();
    };
    let mean = lifts.iter().sum::<usize>() as f64 / lifts.len() as f64;
    let space = shape.list_space() as f64;
    format!(
        "{mean:.0} | {:.2} | {:.3} | {:.3}",
        mean / shape.n() as f64,
        mean / space,
        greatest as f64 / space,
    )
}

/// The times of (a) as parts of those of (b), and the greatest of them.
#[derive(Default)]
struct Ratios {
    rows: String,
    greatest: [Option<f64>; 4],
}

impl Ratios {
    fn add(&mut self, shape: &Shape, calls: &Measured, plain: &Measured) {
        let ratios = [
            ratio(calls.plan, plain.plan),
            ratio(calls.yes_or_no, plain.yes_or_no),
            ratio(calls.check, plain.check),
            ratio(calls.replay, plain.replay),
        ];
        for (greatest, ratio) in self.greatest.iter_mut().zip(ratios) {
            *greatest = greater(*greatest, ratio);
        }
        self.rows += &format!("| {shape} | {} | {} |\n", shape.e, joined(ratios));
    }

    fn table(&self) -> String {
        format!(
            "\
(a) against (b): the time of (a) divided by that of (b). Above 1, (a) takes longer.

| m × h | e | plan | yes or no | check | replay |
|---|--:|--:|--:|--:|--:|
{}| greatest | | {} |
",
            self.rows,
            joined(self.greatest)
        )
    }
}

fn ratio(calls: Option<f64>, plain: Option<f64>) -> Option<f64> {
    Some(calls? / plain?)
}

/// The greater of the numbers that are there.
fn greater(one: Option<f64>, other: Option<f64>) -> Option<f64> {
    one.into_iter().chain(other).reduce(f64::max)
}

fn joined(numbers: [Option<f64>; 4]) -> String {
    numbers.map(decimals).join(" | ")
}

/// The times for a whole row of orders on the largest stores.
#[derive(Default)]
struct Orders {
    count: usize,
    rows: String,
}

impl Orders {
    fn add(&mut self, shape: &Shape, cases: &[Case], row: &[Order], rounds: usize) {
        self.count = row.len();
        let [calls, plain] = timing::orders(cases, row, rounds);
        self.rows += &format!(
            "| {shape} | {} | {} | {} | {} | {} |\n",
            shape.e,
            shape.n(),
            microseconds(calls),
            microseconds(plain),
            decimals(ratio(calls, plain)),
        );
    }

    fn table(&self) -> String {
        format!(
            "\
{} orders in one call, one for each number that the cassettes of the row are taken from: 1 to 254 and the blank's, and in form 2
as many from 255 to 4,094. The time of the whole row, on the starts above. Where all cassettes differ n of the numbers stand in the
store, and with half of them blank n/2 and the blank's.

| m × h | e | n | (a), µs | (b), µs | (a) / (b) |
|---|--:|--:|--:|--:|--:|
{}",
            self.count, self.rows
        )
    }
}

/// The times of conversions between every two forms that hold the stores of a shape.
#[derive(Default)]
struct Conversions {
    rows: String,
}

impl Conversions {
    fn add(&mut self, shape: &Shape, cases: &[Case], rounds: usize) {
        let holds = |form: &Form| cases.iter().all(|case| form.holds(&case.start));
        let forms: Vec<Form> = Form::ALL.into_iter().filter(holds).collect();
        for (&from, &to) in forms
            .iter()
            .flat_map(|from| forms.iter().map(move |to| (from, to)))
        {
            let [calls, plain] = timing::conversions(cases, from, to, rounds);
            self.rows += &format!(
                "| {shape} | {} | {} | {} | {} | {} | {} | {} |\n",
                shape.e,
                shape.n(),
                from as u8,
                to as u8,
                microseconds(calls),
                microseconds(plain),
                decimals(ratio(calls, plain)),
            );
        }
    }

    fn table(&self) -> String {
        format!(
            "\
Conversions of the starts of four rows above, between every two forms that hold them, into {MOST_IMAGE} bytes.

| m × h | e | n | from form | to form | (a), µs | (b), µs | (a) / (b) |
|---|--:|--:|--:|--:|--:|--:|--:|
{}",
            self.rows
        )
    }
}

/// The times for a whole log on the largest stores.
#[derive(Default)]
struct Logs {
    rows: String,
}

impl Logs {
    fn add(&mut self, shape: &Shape, cases: &[Case], logs: &[Vec<u8>], rounds: usize) {
        let [calls, plain] = timing::logs(cases, logs, rounds);
        self.rows += &format!(
            "| {shape} | {} | {} | {} | {} | {} |\n",
            shape.e,
            shape.n(),
            microseconds(calls),
            microseconds(plain),
            decimals(ratio(calls, plain)),
        );
    }

    fn table(&self) -> String {
        format!(
            "\
A log of {ENTRIES} entries in one call, all true, about half of them lifts and half sightings, on the starts above. The time of the
whole log, in which reading the image and writing one have a part.

| m × h | e | n | (a), µs | (b), µs | (a) / (b) |
|---|--:|--:|--:|--:|--:|
{}",
            self.rows
        )
    }
}

/// The most stack that each call used, in bytes.
#[derive(Default)]
struct Stacks {
    check: usize,
    reachable: usize,
    plan: usize,
    replay: usize,
    follow: usize,
    convert: usize,
    uncover: usize,
}

impl Stacks {
    fn add(&mut self, case: &Case, orders: &[Order], log: &[u8]) {
        let mut orders = orders.to_vec();
        let mut list = vec![0; LENT];
        let mut out = vec![0; MOST_IMAGE];
        let mut count = 0;
        let check = stack::used_by(|| _ = calls::check(case));
        let reachable = stack::used_by(|| _ = calls::reachable(case));
        let plan = stack::used_by(|| count = calls::plan(case, &mut list).count as usize);
        let replay = stack::used_by(|| _ = calls::replay(case, &list[..count], &mut out));
        let follow = stack::used_by(|| _ = calls::follow(case, log, &mut out));
        let image = &case.start_image;
        let convert = stack::used_by(|| _ = calls::convert(image, 2, &mut out));
        let uncover = stack::used_by(|| _ = calls::uncover(case, &mut orders));
        let all = [check, reachable, plan, replay, follow, convert, uncover];
        assert!(all.iter().all(|&used| used <= MOST_STACK), "{all:?} bytes");
        self.check = self.check.max(check);
        self.reachable = self.reachable.max(reachable);
        self.plan = self.plan.max(plan);
        self.replay = self.replay.max(replay);
        self.follow = self.follow.max(follow);
        self.convert = self.convert.max(convert);
        self.uncover = self.uncover.max(uncover);
    }

    fn table(&self) -> String {
        format!(
            "\
The stack that a call uses: the bytes from its entry down to the lowest one it changed, the most over one pair of each
shape above, found by running it on a stack of its own that was painted before.

| call | bytes |
|---|--:|
| halyard_check | {} |
| halyard_reachable | {} |
| halyard_plan | {} |
| halyard_replay | {} |
| halyard_follow | {} |
| halyard_convert | {} |
| halyard_uncover | {} |
",
            self.check, self.reachable, self.plan, self.replay, self.follow, self.convert, self.uncover
        )
    }
}

#[cfg(test)]
mod tests {
    use super::*;

    /// One pair of each shape, as the table has it: a call that used more would end it.
    #[test]
    fn no_call_uses_more_stack_than_it_may() {
        let mut random = Random::new(2);
        let mut stacks = Stacks::default();
        for shape in cases::shapes() {
            let cases = cases::cases(&mut random, &shape, 1);
            let orders = cases::orders(&mut random, &shape);
            stacks.add(&cases[0], &orders, &logs_of(&cases)[0]);
        }
        assert!(stacks.table().contains("| halyard_convert | "));
        assert!(stacks.table().contains("| halyard_follow | "));
        assert!(stacks.convert > 0 && stacks.follow > 0);
    }
}
