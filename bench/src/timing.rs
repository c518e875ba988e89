//! The runs that are timed.

use crate::calls::{self, LENT};
use crate::cases::{Case, Shape};
use crate::plain;
use halyard_model::image::{self, Form};
use halyard_model::log::ENTRY_BYTES;
use halyard_model::play;
use halyard_model::search::Search;
use halyard_outside::calls::{Answer, Order};
use std::hint::black_box;
use std::time::Instant;

/// What was measured of one way to do the calls, on one shape. Times are of one call, in nanoseconds.
#[derive(Default)]
pub struct Measured {
    pub plan: Option<f64>,
    pub yes_or_no: Option<f64>,
    pub check: Option<f64>,
    pub replay: Option<f64>,
    /// One for each list planned.
    pub lifts: Vec<usize>,
}

/// Searches give up past this many stores.
pub const MOST_STORES: usize = 50_000;

/// A full search for the first cases. None where it does not end.
pub fn search(cases: &[Case], count: usize) -> Option<Measured> {
    let mut measured = Measured::default();
    let mut nanoseconds = 0.0;
    for case in &cases[..count.min(cases.len())] {
        let begun = Instant::now();
        let search = Search::towards(&case.start, &case.goal, MOST_STORES);
        nanoseconds += begun.elapsed().as_nanos() as f64;
        measured.lifts.push(search.list_to(&case.goal)?.len());
    }
    measured.plan = Some(nanoseconds / measured.lifts.len() as f64);
    measured.yes_or_no = measured.plan;
    Some(measured)
}

/// The times of one call on each case, in nanoseconds, one for each round.
struct Clock {
    cases: Vec<Vec<f64>>,
}

impl Clock {
    fn new(cases: usize) -> Clock {
        Clock {
            cases: vec![Vec::new(); cases],
        }
    }

    fn time<T>(&mut self, case: usize, call: impl FnOnce() -> T) {
        let begun = Instant::now();
        black_box(call());
        let taken = begun.elapsed();
        self.cases[case].push(taken.as_nanos() as f64);
    }

    /// The median of the rounds for each case, and the mean of those. None where nothing was timed.
    fn mean_of_medians(self) -> Option<f64> {
        let medians: Vec<f64> = self.cases.into_iter().map(median).collect::<Option<_>>()?;
        Some(medians.iter().sum::<f64>() / medians.len() as f64)
    }
}

fn median(mut times: Vec<f64>) -> Option<f64> {
    times.sort_by(f64::total_cmp);
    times.get(times.len() / 2).copied()
}

/// What the clock itself takes, in nanoseconds.
pub fn clock_cost() -> f64 {
    let mut clock = Clock::new(1);
    for _ in 0..1_000 {
        clock.time(0, || ());
    }
    clock.mean_of_medians().expect("timed")
}

/// A way to do the calls on a case. All start from its images.
#[derive(Clone, Copy)]
struct Way {
    plan: Option<fn(&Case, &mut [u8]) -> Answer>,
    yes_or_no: fn(&Case) -> Answer,
    check: fn(&Case) -> Answer,
    replay: fn(&Case, &[u8], &mut [u8]) -> Answer,
}

const CALLS: Way = Way {
    plan: Some(calls::plan),
    yes_or_no: calls::reachable,
    check: calls::check,
    replay: calls::replay,
};

/// Plain Rust, which has no plan where the thesis has no solution.
fn plain(shape: &Shape) -> Way {
    let solved = shape.equal_depths() && shape.e >= shape.deepest();
    Way {
        plan: solved.then_some(plain::plan),
        yes_or_no: plain::reachable,
        check: plain::check,
        replay: plain::replay,
    }
}

impl Way {
    /// The lists that it plans, each seen to lead to the goal. None of them where it has no plan.
    fn lists(&self, cases: &[Case]) -> Vec<Vec<u8>> {
        let Some(plan) = self.plan else {
            return Vec::new();
        };
        let list = |case| {
            let mut list = vec![0; LENT];
            let answer = plan(case, &mut list);
            assert_eq!(answer.number, 0);
            list.truncate(answer.count as usize);
            assert!(play::leads(&case.start, &list, &case.goal));
            list
        };
        cases.iter().map(list).collect()
    }

    /// What it answers and writes on a case, but for the plan.
    fn results(&self, case: &Case, list: &[u8]) -> ([Answer; 3], Vec<u8>) {
        let mut out = vec![0; case.start_image.len()];
        let replayed = (self.replay)(case, list, &mut out);
        ([(self.yes_or_no)(case), (self.check)(case), replayed], out)
    }
}

/// The longest image, in bytes.
pub const MOST_IMAGE: usize = 403;

/// Space lent to the calls, the same each time.
struct Lent {
    list: Vec<u8>,
    out: Vec<u8>,
}

/// Times a way, each of its calls over all cases in turn.
struct Timed<'a> {
    way: Way,
    cases: &'a [Case],
    clocks: [Clock; 4],
}

impl<'a> Timed<'a> {
    fn new(way: Way, cases: &'a [Case]) -> Timed<'a> {
        Timed {
            way,
            cases,
            clocks: std::array::from_fn(|_| Clock::new(cases.len())),
        }
    }

    /// One round, in which each case replays its list.
    fn round(&mut self, lists: &[Vec<u8>], lent: &mut Lent) {
        let Way {
            plan,
            yes_or_no,
            check,
            replay,
        } = self.way;
        let [plans, answers, checks, replays] = &mut self.clocks;
        let cases = || self.cases.iter().map(black_box).enumerate();
        if let Some(plan) = plan {
            let list = black_box(&mut lent.list[..]);
            cases().for_each(|(i, case)| plans.time(i, || plan(case, list)));
        }
        cases().for_each(|(i, case)| answers.time(i, || yes_or_no(case)));
        cases().for_each(|(i, case)| checks.time(i, || check(case)));
        let out = black_box(&mut lent.out[..]);
        for ((i, case), list) in cases().zip(black_box(lists)) {
            replays.time(i, || replay(case, list, out));
        }
    }

    fn measured(self, lists: &[Vec<u8>]) -> Measured {
        let [plan, yes_or_no, check, replay] = self.clocks.map(Clock::mean_of_medians);
        Measured {
            plan,
            yes_or_no,
            check,
            replay,
            lifts: lists.iter().map(Vec::len).collect(),
        }
    }
}

/// The C calls and plain Rust, in rounds that go through both. Both replay the lists of the C call.
pub fn in_rounds(shape: &Shape, cases: &[Case], rounds: usize) -> [Measured; 2] {
    let ways = [CALLS, plain(shape)];
    let lists = ways.map(|way| way.lists(cases));
    for (case, list) in cases.iter().zip(&lists[0]) {
        assert_eq!(ways[0].results(case, list), ways[1].results(case, list));
    }
    let mut lent = Lent {
        list: vec![0; LENT],
        out: vec![0; MOST_IMAGE],
    };
    let mut timed = ways.map(|way| Timed::new(way, cases));
    for _ in 0..rounds {
        for way in &mut timed {
            way.round(&lists[0], &mut lent);
        }
    }
    let [calls, plain] = timed;
    [calls.measured(&lists[0]), plain.measured(&lists[1])]
}

/// A row of orders on the start of each case, by the C call and in plain Rust, in rounds that go through both. Nanoseconds for a row.
pub fn orders(cases: &[Case], row: &[Order], rounds: usize) -> [Option<f64>; 2] {
    let ways: [fn(&Case, &mut [Order]) -> Answer; 2] = [calls::uncover, plain::uncover];
    let mut clocks = ways.map(|_| Clock::new(cases.len()));
    let mut rows = ways.map(|_| row.to_vec());
    for case in cases {
        let answers: Vec<_> = (0..2).map(|by| ways[by](case, &mut rows[by])).collect();
        assert_eq!(answers[0], answers[1]);
        assert_eq!(rows[0], rows[1]);
    }
    for _ in 0..rounds {
        for ((way, clock), row) in ways.iter().zip(&mut clocks).zip(&mut rows) {
            let row = black_box(&mut row[..]);
            let cases = cases.iter().map(black_box).enumerate();
            cases.for_each(|(i, case)| clock.time(i, || way(case, row)));
        }
    }
    clocks.map(Clock::mean_of_medians)
}

/// A way to follow a log on the start of a case.
type Follow = fn(&Case, &[u8], &mut [u8]) -> Answer;

/// A log on the start of each case, true throughout, by the C call and in plain Rust, in rounds that go through both. Nanoseconds for a log.
pub fn logs(cases: &[Case], logs: &[Vec<u8>], rounds: usize) -> [Option<f64>; 2] {
    let ways: [Follow; 2] = [calls::follow, plain::follow];
    let mut clocks = ways.map(|_| Clock::new(cases.len()));
    let mut outs = ways.map(|_| vec![0; MOST_IMAGE]);
    for (case, log) in cases.iter().zip(logs) {
        let answers: Vec<_> = (0..2)
            .map(|by| ways[by](case, log, &mut outs[by]))
            .collect();
        assert_eq!(answers[0], answers[1]);
        assert_eq!(answers[0], Answer::of(0, log.len() / ENTRY_BYTES));
        assert_eq!(outs[0], outs[1]);
    }
    for _ in 0..rounds {
        for ((way, clock), out) in ways.iter().zip(&mut clocks).zip(&mut outs) {
            let out = black_box(&mut out[..]);
            let cases = cases.iter().map(black_box).zip(black_box(logs));
            for (i, (case, log)) in cases.enumerate() {
                clock.time(i, || way(case, log, out));
            }
        }
    }
    clocks.map(Clock::mean_of_medians)
}

/// A way to write an image in a form.
type Convert = fn(&[u8], u8, &mut [u8]) -> Answer;

/// The start of each case, in one form, written in another, by the C call and in plain Rust, in rounds that go through both. Nanoseconds for a conversion.
pub fn conversions(cases: &[Case], from: Form, to: Form, rounds: usize) -> [Option<f64>; 2] {
    let ways: [Convert; 2] = [calls::convert, plain::convert];
    let mut clocks = ways.map(|_| Clock::new(cases.len()));
    let image = |case: &Case| image::write_in(&case.start, from);
    let images: Vec<Vec<u8>> = cases.iter().map(image).collect();
    let mut outs = ways.map(|_| vec![0; MOST_IMAGE]);
    for image in &images {
        let answers: Vec<_> = (0..2)
            .map(|by| ways[by](image, to as u8, &mut outs[by]))
            .collect();
        assert_eq!(answers[0], answers[1]);
        assert_eq!(answers[0].number, 0);
        assert_eq!(outs[0], outs[1]);
    }
    for _ in 0..rounds {
        for ((way, clock), out) in ways.iter().zip(&mut clocks).zip(&mut outs) {
            let out = black_box(&mut out[..]);
            let images = images.iter().map(black_box).enumerate();
            images.for_each(|(i, image)| clock.time(i, || way(image, to as u8, out)));
        }
    }
    clocks.map(Clock::mean_of_medians)
}
