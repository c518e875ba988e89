//! The longer run, by hand: random comparisons from a seed, as many rounds as are named.

use halyard_model::Random;
use halyard_outside::calls::Caller;
use halyard_outside::{guarded, rounds};
use std::process::ExitCode;

const USAGE: &str = "usage: halyard-outside SEED COUNT [GUARD]

Compares the C calls with the model in COUNT rounds of random inputs from SEED. GUARD is how many
guard bytes, or guard orders for a row, stand on each side of what is passed (64); with 0 a memory checker sees every byte that
is read or written beside it. It stops at the first difference.";

struct Arguments {
    seed: u64,
    count: u64,
    guard: usize,
}

fn arguments() -> Option<Arguments> {
    let words: Vec<String> = std::env::args().skip(1).collect();
    let guard = match &words[..] {
        [_, _] => guarded::GUARD,
        [_, _, guard] => guard.parse().ok()?,
        _ => return None,
    };
    Some(Arguments {
        seed: words[0].parse().ok()?,
        count: words[1].parse().ok()?,
        guard,
    })
}

fn main() -> ExitCode {
    let Some(Arguments { seed, count, guard }) = arguments() else {
        eprintln!("{USAGE}");
        return ExitCode::FAILURE;
    };
    let mut random = Random::new(seed);
    let mut caller = Caller::new(random.word(), guard);
    for _ in 0..count {
        rounds::all(&mut caller, &mut random);
    }
    println!("seed {seed}, {count} rounds: no difference");
    for number in 0..=255 {
        let answers = caller.answers_with(number);
        if answers > 0 {
            println!("answers with number {number:2}: {answers}");
        }
    }
    ExitCode::SUCCESS
}
