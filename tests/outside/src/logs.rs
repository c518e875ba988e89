//! Random logs: true ones, and such as have one entry that can't be true, of each sort. What following them gives is known by how they are made.

use crate::calls::Answer;
use crate::expected;
use halyard_model::image;
use halyard_model::log::{self, ENTRY_BYTES, Entry, LIFT, SIGHTING};
use halyard_model::store::{BLANK, MOST_SHAFTS};
use halyard_model::{Random, Store, play};

/// What is wrong with an entry that can't be true.
#[derive(Clone, Copy, Debug, PartialEq, Eq)]
pub enum Fault {
    /// A kind above 1.
    Kind,
    /// A first shaft not below m.
    FirstShaft,
    /// A lift to a shaft not below m.
    Entered,
    /// A sighting with a second shaft, below m or not.
    SecondOfSighting,
    /// A lift with one shaft twice.
    OneShaftTwice,
    /// A lift from an empty shaft.
    Empty,
    /// A lift to a full shaft.
    Full,
    /// A legal lift that carries another cassette than it names.
    Carried,
    /// A sighting of another cassette than the one on top.
    Top,
    /// A sighting of an empty shaft that has a cassette.
    TopAsEmpty,
    /// A sighting of a cassette where the shaft is empty.
    EmptyAsTop,
}

impl Fault {
    pub const ALL: [Fault; 11] = [
        Fault::Kind,
        Fault::FirstShaft,
        Fault::Entered,
        Fault::SecondOfSighting,
        Fault::OneShaftTwice,
        Fault::Empty,
        Fault::Full,
        Fault::Carried,
        Fault::Top,
        Fault::TopAsEmpty,
        Fault::EmptyAsTop,
    ];

    /// The number that it gets.
    pub fn number(self) -> u8 {
        match self {
            Fault::Kind
            | Fault::FirstShaft
            | Fault::Entered
            | Fault::SecondOfSighting
            | Fault::OneShaftTwice => 19,
            Fault::Empty => 13,
            Fault::Full => 14,
            Fault::Carried | Fault::Top | Fault::TopAsEmpty | Fault::EmptyAsTop => 20,
        }
    }

    /// An entry with this fault in a store, where it can have one. What would be looked at after the fault is right or wrong, by chance.
    pub fn entry(self, random: &mut Random, store: &Store) -> Option<Entry> {
        let shaft = random.below(store.m());
        let other = random.below(store.m());
        let any = any_number(random, store, shaft);
        let entry = match self {
            Fault::Kind => Entry {
                kind: random.from_to(2, 15) as u8,
                ..any_entry(random, store)
            },
            Fault::FirstShaft => Entry {
                shaft: past_the_last(random, store)? as u8,
                ..any_entry(random, store)
            },
            Fault::Entered => Entry::lift(shaft, past_the_last(random, store)?, any),
            Fault::SecondOfSighting => Entry {
                second: random.from_to(1, MOST_SHAFTS - 1) as u8,
                ..Entry::sighting(shaft, any)
            },
            Fault::OneShaftTwice => Entry::lift(shaft, shaft, any),
            Fault::Empty => {
                let from = one_like(random, store, is_empty)?;
                let number = any_number(random, store, from);
                Entry::lift(from, Some(other).filter(|&it| it != from)?, number)
            }
            Fault::Full => {
                let to = one_like(random, store, is_full)?;
                let from = one_like(random, store, |store, it| it != to && !is_empty(store, it))?;
                Entry::lift(from, to, any_number(random, store, from))
            }
            Fault::Carried => {
                let (from, to) = legal_lift(random, store)?;
                Entry::lift(from, to, other_number(random, store, from))
            }
            Fault::Top => {
                let shaft = one_like(random, store, |store, it| !is_empty(store, it))?;
                let number = other_number(random, store, shaft);
                Entry::sighting(shaft, Some(number).filter(|&it| it != 0)?)
            }
            Fault::TopAsEmpty => {
                let shaft = one_like(random, store, |store, it| !is_empty(store, it))?;
                Entry::sighting(shaft, 0)
            }
            Fault::EmptyAsTop => {
                let shaft = one_like(random, store, is_empty)?;
                Entry::sighting(shaft, other_number(random, store, shaft))
            }
        };
        Some(entry)
    }
}

fn is_empty(store: &Store, shaft: usize) -> bool {
    store.shafts[shaft].is_empty()
}

fn is_full(store: &Store, shaft: usize) -> bool {
    store.room(shaft) == 0
}

/// A shaft like this, where there is one.
fn one_like(
    random: &mut Random,
    store: &Store,
    like: impl Fn(&Store, usize) -> bool,
) -> Option<usize> {
    let all: Vec<usize> = (0..store.m()).filter(|&it| like(store, it)).collect();
    (!all.is_empty()).then(|| *random.one_of(&all))
}

/// A shaft that a store does not have, often the first such.
fn past_the_last(random: &mut Random, store: &Store) -> Option<usize> {
    match store.m() {
        MOST_SHAFTS => None,
        m if random.below(2) == 0 => Some(m),
        m => Some(random.from_to(m, MOST_SHAFTS - 1)),
    }
}

fn legal_lift(random: &mut Random, store: &Store) -> Option<(usize, usize)> {
    let legal = play::legal_lifts(store);
    (!legal.is_empty()).then(|| play::shafts_of(*random.one_of(&legal)))
}

/// The number that a store shows for a shaft, or another.
fn any_number(random: &mut Random, store: &Store, shaft: usize) -> u16 {
    match random.below(2) {
        0 => log::shown(store, shaft),
        _ => other_number(random, store, shaft),
    }
}

/// Another number than the one that a store shows for a shaft: one that differs from it in one bit, that of another cassette of the shaft or of the store, 0, 255, the
/// blank's, or any.
fn other_number(random: &mut Random, store: &Store, shaft: usize) -> u16 {
    let shown = log::shown(store, shaft);
    let bit = shown ^ (1 << random.below(12));
    let any = random.below(usize::from(BLANK) + 1) as u16;
    let mut numbers = vec![bit, bit, bit, 0, 254, 255, BLANK, any, any];
    let there = store.cassettes();
    for some in [&store.shafts[shaft], &there] {
        if !some.is_empty() {
            numbers.extend([*random.one_of(some); 2]);
        }
    }
    numbers.retain(|&number| number != shown);
    *random.one_of(&numbers)
}

/// A lift or a sighting with shafts of the store and any number, which may be true.
fn any_entry(random: &mut Random, store: &Store) -> Entry {
    let (shaft, other) = (random.below(store.m()), random.below(store.m()));
    let number = any_number(random, store, shaft);
    match random.below(2) as u8 {
        LIFT => Entry::lift(shaft, other, number),
        _ => Entry::sighting(shaft, number),
    }
}

/// A true entry: about as often a lift, where one is legal, as a sighting.
pub fn true_entry(random: &mut Random, store: &Store) -> Entry {
    let shaft = random.below(store.m());
    let kind = *random.one_of(&[LIFT, SIGHTING]);
    match legal_lift(random, store).filter(|_| kind == LIFT) {
        Some((from, to)) => Entry::lift(from, to, log::shown(store, from)),
        None => Entry::sighting(shaft, log::shown(store, shaft)),
    }
}

/// A log, and what following it gives.
pub struct Made {
    pub bytes: Vec<u8>,
    pub answer: Answer,
    pub store: Store,
}

/// A log of so many entries that are true from a store.
pub fn true_log(random: &mut Random, start: &Store, count: usize) -> Made {
    let mut store = start.clone();
    let mut entries = Vec::with_capacity(count);
    for _ in 0..count {
        let entry = true_entry(random, &store);
        log::apply(&mut store, entry);
        entries.push(entry);
    }
    Made {
        bytes: log::pack(&entries),
        answer: Answer::of(0, count),
        store,
    }
}

/// A log of so many entries that are true, one with this fault, where the store they leave can have it, and a few more, true or not.
pub fn with_fault(random: &mut Random, start: &Store, count: usize, fault: Fault) -> Option<Made> {
    let mut made = true_log(random, start, count);
    let entry = fault.entry(random, &made.store)?;
    made.bytes.extend(log::pack(&[entry]));
    let more = random.below(4);
    let more = match random.below(2) {
        0 => true_log(random, &made.store, more).bytes,
        _ => random.bytes(more * ENTRY_BYTES),
    };
    made.bytes.extend(more);
    made.answer = Answer::of(fault.number(), count);
    Some(made)
}

/// A log with a byte or two too many, or too few: 19 for entry 0, and the store as it came, whatever its entries are.
pub fn of_wrong_length(random: &mut Random, start: &Store, log: &[u8]) -> Made {
    let over = random.from_to(1, 2);
    let mut bytes = log.to_vec();
    if random.below(2) == 0 && bytes.len() >= over {
        bytes.truncate(bytes.len() - over);
    } else {
        bytes.extend(random.bytes(over));
    }
    Made {
        bytes,
        answer: Answer::of(19, 0),
        store: start.clone(),
    }
}

/// Any log for a store: true, with some fault, or of a wrong length. Empty shafts are rare, so that what asks for one is tried more often.
pub fn any(random: &mut Random, start: &Store) -> Made {
    let count = *random.one_of(&[0, 1, 2, 3, 20, 60]);
    let fault = match random.below(4) {
        0 => Fault::Empty,
        1 => Fault::EmptyAsTop,
        _ => *random.one_of(&Fault::ALL),
    };
    let made = match random.below(4) {
        0 => None,
        _ => with_fault(random, start, count, fault),
    };
    let made = made.unwrap_or_else(|| true_log(random, start, count));
    match random.below(12) {
        0 => of_wrong_length(random, start, &made.bytes),
        _ => made,
    }
}

/// Any bytes as a log, mostly with kinds that there are.
pub fn noise(random: &mut Random) -> Vec<u8> {
    let count = random.below(20);
    let mut bytes = random.bytes(count);
    for first in bytes.iter_mut().step_by(ENTRY_BYTES) {
        *first &= *random.one_of(&[0x1F, 0x1F, 0x13, 0xFF]);
    }
    bytes
}

/// The model follows a log to what it was made for.
pub fn model_agrees(image: &[u8], made: &Made) {
    let form = image::form_of(image).expect("an image");
    let wanted = (made.answer, image::write_in(&made.store, form));
    assert_eq!(expected::follow(image, &made.bytes, image.len()), wanted);
}
