//! Random logs on stores up to 16 x 16, of equal and unequal depths, with blanks, in every form, from fixed seeds: true ones, and such as have one fault of each sort,
//! for which the answer is known by how they were made. Then every entry on some small stores, logs of lifts beside replays, and long logs.

use halyard_model::image::{self, Form};
use halyard_model::log::{self, Entry, LIFT};
use halyard_model::store::{BLANK, MOST_DEPTH, MOST_SHAFTS};
use halyard_model::{Random, Store, play, text};
use halyard_outside::calls::{Answer, Caller, c};
use halyard_outside::logs::{self, Fault, Made};
use halyard_outside::{checks, guarded::GUARD, inputs, rounds};

/// A log gives what it was made for, in the form of the image, also by the model.
fn as_made(caller: &mut Caller, image: &[u8], made: &Made) {
    logs::model_agrees(image, made);
    let form = image::form_of(image).unwrap();
    let wanted = (made.answer, &image::write_in(&made.store, form)[..]);
    checks::follow_is(caller, image, &made.bytes, image.len(), wanted);
}

/// What logs were met with.
#[derive(Default, Debug)]
struct Met {
    all: usize,
    unequal: usize,
    blanks: usize,
    at_once: usize,
    late: usize,
    forms: [usize; 3],
}

impl Met {
    fn add(&mut self, start: &Store, image: &[u8], place: usize) {
        self.all += 1;
        self.unequal += usize::from(!start.equal_depths());
        self.blanks += usize::from(start.blanks() > 0);
        self.at_once += usize::from(place == 0);
        self.late += usize::from(place > 20);
        self.forms[usize::from(image[0] >> 4)] += 1;
    }

    /// All of it often enough.
    fn often(&self, about: &dyn std::fmt::Debug) {
        let Met {
            all,
            unequal,
            blanks,
            at_once,
            late,
            forms,
        } = self;
        assert!(*all >= 1_000, "{about:?}: {self:?}");
        for part in [unequal, blanks, at_once, late].into_iter().chain(forms) {
            assert!(*part >= 50, "{about:?}: {self:?}");
        }
    }
}

/// How many entries before the fault: none, a few or many.
fn place(random: &mut Random) -> usize {
    match random.below(4) {
        0 => 0,
        1 => random.from_to(1, 4),
        _ => random.from_to(5, 60),
    }
}

/// Each fault at a random entry of a log that is true before it.
#[test]
fn one_fault_of_each_sort() {
    let mut random = Random::new(111);
    let mut caller = Caller::new(111, GUARD);
    for fault in Fault::ALL {
        let mut met = Met::default();
        for _ in 0..20_000 {
            if met.all == 1_000 {
                break;
            }
            let start = inputs::store(&mut random);
            let place = place(&mut random);
            let Some(made) = logs::with_fault(&mut random, &start, place, fault) else {
                continue;
            };
            let image = inputs::image(&mut random, &start);
            as_made(&mut caller, &image, &made);
            met.add(&start, &image, place);
        }
        met.often(&fault);
    }
    assert_eq!(caller.answers_with(11), 0);
}

/// Logs that are true throughout, and the same cut to every length within the first entries: 19 with the store as it came unless whole entries are left.
#[test]
fn true_logs_of_every_length() {
    let mut random = Random::new(112);
    let mut caller = Caller::new(112, GUARD);
    let mut met = Met::default();
    let mut rests = [0; 3];
    for _ in 0..1_500 {
        let start = inputs::store(&mut random);
        let place = place(&mut random);
        let made = logs::true_log(&mut random, &start, place);
        let image = inputs::image(&mut random, &start);
        as_made(&mut caller, &image, &made);
        met.add(&start, &image, place);
        for len in 0..made.bytes.len().min(13) {
            let cut = &made.bytes[..len];
            let answer = match len % 3 {
                0 => Answer::of(0, len / 3),
                _ => Answer::of(19, 0),
            };
            assert_eq!(caller.follow(&image, cut, image.len()).answer, answer);
            checks::follow(&mut caller, &image, cut, image.len());
            rests[len % 3] += 1;
        }
        let wrong = logs::of_wrong_length(&mut random, &start, &made.bytes);
        as_made(&mut caller, &image, &wrong);
        rests[wrong.bytes.len() % 3] += 1;
    }
    met.often(&"true");
    assert!(rests.iter().all(|&met| met > 2_000), "{rests:?}");
}

/// Every count of shafts with every depth: a true log, and one with each fault that it can have.
#[test]
fn every_shape() {
    let mut random = Random::new(113);
    let mut caller = Caller::new(113, GUARD);
    let mut met = [0; Fault::ALL.len()];
    for (m, h) in (1..=MOST_SHAFTS).flat_map(|m| (1..=MOST_DEPTH).map(move |h| (m, h))) {
        for depths in [vec![h; m], random.depths(m, h)] {
            let start = inputs::store_of(&mut random, &depths);
            let image = inputs::image(&mut random, &start);
            let made = logs::true_log(&mut random, &start, 12);
            as_made(&mut caller, &image, &made);
            for (fault, met) in Fault::ALL.into_iter().zip(&mut met) {
                let place = random.below(12);
                if let Some(made) = logs::with_fault(&mut random, &start, place, fault) {
                    as_made(&mut caller, &image, &made);
                    *met += 1;
                }
            }
        }
    }
    assert!(met.iter().all(|&times| times > 60), "{met:?}");
}

/// The rounds of the longer run: every number in every form, in unequal depths and with cassettes past a byte.
#[test]
fn rounds_of_logs() {
    let mut random = Random::new(114);
    let mut caller = Caller::new(114, GUARD);
    for _ in 0..20_000 {
        rounds::log(&mut caller, &mut random);
    }
    for number in [0, 10, 13, 14, 19, 20] {
        let often = |answers: u64, least: u64| {
            assert!(answers >= least, "{number} was answered {answers} times");
        };
        often(caller.answers_with(number), 250);
        often(caller.unequal_with(number), 50);
        often(caller.past_a_byte_with(number), 50);
        for form in Form::ALL {
            often(caller.in_form_with(form, number), 30);
        }
    }
}

/// Damaged images, with any bytes as a log and any space: the faults of reading come first.
#[test]
fn damaged_images() {
    let mut random = Random::new(115);
    let mut caller = Caller::new(115, GUARD);
    for _ in 0..15_000 {
        rounds::log_noise(&mut caller, &mut random);
    }
    for number in [1, 2, 3, 4, 5, 7, 10, 19] {
        let answers = caller.answers_with(number);
        assert!(answers >= 300, "{number} was answered {answers} times");
    }
}

/// Any bytes as a log: every number, also where nothing about the log was planned.
#[test]
fn any_bytes() {
    let mut random = Random::new(116);
    let mut caller = Caller::new(116, GUARD);
    for _ in 0..20_000 {
        let (m, h) = (random.from_to(1, 16), random.from_to(1, 4));
        let n = random.from_to(0, m * h);
        let store = random.store_with_blanks(m, h, n, n / 2);
        let image = inputs::image(&mut random, &store);
        let log = logs::noise(&mut random);
        checks::follow(&mut caller, &image, &log, image.len());
    }
    for number in [0, 13, 14, 19, 20] {
        let answers = caller.answers_with(number);
        assert!(answers >= 100, "{number} was answered {answers} times");
    }
}

/// Small stores, with each form that holds them.
fn small_images() -> Vec<(Store, Vec<u8>)> {
    let mut images = Vec::new();
    for text in [
        "1x1: []",
        "1x2: [1 2]",
        "2x2: [1 255] []",
        "3x2: [1 2] [] [3]",
        "3x3,1,2: [1 b] [b] []",
        "4x1: [4094] [b] [] [254]",
        "16x1: [1] [] [] [] [2] [] [b] [] [] [] [] [] [] [] [] [3]",
    ] {
        let store = text::read(text).unwrap();
        let forms = Form::ALL.into_iter().filter(|form| form.holds(&store));
        images.extend(forms.map(|form| (store.clone(), image::write_in(&store, form))));
    }
    images
}

/// What a log of one entry answers, with no guards, into bytes that are looked at.
fn one_entry(image: &[u8], entry: Entry, out: &mut [u8]) -> Answer {
    let (len, log) = (image.len(), log::pack(&[entry]));
    assert_eq!(out.len(), len);
    // SAFETY: every pointer has as many bytes as are named, and `out` overlaps nothing.
    Answer::from_bits(unsafe {
        c::halyard_follow(image.as_ptr(), len, log.as_ptr(), 3, out.as_mut_ptr(), len)
    })
}

/// Every kind with every two shafts and such numbers on small stores: those that a shaft shows, each with one bit changed, 0, 254 to 256, and those at the end.
#[test]
fn every_kind_and_every_two_shafts() {
    let mut met = [0; 256];
    for (store, image) in small_images() {
        let mut numbers = vec![0, 1, 254, 255, 256, 4094, BLANK];
        for shaft in &store.shafts {
            let top = shaft.last().copied().unwrap_or(0);
            numbers.extend((0..12).map(|bit| top ^ (1 << bit)).chain(shaft.clone()));
        }
        numbers.sort_unstable();
        numbers.dedup();
        let mut out = vec![0xAA; image.len()];
        for both in 0..=0xFFF_u16 {
            for &number in &numbers {
                let entry = Entry {
                    kind: (both >> 8) as u8,
                    shaft: (both >> 4 & 15) as u8,
                    second: (both & 15) as u8,
                    number,
                };
                out.fill(0xAA);
                let answer = one_entry(&image, entry, &mut out);
                let fault = log::fault(&store, entry);
                let wanted = Answer::of(fault.unwrap_or(0), usize::from(fault.is_none()));
                assert_eq!(answer, wanted, "{entry:?} in {store:?}");
                let mut end = store.clone();
                if fault.is_none() {
                    log::apply(&mut end, entry);
                }
                let written = image::read(&out);
                assert_eq!(written, Ok(end), "{entry:?} in {store:?}");
                met[usize::from(answer.number)] += 1;
            }
        }
    }
    for number in [0, 13, 14, 19, 20] {
        assert!(met[number] > 20, "{number}: {} times", met[number]);
    }
}

/// Every entry of the kinds that there are, of the first that there is not and of the last, on one small store.
#[test]
fn every_entry() {
    let store = text::read("3x2: [1 b] [] [3]").unwrap();
    let image = image::write_first(&store);
    let mut out = vec![0xAA; image.len()];
    let mut met = [0_usize; 256];
    let kinds = [0, 1, 2, 15].map(|kind: u32| kind << 20..(kind + 1) << 20);
    for bits in kinds.into_iter().flatten() {
        let [_, bytes @ ..] = bits.to_be_bytes();
        let len = image.len();
        out.fill(0xAA);
        // SAFETY: every pointer has as many bytes as are named, and `out` overlaps nothing.
        let answer = Answer::from_bits(unsafe {
            let log = bytes.as_ptr();
            c::halyard_follow(image.as_ptr(), len, log, 3, out.as_mut_ptr(), len)
        });
        let entry = log::unpack(bytes);
        let fault = log::fault(&store, entry);
        let wanted = Answer::of(fault.unwrap_or(0), usize::from(fault.is_none()));
        assert_eq!(answer, wanted, "{bytes:02x?}");
        let moved = fault.is_none() && entry.kind == LIFT;
        assert_eq!(out != image, moved, "{bytes:02x?}");
        met[usize::from(answer.number)] += 1;
    }
    // Of six lifts three are legal, two leave the empty shaft and one enters the full one; each of them, and each of three sightings, has 4,096 numbers.
    let [empty, full, legal, sighted] = [2, 1, 3, 3].map(|it| it * 4096);
    assert_eq!((met[13], met[14], met[0]), (empty, full, 3 + 3));
    assert_eq!(met[20], legal + sighted - met[0]);
    let others = (4 << 20) - empty - full - legal - sighted;
    assert_eq!(met[19], others);
}

/// The lifts of a list, each with the cassette that it carries from a store, or any where it can't be done.
fn log_of(start: &Store, list: &[u8]) -> Vec<Entry> {
    let mut store = start.clone();
    let mut entry = |&lift: &u8| {
        let (from, to) = play::shafts_of(lift);
        let carried = play::lift(&mut store, lift).map_or(1, |it| it.cassette);
        Entry::lift(from, to, carried)
    };
    list.iter().map(&mut entry).collect()
}

/// A log of lifts alone against a replay of the same lifts: the same store and the same count, and the same number but for 19 in place of 11.
#[test]
fn lifts_as_a_replay_does_them() {
    let mut random = Random::new(117);
    let mut caller = Caller::new(117, GUARD);
    let mut met = [0; 256];
    for _ in 0..10_000 {
        let start = inputs::store(&mut random);
        let list = inputs::list(&mut random, &start);
        let log = log::pack(&log_of(&start, &list));
        let image = inputs::image(&mut random, &start);
        let replayed = caller.replay(&image, &list, image.len());
        let followed = caller.follow(&image, &log, image.len());
        let number = match replayed.answer.number {
            11 => 19,
            number => number,
        };
        let wanted = Answer {
            number,
            ..replayed.answer
        };
        assert_eq!(followed.answer, wanted, "{list:02x?} on {start:?}");
        assert_eq!(followed.space.content(), replayed.space.content());
        met[usize::from(number)] += 1;
    }
    for number in [0, 13, 14, 19] {
        assert!(met[number] > 100, "{number}: {} times", met[number]);
    }
}

/// A sighting of every shaft after every lift is true, and with any one number changed it is not, from there on.
#[test]
fn all_that_the_store_shows() {
    let mut random = Random::new(118);
    let mut caller = Caller::new(118, GUARD);
    let mut changed = 0;
    for _ in 0..2_000 {
        let start = inputs::store(&mut random);
        let image = inputs::image(&mut random, &start);
        let list = inputs::legal_list(&mut random, &start, 4);
        let mut store = start.clone();
        let mut entries = Vec::new();
        for lift in log_of(&start, &list) {
            entries.push(lift);
            log::apply(&mut store, lift);
            let shafts = (0..store.m()).map(|it| Entry::sighting(it, log::shown(&store, it)));
            entries.extend(shafts);
        }
        let whole = caller.follow(&image, &log::pack(&entries), image.len());
        assert_eq!(whole.answer, Answer::of(0, entries.len()));
        if entries.is_empty() {
            continue;
        }
        let at = random.below(entries.len());
        entries[at].number ^= 1 << random.below(12);
        let false_one = caller.follow(&image, &log::pack(&entries), image.len());
        assert_eq!(false_one.answer, Answer::of(20, at));
        checks::follow(&mut caller, &image, &log::pack(&entries), image.len());
        changed += usize::from(entries[at].kind == LIFT);
    }
    assert!(changed > 100, "{changed} lifts");
}

/// Counts past 255 and past 65,535, and a fault after so many entries.
#[test]
fn long_logs() {
    let mut random = Random::new(119);
    let mut caller = Caller::new(119, GUARD);
    let store = random.store_with_blanks(3, 4, 7, 2);
    for image in Form::ALL
        .into_iter()
        .filter(|form| form.holds(&store))
        .map(|form| image::write_in(&store, form))
    {
        for count in [85, 255, 256, 257, 21_846, 65_535, 65_536, 100_000] {
            let made = logs::true_log(&mut random, &store, count);
            as_made(&mut caller, &image, &made);
            let fault = *random.one_of(&[Fault::Kind, Fault::TopAsEmpty, Fault::Carried]);
            let made = logs::with_fault(&mut random, &store, count, fault).unwrap();
            as_made(&mut caller, &image, &made);
            let wrong = logs::of_wrong_length(&mut random, &store, &made.bytes);
            as_made(&mut caller, &image, &wrong);
        }
    }
}
