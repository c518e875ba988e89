//! Random inputs for the calls: pairs of stores, damaged images, lists, rows of orders.

use crate::calls::Order;
use halyard_model::image::{self, Field, Form};
use halyard_model::random::MOST_IN_A_BYTE;
use halyard_model::store::{BLANK, MOST_DEPTH, MOST_ORDINARY, MOST_SHAFTS};
use halyard_model::{Random, Store, play};

/// The most list space a plan can ask for.
pub const MOST_LIST_SPACE: usize = 18_432;

/// A store of equal depths, or of unequal ones.
pub fn store(random: &mut Random) -> Store {
    let depths = if random.below(2) == 0 {
        equal_depths(random)
    } else {
        unequal_depths(random)
    };
    store_of(random, &depths)
}

/// A store of these depths with 0, 1, 2, h - 1, h, h + 1 or any number of empty slots, where h is the depth of some shaft, with different cassettes or with
/// blanks.
pub fn store_of(random: &mut Random, depths: &[usize]) -> Store {
    let n = cassette_count(random, depths);
    let cassettes = if random.below(2) == 0 {
        random.cassettes(n)
    } else {
        let blanks = blank_count(random, n);
        random.cassettes_with_blanks(n, blanks)
    };
    random.in_shafts(depths, cassettes)
}

/// The depths of the largest store, or any that are equal.
fn equal_depths(random: &mut Random) -> Vec<usize> {
    if random.below(4) == 0 {
        return vec![MOST_DEPTH; MOST_SHAFTS];
    }
    vec![random.from_to(1, MOST_DEPTH); random.from_to(1, MOST_SHAFTS)]
}

/// Depths that are mostly unequal: any, all but one of them equal, one of 1 among deeper ones, one deeper one among those of 1, or two shafts.
fn unequal_depths(random: &mut Random) -> Vec<usize> {
    let m = random.from_to(2, MOST_SHAFTS);
    let (one, h) = (random.below(m), random.from_to(1, MOST_DEPTH));
    match random.below(8) {
        0 => with_one(vec![MOST_DEPTH; MOST_SHAFTS], one, h),
        1 => with_one(vec![random.from_to(1, MOST_DEPTH); m], one, h),
        2 => with_one(random.depths(m, MOST_DEPTH), one, 1),
        3 => with_one(vec![1; m], one, h),
        4 => random.depths(2, MOST_DEPTH),
        _ => random.depths(m, MOST_DEPTH),
    }
}

/// Depths with that of one shaft changed.
fn with_one(mut depths: Vec<usize>, shaft: usize, depth: usize) -> Vec<usize> {
    depths[shaft] = depth;
    depths
}

fn cassette_count(random: &mut Random, depths: &[usize]) -> usize {
    let slots: usize = depths.iter().sum();
    let many = random.below(slots + 1);
    let h = *random.one_of(depths);
    let e = *random.one_of(&[0, 1, 2, h - 1, h, h + 1, many]);
    slots.saturating_sub(e)
}

/// Of n cassettes none, one, two, half, all but three, all or any number.
fn blank_count(random: &mut Random, n: usize) -> usize {
    let any = random.below(n + 1);
    let blanks = *random.one_of(&[0, 1, 2, n / 2, n.saturating_sub(3), n, any]);
    blanks.min(n)
}

/// The image of a store in a form that holds it: the first such form, or any.
pub fn image(random: &mut Random, store: &Store) -> Vec<u8> {
    let form = any_form(random, store);
    image::write_in(store, form)
}

fn any_form(random: &mut Random, store: &Store) -> Form {
    if random.below(3) == 0 {
        return image::first_form(store);
    }
    let mut forms = Form::ALL.to_vec();
    forms.retain(|form| form.holds(store));
    *random.one_of(&forms)
}

/// A form to be named for writing: one there is, one just past them, or any.
pub fn form_named(random: &mut Random) -> u8 {
    match random.below(8) {
        0 => random.byte(),
        1 => 3,
        2 => 4,
        _ => random.below(3) as u8,
    }
}

/// A goal for a start: one that can be reached, the start itself, one just out of reach, any order of the same cassettes,
/// or one of other depths or other cassettes.
pub fn goal(random: &mut Random, start: &Store) -> Store {
    match random.below(16) {
        0..8 => random.reachable_goal(start),
        8 => start.clone(),
        9..12 => random
            .unreachable_goal(start)
            .unwrap_or_else(|| random.rearranged(start)),
        12 => random.rearranged(start),
        13 => other_depths(random, start),
        14 => other_cassettes(random, start),
        _ => store(random),
    }
}

/// The same cassettes, or as many as fit, in a store with one shaft more or less, with one depth a row more or less, that of the last shaft or any, or with
/// the depths in another order.
pub fn other_depths(random: &mut Random, start: &Store) -> Store {
    let mut depths = start.depths.clone();
    let (m, last) = (start.m(), start.m() - 1);
    match random.below(8) {
        0 if m < MOST_SHAFTS => depths.push(random.from_to(1, MOST_DEPTH)),
        1 if m > 1 => _ = depths.pop(),
        2 => depths.rotate_left(1),
        3..5 => depths[last] = near_depth(random, depths[last]),
        _ => {
            let any = random.below(m);
            depths[any] = near_depth(random, depths[any]);
        }
    }
    let mut cassettes = start.cassettes();
    cassettes.truncate(depths.iter().sum());
    random.in_shafts(&depths, cassettes)
}

/// A depth a row more or less.
fn near_depth(random: &mut Random, depth: usize) -> usize {
    match depth {
        1 => 2,
        MOST_DEPTH => MOST_DEPTH - 1,
        _ => *random.one_of(&[depth - 1, depth + 1]),
    }
}

/// The start with one cassette more, one less, or one that has changed its number, often from or to the blank's or in one bit.
fn other_cassettes(random: &mut Random, start: &Store) -> Store {
    let mut goal = random.reachable_goal(start);
    let at = random.below(goal.m());
    let popped = match random.below(2) {
        0 => goal.shafts[at].pop(),
        _ => None,
    };
    if goal.room(at) > 0 && !(popped.is_some() && random.below(3) == 0) {
        let other = other_number(random, popped);
        let there = goal.shafts.iter().flatten().any(|&it| it == other);
        goal.shafts[at].push(if there { BLANK } else { other });
    }
    goal
}

/// The blank's number, one that differs from a cassette's in one bit, one that every form holds, or any.
fn other_number(random: &mut Random, cassette: Option<u16>) -> u16 {
    let near = cassette.map(|it| it ^ (1 << random.below(12)));
    let near = near.filter(|it| (1..=BLANK).contains(it));
    match random.below(4) {
        0 => BLANK,
        1 => random.from_to(1, MOST_IN_A_BYTE.into()) as u16,
        2 => random.from_to(1, MOST_ORDINARY.into()) as u16,
        _ => near.unwrap_or(BLANK),
    }
}

/// A lent length: what a plan asks for, a byte less, a little more or less, any, none, or the most.
pub fn list_len(random: &mut Random, start: &Store) -> usize {
    let need = start.list_space();
    match random.below(9) {
        0..3 => need,
        3 => need.saturating_sub(1),
        4 => need + random.from_to(1, 64),
        5 => need.saturating_sub(random.from_to(2, 64)),
        6 => random.below(need + 1),
        7 => 0,
        _ => MOST_LIST_SPACE,
    }
}

/// A length lent for a written image: as long as it is, a little more or less, or any that is short.
pub fn out_len(random: &mut Random, length: usize) -> usize {
    match random.below(8) {
        0..2 => random.below(length),
        2 => length - 1,
        3 => length + 1,
        4 => length + random.from_to(2, 64),
        _ => length,
    }
}

/// Bytes that are mostly no image: an image with something changed, cut off or added, or random bytes.
pub fn damaged(random: &mut Random) -> Vec<u8> {
    let store = store(random);
    let form = any_form(random, &store);
    let mut bytes = image::write_in(&store, form);
    match random.below(8) {
        0..3 => bytes = with_a_field_changed(random, &store, form),
        3 => flip_a_bit(random, &mut bytes),
        4 => bytes.truncate(random.below(bytes.len())),
        5 => extend(random, &mut bytes),
        6 => last_bits(random, &mut bytes),
        _ => bytes = random_bytes(random),
    }
    bytes
}

/// One field has any value, or, where it is a cassette, that of another cassette of the image, of one that differs from it in one bit, or 0, or, where it is a
/// height, its shaft's depth and one.
fn with_a_field_changed(random: &mut Random, store: &Store, form: Form) -> Vec<u8> {
    let mut fields = image::fields(store, form);
    let at = random.below(fields.len());
    let Field { width, .. } = fields[at];
    let of_width = |fields: &[Field], width| -> Vec<usize> {
        let some = fields.iter().filter(|field| field.width == width);
        some.map(|field| field.value).collect()
    };
    let heights_before = of_width(&fields[..at], 5).len();
    fields[at].value = match (random.below(5), width) {
        (0, 8 | 12) => *random.one_of(&of_width(&fields, width)),
        (1, 8 | 12) => random.one_of(&of_width(&fields, width)) ^ (1 << random.below(width)),
        (2, 8 | 12) => 0,
        (0, 5) => store.depths[heights_before] + 1,
        _ => random.below(1 << width),
    };
    image::pack(&fields)
}

fn flip_a_bit(random: &mut Random, bytes: &mut [u8]) {
    let bit = random.below(bytes.len() * 8);
    bytes[bit / 8] ^= 128 >> (bit % 8);
}

/// Sets one of the last eight bits, which are padding or the last field's.
fn last_bits(random: &mut Random, bytes: &mut [u8]) {
    if let Some(last) = bytes.last_mut() {
        *last |= 1 << random.below(8);
    }
}

/// Adds zero bytes or noise.
fn extend(random: &mut Random, bytes: &mut Vec<u8>) {
    let more = random.from_to(1, 40);
    let noise = random.bytes(more);
    let zero = random.below(2) == 0;
    bytes.extend(noise.iter().map(|&byte| if zero { 0 } else { byte }));
}

/// Random bytes, mostly with a form that there is.
fn random_bytes(random: &mut Random) -> Vec<u8> {
    let len = random.below(500);
    let mut bytes = random.bytes(len);
    if let Some(first) = bytes.first_mut()
        && random.below(4) > 0
    {
        *first = (random.below(3) as u8) << 4 | *first & 15;
    }
    bytes
}

/// Legal lifts from a store, as many as `most` or none where no lift is legal.
pub fn legal_list(random: &mut Random, start: &Store, most: usize) -> Vec<u8> {
    let mut store = start.clone();
    let mut list = Vec::new();
    while list.len() < most {
        let legal = play::legal_lifts(&store);
        if legal.is_empty() {
            break;
        }
        let lift = *random.one_of(&legal);
        play::lift(&mut store, lift).expect("a legal lift");
        list.push(lift);
    }
    list
}

/// A list for a replay: legal lifts, often with one byte that may be none among them.
pub fn list(random: &mut Random, start: &Store) -> Vec<u8> {
    let most = random.below(60);
    let mut list = legal_list(random, start, most);
    if random.below(3) > 0 {
        let at = random.below(list.len() + 1);
        let byte = any_lift(random, start);
        list.insert(at, byte);
    }
    list
}

/// Any byte, or one that names shafts of the store.
fn any_lift(random: &mut Random, store: &Store) -> u8 {
    if random.below(4) == 0 {
        return random.byte();
    }
    play::lift_byte(random.below(store.m()), random.below(store.m()))
}

/// Orders: for cassettes of the store, for the first one again, for a blank, and for numbers that no slot of it shows.
pub fn orders(random: &mut Random, store: &Store) -> Vec<Order> {
    let there = store.cassettes();
    let count = *random.one_of(&[0, 1, 2, 40, 255, 300]);
    let mut names: Vec<u16> = Vec::new();
    for _ in 0..count {
        let any = random.word() as u16;
        names.push(match random.below(8) {
            0 => *random.one_of(&[0, 254, 255, 256, MOST_ORDINARY, BLANK, BLANK + 1, 65_535]),
            1 => any,
            2 => any % (BLANK + 1),
            3 if !names.is_empty() => names[0],
            _ if there.is_empty() => 1,
            4 => random.one_of(&there) ^ (1 << random.below(16)),
            _ => *random.one_of(&there),
        });
    }
    let order = |name| Order::naming(name, random);
    names.into_iter().map(order).collect()
}

#[cfg(test)]
mod tests {
    use super::*;
    use halyard_model::store::MOST_CASSETTES;

    /// How many of the stores are like this.
    fn met(stores: &[Store], like: impl Fn(&Store) -> bool) -> usize {
        stores.iter().filter(|store| like(store)).count()
    }

    #[test]
    fn stores_with_any_count_of_blanks() {
        let mut random = Random::new(71);
        let stores: Vec<Store> = (0..4_000).map(|_| store(&mut random)).collect();
        assert!(met(&stores, |it| it.blanks() == 0) > 400);
        assert!(met(&stores, |it| it.blanks() == 1) > 400);
        assert!(met(&stores, |it| it.blanks() > 1 && it.blanks() < it.n()) > 400);
        assert!(met(&stores, |it| it.blanks() > 1 && it.blanks() == it.n()) > 100);
        assert!(met(&stores, |it| it.n() == MOST_CASSETTES) > 40);
        assert!(met(&stores, |it| it.blanks() == MOST_CASSETTES) > 4);
    }

    /// Unequal depths in about half of the stores, also of two shafts, with depth 1 among deeper ones, and with one depth that differs from all others.
    #[test]
    fn stores_of_unequal_depths() {
        let mut random = Random::new(73);
        let stores: Vec<Store> = (0..4_000).map(|_| store(&mut random)).collect();
        let met = |like: fn(&Store) -> bool| met(&stores, |it| !it.equal_depths() && like(it));
        let all = met(|_| true);
        assert!((1_600..2_200).contains(&all), "{all} stores");
        assert!(met(|it| it.m() == 2) > 200);
        assert!(met(|it| it.depths.contains(&1)) > 800);
        assert!(
            met(|it| it.depths.iter().filter(|&&depth| depth == 1).count() == it.m() - 1) > 150
        );
        assert!(met(|it| it.depths.iter().filter(|&&depth| depth == 16).count() == 15) > 150);
        assert!(met(|it| it.e() == 0) > 200);
        assert!(
            met(|it| it.e() > 0
                && it.floors().contains(&0)
                && it.floors().iter().any(|&rows| rows > 0))
                > 400
        );
    }

    /// Numbers that only form 2 holds in about half of the stores, each number next to 255 and the greatest, and full stores with no blank.
    #[test]
    fn stores_with_numbers_past_a_byte() {
        let mut random = Random::new(76);
        let stores: Vec<Store> = (0..4_000).map(|_| store(&mut random)).collect();
        let past = met(&stores, |it| !Form::Depths.holds(it));
        assert!((1_600..2_400).contains(&past), "{past} stores");
        for number in [254, 255, 256, MOST_ORDINARY] {
            let with = met(&stores, |it| it.cassettes().contains(&number));
            assert!(with > 400, "{number} in {with} stores");
        }
        assert!(met(&stores, |it| it.n() == MOST_CASSETTES && it.blanks() == 0) > 10);
        assert!(met(&stores, |it| it.equal_depths() && !Form::Depths.holds(it)) > 600);
    }

    /// Images in each form, of stores that several hold and of such as only the last does.
    #[test]
    fn images_in_each_form() {
        let mut random = Random::new(74);
        let mut met = [[0; 3]; 3];
        for _ in 0..4_000 {
            let store = store(&mut random);
            let image = image(&mut random, &store);
            assert_eq!(image::read(&image).as_ref(), Ok(&store));
            let form = image::form_of(&image).unwrap();
            met[image::first_form(&store) as usize][form as usize] += 1;
        }
        let [[a, b, c], [none, d, e], [no, nor, f]] = met;
        assert_eq!([none, no, nor], [0; 3]);
        assert!([a, b, c, d, e, f].iter().all(|&met| met > 100), "{met:?}");
    }

    /// Goals in which one cassette has a number that differs in one bit.
    #[test]
    fn goals_with_a_number_in_which_one_bit_differs() {
        let mut random = Random::new(77);
        let mut bits = [0; 12];
        for _ in 0..8_000 {
            let start = store(&mut random);
            let goal = other_cassettes(&mut random, &start);
            let only = |one: &Store, other: &Store| -> Vec<u16> {
                let there = other.cassettes();
                let mut only = one.cassettes();
                only.retain(|it| !there.contains(it));
                only
            };
            if let ([one], [other]) = (&only(&start, &goal)[..], &only(&goal, &start)[..])
                && (one ^ other).is_power_of_two()
            {
                bits[(one ^ other).trailing_zeros() as usize] += 1;
            }
        }
        assert!(bits.iter().all(|&met| met > 20), "{bits:?}");
    }

    /// Goals that differ from the start in one depth, often the last, and in m.
    #[test]
    fn goals_of_other_depths() {
        let mut random = Random::new(75);
        let [mut more_or_less, mut one, mut last] = [0, 0, 0];
        for _ in 0..4_000 {
            let start = store(&mut random);
            let goal = other_depths(&mut random, &start);
            if start.m() != goal.m() {
                more_or_less += 1;
                continue;
            }
            let differ: Vec<usize> = (0..start.m())
                .filter(|&shaft| start.depths[shaft] != goal.depths[shaft])
                .collect();
            one += usize::from(differ.len() == 1);
            last += usize::from(differ == [start.m() - 1]);
        }
        assert!(more_or_less > 600, "{more_or_less} times");
        assert!(
            one > 2_000 && last > 800,
            "{one} of one depth, {last} of the last"
        );
    }

    /// Goals in which only the count of blanks differs from the start's.
    #[test]
    fn goals_with_a_blank_more_or_less() {
        let mut random = Random::new(72);
        let [mut more, mut less] = [0, 0];
        for _ in 0..4_000 {
            let start = store(&mut random);
            let goal = other_cassettes(&mut random, &start);
            let others = |store: &Store| store.n() - store.blanks();
            let blanks = (start.blanks(), goal.blanks());
            if blanks.0 > 0 && others(&start) == others(&goal) {
                more += usize::from(blanks.1 > blanks.0);
                less += usize::from(blanks.1 < blanks.0);
            }
        }
        assert!(more > 100 && less > 50, "{more} more, {less} less");
    }
}
