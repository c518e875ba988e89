//! Stores of larger shapes, against a full search from each start.

use halyard_model::search::{Search, every_store};
use halyard_model::store::BLANK;
use halyard_model::{Random, Store, image, text};
use halyard_outside::calls::Caller;
use halyard_outside::inputs;
use halyard_outside::{checks, guarded::GUARD};

/// Searches that find more stores than this are given up.
const MOST: usize = 8_000;

/// Goals of each kind for a start, with "no" as the search has it. False where the search did not end.
fn compare_from_a_start(caller: &mut Caller, random: &mut Random, start: &Store) -> bool {
    let search = Search::all(start, MOST);
    if !search.ended() {
        return false;
    }
    let mut goals = Vec::new();
    for _ in 0..40 {
        goals.push(random.reachable_goal(start));
        goals.push(random.rearranged(start));
        goals.extend(random.unreachable_goal(start));
    }
    compare_goals(caller, random, start, &search, &goals);
    true
}

/// The calls for each goal, with "no" as the search has it. Start and goal are in any forms that hold them.
fn compare_goals(
    caller: &mut Caller,
    random: &mut Random,
    start: &Store,
    search: &Search,
    goals: &[Store],
) {
    let from = inputs::image(random, start);
    for goal in goals {
        let number = if search.reaches(goal) { 0 } else { 15 };
        let to = inputs::image(random, goal);
        checks::reachable(caller, &from, &to, number);
        checks::plans(caller, &from, &to, start.list_space(), number);
    }
}

/// The shapes of seven to sixteen slots.
fn shapes() -> impl Iterator<Item = (usize, usize)> {
    (1..=16)
        .flat_map(|m| (1..=16).map(move |h| (m, h)))
        .filter(|(m, h)| (7..=16).contains(&(m * h)))
}

#[test]
fn shapes_of_seven_to_sixteen_slots() {
    let mut caller = Caller::new(11, GUARD);
    let mut random = Random::new(11);
    let mut searches = 0;
    for (m, h) in shapes() {
        for n in 0..=m * h {
            let start = random.store(m, h, n);
            let ended = compare_from_a_start(&mut caller, &mut random, &start);
            searches += usize::from(ended);
        }
    }
    assert!(searches > 300, "{searches} searches ended");
    for number in [0, 15] {
        assert!(caller.answers_with(number) > 10_000, "{number} is rare");
    }
}

/// Two blanks, all but three, or any count of them.
#[test]
fn shapes_of_seven_to_sixteen_slots_with_blanks() {
    let mut caller = Caller::new(13, GUARD);
    let mut random = Random::new(13);
    let mut searches = 0;
    for (m, h) in shapes() {
        for n in 2..=m * h {
            let any = random.from_to(2, n);
            let blanks = *random.one_of(&[2, n.saturating_sub(3).max(2), any]);
            let start = random.store_with_blanks(m, h, n, blanks);
            let ended = compare_from_a_start(&mut caller, &mut random, &start);
            searches += usize::from(ended);
        }
    }
    assert!(searches > 250, "{searches} searches ended");
    for number in [0, 15] {
        assert!(caller.answers_with(number) > 10_000, "{number} is rare");
    }
}

/// Unequal depths of seven to sixteen slots, with two to six shafts: any, and all of depth 1 but for one. Different cassettes, or two blanks or more.
#[test]
fn unequal_depths_of_seven_to_sixteen_slots() {
    let mut caller = Caller::new(16, GUARD);
    let mut random = Random::new(16);
    let mut searches = 0;
    for _ in 0..700 {
        let depths = unequal_depths(&mut random);
        let slots: usize = depths.iter().sum();
        let n = slots - random.below(slots.min(8));
        let blanks = *random.one_of(&[0, 2, n / 2, n - 3]);
        let cassettes = random.cassettes_with_blanks(n, blanks.min(n));
        let start = random.in_shafts(&depths, cassettes);
        let ended = compare_from_a_start(&mut caller, &mut random, &start);
        searches += usize::from(ended);
    }
    assert!(searches > 250, "{searches} searches ended");
    for number in [0, 15] {
        assert!(caller.unequal_with(number) > 10_000, "{number} is rare");
    }
}

fn unequal_depths(random: &mut Random) -> Vec<usize> {
    loop {
        let m = random.from_to(2, 6);
        let mut depths = vec![1; m];
        if random.below(3) > 0 {
            depths = random.depths(m, 9);
        }
        depths[random.below(m)] = random.from_to(1, 12);
        let slots: usize = depths.iter().sum();
        if (7..=16).contains(&slots) && depths.iter().any(|&it| it != depths[0]) {
            return depths;
        }
    }
}

/// Every goal of nine cassettes in three shafts of four, where the bottom row never changes: three of them and blanks, one of which is in that row.
#[test]
fn every_goal_of_six_blanks_and_three_others() {
    let mut caller = Caller::new(14, GUARD);
    let mut random = Random::new(14);
    let start = text::read("3x4: [1 b b 2] [b b b] [3 b]").unwrap();
    let goals = every_store(&start.depths, &start.cassettes());
    assert_eq!(goals.len(), 5_040);
    let search = Search::all(&start, MOST);
    assert!(search.ended());
    compare_goals(&mut caller, &mut random, &start, &search, &goals);
    // The six free cassettes, one of them no blank, in any order, and three empty slots over three shafts.
    assert_eq!(search.count(), 6 * 10);
}

/// 16 x 16 with one empty slot, blanks but for two on top and one under a blank: every goal that the search finds, and some that it doesn't.
#[test]
fn blanks_but_for_a_few_in_sixteen_shafts_of_sixteen() {
    let mut caller = Caller::new(15, GUARD);
    let mut random = Random::new(15);
    let mut start = Store::of_depth(16, vec![vec![BLANK; 16]; 16]);
    for (shaft, row, cassette) in [(0, 16, 1), (5, 16, 2), (9, 15, 3)] {
        start.shafts[shaft][row - 1] = cassette;
    }
    start.shafts[15].pop();
    let search = Search::all(&start, MOST);
    assert!(search.ended());
    assert_eq!(search.count(), 16 * 15 * 14);
    let mut goals: Vec<Store> = search.stores().cloned().collect();
    goals.extend((0..300).filter_map(|_| random.unreachable_goal(&start)));
    compare_goals(&mut caller, &mut random, &start, &search, &goals);
    for number in [0, 15] {
        assert!(caller.answers_with(number) >= 600, "{number} is rare");
    }
}

/// "m 3, h 4, n 8 (e 4), any goal: yes."
#[test]
fn every_goal_of_eight_cassettes_in_three_shafts_of_four() {
    every_goal_is_reached("3x4: [1 2 3 4] [5 6 7 8] []", 604_800);
}

/// The same with numbers next to 255, the greatest, and such as share their low bits.
#[test]
fn every_goal_of_cassettes_past_a_byte() {
    every_goal_is_reached("3x4: [254 b 256 b] [255 4094 b b] []", 25_200);
}

#[test]
fn every_goal_of_four_cassettes_and_four_blanks_in_three_shafts_of_four() {
    every_goal_is_reached("3x4: [b 2 b 4] [1 b 3 b] []", 25_200);
}

fn every_goal_is_reached(start: &str, count: usize) {
    let mut caller = Caller::new(12, GUARD);
    let start = text::read(start).unwrap();
    let from = image::write_first(&start);
    let goals = every_store(&start.depths, &start.cassettes());
    assert_eq!(goals.len(), count);
    for goal in goals {
        let to = image::write_first(&goal);
        checks::reachable(&mut caller, &from, &to, 0);
        checks::plans(&mut caller, &from, &to, start.list_space(), 0);
    }
}
