//! How often each cassette was carried by a replay, and what single lifts tell (document 02, 2/13). The C calls do not show it, so the program carry_cases
//! prints it: it replays a list with the proved library and does its lifts one by one, and what it prints is compared with lifts of the model. Carries of
//! blanks are counted together (5/13); the counts beside the single blanks must add up to that, and which of them has how many is free.

use halyard_model::image::{self, Form};
use halyard_model::play::{self, Replayed};
use halyard_model::store::{BLANK, MOST_CASSETTES, MOST_DEPTH, MOST_SHAFTS};
use halyard_model::{Random, Store, text};
use halyard_outside::inputs;
use std::fs;
use std::path::PathBuf;
use std::process::Command;
use std::sync::atomic::{AtomicUsize, Ordering};

/// The longest list that the program reads.
const MOST_LIFTS: usize = 20_000;

/// The program, by its absolute path, since it runs in folders of its own.
fn program() -> PathBuf {
    let path = std::env::var_os("HALYARD_CARRY_CASES").map(PathBuf::from);
    let path = path.filter(|path| path.is_absolute() && path.is_file());
    path.expect(
        "HALYARD_CARRY_CASES must be the absolute path of the program carry_cases: \
         'rt run' in crates/carry_cases makes it as out/carry_cases",
    )
}

/// A folder with the program's two files, removed when it has run.
struct Folder(PathBuf);

impl Folder {
    fn holding(image: &[u8], list: &[u8]) -> Folder {
        static FOLDERS: AtomicUsize = AtomicUsize::new(0);
        let count = FOLDERS.fetch_add(1, Ordering::Relaxed);
        let name = format!("halyard-carries-{}-{count}", std::process::id());
        let path = std::env::temp_dir().join(name);
        fs::create_dir(&path).unwrap();
        fs::write(path.join("store.img"), image).unwrap();
        fs::write(path.join("list"), list).unwrap();
        Folder(path)
    }
}

impl Drop for Folder {
    fn drop(&mut self) {
        fs::remove_dir_all(&self.0).unwrap();
    }
}

/// What a command prints in a folder with this image and this list.
fn printed_by(mut command: Command, image: &[u8], list: &[u8]) -> String {
    let folder = Folder::holding(image, list);
    let output = command.current_dir(&folder.0).output().unwrap();
    let about = || format!("image {image:02x?}, list {list:02x?}");
    assert!(output.status.success(), "{}: {}", output.status, about());
    assert!(output.stderr.is_empty(), "{output:?}: {}", about());
    String::from_utf8(output.stdout).expect("decimal numbers")
}

fn printed(image: &[u8], list: &[u8]) -> String {
    printed_by(Command::new(program()), image, list)
}

/// The three numbers of the line of a blank: its own, the count beside its slot, and the count by its number.
fn blank_line(line: &str) -> Option<[usize; 3]> {
    let numbers: Option<Vec<usize>> = line.split(' ').map(|word| word.parse().ok()).collect();
    let numbers = <[usize; 3]>::try_from(numbers?).ok()?;
    (numbers[0] == usize::from(BLANK)).then_some(numbers)
}

/// What was printed, with the count beside each blank set to the count of all blanks, once they are seen to add up to it.
fn with_blanks_together(printed: &str) -> String {
    let beside: usize = printed
        .lines()
        .filter_map(blank_line)
        .map(|[_, times, _]| times)
        .sum();
    let together = |line| match blank_line(line) {
        Some([_, _, by_number]) => {
            assert_eq!(beside, by_number, "beside the blanks: {printed}");
            format!("{BLANK} {by_number} {by_number}\n")
        }
        None => format!("{line}\n"),
    };
    printed.lines().map(together).collect()
}

/// What is printed of a replay that ended like this, and of the same lifts one by one, with blanks together.
fn expected(start: &Store, list: &[u8], end: &Replayed) -> String {
    let times = |cassette: u16| end.carries[usize::from(cassette)];
    let line = |cassette| format!("{cassette} {0} {0}\n", times(cassette));
    let lines: String = end.store.cassettes().into_iter().map(line).collect();
    let (number, count) = (end.number, end.count);
    let (cassettes, rows) = told(start, list);
    format!("number {number}\nlifts {count}\n{lines}told {cassettes} {rows}\n")
}

/// The cassettes that the lifts of a list tell, added up, and the rows. One that is refused tells nothing, and the next is tried.
fn told(start: &Store, list: &[u8]) -> (usize, usize) {
    let mut store = start.clone();
    let lifts = list
        .iter()
        .filter_map(|&byte| play::lift(&mut store, byte).ok());
    lifts.fold((0, 0), |(cassettes, rows), carried| {
        (
            cassettes + usize::from(carried.cassette),
            rows + carried.row,
        )
    })
}

/// Compares a replay, and gives its end; of a refused image only the number is printed.
fn compare(image: &[u8], list: &[u8]) -> Result<Replayed, u8> {
    let store = image::read(image);
    let (wanted, end) = match store {
        Ok(store) => {
            let end = play::replay(&store, list);
            (expected(&store, list, &end), Ok(end))
        }
        Err(number) => (format!("number {number}\n"), Err(number)),
    };
    let about = || format!("image {image:02x?}, list {list:02x?}");
    let printed = with_blanks_together(&printed(image, list));
    assert_eq!(printed, wanted, "{}", about());
    end
}

fn bytes(store: &str) -> Vec<u8> {
    image::write_first(&text::read(store).unwrap())
}

/// "m 3, h 1, [1] [2] [] to [2] [1] []: yes; bytes 02 10 21 (hexadecimal) do it."
#[test]
fn three_lifts_of_document_01() {
    let store = bytes("3x1: [1] [2] []");
    let wanted = "number 0\nlifts 3\n2 1 1\n1 2 2\ntold 4 3\n";
    assert_eq!(printed(&store, &[0x02, 0x10, 0x21]), wanted);
    let nothing = "number 0\nlifts 0\n1 0 0\n2 0 0\ntold 0 0\n";
    assert_eq!(printed(&store, &[]), nothing);
    assert_eq!(
        printed(&bytes("3x3: [] [] []"), &[]),
        "number 0\nlifts 0\ntold 0 0\n"
    );
}

/// Two blanks lifted twice and once, and one that stays: each has 3 as its count by number, and the three counts beside them add up to it.
#[test]
fn blanks_are_counted_together() {
    let store = bytes("3x2: [b b] [] [b 1]");
    let printed = printed(&store, &[0x01, 0x10, 0x21, 0x21]);
    let (blank, told) = (format!("{BLANK} 3 3\n"), 3 * usize::from(BLANK) + 1);
    let wanted = format!("number 0\nlifts 4\n{blank}{blank}1 1 1\n{blank}told {told} 6\n");
    assert_eq!(with_blanks_together(&printed), wanted);
}

/// Shafts of depth 3, 1 and 2: the second is full with one cassette. A store of equal depths in form 1 is answered as in form 0.
#[test]
fn shafts_of_unequal_depth() {
    let store = bytes("3x3,1,2: [1 2 3] [] [4 5]");
    let full = "number 14\nlifts 2\n1 0 0\n2 0 0\n5 1 1\n3 1 1\n4 0 0\ntold 13 6\n";
    assert_eq!(printed(&store, &[0x01, 0x20, 0x21, 0x02]), full);
    let example = [0x12, 0x11, 0x00, 0x81, 0x08, 0x04, 0x20, 0x60];
    let wanted = "number 0\nlifts 1\n1 0 0\n2 1 1\n3 0 0\ntold 2 1\n";
    assert_eq!(printed(&example, &[0x01]), wanted);
    assert_eq!(printed(&bytes("3x2: [1 2] [] [3]"), &[0x01]), wanted);
}

/// One store in each form, with 255 as the blank's byte in the first two; and numbers that only form 2 holds, counted each by itself.
#[test]
fn each_form() {
    let store = text::read("3x2: [1 b] [] [b]").unwrap();
    let (blank, told) = (format!("{BLANK} 1 1\n"), usize::from(BLANK));
    let wanted = format!("number 0\nlifts 1\n1 0 0\n{blank}{blank}told {told} 1\n");
    for form in Form::ALL {
        let image = image::write_in(&store, form);
        let printed = printed(&image, &[0x01]);
        assert_eq!(with_blanks_together(&printed), wanted, "{form:?}");
    }
    let store = bytes("3x3: [255 256 b] [1] [4094]");
    let wanted = format!(
        "number 0\nlifts 6\n255 0 0\n256 0 0\n1 1 1\n{BLANK} 2 2\n4094 3 3\ntold 20473 14\n"
    );
    let list = [0x01, 0x21, 0x10, 0x12, 0x02, 0x10];
    assert_eq!(printed(&store, &list), wanted);
}

/// A lift that is refused counts nothing, nor does what comes after it; the single lifts go on past it.
#[test]
fn lists_that_stop() {
    let store = bytes("3x2: [1 2] [] [3]");
    let stopped = |list: &[u8]| printed(&store, list);
    let no_lift = "number 11\nlifts 2\n1 0 0\n3 1 1\n2 1 1\ntold 7 4\n";
    assert_eq!(stopped(&[0x01, 0x20, 0x11, 0x12]), no_lift);
    assert_eq!(stopped(&[0x01, 0x20, 0x13, 0x12]), no_lift);
    let empty = "number 13\nlifts 4\n1 0 0\n3 1 1\n2 3 3\ntold 11 7\n";
    assert_eq!(stopped(&[0x01, 0x10, 0x01, 0x20, 0x21, 0x12]), empty);
    let full = "number 14\nlifts 2\n1 0 0\n2 2 2\n3 0 0\ntold 7 4\n";
    assert_eq!(stopped(&[0x01, 0x10, 0x20, 0x21]), full);
    let at_once = "number 14\nlifts 0\n1 0 0\n2 0 0\n3 0 0\ntold 2 1\n";
    assert_eq!(stopped(&[0x20, 0x01]), at_once);
}

/// How many ends are like this.
fn met(ends: &[Replayed], like: impl Fn(&Replayed) -> bool) -> usize {
    ends.iter().filter(|end| like(end)).count()
}

/// Stores of every count of shafts and greatest depth, with equal depths and with any, in every form, with lists that run through and lists that stop.
#[test]
fn every_shape() {
    let mut random = Random::new(51);
    let mut ends = Vec::new();
    for (m, h) in (1..=MOST_SHAFTS).flat_map(|m| (1..=MOST_DEPTH).map(move |h| (m, h))) {
        for equal in [true, true, true, false, false] {
            let depths = if equal {
                vec![h; m]
            } else {
                random.depths(m, h)
            };
            let store = inputs::store_of(&mut random, &depths);
            let list = inputs::list(&mut random, &store);
            ends.extend(compare(&inputs::image(&mut random, &store), &list));
        }
    }
    for number in [0, 11, 13, 14] {
        let times = met(&ends, |end| end.number == number && end.count > 0);
        assert!(times >= 20, "{number} after some lifts: {times} times");
    }
    for number in [0, 14] {
        let times = met(&ends, |end| {
            end.number == number && end.count > 0 && !end.store.equal_depths()
        });
        assert!(times >= 20, "{number}, unequal depths: {times} times");
    }
    let nothing_done = met(&ends, |end| end.count == 0);
    assert!(nothing_done >= 20, "no lift done: {nothing_done} times");
    let carried_again = met(&ends, |end| end.carries.iter().any(|&times| times > 1));
    assert!(carried_again >= 100, "carried again: {carried_again} times");
    let blanks = met(&ends, |end| {
        end.store.blanks() > 1 && end.carries[usize::from(BLANK)] > 1
    });
    assert!(blanks >= 100, "blanks carried again: {blanks} times");
    let past = met(&ends, |end| end.carries[255..4095].iter().any(|&it| it > 1));
    assert!(past >= 100, "numbers past a byte again: {past} times");
}

/// A refused image has its number printed, and nothing else.
#[test]
fn damaged_images() {
    let mut random = Random::new(52);
    let mut refused = [0; 256];
    for _ in 0..200 {
        let store = inputs::store(&mut random);
        let list = inputs::list(&mut random, &store);
        if let Err(number) = compare(&inputs::damaged(&mut random), &list) {
            refused[usize::from(number)] += 1;
        }
    }
    for number in [1, 2, 3, 4, 5, 7] {
        assert!(refused[number] >= 3, "{number}: {} times", refused[number]);
    }
    assert_eq!(printed(&[], &[0x01]), "number 2\n");
}

/// The largest stores, each with the longest list that the program reads.
#[test]
fn longest_lists() {
    let mut random = Random::new(53);
    for (n, blanks) in [(1, 0), (240, 0), (254, 0), (255, 1), (255, 130), (255, 255)] {
        let store = random.store_with_blanks(MOST_SHAFTS, MOST_DEPTH, n, blanks);
        let list = inputs::legal_list(&mut random, &store, MOST_LIFTS);
        let end = compare(&inputs::image(&mut random, &store), &list).unwrap();
        assert_eq!((end.number, end.count), (0, MOST_LIFTS));
    }
}

/// One cassette is carried by every lift, so that its count is far past 255.
#[test]
fn one_cassette_all_the_time() {
    let list = [0x01, 0x10].repeat(MOST_LIFTS / 2);
    let wanted = "number 0\nlifts 20000\n7 20000 20000\ntold 140000 20000\n";
    assert_eq!(printed(&bytes("2x1: [7] []"), &list), wanted);
}

/// A store with no empty slot, where no lift can be done.
#[test]
fn all_blanks() {
    let mut random = Random::new(55);
    let n = MOST_CASSETTES;
    let store = random.store_with_blanks(MOST_SHAFTS, MOST_DEPTH, n, n);
    let end = compare(&image::write_in(&store, Form::Wide), &[0x01]).unwrap();
    assert_eq!((end.number, end.count), (14, 0));
}

/// The largest store and the longest list on a stack of 64 KiB, of which the environment takes nothing.
#[test]
fn a_small_stack() {
    let mut random = Random::new(54);
    let store = random.store_with_blanks(MOST_SHAFTS, MOST_DEPTH, 255, 100);
    let list = inputs::legal_list(&mut random, &store, MOST_LIFTS);
    let mut command = Command::new("sh");
    command
        .args(["-c", "ulimit -s 64 && exec \"$0\""])
        .arg(program());
    command.env_clear();
    let wanted = expected(&store, &list, &play::replay(&store, &list));
    let printed = printed_by(command, &image::write_in(&store, Form::Wide), &list);
    assert_eq!(with_blanks_together(&printed), wanted);
}
