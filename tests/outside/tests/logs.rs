//! The changer's log (document 02, 9/13): cases for each of its sentences with the answers and the stores written out.

use halyard_model::image::{self, Form};
use halyard_model::log::{self, ENTRY_BYTES, Entry, SIGHTING};
use halyard_model::store::BLANK;
use halyard_model::{Store, log_text, text};
use halyard_outside::calls::{Answer, Caller, c};
use halyard_outside::{checks, guarded::GUARD};
use std::ptr::{null, null_mut};

fn caller() -> Caller {
    Caller::new(101, GUARD)
}

fn store(text: &str) -> Store {
    text::read(text).unwrap()
}

/// The images of a store in the forms that hold it.
fn images(store: &Store) -> Vec<Vec<u8>> {
    let forms = Form::ALL.into_iter().filter(|form| form.holds(store));
    forms.map(|form| image::write_in(store, form)).collect()
}

/// Following these bytes on a store gives this number, this count and this store, in every form that holds it, into exactly as much space as it asks for and into
/// more.
fn gives(start: &str, log: &[u8], number: u8, count: usize, end: &str) {
    for (image, written) in images(&store(start)).iter().zip(images(&store(end))) {
        for more in [0, 1, 70] {
            let out_len = image.len() + more;
            let wanted = (Answer::of(number, count), &written[..]);
            checks::follow_is(&mut caller(), image, log, out_len, wanted);
        }
    }
}

/// The bytes of a log as text, its lines parted by commas.
fn packed(text: &str) -> Vec<u8> {
    log::pack(&log_text::read(&text.replace(", ", "\n")).unwrap())
}

/// The same for a log as text.
fn follows(start: &str, log: &str, number: u8, count: usize, end: &str) {
    gives(start, &packed(log), number, count, end);
}

/// One entry that can't be true gets this number, at the start, and after two true ones; the store before it is handed back.
fn one_entry(start: &str, entry: Entry, number: u8) {
    let bytes = log::pack(&[entry]);
    gives(start, &bytes, number, 0, start);
    let shown = log::shown(&store(start), 0);
    let seen = Entry::sighting(0, shown);
    gives(start, &log::pack(&[seen, seen, entry]), number, 2, start);
    gives(start, &log::pack(&[entry, seen]), number, 0, start);
}

const EXAMPLE: &str = "3x2: [1 2] [] [3]";

/// The example of the C header, and its constants.
#[test]
fn the_example_of_the_header() {
    let header = include_str!("../../../include/halyardgage.h");
    let log = [
        0x00, 0x10, 0x02, 0x11, 0x00, 0x02, 0x00, 0x20, 0x01, 0x10, 0x00, 0x00,
    ];
    let shown = log.map(|byte| format!("{byte:02X}")).join(" ");
    assert!(header.contains(&shown), "{shown}");
    assert!(header.contains("on top of shaft 2 is 12 0F FF."));
    assert_eq!(packed("2 top b"), [0x12, 0x0F, 0xFF]);
    gives(EXAMPLE, &log, 0, 4, "3x2: [] [2] [3 1]");
    for line in [
        "HALYARD_LOG_MALFORMED = 19,",
        "HALYARD_LOG_NUMBER = 20 ",
        "HALYARD_ENTRY_LIFT = 0,",
        "HALYARD_ENTRY_SIGHTING = 1\n",
        "#define HALYARD_ENTRY_BYTES 3\n",
    ] {
        assert_eq!(header.matches(line).count(), 1, "{line}");
    }
}

/// "Kind (4 bits), shaft (4), second shaft (4), number (12)": entries with their bytes written out, each field at its edges.
#[test]
fn entries_with_their_bytes() {
    let wide = "16x2: [300] [] [4094] [] [] [] [] [] [] [] [] [] [] [] [] [255 b]";
    for (bytes, end) in [
        (
            [0x00, 0xE1, 0x2C],
            "16x2: [] [] [4094] [] [] [] [] [] [] [] [] [] [] [] [300] [255 b]",
        ),
        (
            [0x02, 0x1F, 0xFE],
            "16x2: [300] [4094] [] [] [] [] [] [] [] [] [] [] [] [] [] [255 b]",
        ),
        (
            [0x0F, 0x0F, 0xFF],
            "16x2: [300 b] [] [4094] [] [] [] [] [] [] [] [] [] [] [] [] [255]",
        ),
        ([0x10, 0x01, 0x2C], wide),
        ([0x12, 0x0F, 0xFE], wide),
        ([0x1F, 0x0F, 0xFF], wide),
        ([0x1E, 0x00, 0x00], wide),
    ] {
        gives(wide, &bytes, 0, 1, end);
        if bytes[0] / 16 == SIGHTING {
            gives(wide, &[bytes, bytes].concat(), 0, 2, wide);
        }
    }
}

/// "Following a log gives the store after it", lifts and sightings mixed; the empty log the store as it came.
#[test]
fn true_logs() {
    follows(EXAMPLE, "", 0, 0, EXAMPLE);
    follows(EXAMPLE, "0>1 2", 0, 1, "3x2: [1] [2] [3]");
    follows(EXAMPLE, "0>1 2, 1>0 2", 0, 2, EXAMPLE);
    follows(EXAMPLE, "0 top 2, 1 top 0, 2 top 3", 0, 3, EXAMPLE);
    let there = "0>1 2, 0 top 1, 1 top 2, 0>1 1, 0 top 0, 1 top 1, 2 top 3, 2>0 3";
    follows(EXAMPLE, there, 0, 8, "3x2: [3] [2 1] []");
    follows("1x2: [1 2]", "0 top 2, 0 top 2", 0, 2, "1x2: [1 2]");
    follows("1x1: []", "0 top 0", 0, 1, "1x1: []");
    follows(
        "3x1: [1] [2] []",
        "0>2 1, 1>0 2, 2>1 1",
        0,
        3,
        "3x1: [2] [1] []",
    );
    let unequal = "3x3,1,2: [1 2 3] [] [4 5]";
    let end = "3x3,1,2: [1 2 5] [3] [4]";
    follows(unequal, "0>1 3, 1 top 3, 2>0 5, 0 top 5", 0, 4, end);
}

/// "Or the first entry that can't be true, counted from 0, with the store before that entry": what comes after it is not looked at.
#[test]
fn the_first_entry_that_can_not_be_true() {
    let wrong = "0 top 9";
    follows(EXAMPLE, wrong, 20, 0, EXAMPLE);
    let after = "3x2: [1] [2] [3]";
    follows(EXAMPLE, &format!("0>1 2, {wrong}"), 20, 1, after);
    follows(EXAMPLE, &format!("0>1 2, 1 top 2, {wrong}"), 20, 2, after);
    let more = format!("0>1 2, {wrong}, 1>0 2, 2 top 8, 5>5 0");
    follows(EXAMPLE, &more, 20, 1, after);
    let two = format!("0>1 2, 1>2 2, {wrong}");
    follows(EXAMPLE, &two, 20, 2, "3x2: [1] [] [3 2]");
    let legal = "0>1 2, 0>1 9, 2>1 3";
    follows(EXAMPLE, legal, 20, 1, after);
    follows(EXAMPLE, "0>1 2, 1>1 2", 19, 1, after);
    follows(EXAMPLE, "0>1 2, 0>1 1, 0>2 1", 13, 2, "3x2: [] [2 1] [3]");
    follows(EXAMPLE, "2>0 3, 0>1 2", 14, 0, EXAMPLE);
}

/// 19: "a kind above 1", every one, whatever else the entry says.
#[test]
fn kinds_above_1() {
    for kind in 2..16 {
        for (shaft, second, number) in [(0, 1, 2), (0, 0, 2), (1, 0, 0), (2, 2, 3), (15, 15, 4095)]
        {
            let entry = Entry {
                kind,
                shaft,
                second,
                number,
            };
            one_entry(EXAMPLE, entry, 19);
        }
    }
}

/// 19: "a shaft not below m", as the one left, the one entered, and the one sighted; m - 1 is there.
#[test]
fn shafts_not_below_m() {
    for m in 1..16 {
        let shafts = |last: &str| format!("{m}x2: {}{last}", "[] ".repeat(m - 1));
        let (start, top) = (shafts("[1 2]"), m - 1);
        follows(&start, &format!("{top} top 2"), 0, 1, &start);
        for past in m..16 {
            for entry in [
                Entry::lift(past, 0, 2),
                Entry::lift(top, past, 2),
                Entry::lift(past, past, 2),
                Entry::sighting(past, 0),
                Entry::sighting(past, 2),
            ] {
                one_entry(&start, entry, 19);
            }
        }
        if m > 1 {
            let end = format!("{m}x2: [2] {}[1]", "[] ".repeat(m - 2));
            follows(&start, &format!("{top}>0 2"), 0, 1, &end);
            follows(&end, &format!("0>{top} 2"), 0, 1, &start);
        }
    }
    let full = format!("16x1: {}[]", "[b] ".repeat(15));
    let end = format!("16x1: {}[] [b]", "[b] ".repeat(14));
    follows(&full, "14>15 b, 15 top b", 0, 2, &end);
}

/// 19: "a sighting with a second shaft", below m or not, also where it is the shaft sighted, and where the number is right.
#[test]
fn sightings_with_a_second_shaft() {
    for second in 1..16 {
        for (shaft, number) in [(0, 2), (1, 0), (2, 3), (0, 9), (second, 0)] {
            let entry = Entry {
                second,
                ..Entry::sighting(shaft.into(), number)
            };
            one_entry(EXAMPLE, entry, 19);
        }
    }
    follows(EXAMPLE, "1 top 0, 2 top 3", 0, 2, EXAMPLE);
}

/// 19: "a lift with one shaft twice", of a full shaft, an empty one, and one that is neither; 11 is never given.
#[test]
fn lifts_with_one_shaft_twice() {
    for (shaft, shown) in [(0, 2), (1, 0), (2, 3)] {
        for number in [shown, 1, BLANK] {
            one_entry(EXAMPLE, Entry::lift(shaft, shaft, number), 19);
        }
    }
    one_entry("1x2: [1]", Entry::lift(0, 0, 1), 19);
}

/// "20, a wrong number, tested after 19, 13 and 14": a lift from an empty shaft is a 13, and one to a full shaft a 14, whatever they name, and 13 is before 14.
#[test]
fn faults_of_lifts_in_their_order() {
    let store = "4x2: [1 2] [] [3] [4 5]";
    for number in [0, 1, 2, 3, 5, 9, 255, BLANK] {
        one_entry(store, Entry::lift(1, 2, number), 13);
        one_entry(store, Entry::lift(1, 0, number), 13);
        one_entry(store, Entry::lift(0, 3, number), 14);
        one_entry(store, Entry::lift(2, 0, number), 14);
        one_entry(store, Entry::lift(3, 0, number), 14);
        if number != 2 {
            one_entry(store, Entry::lift(0, 1, number), 20);
            one_entry(store, Entry::lift(0, 2, number), 20);
        }
    }
    follows(store, "0>2 2", 0, 1, "4x2: [1] [] [3 2] [4 5]");
}

/// 14 goes by the depth of the shaft entered.
#[test]
fn full_by_its_own_depth() {
    let store = "4x3,1,2,1: [1 2] [3] [4] []";
    for number in [2, 3, 9] {
        one_entry(store, Entry::lift(0, 1, number), 14);
    }
    follows(store, "0>3 2", 0, 1, "4x3,1,2,1: [1] [3] [4] [2]");
    let two = "4x3,1,2,1: [] [3] [4 2] [1]";
    follows(store, "0>2 2, 0>2 1", 14, 1, "4x3,1,2,1: [1] [3] [4 2] []");
    follows(store, "0>2 2, 0>3 1, 0>3 1", 13, 2, two);
    follows(store, "1>0 3, 2>0 4", 14, 1, "4x3,1,2,1: [1 2 3] [] [4] []");
}

/// A sighting shows the top cassette, or 0 for an empty shaft alone: of no other cassette of the shaft, none of another shaft, and nothing where nothing stands.
#[test]
fn numbers_of_sightings() {
    let store = "3x3: [1 2 7] [] [3]";
    for (shaft, shown) in [(0, 7), (1, 0), (2, 3)] {
        for number in 0..=BLANK {
            let sighting = log::pack(&[Entry::sighting(shaft, number)]);
            let (fault, count) = if number == shown { (0, 1) } else { (20, 0) };
            let image = image::write_first(&self::store(store));
            let written = caller().follow(&image, &sighting, image.len());
            let answer = Answer::of(fault, count);
            assert_eq!(written.answer, answer, "{shaft} top {number}");
            assert_eq!(written.space.content(), image);
        }
    }
}

/// A sighting changes nothing, and no lift is done that names another cassette.
#[test]
fn what_changes_the_store() {
    follows(EXAMPLE, "0 top 2, 0 top 2, 0 top 1", 20, 2, EXAMPLE);
    follows(EXAMPLE, "0>1 3", 20, 0, EXAMPLE);
    follows(EXAMPLE, "0>1 1", 20, 0, EXAMPLE);
    follows(EXAMPLE, "0>1 0", 20, 0, EXAMPLE);
    follows(EXAMPLE, "2>1 3, 2 top 3", 20, 1, "3x2: [1 2] [3] []");
}

/// The blank is 4,095 in a log, whatever the form of the image, and 255 is another cassette; any blank is as good as another.
#[test]
fn blanks_by_their_number() {
    let blanks = "3x2: [1 b] [] [b]";
    assert_eq!(images(&store(blanks)).len(), 3);
    follows(blanks, "0 top b, 2 top b, 0>1 b", 0, 3, "3x2: [1] [b] [b]");
    follows(blanks, "0>2 b, 2>1 b, 2>1 b", 0, 3, "3x2: [1] [b b] []");
    for number in [255, 254, 256, 4094, 0, 1] {
        one_entry(blanks, Entry::sighting(0, number), 20);
        one_entry(blanks, Entry::lift(0, 1, number), 20);
    }
    for other in [254, 255, 256, 4094] {
        let wide = format!("3x2: [1 {other}] [] [b]");
        let end = format!("3x2: [1] [{other}] [b]");
        let log = format!("0 top {other}, 0>1 {other}, 2 top b");
        follows(&wide, &log, 0, 3, &end);
        one_entry(&wide, Entry::sighting(0, BLANK), 20);
        one_entry(&wide, Entry::lift(0, 1, BLANK), 20);
        one_entry(&wide, Entry::sighting(2, other), 20);
    }
}

/// Numbers of a log have 12 bits: in forms 0 and 1 one past a byte is no cassette of the store, in whatever bits it is the same.
#[test]
fn numbers_past_a_byte() {
    let bytes = "3x2: [1 2] [] [b]";
    for high in 1..16 {
        one_entry(bytes, Entry::sighting(0, 2 + 256 * high), 20);
        one_entry(bytes, Entry::lift(0, 1, 2 + 256 * high), 20);
    }
    one_entry(bytes, Entry::sighting(1, 256), 20);
    one_entry(bytes, Entry::sighting(1, 2048), 20);
    let wide = "3x2: [1 300] [] [2]";
    follows(wide, "0 top 300, 0>1 300", 0, 2, "3x2: [1] [300] [2]");
    one_entry(wide, Entry::sighting(0, 300 % 256), 20);
}

/// "A length that isn't a multiple of 3 (tested before any entry)": entry 0 and the store as it came, whether the first entry is true, false or malformed, and
/// whatever the bytes over are.
#[test]
fn wrong_lengths() {
    let first = [
        "0>1 2", "0>1 9", "1>0 1", "2>0 3", "1>1 0", "0 top 2", "0 top 9",
    ]
    .map(packed);
    let malformed = [vec![0xFF; 3], vec![0x20, 0x00, 0x00]];
    for first in first.iter().chain(&malformed) {
        for over in [&[0x00][..], &[0xFF], &[0x10, 0x00], &[0xFF, 0xFF]] {
            gives(EXAMPLE, &[first, over].concat(), 19, 0, EXAMPLE);
            gives(EXAMPLE, &[first, first, over].concat(), 19, 0, EXAMPLE);
            gives(EXAMPLE, over, 19, 0, EXAMPLE);
        }
    }
    let log = packed("0>1 2, 1 top 2, 0>1 1, 1>2 1, 0 top 0");
    let ends = [
        EXAMPLE,
        "3x2: [1] [2] [3]",
        "3x2: [1] [2] [3]",
        "3x2: [] [2 1] [3]",
        "3x2: [] [2] [3 1]",
        "3x2: [] [2] [3 1]",
    ];
    for len in 0..=log.len() {
        match len % ENTRY_BYTES {
            0 => gives(EXAMPLE, &log[..len], 0, len / 3, ends[len / 3]),
            _ => gives(EXAMPLE, &log[..len], 19, 0, EXAMPLE),
        }
    }
}

/// Following gives this number and writes nothing.
fn refused(image: &[u8], log: &[u8], out_len: usize, number: u8) {
    let wanted = (Answer::of(number, 0), &[][..]);
    checks::follow_is(&mut caller(), image, log, out_len, wanted);
}

/// Logs that are true, false, malformed at once, and of a wrong length.
fn some_logs() -> [Vec<u8>; 5] {
    let logs = ["", "0>1 2", "0>1 9"].map(packed);
    let [none, right, wrong] = logs;
    [none, right, wrong, vec![0xFF; 3], vec![0x00]]
}

/// Faults of reading come first, then 10, before any entry and before 19 for the length; both write nothing.
#[test]
fn refused_calls() {
    for image in images(&store(EXAMPLE)) {
        for log in some_logs() {
            for out_len in 0..image.len() {
                refused(&image, &log, out_len, 10);
            }
            let cut = &image[..image.len() - 1];
            let longer = [&image[..], &[0]].concat();
            let unknown = [&[0x32], &image[1..]].concat();
            let mut padded = image.clone();
            *padded.last_mut().unwrap() |= 1;
            for out_len in [0, 1, image.len() - 1, image.len(), 403] {
                refused(&[], &log, out_len, 2);
                refused(cut, &log, out_len, 2);
                refused(&longer, &log, out_len, 7);
                refused(&unknown, &log, out_len, 1);
                refused(&padded, &log, out_len, 7);
            }
        }
    }
}

/// The other faults of reading: a height, a cassette 0, and one that stood earlier.
#[test]
fn images_that_are_refused() {
    for (shafts, number) in [
        (vec![vec![1, 2, 3], vec![], vec![]], 3),
        (vec![vec![1, 0], vec![], vec![]], 4),
        (vec![vec![1, 2], vec![2], vec![]], 5),
    ] {
        for image in images(&Store::of_depth(2, shafts)) {
            for log in some_logs() {
                refused(&image, &log, 0, number);
                refused(&image, &log, 403, number);
            }
        }
    }
}

/// Space of a byte less, as much and more, for a log that is true, one that is not, and one of a wrong length. What is lent beyond the image stays.
#[test]
fn lent_space() {
    let end = images(&store("3x2: [1] [2] [3]"));
    for (image, end) in images(&store(EXAMPLE)).iter().zip(end) {
        let len = image.len();
        let [right, wrong] = ["0>1 2", "0>1 2, 1 top 1"].map(packed);
        let cut = &wrong[..5];
        for out_len in [len, len + 1, len + 2, 403, 70_000] {
            for (log, answer, bytes) in [
                (&right[..], Answer::of(0, 1), &end),
                (&wrong, Answer::of(20, 1), &end),
                (cut, Answer::of(19, 0), image),
            ] {
                checks::follow_is(&mut caller(), image, log, out_len, (answer, bytes));
            }
        }
        for log in [&right[..], &wrong, cut] {
            refused(image, log, len - 1, 10);
        }
    }
}

/// "In the form of the image given": the same store in each form, with its bytes written out.
#[test]
fn bytes_in_each_form() {
    for (image, end) in [
        (
            &[0x02, 0x11, 0x00, 0xFF, 0x80, 0x3F, 0xE0][..],
            &[0x02, 0x10, 0x80, 0x87, 0xFC, 0x3F, 0xE0][..],
        ),
        (
            &[0x12, 0x11, 0x00, 0xFF, 0x88, 0x04, 0x3F, 0xE0],
            &[0x12, 0x10, 0x80, 0x88, 0x7F, 0xC4, 0x3F, 0xE0],
        ),
        (
            &[0x22, 0x11, 0x00, 0x0F, 0xFF, 0x88, 0x04, 0x3F, 0xFE],
            &[0x22, 0x10, 0x80, 0x08, 0x87, 0xFF, 0xC4, 0x3F, 0xFE],
        ),
    ] {
        assert_eq!(
            text::write(&image::read(image).unwrap()),
            "3x2: [1 b] [] [b]"
        );
        let read = image::read(end).map(|it| text::write(&it));
        assert_eq!(read.as_deref(), Ok("3x2: [1] [b] [b]"), "{end:02x?}");
        let log = packed("0>1 b, 1 top b");
        let wanted = (Answer::of(0, 2), end);
        checks::follow_is(&mut caller(), image, &log, image.len(), wanted);
        let wanted = (Answer::of(19, 0), image);
        checks::follow_is(&mut caller(), image, &log[..4], image.len(), wanted);
    }
}

/// NULL is taken wherever a length is 0.
#[test]
fn null_with_length_0() {
    let image = image::write_first(&store(EXAMPLE));
    let (start, len) = (image.as_ptr(), image.len());
    let mut out = vec![0xAA; len];
    let log = [0x11, 0x00];
    // SAFETY: every pointer has as many bytes as are named, NULL none, and `out` overlaps nothing.
    unsafe {
        let nothing = c::halyard_follow(start, len, null(), 0, out.as_mut_ptr(), len);
        assert_eq!(nothing, 0);
        assert_eq!(out, image);
        let short = c::halyard_follow(start, len, null(), 0, null_mut(), 0);
        assert_eq!(short, 10);
        let short = c::halyard_follow(start, len, log.as_ptr(), 2, null_mut(), 0);
        assert_eq!(short, 10);
        let none = c::halyard_follow(null(), 0, null(), 0, null_mut(), 0);
        assert_eq!(none, 2);
        let none = c::halyard_follow(null(), 0, log.as_ptr(), 2, out.as_mut_ptr(), len);
        assert_eq!(none, 2);
    }
    assert_eq!(out, image);
}

/// Image and log are only read, and may be the same bytes, or share some: here the last three bytes of an image are the first entry of a log.
#[test]
fn image_and_log_in_one_place() {
    let image = image::write_first(&store(EXAMPLE));
    assert_eq!(image[4..], [0x00, 0x20, 0x60]);
    let shared = [&image[..], &packed("2 top 3")].concat();
    let mut out = vec![0xAA; 7];
    let mut follow = |from: usize, len: usize| {
        let (image, log) = (shared.as_ptr(), shared[from..from + len].as_ptr());
        // SAFETY: every pointer has as many bytes as are named, and `out` overlaps nothing.
        let bits = unsafe { c::halyard_follow(image, 7, log, len, out.as_mut_ptr(), 7) };
        assert_eq!(out, shared[..7]);
        out.fill(0xAA);
        Answer::from_bits(bits)
    };
    assert_eq!(follow(0, 7), Answer::of(19, 0));
    assert_eq!(follow(0, 6), Answer::of(20, 0));
    assert_eq!(follow(4, 6), Answer::of(20, 0));
    assert_eq!(follow(6, 4), Answer::of(19, 0));
    assert_eq!(follow(7, 3), Answer::of(0, 1));
}
