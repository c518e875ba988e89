//! What the tool does for each of its commands.

use crate::files::{self, read_image, read_list, read_log_text, read_store, written};
use crate::{depth, draw, followed, played};
use halyard_model::store::BLANK;
use halyard_model::{Store, image, text};

/// What the tool says of itself, with `{BLANK}` for the number of a blank.
const HELP: &str = "\
halyard: stores as text and as images, and lists played and logs followed for a person to see

  halyard image TEXT [FILE]        write the image of a store to FILE, or show its bytes in hexadecimal
  halyard image --form N TEXT [FILE]
                                   the same in form N
  halyard convert IMAGE N [FILE]   write the store of an image file in form N to FILE, or show its bytes
  halyard text STORE               show a store as text
  halyard show STORE               draw a store
  halyard play STORE LIST          draw a store, and again after each lift of a list, and count the carries
  halyard play --end STORE LIST    draw a store only as the list leaves it, and count the carries
  halyard leads START GOAL LIST    say whether a list leads from start to goal
  halyard depth STORE CASSETTE…    draw a store, and say what is to be lifted away from each cassette
  halyard log STORE LOG            follow a log of the changer: say what each entry says, up to the first
                                   that can't be true, and draw the store there
  halyard log --write ENTRIES [FILE]
                                   write a log to FILE, or show its bytes in hexadecimal

TEXT is such as '3x2: [1 2] [b] [3 b]': shafts, depth, the cassettes of each shaft bottom first.
Where the depths are unequal each shaft has its own: '3x3,2,2: [1 2 3] [4] [5]'.
b is a blank carrier, which may stand more than once; its cassette number, {BLANK}, says the same.
Images are read in the forms 0, 1 and 2, and written in the form named, or else in the first that can
hold the store: form 0 equal depths alone, forms 0 and 1 cassettes up to 254 and blanks alone, form 2
every store.
STORE, START and GOAL are an image file or TEXT. LIST is a file that has what the program 'plan'
printed, or '-' for standard input; with --bytes it has a byte for each lift, as the C calls write it.
The carries are how often each cassette of the store was carried, blanks together, up to a lift that
is refused; they add up to the lifts done. Of blanks 'depth' takes the one that is uncovered soonest.
LOG is a file with three bytes for each entry, as the C call reads it. ENTRIES is a file with a line for
each: '0>1 17' is a lift of 17 from shaft 0 to shaft 1, '1 top 4' says that 4 was seen on top of shaft 1,
and '2 top 0' that shaft 2 was seen empty; b is a blank here too, what follows a '#' is a comment, and
empty lines say nothing. Either may be '-' for standard input.

This tool is a convenience outside what is proved. It shares no code with the proved library, and
nothing proves what it says. It ends with status 1 where something is wrong or refused.
";

/// What to print, and what went wrong after it.
#[derive(Debug, PartialEq, Eq)]
pub struct Said {
    pub text: String,
    pub wrong: Option<String>,
}

impl From<String> for Said {
    fn from(text: String) -> Said {
        Said { text, wrong: None }
    }
}

fn help() -> String {
    HELP.replace("{BLANK}", &BLANK.to_string())
}

/// What to say where the words say nothing.
pub fn not_understood() -> String {
    format!("not understood\n\n{}", help())
}

/// Does what the words ask, or gives what is wrong with them.
pub fn run(words: &[&str]) -> Result<Said, String> {
    if let ["image", "--form", form, text, file @ ..] = words {
        let bytes = image_in(&text::read(text)?, form)?;
        return Ok(written(&bytes, file)?.into());
    }
    let (options, words): (Vec<&str>, Vec<&str>) =
        words.iter().partition(|word| word.starts_with("--"));
    let known: &[&str] = match words.first() {
        Some(&"play") => &["--bytes", "--end"],
        Some(&"leads") => &["--bytes"],
        Some(&"log") => &["--write"],
        _ => &[],
    };
    if options.iter().any(|option| !known.contains(option)) {
        return Err(not_understood());
    }
    let bytes = options.contains(&"--bytes");
    match words[..] {
        ["image", text, ref file @ ..] => {
            let bytes = image::write_first(&text::read(text)?);
            Ok(written(&bytes, file)?.into())
        }
        ["convert", image, form, ref file @ ..] => {
            let bytes = image_in(&read_image(image)?, form)?;
            Ok(written(&bytes, file)?.into())
        }
        ["text", store] => Ok((text::write(&read_store(store)?) + "\n").into()),
        ["show", store] => Ok(draw::store(&read_store(store)?, &[]).into()),
        ["play", store, list] => {
            let (store, list) = (read_store(store)?, read_list(list, bytes)?);
            Ok(played::run(&store, &list, options.contains(&"--end")))
        }
        ["leads", start, goal, list] => {
            let (start, goal) = (read_store(start)?, read_store(goal)?);
            Ok(played::leads(&start, &goal, &read_list(list, bytes)?)?.into())
        }
        ["depth", store, ref cassettes @ ..] if !cassettes.is_empty() => {
            depth::run(&read_store(store)?, cassettes)
        }
        ["log", entries, ref file @ ..] if options.contains(&"--write") => {
            Ok(written(&read_log_text(entries)?, file)?.into())
        }
        ["log", store, log] => Ok(followed::run(&read_store(store)?, &files::read(log)?)),
        [] | ["help"] => Ok(help().into()),
        _ => Err(not_understood()),
    }
}

/// The image of a store in the form that a word names, or why there is none.
fn image_in(store: &Store, word: &str) -> Result<Vec<u8>, String> {
    let wrong = |_| format!("'{word}' is no number of a form");
    let number: u8 = word.parse().map_err(wrong)?;
    image::write_as(store, number).map_err(|refused| {
        let first = image::first_form(store) as u8;
        let which = match refused {
            18 => format!(" (form {first} can)"),
            _ => String::new(),
        };
        format!(
            "form {number}: refused {refused}, {}{which}",
            meaning(refused)
        )
    })
}

/// What a number says of an image, of two stores, of a lift, of an order, of a form to be written or of a log.
pub fn meaning(number: u8) -> &'static str {
    match number {
        1 => "the form is above 2",
        2 => "the image ends before its last field",
        3 => "a height above the depth of its shaft",
        4 => "a cassette number 0",
        5 => "a cassette that stood earlier and is no blank",
        7 => "a padding bit set, or bytes after the padding",
        8 => "the two stores differ in their count of shafts or in a depth",
        11 => "a shaft that is not there, or one shaft twice",
        13 => "the shaft left is empty",
        14 => "the shaft entered is full, by its own depth",
        16 => "it is not in the store",
        17 => "no list of lifts uncovers it",
        18 => {
            "the form can't hold the store: forms 0 and 1 no cassette from 255 to 4094, \
             form 0 no unequal depths"
        }
        19 => "the length of the log, or an entry of it, is malformed",
        20 => "the number is not the one that the store shows",
        _ => "which nothing gets here",
    }
}

#[cfg(test)]
mod tests {
    use super::*;
    use crate::files::scratch::Scratch;
    use std::fs;

    const EXAMPLE: &str = "3x2: [1 2] [] [3]";

    /// What the tool prints where nothing is wrong.
    fn prints(words: &[&str]) -> String {
        let said = run(words).unwrap();
        assert_eq!(said.wrong, None);
        said.text
    }

    #[test]
    fn text_to_image_and_back() {
        assert_eq!(prints(&["image", EXAMPLE]), "02 11 00 81 00 20 60\n");
        let file = Scratch::holding("image", &[]);
        let said = prints(&["image", EXAMPLE, &file.0]);
        assert!(said.ends_with(": 7 bytes\n"), "{said}");
        assert_eq!(prints(&["text", &file.0]), format!("{EXAMPLE}\n"));
        assert_eq!(prints(&["show", &file.0]), prints(&["show", EXAMPLE]));
    }

    #[test]
    fn a_refused_image() {
        for (name, image, said) in [
            (
                "cut",
                &[0x01, 0x11][..],
                "refused 2, the image ends before its last field",
            ),
            ("form", &[0x31], "refused 1, the form is above 2"),
            (
                "height",
                &[0x11, 0xF0, 0x00, 0x80],
                "refused 3, a height above the depth of its shaft",
            ),
        ] {
            let file = Scratch::holding(name, image);
            let wrong = run(&["show", &file.0]).unwrap_err();
            assert!(wrong.ends_with(said), "{wrong}");
        }
    }

    #[test]
    fn unequal_depths() {
        let unequal = "2x3,1: [1 2] [3]";
        assert_eq!(prints(&["image", unequal]), "11 21 00 81 00 40 c0\n");
        let file = Scratch::holding("unequal", &[0x11, 0x21, 0x00, 0x81, 0x00, 0x40, 0xC0]);
        assert_eq!(prints(&["text", &file.0]), format!("{unequal}\n"));
        let wrong = run(&["image", "2x3,1: [1] [2 3]"]).unwrap_err();
        assert_eq!(wrong, "shaft 1 is higher than its depth, 1");
    }

    /// The example in each form.
    const FORMS: [&str; 3] = [
        "02 11 00 81 00 20 60\n",
        "12 11 00 81 08 04 20 60\n",
        "22 11 00 08 01 08 04 20 06\n",
    ];

    /// The bytes that the tool shows in hexadecimal.
    fn from_hexadecimal(text: &str) -> Vec<u8> {
        let byte = |word| u8::from_str_radix(word, 16).unwrap();
        text.split_whitespace().map(byte).collect()
    }

    /// Whatever form an image has, its store is the same, and is written in the form named.
    #[test]
    fn one_store_in_each_form() {
        for (form, bytes) in ["0", "1", "2"].into_iter().zip(FORMS) {
            assert_eq!(prints(&["image", "--form", form, EXAMPLE]), bytes);
            let file = Scratch::holding(&format!("form-{form}"), &from_hexadecimal(bytes));
            assert_eq!(prints(&["text", &file.0]), format!("{EXAMPLE}\n"));
            assert_eq!(prints(&["show", &file.0]), prints(&["show", EXAMPLE]));
            for (to, bytes) in ["0", "1", "2"].into_iter().zip(FORMS) {
                assert_eq!(prints(&["convert", &file.0, to]), bytes);
            }
        }
        assert_eq!(prints(&["image", EXAMPLE]), FORMS[0]);
    }

    #[test]
    fn images_and_conversions_in_files() {
        let [one, other] = ["one", "other"].map(|name| Scratch::holding(name, &[]));
        let said = prints(&["image", "--form", "2", EXAMPLE, &one.0]);
        assert_eq!(said, format!("{}: 9 bytes\n", one.0));
        let said = prints(&["convert", &one.0, "1", &other.0]);
        assert_eq!(said, format!("{}: 8 bytes\n", other.0));
        assert_eq!(fs::read(&other.0).unwrap(), from_hexadecimal(FORMS[1]));
    }

    /// The first form that holds a store: by its depths and by its numbers.
    #[test]
    fn the_first_form_that_holds_a_store() {
        for (text, form) in [
            ("2x2: [1 254] [b b]", '0'),
            ("2x2,1: [1 254] [b]", '1'),
            ("2x2: [1 255] [b b]", '2'),
            ("2x2,1: [1 4094] [b]", '2'),
        ] {
            assert!(prints(&["image", text]).starts_with(form), "{text}");
        }
    }

    /// Forms that there are not, and forms that can't hold a store.
    #[test]
    fn forms_that_are_refused() {
        let can_not = "refused 18, the form can't hold the store: forms 0 and 1 no cassette from 255 to 4094, \
                       form 0 no unequal depths";
        for (form, text, wrong) in [
            (
                "3",
                EXAMPLE,
                "form 3: refused 1, the form is above 2".to_string(),
            ),
            (
                "255",
                EXAMPLE,
                "form 255: refused 1, the form is above 2".to_string(),
            ),
            (
                "0",
                "2x2,1: [1] [2]",
                format!("form 0: {can_not} (form 1 can)"),
            ),
            (
                "0",
                "2x2: [255] [2]",
                format!("form 0: {can_not} (form 2 can)"),
            ),
            (
                "1",
                "2x2: [4094] [2]",
                format!("form 1: {can_not} (form 2 can)"),
            ),
            ("two", EXAMPLE, "'two' is no number of a form".to_string()),
            ("256", EXAMPLE, "'256' is no number of a form".to_string()),
            ("-1", EXAMPLE, "'-1' is no number of a form".to_string()),
        ] {
            let said = run(&["image", "--form", form, text]);
            assert_eq!(said, Err(wrong.clone()), "{form} {text}");
            let file = Scratch::holding("refused", &image::write_first(&text::read(text).unwrap()));
            assert_eq!(run(&["convert", &file.0, form]), Err(wrong));
        }
        let cut = Scratch::holding("cut-form", &[0x01, 0x11]);
        let wrong = run(&["convert", &cut.0, "3"]).unwrap_err();
        assert!(wrong.ends_with("refused 2, the image ends before its last field"));
    }

    /// 255 is the blank in forms 0 and 1, and a cassette in form 2.
    #[test]
    fn the_number_255() {
        let old = Scratch::holding("old", &[0x00, 0x00, 0xFF, 0x80]);
        assert_eq!(prints(&["text", &old.0]), "1x1: [b]\n");
        assert_eq!(prints(&["convert", &old.0, "2"]), "20 00 ff f8\n");
        let new = Scratch::holding("new", &[0x20, 0x00, 0x87, 0xF8]);
        assert_eq!(prints(&["text", &new.0]), "1x1: [255]\n");
    }

    #[test]
    fn a_lift_onto_a_full_short_shaft() {
        let list = Scratch::holding("short", b"lifts 2\n0>1\n0>1\n");
        let said = run(&["play", "2x3,1: [1 2 3] []", &list.0]).unwrap();
        let wrong = "lift 2 of 2, 0>1, is refused 14, the shaft entered is full, by its own depth, \
                     in 2x3,1: [1 2] [3]";
        assert_eq!(said.wrong.as_deref(), Some(wrong));
        assert!(
            said.text
                .contains("row  2 |    2 |######|\nrow  1 |    1 |   *3 |\n")
        );
    }

    /// The goal has the depths of the start, or no list leads there.
    #[test]
    fn a_goal_of_other_depths() {
        let list = Scratch::holding("depths", b"lifts 1\n0>1\n");
        let start = "2x3,1: [1 2 3] []";
        let said = prints(&["leads", start, "2x3,1: [1 2] [3]", &list.0]);
        assert_eq!(said, "1 lifts lead to the goal\n");
        let wrong = "refused 8, the two stores differ in their count of shafts or in a depth";
        for goal in [
            "2x3: [1 2] [3]",
            "2x3,2: [1 2] [3]",
            "3x3,1,1: [1 2] [3] []",
        ] {
            let said = run(&["leads", start, goal, &list.0]);
            assert_eq!(said, Err(wrong.to_string()), "{goal}");
        }
    }

    #[test]
    fn a_list_one_lift_at_a_time() {
        let list = Scratch::holding("list", b"lifts 2\n0>1\n2>0\n");
        let shown = prints(&["play", EXAMPLE, &list.0]);
        let parts: Vec<&str> = shown.split("\n\n").collect();
        assert_eq!(parts.len(), 4);
        assert!(parts[1].starts_with("lift 1 of 2: 2 from shaft 0 to shaft 1, row 1\n"));
        assert!(parts[1].contains("row  1 |    1 |   *2 |    3 |"));
        assert!(parts[2].starts_with("lift 2 of 2: 3 from shaft 2 to shaft 0, row 2\n"));
        assert!(parts[2].contains("row  2 |   *3 |      |      |"));
        assert_eq!(
            parts[3],
            "times carried, 2 of 2 lifts done\n    1: 0\n    2: 1\n    3: 1\n"
        );
    }

    #[test]
    fn only_the_end() {
        let list = Scratch::holding("end", &[0x01, 0x10, 0x01, 0x20]);
        let shown = prints(&["play", "--end", "--bytes", EXAMPLE, &list.0]);
        let end = text::read("3x2: [1 3] [2] []").unwrap();
        let drawn = draw::store(&end, &[]);
        let carries = "times carried, 4 of 4 lifts done\n    1: 0\n    2: 3\n    3: 1\n";
        assert_eq!(shown, format!("lifts done: 4\n{drawn}\n{carries}"));
    }

    #[test]
    fn carries_rise_by_number() {
        let list = Scratch::holding("rise", b"lifts 2\n0>2\n1>2\n");
        let store = "3x2: [b] [10] []";
        let shown = prints(&["play", "--end", store, &list.0]);
        assert!(shown.ends_with("\n\ntimes carried, 2 of 2 lifts done\n   10: 1\n    b: 1\n"));
        let none = Scratch::holding("none", b"lifts 0\n");
        let shown = prints(&["play", store, &none.0]);
        assert!(shown.ends_with("\n\ntimes carried, 0 of 0 lifts done\n   10: 0\n    b: 0\n"));
        let shown = prints(&["play", "2x1: [] []", &none.0]);
        assert!(shown.ends_with("\n\ntimes carried, 0 of 0 lifts done\nno cassette\n"));
    }

    /// A line for all blanks, and a star only on the one carried.
    #[test]
    fn blanks_are_counted_together() {
        let list = Scratch::holding("blanks", b"lifts 3\n0>1\n2>1\n1>0\n");
        let shown = prints(&["play", "3x2: [b b] [] [1 b]", &list.0]);
        let parts: Vec<&str> = shown.split("\n\n").collect();
        assert!(parts[1].starts_with("lift 1 of 3: a blank from shaft 0 to shaft 1, row 1\n"));
        assert!(parts[1].contains("row  1 |    b |   *b |    1 |"));
        assert_eq!(parts[1].matches('*').count(), 1);
        let carries = "times carried, 3 of 3 lifts done\n    1: 0\n    b: 3, all 3 together\n";
        assert_eq!(parts[4], carries);
    }

    /// Whichever blank stands in a slot of the goal.
    #[test]
    fn a_list_that_leads_to_a_goal_with_blanks() {
        let list = Scratch::holding("leads-blanks", b"lifts 2\n1>2\n0>1\n");
        let said = prints(&["leads", "3x1: [b] [b] []", "3x1: [] [b] [b]", &list.0]);
        assert_eq!(said, "2 lifts lead to the goal\n");
    }

    /// A second blank is read from an image and from a text, a second 254 from neither.
    #[test]
    fn images_with_blanks() {
        let blanks = "2x2: [b b] [b]";
        assert_eq!(prints(&["image", blanks]), "01 11 7f ff 87 fc\n");
        let file = Scratch::holding("blank-image", &[0x01, 0x11, 0x7F, 0xFF, 0x87, 0xFC]);
        assert_eq!(prints(&["text", &file.0]), format!("{blanks}\n"));
        let file = Scratch::holding("twice", &[0x01, 0x11, 0x7F, 0x7F, 0x00]);
        let wrong = run(&["text", &file.0]).unwrap_err();
        assert!(wrong.ends_with("refused 5, a cassette that stood earlier and is no blank"));
        assert!(run(&["image", "2x2: [254 254] []"]).is_err());
    }

    #[test]
    fn a_list_that_stops() {
        let list = Scratch::holding("stops", b"lifts 3\n0>1\n1>1\n0>1\n");
        let wrong = "lift 2 of 3, 1>1, is refused 11, a shaft that is not there, \
                     or one shaft twice, in 3x2: [1] [2] [3]";
        let carries = "\n\ntimes carried, 1 of 3 lifts done\n    1: 0\n    2: 1\n    3: 0\n";
        let said = run(&["play", EXAMPLE, &list.0]).unwrap();
        assert_eq!(said.wrong.as_deref(), Some(wrong));
        assert_eq!(said.text.matches("shaft  ").count(), 2);
        assert!(said.text.ends_with(carries), "{}", said.text);
        let said = run(&["play", "--end", EXAMPLE, &list.0]).unwrap();
        assert_eq!(said.wrong.as_deref(), Some(wrong));
        assert!(said.text.starts_with("lifts done: 1\n"));
        assert!(said.text.ends_with(carries), "{}", said.text);
        let leads = run(&["leads", EXAMPLE, EXAMPLE, &list.0]);
        assert_eq!(leads, Err(wrong.to_string()));
    }

    #[test]
    fn a_list_that_leads_to_one_goal() {
        let list = Scratch::holding("leads", b"lifts 1\n0>1\n");
        let said = prints(&["leads", EXAMPLE, "3x2: [1] [2] [3]", &list.0]);
        assert_eq!(said, "1 lifts lead to the goal\n");
        let other = run(&["leads", EXAMPLE, "3x2: [1] [] [3 2]", &list.0]);
        assert!(other.is_err());
        let refused = Scratch::holding("no-list", b"refused 15 both\n");
        assert!(run(&["leads", EXAMPLE, EXAMPLE, &refused.0]).is_err());
    }

    #[test]
    fn words_that_say_nothing() {
        let blank = format!("its cassette number, {BLANK}, says the same");
        assert!(prints(&["help"]).contains(&blank));
        let unknown = [
            &["fly"][..],
            &["show"],
            &["show", "--end", EXAMPLE],
            &["depth", EXAMPLE],
            &["image"],
            &["image", "--form", "1"],
            &["image", EXAMPLE, "--form"],
            &["show", "--form", "1", EXAMPLE],
            &["convert", EXAMPLE],
            &["image", EXAMPLE, "one", "two"],
            &["log", EXAMPLE],
            &["log", "--write"],
            &["log", "--bytes", EXAMPLE, "log"],
            &["show", "--write", EXAMPLE],
        ];
        for words in unknown {
            assert!(run(words).is_err(), "{words:?}");
        }
    }

    #[test]
    fn depths_of_the_cassettes_named() {
        let shown = prints(&["depth", EXAMPLE, "1", "3"]);
        assert!(shown.contains("row  1 |   *1 |      |   *3 |"), "{shown}");
        assert!(
            shown.ends_with("\n    1: 1 lift, of 2\n    3: on top\n"),
            "{shown}"
        );
        assert!(run(&["depth", EXAMPLE, "1", "one"]).is_err());
    }

    /// A log packed from text, followed on a store in a text and in an image.
    #[test]
    fn a_log_from_text_to_the_store() {
        let text = b"# Monday\n0>1 2\n\n1 top 2 # seen\n2 top 3\n";
        let entries = Scratch::holding("entries", text);
        let bytes = "00 10 02 11 00 02 12 00 03\n";
        assert_eq!(prints(&["log", "--write", &entries.0]), bytes);
        let log = Scratch::holding("log", &[]);
        let said = prints(&["log", "--write", &entries.0, &log.0]);
        assert_eq!(said, format!("{}: 9 bytes\n", log.0));
        assert_eq!(fs::read(&log.0).unwrap(), from_hexadecimal(bytes));
        let shown = prints(&["log", EXAMPLE, &log.0]);
        assert!(shown.starts_with("0>1 2        # 0: 2 from shaft 0 to shaft 1, row 1\n"));
        let end = draw::store(&text::read("3x2: [1] [2] [3]").unwrap(), &[]);
        assert!(shown.ends_with(&format!("\n\nafter 3 entries, all true\n{end}")));
        let image = Scratch::holding("log-image", &from_hexadecimal(FORMS[2]));
        assert_eq!(prints(&["log", &image.0, &log.0]), shown);
    }

    /// What is wrong with a log is said with the status of a failure, as is a text that is none.
    #[test]
    fn logs_that_are_wrong() {
        let log = Scratch::holding("false", &[0x10, 0x00, 0x02, 0x10, 0x00, 0x01]);
        let said = run(&["log", EXAMPLE, &log.0]).unwrap();
        let wrong = "entry 1, counted from 0, of 2 can't be true: 20, \
                     the number is not the one that the store shows";
        assert_eq!(said.wrong.as_deref(), Some(wrong));
        let cut = Scratch::holding("cut-log", &[0x10, 0x00]);
        let said = run(&["log", EXAMPLE, &cut.0]).unwrap();
        let wrong = "the log can't be followed: 19, its length, 2, is no multiple of 3";
        assert_eq!(said.wrong.as_deref(), Some(wrong));
        let entries = Scratch::holding("no-entries", b"0>1 2\n0>1 two\n");
        let wrong = run(&["log", "--write", &entries.0]).unwrap_err();
        let end = ": line 2: not a number from 0 to 4095, nor b: two";
        assert!(wrong.ends_with(end), "{wrong}");
        assert!(run(&["log", EXAMPLE, "no such file"]).is_err());
        assert!(run(&["log", "--write", &entries.0, "one", "two"]).is_err());
    }
}
