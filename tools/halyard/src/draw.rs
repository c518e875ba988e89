//! Stores drawn with their shafts upright.

use halyard_model::Store;
use halyard_model::store::BLANK;
use halyard_model::text::{self, BLANK_WORD};
use halyard_model::uncover::Place;

/// The rows from the top of the deepest shaft down, the shafts' numbers below, and what a blank and a place with no slot are drawn as, if there is one. The
/// places `marked` have a star.
pub fn store(store: &Store, marked: &[Place]) -> String {
    let mut lines: Vec<String> = (1..=store.deepest())
        .rev()
        .map(|row| draw_row(store, row, marked))
        .collect();
    lines.push(format!("       +{}", "------+".repeat(store.m())));
    let numbers: String = (0..store.m())
        .map(|shaft| format!("{shaft:>5}  "))
        .collect();
    lines.push(format!("shaft   {}", numbers.trim_end()));
    if store.blanks() > 0 {
        lines.push(format!("{BLANK_WORD} is a blank, cassette number {BLANK}"));
    }
    if !store.equal_depths() {
        lines.push(format!("{NO_SLOT} is no slot: the shaft ends below"));
    }
    lines.join("\n") + "\n"
}

/// What stands where a shaft has ended.
const NO_SLOT: &str = "######";

fn draw_row(store: &Store, row: usize, marked: &[Place]) -> String {
    let slots: String = (0..store.m())
        .map(|shaft| draw_slot(store, (shaft, row), marked) + "|")
        .collect();
    format!("row {row:>2} |{slots}")
}

fn draw_slot(store: &Store, place: Place, marked: &[Place]) -> String {
    let (shaft, row) = place;
    if store.depths[shaft] < row {
        return NO_SLOT.into();
    }
    let star = if marked.contains(&place) { "*" } else { "" };
    let shown = match store.shafts[shaft].get(row - 1) {
        Some(&cassette) => format!("{star}{}", text::write_cassette(cassette)),
        None => String::new(),
    };
    format!("{shown:>5} ")
}

#[cfg(test)]
mod tests {
    use halyard_model::store::BLANK;
    use halyard_model::text;

    #[test]
    fn shafts_stand_upright() {
        let store = text::read("3x2: [1 2] [] [254]").unwrap();
        let drawn = "\
row  2 |    2 |      |      |
row  1 |    1 |      | *254 |
       +------+------+------+
shaft       0      1      2
";
        assert_eq!(super::store(&store, &[(2, 1)]), drawn);
        assert_eq!(super::store(&store, &[]), drawn.replace('*', " "));
    }

    /// Numbers of one to four digits, with a star and without.
    #[test]
    fn wide_numbers() {
        let store = text::read("3x2: [1000 4094] [255 7] [4093]").unwrap();
        let drawn = "\
row  2 | 4094 |    7 |      |
row  1 | 1000 |  255 |*4093 |
       +------+------+------+
shaft       0      1      2
";
        assert_eq!(super::store(&store, &[(2, 1)]), drawn);
    }

    /// Each shaft has slots up to its own depth, also between two deeper ones.
    #[test]
    fn shafts_of_unequal_depth() {
        let store = text::read("5x2,4,1,1,3: [1 2] [3 4 5] [6] [] [7]").unwrap();
        let drawn = "\
row  4 |######|      |######|######|######|
row  3 |######|    5 |######|######|      |
row  2 |    2 |    4 |######|######|      |
row  1 |    1 |    3 |    6 |      |   *7 |
       +------+------+------+------+------+
shaft       0      1      2      3      4
###### is no slot: the shaft ends below
";
        assert_eq!(super::store(&store, &[(4, 1)]), drawn);
    }

    /// A short shaft between two deeper ones that are empty above it.
    #[test]
    fn a_short_shaft_between_empty_slots() {
        let store = text::read("3x2,1,2: [] [b] [3]").unwrap();
        let drawn = format!(
            "\
row  2 |      |######|      |
row  1 |      |    b |    3 |
       +------+------+------+
shaft       0      1      2
b is a blank, cassette number {BLANK}
###### is no slot: the shaft ends below
"
        );
        assert_eq!(super::store(&store, &[]), drawn);
    }

    /// Of two blanks the one in the place marked has the star.
    #[test]
    fn blanks() {
        let store = text::read("2x2: [1 b] [b]").unwrap();
        let drawn = format!(
            "\
row  2 |    b |      |
row  1 |    1 |   *b |
       +------+------+
shaft       0      1
b is a blank, cassette number {BLANK}
"
        );
        assert_eq!(super::store(&store, &[(1, 1)]), drawn);
    }
}
