//! The yes or no (document 01, "Which goals can be reached"), for two stores with the same depths and the same cassettes. The rows that never
//! change go by the depth of each shaft (document 02, 7/13).

use crate::store::Store;

/// Some list of legal lifts leads from start to goal, by the rules of documents 01 and 02.
pub fn reachable(start: &Store, goal: &Store) -> bool {
    match start.m() {
        1 => start == goal,
        2 => two_shaft_reading(start) == two_shaft_reading(goal),
        _ => fixed_rows(start) == fixed_rows(goal),
    }
}

/// Shaft 0 upward, then shaft 1 downward.
pub fn two_shaft_reading(store: &Store) -> Vec<u16> {
    let [up, down] = &store.shafts[..] else {
        panic!("a reading of {} shafts", store.m());
    };
    up.iter().chain(down.iter().rev()).copied().collect()
}

/// The floors, which never change.
fn fixed_rows(store: &Store) -> Vec<&[u16]> {
    let shafts = store.shafts.iter().zip(store.floors());
    shafts.map(|(shaft, rows)| &shaft[..rows]).collect()
}

#[cfg(test)]
mod tests {
    use super::*;
    use crate::text;

    fn reaches(start: &str, goal: &str) -> bool {
        reachable(&text::read(start).unwrap(), &text::read(goal).unwrap())
    }

    #[test]
    fn stores_of_document_01() {
        assert!(reaches("1x2: [1 2]", "1x2: [1 2]"));
        assert!(!reaches("1x2: [1 2]", "1x2: [2 1]"));
        assert!(reaches("2x3: [1 2] [3]", "2x3: [1] [3 2]"));
        assert!(!reaches("2x3: [1 2] [3]", "2x3: [1] [2 3]"));
        assert!(reaches("3x1: [1] [2] []", "3x1: [2] [1] []"));
        let full = "3x4: [1 4 5 6] [2 7 8] [3 9]";
        assert!(!reaches(full, "3x4: [2 4 5 6] [1 7 8] [3 9]"));
        assert!(reaches(full, "3x4: [1 9] [2 6 5 4] [3 8 7]"));
    }

    #[test]
    fn two_shafts_of_unequal_depth() {
        assert!(reaches("2x3,1: [1 2] [3]", "2x3,1: [1 2 3] []"));
        assert!(!reaches("2x3,1: [1 2] [3]", "2x3,1: [1 3 2] []"));
        assert!(reaches("2x1,3: [] [1 2 3]", "2x1,3: [3] [1 2]"));
        assert!(!reaches("2x1,3: [] [1 2 3]", "2x1,3: [1] [3 2]"));
        assert!(reaches("2x4,2: [b 1] [b]", "2x4,2: [b] [b 1]"));
    }

    /// With two empty slots row 1 of the shaft of depth 3 never changes; with one, row 1 of those of depth 2, and rows 1 and 2 of the other.
    #[test]
    fn three_shafts_of_unequal_depth() {
        let start = "3x3,2,2: [1 2 3] [4] [5]";
        assert!(reaches(start, "3x3,2,2: [1 3] [2 4] [5]"));
        assert!(reaches(start, "3x3,2,2: [1] [5 3] [2 4]"));
        assert!(!reaches(start, "3x3,2,2: [4 2 3] [1] [5]"));
        let fuller = "3x3,2,2: [1 2 3] [4 6] [5]";
        assert!(reaches(fuller, "3x3,2,2: [1 2] [4 3] [5 6]"));
        assert!(!reaches(fuller, "3x3,2,2: [1 3 2] [4 6] [5]"));
        assert!(!reaches(fuller, "3x3,2,2: [1 2 3] [5 6] [4]"));
        let tall = "3x1,1,3: [1] [] [b 2 3]";
        assert!(reaches(tall, "3x1,1,3: [3] [1] [b 2]"));
        assert!(!reaches(tall, "3x1,1,3: [1] [] [b 3 2]"));
    }

    #[test]
    fn stores_with_blanks() {
        assert!(reaches("1x3: [b 1 b]", "1x3: [b 1 b]"));
        assert!(!reaches("1x3: [b 1 b]", "1x3: [b b 1]"));
        assert!(reaches("2x3: [b 1] [b]", "2x3: [b] [b 1]"));
        assert!(!reaches("2x3: [b 1] [b]", "2x3: [1] [b b]"));
        assert!(reaches("3x1: [b] [1] []", "3x1: [] [b] [1]"));
        let crowded = "3x4: [b 4 5 6] [b 7 b] [3 9]";
        assert!(reaches(crowded, "3x4: [b b] [b 6 5 4] [3 7 9]"));
        assert!(!reaches(crowded, "3x4: [b 4 5 6] [3 7 b] [b 9]"));
    }
}
