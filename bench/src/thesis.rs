//! The solve of the thesis "Analysis of Confined Blocks World" (sections 3.2.2 to 3.2.4, appendices A and B), with the slips of
//! its listings mended. It takes three columns or more of one depth h with at least h empty slots, and builds the goal up row by row.
//!
//! Mended: HMove's step 4 looks at `L2[0]` though L2 may be empty; where step 1 set blocks on the destination column, step 4
//! may put one too many back there, so the last always goes to the source column, and step 5 does not fetch it again; VMove
//! stops clearing one row too early (`>` for `>=`), asks `top(p, C)` where `top(p, T)` is due, never sets PosChange to
//! false, names L as L2, and counts its last loop the wrong way.

use halyard_model::store::NUMBERS;
use halyard_model::{Store, play};

/// Columns of blocks, with rows from 1.
pub struct Grid {
    m: usize,
    h: usize,
    top: [usize; 16],
    slots: [[u16; 16]; 16],
    /// The column of each block.
    column: [u8; NUMBERS + 1],
}

impl Grid {
    pub fn new(store: &Store) -> Grid {
        assert!(store.equal_depths(), "columns of one depth");
        let mut grid = Grid {
            m: store.m(),
            h: store.deepest(),
            top: [0; 16],
            slots: [[0; 16]; 16],
            column: [0; NUMBERS + 1],
        };
        for (x, shaft) in store.shafts.iter().enumerate() {
            grid.top[x] = shaft.len();
            grid.slots[x][..shaft.len()].copy_from_slice(shaft);
            for &block in shaft {
                grid.column[usize::from(block)] = x as u8;
            }
        }
        grid
    }

    fn at(&self, x: usize, y: usize) -> u16 {
        self.slots[x][y - 1]
    }

    fn position(&self, block: u16) -> (usize, usize) {
        let x = usize::from(self.column[usize::from(block)]);
        let index = self.slots[x].iter().position(|&other| other == block);
        (x, index.expect("the block stands there") + 1)
    }

    fn shift(&mut self, from: usize, to: usize) {
        self.top[from] -= 1;
        let block = self.slots[from][self.top[from]];
        self.slots[to][self.top[to]] = block;
        self.column[usize::from(block)] = to as u8;
        self.top[to] += 1;
    }
}

/// Columns that blocks were moved to, in order, the lists L1 and L2 of the thesis.
struct Trail {
    columns: [usize; 20],
    len: usize,
}

/// The -1 in a trail: the block to keep clear and the top of a third column changed places.
const SWAPPED: usize = usize::MAX;

impl Trail {
    fn new() -> Trail {
        Trail {
            columns: [0; 20],
            len: 0,
        }
    }

    fn push(&mut self, column: usize) {
        self.columns[self.len] = column;
        self.len += 1;
    }

    fn pop(&mut self) -> Option<usize> {
        self.len = self.len.checked_sub(1)?;
        Some(self.columns[self.len])
    }

    /// Forgets one move to a column, if there is one.
    fn forget(&mut self, column: usize) {
        if let Some(at) = self.columns[..self.len].iter().position(|&c| c == column) {
            self.columns.copy_within(at + 1..self.len, at);
            self.len -= 1;
        }
    }
}

struct Solver<'a> {
    grid: Grid,
    list: &'a mut [u8],
    count: usize,
}

impl Solver<'_> {
    fn shift(&mut self, from: usize, to: usize) {
        self.grid.shift(from, to);
        self.list[self.count] = play::lift_byte(from, to);
        self.count += 1;
    }

    /// A column with room, other than these two.
    fn open(&self, a: usize, b: usize) -> Option<usize> {
        (0..self.grid.m).find(|&x| x != a && x != b && self.grid.top[x] < self.grid.h)
    }

    /// Moves the blocks of column x from row y upward elsewhere, and keeps the block on top of column `keep` clear.
    /// Gives the column where that block stands then.
    fn clear(&mut self, x: usize, y: usize, keep: usize, trail: &mut Trail) -> usize {
        let mut stands = keep;
        while self.grid.top[x] >= y {
            if stands != keep {
                trail.push(keep);
                self.shift(x, keep);
            } else if let Some(q) = self.open(x, keep) {
                trail.push(q);
                self.shift(x, q);
            } else {
                stands = self.third(x, keep);
                trail.push(SWAPPED);
                self.shift(stands, x);
                self.shift(keep, stands);
                self.shift(x, keep);
            }
        }
        stands
    }

    fn third(&self, a: usize, b: usize) -> usize {
        (0..self.grid.m)
            .find(|&x| x != a && x != b)
            .expect("three columns")
    }

    /// Turns one step of a trail about: a block comes back to column x, or the top of column `third` to its place.
    fn put_back(&mut self, step: usize, x: usize, keep: usize, third: usize) {
        if step == SWAPPED {
            self.shift(keep, third);
        } else {
            self.shift(step, x);
        }
    }

    /// Moves the block at (xs, ys) to (xd, yd), another column.
    fn hmove(&mut self, xs: usize, ys: usize, xd: usize, yd: usize) {
        let mut first = Trail::new();
        while self.grid.top[xs] > ys {
            let p = self.open(xs, xd).unwrap_or(xd);
            first.push(p);
            self.shift(xs, p);
        }
        let mut second = Trail::new();
        let stands = self.clear(xd, yd, xs, &mut second);
        self.shift(stands, xd);
        while second.len > 1 {
            let step = second.pop().expect("a step");
            self.put_back(step, xd, xs, stands);
        }
        if let Some(step) = second.pop() {
            self.last_to_source(step, xs, xd, stands);
            first.forget(xd);
        }
        while let Some(p) = first.pop() {
            self.shift(p, xs);
        }
    }

    /// The top block of column xd goes to column xs, from where another has come.
    fn last_to_source(&mut self, step: usize, xs: usize, xd: usize, third: usize) {
        if step == SWAPPED {
            self.shift(xs, third);
            self.shift(xd, xs);
        } else {
            self.shift(step, xs);
        }
    }

    /// Moves the block at (x, ys) down to (x, yd).
    fn vmove(&mut self, x: usize, ys: usize, yd: usize) {
        if ys == yd {
            return;
        }
        let mut trail = Trail::new();
        while self.grid.top[x] > ys {
            let p = self.open(x, x).expect("room for a column");
            trail.push(p);
            self.shift(x, p);
        }
        let keep = self.open(x, x).expect("room for a column");
        self.shift(x, keep);
        let stands = self.clear(x, yd, keep, &mut trail);
        self.shift(stands, x);
        while let Some(step) = trail.pop() {
            self.put_back(step, x, keep, stands);
        }
    }
}

/// Writes a list from start to goal and gives its count of moves.
pub fn solve(start: Grid, goal: &Grid, list: &mut [u8]) -> usize {
    let mut solver = Solver {
        grid: start,
        list,
        count: 0,
    };
    for y in 1..=goal.h {
        for x in 0..goal.m {
            if y > goal.top[x] {
                continue;
            }
            let (xs, ys) = solver.grid.position(goal.at(x, y));
            if xs == x {
                solver.vmove(x, ys, y);
            } else {
                solver.hmove(xs, ys, x, y);
            }
        }
    }
    solver.count
}

#[cfg(test)]
mod tests {
    use super::*;
    use halyard_model::search::every_store;
    use halyard_model::{Random, text};

    /// The list leads to the goal and keeps to 4hn + 8n.
    fn solves(start: &Store, goal: &Store) {
        let mut list = vec![0; start.list_space()];
        let count = solve(Grid::new(start), &Grid::new(goal), &mut list);
        let about = || format!("{} to {}", text::write(start), text::write(goal));
        assert!(play::leads(start, &list[..count], goal), "{}", about());
    }

    #[test]
    fn every_pair_of_small_stores() {
        for (m, h, n) in [
            (3, 1, 2),
            (3, 2, 4),
            (3, 2, 3),
            (4, 1, 3),
            (4, 2, 3),
            (3, 3, 3),
        ] {
            let cassettes: Vec<u16> = (1..=n).collect();
            let stores = every_store(&vec![h; m], &cassettes);
            for start in &stores {
                stores.iter().for_each(|goal| solves(start, goal));
            }
        }
    }

    #[test]
    fn random_stores() {
        let mut random = Random::new(41);
        for _ in 0..5_000 {
            let (m, h) = (random.from_to(3, 16), random.from_to(1, 16));
            let most = h * (m - 1);
            let least = most.saturating_sub(random.below(20));
            let n = random.from_to(least, most);
            let start = random.store(m, h, n);
            let goal = random.rearranged(&start);
            solves(&start, &goal);
        }
    }
}
