//! The random stores that everything is timed on.

use halyard_model::image;
use halyard_model::store::{BLANK, MOST_ORDINARY};
use halyard_model::{Random, Store};
use halyard_outside::calls::Order;
use halyard_outside::logs;
use std::fmt::{self, Display};

/// Which cassettes stand in a store.
#[derive(Clone, Copy, PartialEq, Eq)]
pub enum Cassettes {
    /// All different, of the numbers that a byte holds, a blank perhaps among them.
    Different,
    /// Half of them blanks, and the others as above.
    HalfBlank,
    /// All different, of numbers that only form 2 holds.
    PastAByte,
}

/// The numbers that a byte holds: 1 to 254, and the blank's.
fn numbers_of_a_byte() -> Vec<u16> {
    (1..=254).chain([BLANK]).collect()
}

/// As many numbers from 255 to 4,094, as far apart as they can be.
fn numbers_past_a_byte() -> Vec<u16> {
    (0..255).map(|i| MOST_ORDINARY - 15 * i).collect()
}

/// The depth of each shaft, empty slots, and which cassettes there are.
pub struct Shape {
    pub depths: Vec<usize>,
    pub e: usize,
    pub cassettes: Cassettes,
}

impl Display for Shape {
    fn fmt(&self, f: &mut fmt::Formatter) -> fmt::Result {
        let cassettes = match self.cassettes {
            Cassettes::Different => "",
            Cassettes::HalfBlank => ", half blank",
            Cassettes::PastAByte => ", form 2",
        };
        let (m, least, most) = (self.depths.len(), self.shallowest(), self.deepest());
        if self.equal_depths() {
            write!(f, "{m} × {most}{cassettes}")
        } else {
            write!(f, "{m} shafts of depths {least} to {most}{cassettes}")
        }
    }
}

impl Shape {
    pub fn n(&self) -> usize {
        self.depths.iter().sum::<usize>() - self.e
    }

    /// The depth of the deepest shaft.
    pub fn deepest(&self) -> usize {
        self.depths.iter().copied().max().expect("a shaft")
    }

    fn shallowest(&self) -> usize {
        self.depths.iter().copied().min().expect("a shaft")
    }

    /// All shafts have one depth.
    pub fn equal_depths(&self) -> bool {
        self.shallowest() == self.deepest()
    }

    /// 4hn + 8n, where h is the deepest shaft.
    pub fn list_space(&self) -> usize {
        4 * self.deepest() * self.n() + 8 * self.n()
    }

    /// Sixteen shafts, the deepest of depth 16.
    pub fn is_largest(&self) -> bool {
        (self.depths.len(), self.deepest()) == (16, 16)
    }
}

/// 3 x 16, 4 x 16, 8 x 8 and 16 x 16 with 1, h/2, h and 2h empty slots, 16 x 16 with h empty slots and half of the cassettes blank, sixteen shafts of depth 1, 2
/// and so on to 16 with 16 empty slots, and 16 x 16 with h empty slots and numbers past a byte.
pub fn shapes() -> Vec<Shape> {
    let shape = |depths, e, cassettes| Shape {
        depths,
        e,
        cassettes,
    };
    [(3, 16), (4, 16), (8, 8), (16, 16)]
        .into_iter()
        .flat_map(|(m, h)| [1, h / 2, h, 2 * h].map(|e| shape(vec![h; m], e, Cassettes::Different)))
        .chain([
            shape(vec![16; 16], 16, Cassettes::HalfBlank),
            shape((1..=16).collect(), 16, Cassettes::Different),
            shape(vec![16; 16], 16, Cassettes::PastAByte),
        ])
        .collect()
}

/// A start and a goal, as stores and as images.
pub struct Case {
    pub start: Store,
    pub goal: Store,
    pub start_image: Vec<u8>,
    pub goal_image: Vec<u8>,
}

impl Case {
    /// Both in the first form that holds them.
    pub fn new(start: Store, goal: Store) -> Case {
        Case {
            start_image: image::write_first(&start),
            goal_image: image::write_first(&goal),
            start,
            goal,
        }
    }
}

/// Random starts of a shape, each with a goal that can be reached from it.
pub fn cases(random: &mut Random, shape: &Shape, count: usize) -> Vec<Case> {
    (0..count).map(|_| case(random, shape)).collect()
}

fn case(random: &mut Random, shape: &Shape) -> Case {
    let n = shape.n();
    let cassettes = match shape.cassettes {
        Cassettes::Different => some_of(random, numbers_of_a_byte(), n),
        Cassettes::HalfBlank => half_blank(random, n),
        Cassettes::PastAByte => some_of(random, numbers_past_a_byte(), n),
    };
    let start = random.in_shafts(&shape.depths, cassettes);
    let goal = random.reachable_goal(&start);
    Case::new(start, goal)
}

/// `count` cassettes of which half are blanks, in random order.
fn half_blank(random: &mut Random, count: usize) -> Vec<u16> {
    let mut cassettes = some_of(random, (1..=254).collect(), count - count / 2);
    cassettes.resize(count, BLANK);
    random.shuffle(&mut cassettes);
    cassettes
}

/// `count` of some numbers, in random order.
fn some_of(random: &mut Random, mut numbers: Vec<u16>, count: usize) -> Vec<u16> {
    random.shuffle(&mut numbers);
    numbers.truncate(count);
    numbers
}

/// A log of so many entries that are true from the start, lifts and sightings about as often as each other.
pub fn log(random: &mut Random, case: &Case, entries: usize) -> Vec<u8> {
    logs::true_log(random, &case.start, entries).bytes
}

/// An order for each of the 255 numbers that the cassettes of a shape are taken from, in random order.
pub fn orders(random: &mut Random, shape: &Shape) -> Vec<Order> {
    let mut numbers = match shape.cassettes {
        Cassettes::Different | Cassettes::HalfBlank => numbers_of_a_byte(),
        Cassettes::PastAByte => numbers_past_a_byte(),
    };
    random.shuffle(&mut numbers);
    let order = |number| Order::naming(number, random);
    numbers.into_iter().map(order).collect()
}
