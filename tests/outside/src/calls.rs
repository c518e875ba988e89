//! The seven C calls, each on guarded bytes and orders.

use crate::guarded::{Guarded, Noise};
use halyard_model::Random;
use halyard_model::image::{self, Form};
use halyard_model::random::MOST_IN_A_BYTE;
use halyard_model::store::BLANK;

pub mod c {
    //! As include/halyardgage.h declares them.

    /// `struct halyard_order`.
    #[repr(C)]
    #[derive(Clone, Copy, Debug, PartialEq, Eq)]
    pub struct Order {
        pub cassette: u16,
        pub number: u8,
        pub lifts: u8,
    }

    unsafe extern "C" {
        pub fn halyard_check(image: *const u8, image_len: usize) -> u64;
        pub fn halyard_reachable(
            start: *const u8,
            start_len: usize,
            goal: *const u8,
            goal_len: usize,
        ) -> u64;
        pub fn halyard_plan(
            start: *const u8,
            start_len: usize,
            goal: *const u8,
            goal_len: usize,
            list: *mut u8,
            list_len: usize,
        ) -> u64;
        pub fn halyard_replay(
            image: *const u8,
            image_len: usize,
            list: *const u8,
            list_len: usize,
            out: *mut u8,
            out_len: usize,
        ) -> u64;
        pub fn halyard_follow(
            image: *const u8,
            image_len: usize,
            log: *const u8,
            log_len: usize,
            out: *mut u8,
            out_len: usize,
        ) -> u64;
        pub fn halyard_convert(
            image: *const u8,
            image_len: usize,
            form: u8,
            out: *mut u8,
            out_len: usize,
        ) -> u64;
        pub fn halyard_uncover(
            image: *const u8,
            image_len: usize,
            orders: *mut Order,
            orders_len: usize,
        ) -> u64;
    }
}

pub use c::Order;

impl Order {
    /// An order for a cassette, with noise where its answer goes.
    pub fn naming(cassette: u16, random: &mut Random) -> Order {
        Order {
            cassette,
            number: random.byte(),
            lifts: random.byte(),
        }
    }
}

impl Noise for Order {
    fn noise(random: &mut Random, count: usize) -> Vec<Order> {
        let any = |_| Order::naming(random.word() as u16, random);
        (0..count).map(any).collect()
    }
}

/// The two parts of what a call returns.
#[derive(Clone, Copy, Debug, PartialEq, Eq)]
pub struct Answer {
    pub number: u8,
    pub count: u64,
}

impl Answer {
    pub fn of(number: u8, count: usize) -> Answer {
        Answer {
            number,
            count: count as u64,
        }
    }

    pub fn from_bits(bits: u64) -> Answer {
        Answer {
            number: bits as u8,
            count: bits >> 8,
        }
    }
}

/// A call's answer, and the lent space after it.
pub struct Written<T = u8> {
    pub answer: Answer,
    pub space: Guarded<T>,
}

/// How many answers had each number.
type Numbers = [u64; 256];

/// The same for each form, and for each two forms.
type ByForm = [Numbers; 3];
type ByForms = [ByForm; 3];

const NONE: Numbers = [0; 256];

/// A cassette that only form 2 holds.
fn past_a_byte(cassette: u16) -> bool {
    (MOST_IN_A_BYTE + 1..BLANK).contains(&cassette)
}

/// Makes the calls, with noise from a generator of its own, and sees after each that what it was given to read is unchanged.
pub struct Caller {
    random: Random,
    guard: usize,
    answers: Numbers,
    unequal: Numbers,
    past_a_byte: Numbers,
    forms: ByForm,
    pairs: ByForms,
    conversions: ByForms,
    orders: Numbers,
    orders_past_a_byte: Numbers,
    lifts: Numbers,
}

impl Caller {
    pub fn new(seed: u64, guard: usize) -> Caller {
        Caller {
            random: Random::new(seed),
            guard,
            answers: NONE,
            unequal: NONE,
            past_a_byte: NONE,
            forms: [NONE; 3],
            pairs: [[NONE; 3]; 3],
            conversions: [[NONE; 3]; 3],
            orders: NONE,
            orders_past_a_byte: NONE,
            lifts: NONE,
        }
    }

    /// How many answers had a number.
    pub fn answers_with(&self, number: u8) -> u64 {
        self.answers[usize::from(number)]
    }

    /// How many answers had a number where the image, or that of the start, has unequal depths.
    pub fn unequal_with(&self, number: u8) -> u64 {
        self.unequal[usize::from(number)]
    }

    /// How many answers had a number where the image, or that of the start, has a cassette that only form 2 holds.
    pub fn past_a_byte_with(&self, number: u8) -> u64 {
        self.past_a_byte[usize::from(number)]
    }

    /// How many answers had a number where the image, or that of the start, names a form.
    pub fn in_form_with(&self, form: Form, number: u8) -> u64 {
        self.forms[form as usize][usize::from(number)]
    }

    /// How many answers had a number where start and goal name these forms.
    pub fn pairs_with(&self, start: Form, goal: Form, number: u8) -> u64 {
        self.pairs[start as usize][goal as usize][usize::from(number)]
    }

    /// How many conversions from a form to a form were answered with a number.
    pub fn conversions_with(&self, from: Form, to: Form, number: u8) -> u64 {
        self.conversions[from as usize][to as usize][usize::from(number)]
    }

    /// How many orders were answered with a number.
    pub fn orders_with(&self, number: u8) -> u64 {
        self.orders[usize::from(number)]
    }

    /// How many orders for cassettes that only form 2 holds were answered with a number.
    pub fn orders_past_a_byte_with(&self, number: u8) -> u64 {
        self.orders_past_a_byte[usize::from(number)]
    }

    /// How many orders were answered with so many lifts, and number 0.
    pub fn orders_after(&self, lifts: u8) -> u64 {
        self.lifts[usize::from(lifts)]
    }

    fn answer(&mut self, bits: u64, image: &Guarded) -> Answer {
        let answer = Answer::from_bits(bits);
        let number = usize::from(answer.number);
        self.answers[number] += 1;
        if let Ok(form) = image::form_of(image.content()) {
            self.forms[form as usize][number] += 1;
        }
        if let Ok(store) = image::read(image.content()) {
            self.unequal[number] += u64::from(!store.equal_depths());
            self.past_a_byte[number] += u64::from(!Form::Depths.holds(&store));
        }
        answer
    }

    fn answer_on_two(&mut self, bits: u64, start: &Guarded, goal: &Guarded) -> Answer {
        let answer = self.answer(bits, start);
        let forms = [start, goal].map(|image| image::form_of(image.content()));
        if let [Ok(start), Ok(goal)] = forms {
            self.pairs[start as usize][goal as usize][usize::from(answer.number)] += 1;
        }
        answer
    }

    fn holding(&mut self, content: &[u8]) -> Guarded {
        Guarded::holding(&mut self.random, self.guard, content)
    }

    fn space(&mut self, len: usize) -> Guarded {
        Guarded::space(&mut self.random, self.guard, len)
    }

    pub fn check(&mut self, image: &[u8]) -> Answer {
        let mut image = self.holding(image);
        // SAFETY: the pointer has as many bytes as are named.
        let bits = unsafe { c::halyard_check(image.pointer(), image.size()) };
        assert!(image.kept_but(0), "check wrote to its image or beside it");
        self.answer(bits, &image)
    }

    pub fn reachable(&mut self, start: &[u8], goal: &[u8]) -> Answer {
        let (mut start, mut goal) = (self.holding(start), self.holding(goal));
        // SAFETY: each pointer has as many bytes as are named.
        let bits = unsafe {
            c::halyard_reachable(start.pointer(), start.size(), goal.pointer(), goal.size())
        };
        assert!(
            start.kept_but(0),
            "reachable wrote to its start or beside it"
        );
        assert!(goal.kept_but(0), "reachable wrote to its goal or beside it");
        self.answer_on_two(bits, &start, &goal)
    }

    pub fn plan(&mut self, start: &[u8], goal: &[u8], list_len: usize) -> Written {
        let (mut start, mut goal) = (self.holding(start), self.holding(goal));
        let mut list = self.space(list_len);
        // SAFETY: each pointer has as many bytes as are named, and no two of them overlap.
        let bits = unsafe {
            c::halyard_plan(
                start.pointer(),
                start.size(),
                goal.pointer(),
                goal.size(),
                list.pointer(),
                list.size(),
            )
        };
        assert!(start.kept_but(0), "plan wrote to its start or beside it");
        assert!(goal.kept_but(0), "plan wrote to its goal or beside it");
        Written {
            answer: self.answer_on_two(bits, &start, &goal),
            space: list,
        }
    }

    pub fn replay(&mut self, image: &[u8], list: &[u8], out_len: usize) -> Written {
        let (mut image, mut list) = (self.holding(image), self.holding(list));
        let mut out = self.space(out_len);
        // SAFETY: each pointer has as many bytes as are named, and no two of them overlap.
        let bits = unsafe {
            c::halyard_replay(
                image.pointer(),
                image.size(),
                list.pointer(),
                list.size(),
                out.pointer(),
                out.size(),
            )
        };
        assert!(image.kept_but(0), "replay wrote to its image or beside it");
        assert!(list.kept_but(0), "replay wrote to its list or beside it");
        Written {
            answer: self.answer(bits, &image),
            space: out,
        }
    }

    pub fn follow(&mut self, image: &[u8], log: &[u8], out_len: usize) -> Written {
        let (mut image, mut log) = (self.holding(image), self.holding(log));
        let mut out = self.space(out_len);
        // SAFETY: each pointer has as many bytes as are named, and no two of them overlap.
        let bits = unsafe {
            c::halyard_follow(
                image.pointer(),
                image.size(),
                log.pointer(),
                log.size(),
                out.pointer(),
                out.size(),
            )
        };
        assert!(image.kept_but(0), "follow wrote to its image or beside it");
        assert!(log.kept_but(0), "follow wrote to its log or beside it");
        Written {
            answer: self.answer(bits, &image),
            space: out,
        }
    }

    pub fn convert(&mut self, image: &[u8], form: u8, out_len: usize) -> Written {
        let mut image = self.holding(image);
        let mut out = self.space(out_len);
        // SAFETY: each pointer has as many bytes as are named, and the two do not overlap.
        let bits = unsafe {
            c::halyard_convert(
                image.pointer(),
                image.size(),
                form,
                out.pointer(),
                out.size(),
            )
        };
        assert!(image.kept_but(0), "convert wrote to its image or beside it");
        let answer = self.answer(bits, &image);
        if let (Ok(from), Ok(to)) = (image::form_of(image.content()), Form::named(form)) {
            self.conversions[from as usize][to as usize][usize::from(answer.number)] += 1;
        }
        Written { answer, space: out }
    }

    pub fn uncover(&mut self, image: &[u8], orders: &[Order]) -> Written<Order> {
        let mut image = self.holding(image);
        let mut orders = Guarded::holding(&mut self.random, self.guard, orders);
        // SAFETY: each pointer has as many bytes or orders as are named, and the two do not overlap.
        let bits = unsafe {
            c::halyard_uncover(
                image.pointer(),
                image.size(),
                orders.pointer(),
                orders.size(),
            )
        };
        assert!(image.kept_but(0), "uncover wrote to its image or beside it");
        let answer = self.answer(bits, &image);
        if answer.number == 0 {
            self.count(orders.content());
        }
        Written {
            answer,
            space: orders,
        }
    }

    fn count(&mut self, orders: &[Order]) {
        for order in orders {
            self.orders[usize::from(order.number)] += 1;
            if past_a_byte(order.cassette) {
                self.orders_past_a_byte[usize::from(order.number)] += 1;
            }
            if order.number == 0 {
                self.lifts[usize::from(order.lifts)] += 1;
            }
        }
    }
}
