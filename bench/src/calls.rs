//! The C calls on a case.

use crate::cases::Case;
use halyard_outside::calls::{Answer, Order, c};
use halyard_outside::inputs::MOST_LIST_SPACE;

/// The list space lent: the most that any store asks for.
pub const LENT: usize = MOST_LIST_SPACE;

/// Checks the start's image.
pub fn check(case: &Case) -> Answer {
    let image = &case.start_image;
    // SAFETY: the pointer has as many bytes as are named.
    Answer::from_bits(unsafe { c::halyard_check(image.as_ptr(), image.len()) })
}

/// The yes or no.
pub fn reachable(case: &Case) -> Answer {
    let (start, goal) = (&case.start_image, &case.goal_image);
    // SAFETY: each pointer has as many bytes as are named.
    Answer::from_bits(unsafe {
        c::halyard_reachable(start.as_ptr(), start.len(), goal.as_ptr(), goal.len())
    })
}

/// Plans into a list.
pub fn plan(case: &Case, list: &mut [u8]) -> Answer {
    let (start, goal) = (&case.start_image, &case.goal_image);
    // SAFETY: each pointer has as many bytes as are named, and the list overlaps nothing.
    Answer::from_bits(unsafe {
        c::halyard_plan(
            start.as_ptr(),
            start.len(),
            goal.as_ptr(),
            goal.len(),
            list.as_mut_ptr(),
            list.len(),
        )
    })
}

/// Replays a list on the start.
pub fn replay(case: &Case, list: &[u8], out: &mut [u8]) -> Answer {
    let image = &case.start_image;
    // SAFETY: each pointer has as many bytes as are named, and `out` overlaps nothing.
    Answer::from_bits(unsafe {
        c::halyard_replay(
            image.as_ptr(),
            image.len(),
            list.as_ptr(),
            list.len(),
            out.as_mut_ptr(),
            out.len(),
        )
    })
}

/// Follows a log on the start.
pub fn follow(case: &Case, log: &[u8], out: &mut [u8]) -> Answer {
    let image = &case.start_image;
    // SAFETY: each pointer has as many bytes as are named, and `out` overlaps nothing.
    Answer::from_bits(unsafe {
        c::halyard_follow(
            image.as_ptr(),
            image.len(),
            log.as_ptr(),
            log.len(),
            out.as_mut_ptr(),
            out.len(),
        )
    })
}

/// Writes the store of an image in a form.
pub fn convert(image: &[u8], form: u8, out: &mut [u8]) -> Answer {
    // SAFETY: each pointer has as many bytes as are named, and the two do not overlap.
    Answer::from_bits(unsafe {
        c::halyard_convert(
            image.as_ptr(),
            image.len(),
            form,
            out.as_mut_ptr(),
            out.len(),
        )
    })
}

/// Answers a row of orders on the start.
pub fn uncover(case: &Case, orders: &mut [Order]) -> Answer {
    let image = &case.start_image;
    // SAFETY: each pointer has as many bytes or orders as are named, and the two do not overlap.
    Answer::from_bits(unsafe {
        c::halyard_uncover(
            image.as_ptr(),
            image.len(),
            orders.as_mut_ptr(),
            orders.len(),
        )
    })
}
