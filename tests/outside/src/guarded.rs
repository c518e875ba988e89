//! Bytes or orders passed to a call, between guards.

use halyard_model::Random;

/// Guards on each side that the tests use, in bytes or in orders.
pub const GUARD: usize = 64;

/// What a guard is made of.
pub trait Noise: Copy + PartialEq {
    fn noise(random: &mut Random, count: usize) -> Vec<Self>;
}

impl Noise for u8 {
    fn noise(random: &mut Random, count: usize) -> Vec<u8> {
        random.bytes(count)
    }
}

/// Bytes or orders between two guards of noise, and a copy of all of it from before the call.
pub struct Guarded<T = u8> {
    guard: usize,
    before: Vec<T>,
    now: Vec<T>,
}

impl<T: Noise> Guarded<T> {
    /// Content to be read by a call.
    pub fn holding(random: &mut Random, guard: usize, content: &[T]) -> Guarded<T> {
        let mut before = T::noise(random, guard + content.len() + guard);
        before[guard..guard + content.len()].copy_from_slice(content);
        Guarded {
            guard,
            now: before.clone(),
            before,
        }
    }

    /// Space to be written by a call, full of noise.
    pub fn space(random: &mut Random, guard: usize, len: usize) -> Guarded<T> {
        let noise = T::noise(random, len);
        Guarded::holding(random, guard, &noise)
    }

    /// Where the content starts. It is derived from `&mut` so that a write through it, though forbidden, is seen.
    pub fn pointer(&mut self) -> *mut T {
        self.now[self.guard..].as_mut_ptr()
    }

    /// How long the content is.
    pub fn size(&self) -> usize {
        self.now.len() - 2 * self.guard
    }

    /// The content as it is now.
    pub fn content(&self) -> &[T] {
        &self.now[self.guard..self.guard + self.size()]
    }

    /// Everything except the first `count` of the content is as it was, guards included.
    pub fn kept_but(&self, count: usize) -> bool {
        let written = self.guard..self.guard + count;
        self.now[..written.start] == self.before[..written.start]
            && self.now[written.end..] == self.before[written.end..]
    }
}

#[cfg(test)]
mod tests {
    use super::*;

    #[test]
    fn each_changed_byte_is_seen() {
        let mut random = Random::new(3);
        for changed in 0..10 {
            let mut bytes = Guarded::holding(&mut random, 3, &[5, 6, 7, 8]);
            assert_eq!(bytes.content(), [5, 6, 7, 8]);
            assert!(bytes.kept_but(0));
            bytes.now[changed] ^= 1;
            assert!(!bytes.kept_but(0));
            assert_eq!(bytes.kept_but(2), (3..5).contains(&changed));
        }
    }
}
