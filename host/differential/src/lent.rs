//! Buffers lent to a call, between margins that it must not touch.

use std::ops::{Deref, DerefMut};

/// Elements on each side.
const MARGIN: usize = 8;

/// Reads as what is lent; is equal to another only if the margins are too.
#[derive(Clone, Debug, PartialEq, Eq)]
pub struct Lent<T>(Vec<T>);

// What they hold beforehand: something else at each place, so that an element moved or cleared is seen.

impl Lent<u8> {
    pub fn bytes(length: usize) -> Lent<u8> {
        let all = 0..length + 2 * MARGIN;
        Lent(all.map(|at| (at * 29) as u8 ^ 0xA5).collect())
    }
}

impl Lent<u64> {
    pub fn words(length: usize) -> Lent<u64> {
        let all = 0..(length + 2 * MARGIN) as u64;
        Lent(all.map(|at| !(at << 32 | at)).collect())
    }
}

impl<T: Copy + PartialEq> Lent<T> {
    /// Becomes what another one is.
    pub fn copy(&mut self, other: &Lent<T>) {
        self.0.clone_from(&other.0);
    }

    /// Whether all but the first `front` elements are those of another of the same length.
    pub fn is_kept_behind(&self, front: usize, other: &Lent<T>) -> bool {
        let end = MARGIN.saturating_add(front);
        front <= self.len()
            && self.0[..MARGIN] == other.0[..MARGIN]
            && self.0[end..] == other.0[end..]
    }

    /// Where two of them differ first, from the front of what is lent; below 0 in the margin before it.
    pub fn first_difference(&self, other: &Lent<T>) -> Option<isize> {
        let at = self.0.iter().zip(&other.0).position(|(a, b)| a != b);
        at.map(|at| at as isize - MARGIN as isize)
    }
}

impl<T> Deref for Lent<T> {
    type Target = [T];

    fn deref(&self) -> &[T] {
        &self.0[MARGIN..self.0.len() - MARGIN]
    }
}

impl<T> DerefMut for Lent<T> {
    fn deref_mut(&mut self) -> &mut [T] {
        let end = self.0.len() - MARGIN;
        &mut self.0[MARGIN..end]
    }
}
