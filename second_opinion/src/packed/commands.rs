//! The command words of the last accepted scan.

use crate::alarm::command;

#[derive(Clone, Copy, Debug)]
pub struct Commands<const N: usize> {
    /// Alarms with a command in the last scan, at their first places. Words of others are out of date.
    pub given: u64,
    words: [u32; N],
}

impl<const N: usize> Commands<N> {
    pub const NONE: Commands<N> = Commands { given: 0, words: [0; N] };

    /// The word of the last scan of the alarm with this index, at this place.
    #[inline(always)]
    pub fn word(&self, place: usize, index: usize) -> u32 {
        self.words[index] * (self.given >> place & 1) as u32
    }

    /// The bits of a new word that command something.
    #[inline(always)]
    pub fn acting(&mut self, place: usize, index: usize, now: u32) -> u32 {
        let acting = command::acting(now, self.word(place, index));
        self.words[index] = now;
        acting
    }
}
