//! Where an alarm's bits stand in a word. A word has 64 bits: twelve digital alarms, or four analog ones.
//!
//! From an alarm's first place on, in the order in which events are written: enabled or disabled, suppressed
//! or not, count reset, then two places for each condition, acknowledged and changed (activated or returned).
//! Sets of conditions have their bits at the first of the two.

use std::hint::select_unpredictable;

/// An alarm's places before those of its conditions.
pub const ENABLING: u32 = 0;
pub const SUPPRESSION: u32 = 1;
pub const COUNT_RESET: u32 = 2;
pub const CONDITIONS: u32 = 3;

/// From an alarm's first place to the next one's.
pub const DIGITAL_STRIDE: u32 = 5;
pub const ANALOG_STRIDE: u32 = 16;

/// Analog alarms of a word, and words of a bank: the digital alarms' one, then those of the analog ones.
pub const FOUR: usize = 4;
pub const WORDS: usize = 4;
/// Places of all words.
pub const ALL: usize = 64 * WORDS;

/// The conditions of the first analog alarm of a word.
pub const HH: u16 = 1 << 3;
pub const H: u16 = 1 << 5;
pub const L: u16 = 1 << 7;
pub const LL: u16 = 1 << 9;
pub const ROC_POS: u16 = 1 << 11;
pub const ROC_NEG: u16 = 1 << 13;

/// Those of four.
pub const RATES: u64 = each(ROC_POS | ROC_NEG);
/// A side stands where its first level does: HH for the high one, L for the low one.
pub const SIDES: u64 = each(HH | L);

const fn each(bits: u16) -> u64 {
    bits as u64 * 0x0001_0001_0001_0001
}

/// The bits of four analog alarms, in one word.
#[inline(always)]
pub fn join([a, b, c, d]: [u16; FOUR]) -> u64 {
    u64::from(a) | u64::from(b) << 16 | u64::from(c) << 32 | u64::from(d) << 48
}

/// The sides of which a set has a level.
#[inline(always)]
pub fn sides(set: u64) -> u64 {
    (set | set >> 2) & SIDES
}

/// The levels of these sides.
#[inline(always)]
pub fn levels(sides: u64) -> u64 {
    sides | sides << 2
}

/// The places of a word's set bits, from the lowest on.
#[inline(always)]
pub fn places(mut word: u64) -> impl Iterator<Item = usize> {
    std::iter::from_fn(move || {
        let place = word.trailing_zeros() as usize;
        let some = word != 0;
        word &= word.wrapping_sub(1);
        some.then_some(place & 63)
    })
}

/// Visits the places of the set bits of all words, 64 to a word, from the lowest on: one loop without a guess
/// at where a word ends.
#[inline(always)]
pub fn visit_places(words: [u64; WORDS], mut visit: impl FnMut(usize)) {
    // The words with bits, behind one another; more than there can be, so that no index is out of bounds.
    let mut filled = [(0, 0); 8];
    let mut end = 0;
    for (n, word) in words.into_iter().enumerate() {
        filled[end & 7] = (word, 64 * n);
        end += usize::from(word != 0);
    }
    let (mut left, mut base) = filled[0];
    let mut next = 1;
    while next <= end {
        let (next_left, next_base) = filled[next & 7];
        visit((base + left.trailing_zeros() as usize) & (ALL - 1));
        left &= left.wrapping_sub(1);
        let done = left == 0;
        left = select_unpredictable(done, next_left, left);
        base = select_unpredictable(done, next_base, base);
        next += usize::from(done);
    }
}
