//! How long the levels of an analog alarm have been met.

use super::edges::{FAR, HIGH, LEVELS, LOW, SIDES, sides};
use super::flags::Set;
use super::rates::RATES;
use std::hint::select_unpredictable;

#[derive(Clone, Copy, Debug)]
pub struct Runs {
    /// When the run of the side that is met began, which is the row of its nearer limit, and the row of its
    /// farther one. The two sides are never met at once.
    run: u64,
    far_row: u64,
    /// MinDuration.
    lasting: u64,
}

impl Runs {
    pub fn new(min_duration: u32) -> Runs {
        Runs { run: 0, far_row: 0, lasting: min_duration.into() }
    }

    /// Begins the run and the row of levels that are met and were not.
    #[inline(always)]
    pub fn begin(&mut self, was: Set, met: Set, time: u64) {
        let begun_sides = sides(met) & !sides(was);
        let begun = met & !was & FAR;
        self.run = select_unpredictable(begun_sides != 0, time, self.run);
        self.far_row = select_unpredictable(begun != 0, time, self.far_row);
    }

    /// The conditions that are due if met.
    #[inline(always)]
    pub fn ready(&self, in_alarm: Set, time: u64) -> Set {
        let lasted = Set::from(time.wrapping_sub(self.run) >= self.lasting);
        let sides = sides(in_alarm) | (lasted * SIDES);
        sides | sides << 2 | RATES
    }

    /// The stamp of a condition that is activated, by the place of that event.
    #[inline(always)]
    pub fn stamp(&self, place: usize, time: u64) -> u64 {
        let among = |set: Set| set << 1 >> place & 1 != 0;
        let row = select_unpredictable(among(FAR), self.far_row, self.run);
        select_unpredictable(among(LEVELS), row, time)
    }

    /// How long the runs of both sides have lasted, at most MinDuration; 0 without one.
    pub fn elapsed(&self, met: Set, time: u64) -> [u64; 2] {
        let run = time.wrapping_sub(self.run).min(self.lasting);
        [HIGH, LOW].map(|side| if met & side == 0 { 0 } else { run })
    }
}
