//! What the alarms leave behind: heads of their events, stamps, counts and starts of runs, each by its
//! place, 64 to a word.

use super::places::{ALL, CONDITIONS, COUNT_RESET, ENABLING, SUPPRESSION, WORDS, visit_places};
use super::word::Step;
use crate::EVENT_LEN;
use crate::settings::acting_severity;
use std::hint::select_unpredictable;

/// Condition number of events that concern the whole alarm.
const WHOLE: u8 = 7;

/// One kind of event at one place: its record's first eight bytes, and when it came last.
#[derive(Clone, Copy, Debug, Default)]
struct Line {
    head: u64,
    stamp: u64,
}

#[derive(Clone, Debug)]
pub struct Journal {
    /// Of each place the event that lowers (disabled, unsuppressed, returned) and the one that raises.
    lines: [[Line; 2]; ALL],
    /// Activations, where a condition changes.
    counts: [u32; ALL],
    /// When a row of met scans or a run began, and how long a run must last; rows and runs by the places that
    /// `digital::runs` and `analog::runs` give them.
    since: [u64; ALL],
    lasting: [u64; ALL],
}

impl Journal {
    pub fn new() -> Journal {
        Journal {
            lines: [[Line::default(); 2]; ALL],
            counts: [0; ALL],
            since: [0; ALL],
            lasting: [u64::MAX; ALL],
        }
    }

    /// Prepares the heads of an alarm's events, from its first place on; its first condition has that number.
    pub fn enter(&mut self, alarm: u8, first: usize, condition: u8, severity: &[i32]) {
        let mut put = |place: u32, raises: usize, condition: u8, kind: u8, severity: u16| {
            let head = [alarm, condition, kind, 0].map(u64::from);
            let head = head[0] | head[1] << 8 | head[2] << 16 | u64::from(severity) << 32;
            self.lines[first + place as usize][raises].head = head;
        };
        put(ENABLING, 0, WHOLE, 1, 0);
        put(ENABLING, 1, WHOLE, 2, 0);
        put(SUPPRESSION, 1, WHOLE, 3, 0);
        put(SUPPRESSION, 0, WHOLE, 4, 0);
        put(COUNT_RESET, 0, WHOLE, 5, 0);
        let places = (CONDITIONS..).step_by(2);
        for ((place, condition), &severity) in places.zip(condition..).zip(severity) {
            let severity = acting_severity(severity);
            put(place, 0, condition, 6, severity);
            put(place + 1, 0, condition, 7, severity);
            put(place + 1, 1, condition, 8, severity);
        }
    }

    /// A run at this place must last so long.
    pub fn must_last(&mut self, place: usize, min_duration: u32) {
        self.lasting[place] = min_duration.into();
    }

    #[inline(always)]
    pub fn reset_counts(&mut self, first: usize, stride: usize) {
        self.counts[first..first + stride].fill(0);
    }

    /// Activations at a condition's second place.
    pub fn count(&self, place: usize) -> u32 {
        self.counts[place]
    }

    /// When the event of a place that lowers, or raises, came last.
    pub fn lowered(&self, place: usize) -> u64 {
        self.lines[place][0].stamp
    }

    pub fn raised(&self, place: usize) -> u64 {
        self.lines[place][1].stamp
    }

    /// How long a run has lasted, at most MinDuration.
    pub fn elapsed(&self, place: usize, time: u64) -> u64 {
        time.wrapping_sub(self.since[place]).min(self.lasting[place])
    }

    /// Begins rows and runs, and finds the runs that have lasted long enough.
    #[inline(always)]
    pub fn run(&mut self, runs: &[Runs; WORDS], time: u64) -> [u64; WORDS] {
        let mut lasted = [0; WORDS];
        visit_places(runs.map(|runs| runs.begun | runs.waiting), |place| {
            let word = place / 64;
            let begins = runs[word].begun >> (place % 64) & 1 != 0;
            let since = select_unpredictable(begins, time, self.since[place]);
            self.since[place] = since;
            lasted[word] |= u64::from(time.wrapping_sub(since) >= self.lasting[place]) << (place % 64);
        });
        lasted
    }

    /// Writes the events of all steps with their stamps and counts, and gives their number.
    #[inline(always)]
    pub fn write(&mut self, steps: &[Step; WORDS], time: u64, events: &mut [u8]) -> usize {
        let slots = events.as_chunks_mut::<EVENT_LEN>().0;
        let all = slots.len();
        let mut slots = slots.iter_mut();
        visit_places(steps.map(|step| step.events), |place| {
            let step = &steps[place / 64];
            let has = |word: u64| word >> (place % 64) & 1;
            let raised = has(step.raised);
            let line = &mut self.lines[place][raised as usize];
            let since = self.since[place.saturating_sub(1)];
            line.stamp = select_unpredictable(has(step.late) != 0, since, time);
            // 2,147,483,647 stays.
            let activations = self.counts[place] + raised as u32;
            self.counts[place] = activations - (activations >> 31);
            let head = line.head | has(step.suppressed) << 24;
            if let Some(slot) = slots.next() {
                *slot = (u128::from(head) | u128::from(time) << 64).to_le_bytes();
            }
        });
        all - slots.len()
    }
}

/// Rows and runs: those that begin, and those that may have lasted long enough.
#[derive(Clone, Copy, Debug, Default)]
pub struct Runs {
    pub begun: u64,
    pub waiting: u64,
}
