//! What an alarm leaves behind: its events written, with their stamps and counts.

use super::flags::{CONDITIONS, COUNT_RESET, ENABLING, Flags, SUPPRESSION};
use crate::EVENT_LEN;
use crate::settings::acting_severity;
use std::hint::select_unpredictable;

/// Condition number of events that concern the whole alarm.
const WHOLE: u8 = 7;

/// One kind of event: its records' first eight bytes, and when it came last.
#[derive(Clone, Copy, Debug, Default)]
pub struct Line {
    head: u64,
    pub stamp: u64,
}

/// The events of an alarm with at most `N` places, a power of two.
#[derive(Clone, Debug)]
pub struct Log<const N: usize> {
    /// Of each place the event that lowers (disabled, unsuppressed, returned) and the one that raises.
    pub lines: [[Line; 2]; N],
    /// Activations, where a condition changes.
    pub counts: [u32; N],
}

/// A scan: its time, and the slots behind the events already written.
pub struct Scan<'a> {
    pub time: u64,
    pub slots: std::slice::IterMut<'a, [u8; EVENT_LEN]>,
}

impl Scan<'_> {
    /// Writes the record of an event, whose first eight bytes are given.
    #[inline(always)]
    pub fn put(&mut self, head: u64) {
        if let Some(slot) = self.slots.next() {
            *slot = (u128::from(head) | u128::from(self.time) << 64).to_le_bytes();
        }
    }
}

impl<const N: usize> Log<N> {
    /// Prepares the heads of an alarm's events; its first condition has that number.
    pub fn new(alarm: u8, condition: u8, severity: &[i32]) -> Log<N> {
        let mut lines = [[Line::default(); 2]; N];
        let mut put = |place: u32, raises: usize, condition: u8, kind: u8, severity: u16| {
            let head = [alarm, condition, kind, 0].map(u64::from);
            let head = head[0] | head[1] << 8 | head[2] << 16 | u64::from(severity) << 32;
            lines[place as usize][raises].head = head;
        };
        put(ENABLING, 0, WHOLE, 1, 0);
        put(ENABLING, 1, WHOLE, 2, 0);
        put(SUPPRESSION, 1, WHOLE, 3, 0);
        put(SUPPRESSION, 0, WHOLE, 4, 0);
        put(COUNT_RESET, 0, WHOLE, 5, 0);
        let places = (CONDITIONS..).step_by(2);
        for ((place, condition), &severity) in places.zip(condition..).zip(severity) {
            let severity = acting_severity(severity);
            put(place, 0, condition, 6, severity);
            put(place + 1, 0, condition, 7, severity);
            put(place + 1, 1, condition, 8, severity);
        }
        Log { lines, counts: [0; N] }
    }

    /// Enters an event, and gives its record's first eight bytes. `stamp` is for one that raises.
    #[inline(always)]
    pub fn enter(&mut self, place: usize, flags: Flags, stamp: u64, time: u64) -> u64 {
        let raised = flags.raised() >> place & 1;
        let line = &mut self.lines[place][raised as usize];
        line.stamp = select_unpredictable(raised != 0, stamp, time);
        // 2,147,483,647 stays.
        let count = self.counts[place] + raised as u32;
        self.counts[place] = count - (count >> 31);
        line.head | flags.suppressed() << 24
    }
}
