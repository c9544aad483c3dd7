//! The alarms that change stepped, and their events written.

use super::flags::Set;
use super::log::Scan;
use super::look::{Moving, Seen};
use std::hint::select_unpredictable;

/// An alarm with `N` bytes of a record.
pub trait Alarm<const N: usize> {
    /// Bits that its command words may have.
    const COMMANDS: u32;

    /// Nothing, if its part of a record at this time leaves it as it is.
    fn unrest(&self, part: &[u8; N], time: u64, seen: &mut Seen) -> u32;

    /// Steps 1 to 7: the events, each at its place.
    fn step(&mut self, part: &[u8; N], time: u64) -> Set;

    /// Enters the event of a place, and gives its record's first eight bytes.
    fn enter(&mut self, place: usize, time: u64) -> u64;
}

#[inline(always)]
pub fn step<A: Alarm<N>, const N: usize>(
    alarms: &mut [A],
    parts: &[[u8; N]],
    mut moving: Moving,
    scan: &mut Scan,
) {
    if moving == 0 {
        return;
    }
    // With one alarm there is no guess at whose events come next.
    if let ([alarm], [part]) = (&mut *alarms, parts) {
        return step_one(alarm, part, scan);
    }
    let mut pending = Pending::default();
    while moving != 0 {
        let n = moving.trailing_zeros() as usize;
        moving &= moving - 1;
        let (Some(alarm), Some(part)) = (alarms.get_mut(n), parts.get(n)) else { break };
        pending.put(n, alarm.step(part, scan.time));
    }
    pending.visit(|n, place| {
        let Some(alarm) = alarms.get_mut(n) else { return };
        scan.put(alarm.enter(place, scan.time));
    });
}

#[inline(always)]
fn step_one<A: Alarm<N>, const N: usize>(alarm: &mut A, part: &[u8; N], scan: &mut Scan) {
    let mut events = alarm.step(part, scan.time);
    while events != 0 {
        scan.put(alarm.enter(place(events), scan.time));
        events &= events - 1;
    }
}

/// Alarms with their events, in rising order.
#[derive(Default)]
struct Pending {
    /// Events, and from bit 16 on the alarm's index.
    items: [u64; ROOM],
    count: usize,
}

/// More than there are alarms of one kind, so that no index is out of bounds.
const ROOM: usize = 16;
const EVENTS: u64 = 0xFFFF;

impl Pending {
    /// An alarm, if it has events: without a guess at that.
    #[inline(always)]
    fn put(&mut self, n: usize, events: Set) {
        self.items[self.count % ROOM] = events | (n as u64) << 16;
        self.count += usize::from(events != 0);
    }

    /// Visits every alarm's events: one loop without a guess at where an alarm's events end.
    #[inline(always)]
    fn visit(&self, mut visit: impl FnMut(usize, usize)) {
        let mut left = self.items[0];
        let mut next = 1;
        while next <= self.count {
            let following = self.items[next % ROOM];
            visit((left >> 16) as usize, place(left));
            left &= left.wrapping_sub(1);
            let done = left & EVENTS == 0;
            left = select_unpredictable(done, following, left);
            next += usize::from(done);
        }
    }
}

/// The place of the first event.
#[inline(always)]
fn place(events: Set) -> usize {
    events.trailing_zeros() as usize % 16
}
