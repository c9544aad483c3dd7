//! Which alarms a scan changes, and whether its record has faults: found for all alarms of a kind without a
//! guess at either.

use super::step::Alarm;

/// Alarms of one kind, a bit each.
pub type Moving = u32;

/// What the parts of a record have in common, for one check of all.
#[derive(Default)]
pub struct Seen {
    /// How far readings are below the largest one, put together: the highest bit is set if one is beyond.
    pub room: u32,
    /// Command words, put together.
    pub commands: u32,
}

/// The alarms that change, and whether some part is faulty.
#[inline(always)]
pub fn look<A: Alarm<N>, const N: usize>(alarms: &[A], parts: &[[u8; N]], time: u64) -> (Moving, bool) {
    let mut moving = 0;
    let mut seen = Seen::default();
    for (n, (alarm, part)) in (0..).zip(alarms.iter().zip(parts)) {
        moving |= u32::from(alarm.unrest(part, time, &mut seen) != 0) << n;
    }
    (moving, (seen.room >> 31 != 0) | (seen.commands & !A::COMMANDS != 0))
}
