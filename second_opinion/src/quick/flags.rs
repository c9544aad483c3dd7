//! An alarm's conditions and modes, a bit each of one word, and their step.
//!
//! Sets have 16 bits, in the order in which events are written: enabled or disabled, suppressed or not, count
//! reset, then two places for each condition, acknowledged and changed (activated or returned). Sets of
//! conditions have their bits at the first of the two.

use crate::alarm::command;

pub type Set = u64;

/// Places before those of the conditions.
pub const ENABLING: u32 = 0;
pub const SUPPRESSION: u32 = 1;
pub const COUNT_RESET: u32 = 2;
pub const CONDITIONS: u32 = 3;

/// Events of the whole alarm.
const WHOLE: Set = (1 << CONDITIONS) - 1;
const SET: Set = 0xFFFF;
/// The three sets of conditions.
const SETS: u64 = 0xFFFF_FFFF_FFFF;

/// What one scan leaves for the next to decide by, times aside: four sets.
#[derive(Clone, Copy, Debug)]
pub struct Flags(u64);

/// What one scan says of an alarm.
#[derive(Clone, Copy, Debug)]
pub struct Now {
    /// What is commanded, each at the place of its event; a reset where its condition changes.
    pub orders: Set,
    /// Met conditions, if the alarm is enabled.
    pub met: Set,
    /// What is in alarm and not among these is cleared.
    pub kept: Set,
    /// What is met and among these is due.
    pub ready: Set,
}

/// What a reading meets, and 16 places further on what it keeps in alarm.
#[derive(Clone, Copy, Debug, Default)]
pub struct Found(pub u32);

impl Found {
    #[inline(always)]
    pub fn met(self) -> Set {
        Set::from(self.0) & SET
    }

    #[inline(always)]
    pub fn kept(self) -> Set {
        Set::from(self.0 >> 16)
    }
}

impl Flags {
    pub const FRESH: Flags = Flags::new(0, 0, 0, 1 << ENABLING);

    #[inline(always)]
    const fn new(met: Set, in_alarm: Set, unacknowledged: Set, modes: Set) -> Flags {
        Flags(met | in_alarm << 16 | unacknowledged << 32 | modes << 48)
    }

    /// Conditions met in the last scan, if the alarm was enabled in it.
    #[inline(always)]
    pub fn met(self) -> Set {
        self.0 & SET
    }

    #[inline(always)]
    pub fn in_alarm(self) -> Set {
        self.0 >> 16 & SET
    }

    #[inline(always)]
    pub fn unacknowledged(self) -> Set {
        self.0 >> 32 & SET
    }

    /// Enabled and suppressed, where events say so.
    #[inline(always)]
    fn modes(self) -> Set {
        self.0 >> 48
    }

    /// 1 or 0.
    #[inline(always)]
    pub fn enabled(self) -> u64 {
        self.modes() >> ENABLING & 1
    }

    #[inline(always)]
    pub fn suppressed(self) -> u64 {
        self.modes() >> SUPPRESSION & 1
    }

    /// Steps 1 to 4 for an alarm with these conditions: the flags after them, and what is commanded.
    #[inline(always)]
    pub fn obey(self, acting: u32, conditions: Set) -> (Flags, Set) {
        let has = |bits: u32| u64::from(acting & bits != 0);
        let enabled = self.enabled() & !has(command::DISABLE) | has(command::ENABLE);
        let suppressed = (self.suppressed() | has(command::SUPPRESS)) & !has(command::UNSUPPRESS);
        let modes = enabled << ENABLING | suppressed << SUPPRESSION;
        let acks = has(command::ACK) * conditions;
        let reset = has(command::RESET) << (CONDITIONS + 1);
        let count_reset = has(command::COUNT_RESET) << COUNT_RESET;
        let orders = (self.modes() ^ modes) | count_reset | acks | reset;
        // Conditions of a disabled alarm are not in alarm and acknowledged, and their runs are dropped.
        let sets = self.0 & SETS;
        (Flags((sets * enabled) | modes << 48), orders)
    }

    /// What raises, where events say so: enabled, suppressed, activated.
    #[inline(always)]
    pub fn raised(self) -> Set {
        self.modes() | self.in_alarm() << 1
    }

    /// Nothing, if what is found leaves all as it is without orders: as much is met, what is met is in alarm,
    /// and what is in alarm is kept.
    #[inline(always)]
    pub fn unrest(self, found: Found) -> u32 {
        let sets = self.0 as u32;
        let waiting = sets & !(sets >> 16) & SET as u32;
        (found.0 ^ sets) & (sets | SET as u32) | waiting
    }

    /// Steps 5 to 7 for all conditions: the flags after them, and the alarm's events.
    #[inline(always)]
    pub fn decide(self, now: &Now, ack_required: Set) -> (Flags, Set) {
        let acknowledged = self.unacknowledged() & now.orders;
        let returned = self.in_alarm() & !now.kept;
        let activated = now.met & !self.in_alarm() & now.ready;
        let in_alarm = self.in_alarm() ^ (returned | activated);
        let unacknowledged = self.unacknowledged() ^ acknowledged | activated & ack_required;
        let events = now.orders & WHOLE | acknowledged | (returned | activated) << 1;
        (Flags::new(now.met, in_alarm, unacknowledged, self.modes()), events)
    }
}

/// The conditions that a command word acknowledges one by one.
#[inline(always)]
pub fn acks(acting: u32) -> Set {
    let acks = acting >> command::PROG_ACKS | acting >> command::OPER_ACKS;
    Set::from(SPREAD[(acks & 0x3F) as usize])
}

/// Six bits at the places of six conditions.
const SPREAD: [u16; 64] = {
    let mut table = [0; 64];
    let mut set = 0;
    while set < 64 {
        let mut n = 0;
        while n < 6 {
            table[set] |= (set as u16 >> n & 1) << (CONDITIONS as usize + 2 * n);
            n += 1;
        }
        set += 1;
    }
    table
};
