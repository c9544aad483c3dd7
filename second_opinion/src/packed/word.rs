//! The conditions of many alarms, one bit each, and their step.

use super::journal::Journal;
use super::places::{CONDITIONS, COUNT_RESET, ENABLING, SUPPRESSION};
use crate::alarm::command;

#[derive(Clone, Copy, Debug, Default)]
pub struct Word {
    /// Its first place among those of all words.
    pub base: usize,
    /// Events of whole alarms.
    pub whole: u64,
    /// Conditions of alarms with AckRequired.
    pub ack_required: u64,
    /// Conditions, or of analog alarms sides, with MinDuration 0.
    pub instant: u64,
    /// Conditions of enabled alarms.
    pub enabled: u64,
    /// All places of suppressed alarms.
    pub suppressed: u64,
    /// Enabled and suppressed alarms, where events say so.
    pub modes: u64,
    pub met: u64,
    pub in_alarm: u64,
    pub unacknowledged: u64,
}

/// What one scan says of a word's alarms.
#[derive(Clone, Copy, Debug, Default)]
pub struct Now {
    /// What is commanded, each at the place of its event; a reset where its condition changes.
    pub orders: u64,
    /// Met conditions of enabled alarms.
    pub met: u64,
    /// What is in alarm and not among these is cleared.
    pub kept: u64,
}

/// The events of one scan, each at its place.
#[derive(Clone, Copy, Debug, Default)]
pub struct Step {
    pub events: u64,
    /// What raises: enabled, suppressed, activated.
    pub raised: u64,
    /// Activations whose row of met scans began before this scan.
    pub late: u64,
    pub suppressed: u64,
}

impl Word {
    /// One more alarm, with these conditions, from this place on.
    pub fn add(&mut self, first: u32, conditions: u64, ack_required: bool) {
        self.enabled |= conditions << first;
        self.whole |= ((1 << CONDITIONS) - 1) << first;
        self.modes |= 1 << (first + ENABLING);
        self.ack_required |= (u64::from(ack_required) * conditions) << first;
    }

    /// Steps 1 to 4 for the alarm from place `first` on, which has so many places and these conditions.
    #[inline(always)]
    pub fn obey(
        &mut self,
        (first, stride, conditions): (usize, u32, u64),
        acting: u32,
        journal: &mut Journal,
    ) -> u64 {
        let has = |bits: u32| u64::from(acting & bits != 0);
        let was = self.modes >> first;
        let enabled = (was & !has(command::DISABLE) | has(command::ENABLE)) & 1;
        let suppressed = (was >> SUPPRESSION & 1 | has(command::SUPPRESS)) & !has(command::UNSUPPRESS);
        let changed = (was ^ (enabled << ENABLING | suppressed << SUPPRESSION)) & 0b11;
        self.modes ^= changed << first;
        let places = ((1 << stride) - 1) << first;
        self.suppressed = self.suppressed & !places | (places * suppressed);
        self.enable(conditions << first, enabled);
        let count_reset = has(command::COUNT_RESET);
        if count_reset != 0 {
            journal.reset_counts(self.base + first, stride as usize);
        }
        let acks = has(command::ACK) * conditions;
        let reset = has(command::RESET) << (CONDITIONS + 1);
        (changed | count_reset << COUNT_RESET | acks | reset) << first
    }

    /// Conditions of a disabled alarm are not in alarm and acknowledged, and their runs are dropped.
    #[inline(always)]
    fn enable(&mut self, conditions: u64, enabled: u64) {
        let dropped = conditions * (enabled ^ 1);
        self.enabled = (self.enabled | conditions) & !dropped;
        self.met &= !dropped;
        self.in_alarm &= !dropped;
        self.unacknowledged &= !dropped;
    }

    /// Nothing, if a scan leaves all as it is.
    #[inline(always)]
    pub fn unrest(&self, now: &Now) -> u64 {
        now.orders | now.met ^ self.met | now.met & !self.in_alarm | self.in_alarm & !now.kept
    }

    /// Steps 5 to 7 for all conditions. What is met and `ready` is due.
    #[inline(always)]
    pub fn decide(&mut self, now: &Now, ready: u64) -> Step {
        let acknowledged = self.unacknowledged & now.orders;
        let returned = self.in_alarm & !now.kept;
        let activated = now.met & !self.in_alarm & ready;
        let late = activated & self.met;
        self.met = now.met;
        self.in_alarm ^= returned | activated;
        self.unacknowledged ^= acknowledged;
        self.unacknowledged |= activated & self.ack_required;
        Step {
            events: now.orders & self.whole | acknowledged | (returned | activated) << 1,
            raised: self.modes | self.in_alarm << 1,
            late: late << 1,
            suppressed: self.suppressed,
        }
    }
}
