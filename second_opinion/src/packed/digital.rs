//! The digital alarms: all in one word.

use super::commands::Commands;
use super::journal::{Journal, Runs};
use super::places::{CONDITIONS, DIGITAL_STRIDE, places};
use super::word::{Now, Word};
use crate::alarm::command;
use crate::scan::{self, DIGITAL_LEN};
use crate::settings::{DigitalSettings, MOST};

/// The condition of the first alarm.
const CONDITION: u64 = 1 << CONDITIONS;

#[derive(Clone, Debug)]
pub struct Digital {
    pub settings: Vec<DigitalSettings>,
    /// Alarms whose Condition is 0.
    inverted: u64,
    latched: u64,
    pub commands: Commands<MOST>,
}

/// The digital part of a record.
#[derive(Clone, Copy, Debug, Default)]
pub struct Inputs {
    /// The readings, where conditions are.
    set: u64,
    /// All readings and all command words, put together.
    readings: u8,
    commands: u32,
}

impl Inputs {
    #[inline(always)]
    pub fn of(parts: &[[u8; DIGITAL_LEN]]) -> Inputs {
        let mut inputs = Inputs::default();
        let (fours, rest) = parts.as_chunks::<4>();
        rest.iter().rev().for_each(|part| inputs.put([part]));
        fours.iter().rev().for_each(|four| inputs.put(four.each_ref()));
        inputs.set <<= CONDITIONS;
        inputs
    }

    /// Puts alarms before those already there.
    #[inline(always)]
    fn put<const N: usize>(&mut self, parts: [&[u8; DIGITAL_LEN]; N]) {
        self.set <<= DIGITAL_STRIDE * N as u32;
        for (n, part) in (0..).zip(parts) {
            let (reading, commands) = scan::decode_digital(part);
            self.set |= u64::from(reading) << (DIGITAL_STRIDE * n);
            self.readings |= reading;
            self.commands |= commands;
        }
    }

    #[inline(always)]
    pub fn are_faulty(&self) -> bool {
        (self.readings > 1) | (self.commands & !command::DIGITAL != 0)
    }
}

impl Digital {
    pub fn new(settings: Vec<DigitalSettings>, word: &mut Word, journal: &mut Journal) -> Digital {
        let (mut inverted, mut latched) = (0, 0);
        for ((alarm, number), first) in settings.iter().zip(1..).zip((0..).step_by(DIGITAL_STRIDE as usize)) {
            let place = first + CONDITIONS;
            word.add(first, CONDITION, alarm.ack_required);
            word.instant |= u64::from(alarm.min_duration == 0) << place;
            journal.enter(number, first as usize, 0, &[alarm.severity]);
            journal.must_last(place as usize, alarm.min_duration);
            inverted |= u64::from(!alarm.condition) << place;
            latched |= u64::from(alarm.latched) << place;
        }
        Digital { settings, inverted, latched, commands: Commands::NONE }
    }

    /// Steps 1 to 4, and what the inputs mean.
    #[inline(always)]
    pub fn read(
        &mut self,
        parts: &[[u8; DIGITAL_LEN]],
        inputs: &Inputs,
        word: &mut Word,
        journal: &mut Journal,
    ) -> Now {
        let commanded = if inputs.commands != 0 { commanded(parts) } else { 0 };
        let orders = if commanded != 0 { self.obey(parts, commanded, word, journal) } else { 0 };
        self.commands.given = commanded;
        let met = (inputs.set ^ self.inverted) & word.enabled;
        Now { orders, met, kept: met | self.latched & !(orders >> 1) }
    }

    /// Steps 1 to 4 for the alarms with commands.
    #[inline(never)]
    fn obey(
        &mut self,
        parts: &[[u8; DIGITAL_LEN]],
        commanded: u64,
        word: &mut Word,
        journal: &mut Journal,
    ) -> u64 {
        let mut orders = 0;
        for first in places(commanded) {
            let index = first / DIGITAL_STRIDE as usize;
            let Some(part) = parts.get(index) else { break };
            let acting = self.commands.acting(first, index % MOST, scan::decode_digital(part).1);
            orders |= word.obey((first, DIGITAL_STRIDE, CONDITION), acting, journal);
        }
        orders
    }
}

/// The alarms with a command, at their first places.
fn commanded(parts: &[[u8; DIGITAL_LEN]]) -> u64 {
    let words = parts.iter().rev().map(|part| scan::decode_digital(part).1);
    words.fold(0, |all, word| all << DIGITAL_STRIDE | u64::from(word != 0))
}

#[inline(always)]
pub fn runs(word: &Word, met: u64) -> Runs {
    let met = met & !word.instant;
    Runs { begun: met & !word.met, waiting: met & word.met & !word.in_alarm }
}

/// The alarms that are due if met.
#[inline(always)]
pub fn ready(word: &Word, lasted: u64) -> u64 {
    word.instant | lasted
}
