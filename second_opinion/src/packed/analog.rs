//! Four analog alarms: one word.

use super::commands::Commands;
use super::journal::{Journal, Runs};
use super::lanes::Compared;
use super::places::{
    ANALOG_STRIDE, CONDITIONS, ENABLING, FOUR, H, HH, L, LL, RATES, ROC_NEG, ROC_POS, SIDES, levels, places,
    sides,
};
use super::rates::Rates;
use super::word::{Now, Word};
use crate::alarm::command;
use crate::scan::{self, ANALOG_LEN};
use crate::settings::AnalogSettings;

/// The conditions of the first alarm.
const SIX: u64 = (HH | H | L | LL | ROC_POS | ROC_NEG) as u64;

#[derive(Clone, Debug)]
pub struct Analog {
    pub settings: Vec<AnalogSettings>,
    compared: Compared,
    pub rates: Rates,
    pub commands: Commands<FOUR>,
}

impl Analog {
    /// `number` is that of the first alarm.
    pub fn new(number: u8, settings: &[AnalogSettings], word: &mut Word, journal: &mut Journal) -> Analog {
        let places = (0..).step_by(ANALOG_STRIDE as usize);
        for ((alarm, number), first) in settings.iter().zip(number..).zip(places) {
            word.add(first, SIX, alarm.ack_required);
            journal.enter(number, word.base + first as usize, 1, &alarm.severity);
            for side in [HH, L] {
                let place = first + side.trailing_zeros();
                word.instant |= u64::from(alarm.min_duration == 0) << place;
                journal.must_last(word.base + place as usize + 1, alarm.min_duration);
            }
        }
        Analog {
            settings: settings.to_vec(),
            compared: Compared::new(settings),
            rates: Rates::new(settings),
            commands: Commands::NONE,
        }
    }

    /// Steps 1 to 4, and what the levels mean.
    #[inline(always)]
    pub fn read(
        &mut self,
        parts: &[[u8; ANALOG_LEN]],
        time: u64,
        word: &mut Word,
        journal: &mut Journal,
    ) -> Now {
        let found = self.compared.find(parts);
        let orders = if found.commanded != 0 { self.obey(parts, found.commanded, word, journal) } else { 0 };
        self.commands.given = found.commanded;
        let rates = self.rates.met(parts, word, time);
        Now { orders, met: found.met & word.enabled | rates, kept: found.kept | rates }
    }

    /// Steps 1 to 4 for the alarms with commands.
    #[inline(never)]
    fn obey(
        &mut self,
        parts: &[[u8; ANALOG_LEN]],
        commanded: u64,
        word: &mut Word,
        journal: &mut Journal,
    ) -> u64 {
        let mut orders = 0;
        for first in places(commanded) {
            let index = first / ANALOG_STRIDE as usize;
            let Some(part) = parts.get(index) else { break };
            let acting = self.commands.acting(first, index, scan::decode_analog(part).1);
            let acks = acting >> command::PROG_ACKS | acting >> command::OPER_ACKS;
            let acks = u64::from(SPREAD[(acks & 0x3F) as usize]);
            orders |= word.obey((first, ANALOG_STRIDE, SIX), acting, journal) | acks << first;
            if orders >> first & 1 << ENABLING != 0 {
                self.rates.restart(index);
            }
        }
        orders
    }
}

/// Rows of levels at their conditions' places, runs of sides one place further.
#[inline(always)]
pub fn runs(word: &Word, met: u64) -> Runs {
    let met = met & levels(SIDES & !word.instant);
    let (run, ran) = (sides(met), sides(word.met));
    Runs {
        begun: met & !word.met & !word.in_alarm | (run & !ran) << 1,
        waiting: (run & ran & !sides(word.in_alarm)) << 1,
    }
}

/// The conditions that are due if met.
#[inline(always)]
pub fn ready(word: &Word, lasted: u64) -> u64 {
    levels(word.instant | sides(word.in_alarm) | lasted >> 1 & SIDES) | RATES
}

/// Six bits at the places of six conditions.
const SPREAD: [u16; 64] = {
    let mut table = [0; 64];
    let mut set = 0;
    while set < 64 {
        let mut n = 0;
        while n < 6 {
            table[set] |= (set as u16 >> n & 1) << (CONDITIONS as usize + 2 * n);
            n += 1;
        }
        set += 1;
    }
    table
};
