//! The rates of change of four analog alarms.

use super::lanes::Lanes;
use super::places::{ANALOG_STRIDE, FOUR, RATES, ROC_NEG, ROC_POS, join, places};
use super::word::Word;
use crate::scan::{self, ANALOG_LEN};
use crate::settings::AnalogSettings;

#[derive(Clone, Copy, Debug)]
pub struct Rates {
    /// No sample is due before this time.
    next: u64,
    /// In ms; 0 for alarms without a rate.
    period: [u32; FOUR],
    /// ROCPos is met at or above its limit, ROCNeg at or below. What is not enabled is out of reach.
    positive: Lanes,
    negative: Lanes,
    pub rate: Lanes,
    sample: Lanes,
    /// Whether there is a sample, and when it was stored.
    sampled: [bool; FOUR],
    stored: [u64; FOUR],
}

impl Rates {
    pub fn new(settings: &[AnalogSettings]) -> Rates {
        let mut rates = Rates {
            next: 0,
            period: [0; FOUR],
            positive: [f32::INFINITY; FOUR],
            negative: [-f32::INFINITY; FOUR],
            rate: [0.0; FOUR],
            sample: [0.0; FOUR],
            sampled: [false; FOUR],
            stored: [0; FOUR],
        };
        for (n, alarm) in settings.iter().enumerate() {
            rates.period[n] = alarm.roc_period;
            if alarm.limits.roc_pos > 0.0 {
                rates.positive[n] = alarm.limits.roc_pos;
            }
            if alarm.limits.roc_neg > 0.0 {
                rates.negative[n] = -alarm.limits.roc_neg;
            }
        }
        rates
    }

    /// An alarm was disabled or enabled: it has no sample.
    pub fn restart(&mut self, n: usize) {
        self.next = 0;
        self.rate[n] = 0.0;
        self.sampled[n] = false;
    }

    /// The rate conditions met: those of the last scan, until a sample is due.
    #[inline(always)]
    pub fn met(&mut self, parts: &[[u8; ANALOG_LEN]], word: &Word, time: u64) -> u64 {
        if time < self.next { word.met & RATES } else { self.sample(parts, word, time) }
    }

    /// Stores the samples that are due, with their rates, and finds the rate conditions met.
    #[inline(never)]
    fn sample(&mut self, parts: &[[u8; ANALOG_LEN]], word: &Word, time: u64) -> u64 {
        let mut met = word.met & RATES;
        let due = join(std::array::from_fn(|n| self.is_due(n, time).into()));
        for place in places(due & word.modes) {
            let n = place / ANALOG_STRIDE as usize;
            let Some(part) = parts.get(n) else { break };
            let (level, _) = scan::decode_analog(part);
            let rate = (level - self.sample[n]) * 1000.0 / self.period[n] as f32;
            let rate = if self.sampled[n] { rate } else { 0.0 };
            (self.rate[n], self.sample[n], self.stored[n], self.sampled[n]) = (rate, level, time, true);
            met &= !(u64::from(ROC_POS | ROC_NEG) << place);
            met |= (u64::from(rate >= self.positive[n]) * u64::from(ROC_POS)) << place;
            met |= (u64::from(rate <= self.negative[n]) * u64::from(ROC_NEG)) << place;
        }
        self.next = (0..FOUR).map(|n| self.next_of(n, word)).fold(u64::MAX, u64::min);
        met
    }

    fn is_due(&self, n: usize, time: u64) -> bool {
        (self.period[n] != 0)
            & (!self.sampled[n] | (time.wrapping_sub(self.stored[n]) >= u64::from(self.period[n])))
    }

    /// When an alarm's next sample is due: never without a rate or while disabled.
    fn next_of(&self, n: usize, word: &Word) -> u64 {
        let runs = (self.period[n] != 0) & (word.modes >> (ANALOG_STRIDE as usize * n) & 1 != 0);
        if runs { self.stored[n].saturating_add(self.period[n].into()) } else { u64::MAX }
    }
}
