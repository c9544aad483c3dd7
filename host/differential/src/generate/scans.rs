//! Scan records that are well formed: times, readings and command words that follow from those before.

use super::settings::{level, within, Analog, Settings};
use crate::rng::Rng;

/// Command bits of each kind of alarm.
pub const DIGITAL_BITS: u32 = 0x0200_1FFF;
pub const ANALOG_BITS: u32 = 0x03FF_FFFF & !(1 << 1 | 1 << 8);

const DISABLES: u32 = 1 << 2 | 1 << 9;
const ENABLES: u32 = 1 << 3 | 1 << 10;
const SUPPRESSION: u32 = 1 << 4 | 1 << 5 | 1 << 11 | 1 << 12;
/// Bits that command only where the scan before had them clear.
const EDGES: u32 = 1 << 0 | 1 << 1 | 1 << 6 | 0x3F << 13;

pub fn records(rng: &mut Rng, settings: &Settings) -> Vec<u8> {
    let manner = Manner::random(rng);
    let mut clock = Clock::random(rng, settings.spans());
    let mut inputs = vec![(0, 0); settings.digital.len()];
    let mut levels = vec![(0.0, 0); settings.analog.len()];
    let mut records = Vec::new();
    for _ in 0..scans(rng) {
        records.extend(clock.next(rng).to_le_bytes());
        for (input, word) in &mut inputs {
            *input = next_input(rng, *input);
            *word = manner.next_word(rng, *word, DIGITAL_BITS);
            records.push(*input);
            records.extend(word.to_le_bytes());
        }
        for (alarm, (level, word)) in settings.analog.iter().zip(&mut levels) {
            *level = next_level(rng, alarm, *level);
            *word = manner.next_word(rng, *word, ANALOG_BITS);
            records.extend(level.to_le_bytes());
            records.extend(word.to_le_bytes());
        }
    }
    records
}

fn scans(rng: &mut Rng) -> usize {
    match rng.below(20) {
        0 => rng.below(3),
        1..=12 => 3 + rng.below(20),
        13..=18 => 20 + rng.below(40),
        _ => 60 + rng.below(140),
    }
}

/// Times of the scans so far, and the spans after which something falls due.
struct Clock {
    times: Vec<u64>,
    spans: Vec<u64>,
    now: u64,
}

impl Clock {
    /// Starts early, late, or so late that 2^64 is near.
    fn random(rng: &mut Rng, mut spans: Vec<u64>) -> Clock {
        spans.push(rng.pick(&[1, 10, 500]));
        let now = match rng.below(10) {
            0..=3 => 0,
            4 | 5 => 1000,
            6 => rng.next() >> 20,
            7 => rng.pick(&[1 << 31, 1 << 32, 1 << 53, 1 << 63]) - rng.below(200) as u64,
            _ => u64::MAX - rng.next() % rng.pick(&[1, 50, 5000, 1 << 33]),
        };
        Clock {
            times: vec![now],
            spans,
            now,
        }
    }

    /// The same time again, a little later, or a span after one of the last scans: exactly, one ms before or after it.
    fn next(&mut self, rng: &mut Rng) -> u64 {
        let span = rng.pick(&self.spans);
        let next = match rng.below(10) {
            0 | 1 => self.now,
            2 => self.now.saturating_add(1),
            3 => self.now.saturating_add(rng.below(2000) as u64),
            _ => {
                let back = rng.below(self.times.len().min(6));
                let due = self.times[self.times.len() - 1 - back].saturating_add(span);
                rng.pick(&[due.saturating_sub(1), due, due, due.saturating_add(1)])
            }
        };
        self.now = self.now.max(next);
        self.times.push(self.now);
        self.now
    }
}

fn next_input(rng: &mut Rng, last: u8) -> u8 {
    if rng.percent(35) {
        1 - last
    } else {
        last
    }
}

/// As before, at or beside a limit, as far from the last one as the rate's limit, or anything.
fn next_level(rng: &mut Rng, alarm: &Analog, last: f32) -> f32 {
    match rng.below(20) {
        0..=5 => last,
        6..=15 => rng.pick(&alarm.readings),
        16..=18 => within(last + alarm.rate_step(rng)),
        _ => level(rng, 5),
    }
}

/// How a list commands: how often, and whether at all it disables or suppresses.
struct Manner {
    busy: usize,
    held: usize,
    bits: u32,
}

impl Manner {
    fn random(rng: &mut Rng) -> Manner {
        let mut bits = u32::MAX;
        if rng.percent(50) {
            bits &= !DISABLES;
        }
        if rng.percent(40) {
            bits &= !SUPPRESSION;
        }
        Manner {
            busy: rng.pick(&[0, 10, 25, 50, 90]),
            held: rng.pick(&[0, 20, 60]),
            bits,
        }
    }

    /// A command word after `last`, with bits that the kind of alarm has.
    fn next_word(&self, rng: &mut Rng, last: u32, kind: u32) -> u32 {
        if !rng.percent(self.busy) {
            return if rng.percent(self.held) { last } else { 0 };
        }
        let one = 1 << rng.below(26);
        let word = match rng.below(10) {
            0..=3 => one,
            4 => last | one,
            5 => last ^ one,
            // Held bits go or come back, and others stay.
            6 => last ^ (rng.bits() & EDGES),
            // Disable and enable, each by program and by operator, in any combination.
            7 => rng.bits() & (DISABLES | ENABLES),
            8 => rng.bits() & (SUPPRESSION | ENABLES | EDGES),
            _ => rng.bits(),
        };
        word & kind & self.bits
    }
}
