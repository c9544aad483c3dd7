//! Random settings images and scan records.

use super::{Reading, analog, digital, image, record};
use second_opinion::EVENTS_ENOUGH;

pub struct Random(pub u64);

impl Random {
    pub fn next(&mut self) -> u64 {
        self.0 = self.0.wrapping_add(0x9E37_79B9_7F4A_7C15);
        let mut z = self.0;
        z = (z ^ z >> 30).wrapping_mul(0xBF58_476D_1CE4_E5B9);
        z = (z ^ z >> 27).wrapping_mul(0x94D0_49BB_1331_11EB);
        z ^ z >> 31
    }

    pub fn below(&mut self, n: u64) -> u64 {
        self.next() % n
    }

    pub fn one_in(&mut self, n: u64) -> bool {
        self.below(n) == 0
    }

    pub fn pick<T: Copy>(&mut self, from: &[T]) -> T {
        from[self.below(from.len() as u64) as usize]
    }
}

const LARGEST: f32 = 999_999_986_991_104.0;
const SMALLEST: f32 = f32::from_bits(1);
const SEVERITIES: [i32; 9] = [i32::MIN, -3, 0, 1, 2, 700, 1000, 1001, i32::MAX];
const DURATIONS: [u32; 9] = [0, 0, 0, 1, 10, 20, 35, 1000, i32::MAX as u32];
const PERIODS: [u32; 7] = [0, 1, 7, 10, 30, 1000, 3_600_000];
const DEADBANDS: [f32; 7] = [0.0, -0.0, 0.5, 1.0, 1.5, SMALLEST, 100.0];
const RATE_LIMITS: [f32; 8] = [0.0, -0.0, SMALLEST, 0.5, 1.0, 100.0, 500.0, LARGEST];
/// Where limits lie around: also where a REAL's neighbours are two apart, among the smallest, at the ends.
const BASES: [f32; 6] = [0.0, 0.0, 700.0, 16_777_216.0, LARGEST, -LARGEST];
const DIGITAL_BITS: u32 = 0x0200_1FFF;
const ANALOG_BITS: u32 = 0x03FF_FFFF & !0x102;

/// What readings are made of: `None` for a digital alarm, else levels of interest.
pub type Interest = Option<Vec<f32>>;

fn any_digital(random: &mut Random) -> Vec<u8> {
    digital(random.below(8) as u8, random.pick(&SEVERITIES), random.pick(&DURATIONS))
}

/// Four limits that rise, and a deadband; now and then ones that are refused.
fn any_limits(random: &mut Random) -> [f32; 5] {
    if random.one_in(6) {
        let tiny = |n: u32| f32::from_bits(n);
        return [tiny(9), tiny(6), -tiny(3), -tiny(4), tiny(random.below(4) as u32)];
    }
    let base = random.pick(&BASES);
    let unit = if base.abs() == LARGEST { 1e9 } else { random.pick(&[1.0, 1.0, 25.0]) };
    let base = base.clamp(-LARGEST + 9e9, LARGEST - 9e9);
    let deadband = random.pick(&DEADBANDS);
    [base + 8.0 * unit, base + 6.0 * unit, base, base - 2.0 * unit, deadband]
}

fn any_analog(random: &mut Random) -> (Vec<u8>, Interest) {
    let limits = any_limits(random);
    let [hh, h, l, ll, deadband] = limits;
    let severity = std::array::from_fn(|_| random.pick(&SEVERITIES));
    let reals = [hh, h, l, ll, deadband, random.pick(&RATE_LIMITS), random.pick(&RATE_LIMITS)];
    let flags = random.below(32) as u8;
    let record = analog(flags, severity, reals, random.pick(&PERIODS), random.pick(&DURATIONS));
    let mut levels = vec![0.0, -0.0, SMALLEST, -SMALLEST, LARGEST, -LARGEST, (h + l) / 2.0];
    for limit in [hh, h, l, ll] {
        for edge in [limit, limit - deadband, limit + deadband] {
            levels.extend([edge, edge, edge.next_up(), edge.next_down()]);
        }
    }
    levels.retain(|level| level.abs() <= LARGEST);
    (record, Some(levels))
}

/// A settings image with what its alarms' readings are made of.
pub fn any_image(random: &mut Random) -> (Vec<u8>, Vec<Interest>) {
    let (digitals, analogs) = (random.pick(&[1, 4, 13]), random.pick(&[1, 4, 13]));
    let (digitals, analogs) = (random.below(digitals), random.below(analogs));
    let digitals: Vec<_> = (0..digitals).map(|_| any_digital(random)).collect();
    let (analogs, levels): (Vec<_>, Vec<_>) = (0..analogs).map(|_| any_analog(random)).unzip();
    let interests = digitals.iter().map(|_| None).chain(levels).collect();
    (image(&digitals, &analogs), interests)
}

fn any_word(random: &mut Random, all: u32, calm: u64) -> u32 {
    if !random.one_in(calm) {
        return 0;
    }
    match random.below(5) {
        0 => random.next() as u32 & all,
        1 => random.next() as u32 & random.next() as u32 & all,
        2 => random.next() as u32 & random.next() as u32 & random.next() as u32 & all,
        3 => 1 << random.below(26) & all,
        _ => random.pick(&[1, 1 << 7, 1 << 6, 1 << 25, 1 << 2, 1 << 10, 1 << 11, 1 << 12, 1 << 8]) & all,
    }
}

/// How a list goes: one in so many readings and words is another one.
pub struct Mood {
    steady: u64,
    calm: u64,
    pub steps: &'static [u64],
}

pub const MOODS: [Mood; 5] = [
    Mood { steady: 1, calm: 8, steps: &[0, 1, 5, 10, 10, 15] },
    Mood { steady: 1, calm: 1, steps: &[0, 10] },
    Mood { steady: 5, calm: 40, steps: &[0, 1, 5, 10, 100] },
    Mood { steady: 3, calm: 3, steps: &[10, 1000, 1 << 31, (1 << 31) - 1, 1 << 32, 3_600_000] },
    Mood { steady: 20, calm: 200, steps: &[1, 10, 300] },
];

/// The next reading and command word of an alarm.
pub fn any_part(random: &mut Random, mood: &Mood, interest: &Interest, last: Reading) -> (Reading, u32) {
    let other = random.one_in(mood.steady);
    match interest {
        None => {
            let reading = if other { Reading::Digital(random.below(2) as u8) } else { last };
            (reading, any_word(random, DIGITAL_BITS, mood.calm))
        }
        Some(levels) => {
            let reading = if other { Reading::Level(random.pick(levels)) } else { last };
            (reading, any_word(random, ANALOG_BITS, mood.calm))
        }
    }
}

/// Makes one alarm's part of a record faulty: reading, command word, or both.
fn spoil(random: &mut Random, part: &mut (Reading, u32)) {
    let beyond = [LARGEST.next_up(), -LARGEST.next_up(), f32::INFINITY, f32::NAN, -f32::NAN, f32::MAX];
    let (bad_reading, bad_bit) = match part.0 {
        Reading::Digital(_) => (Reading::Digital(random.pick(&[2, 3, 128, 255])), [13, 18, 24, 26, 31]),
        Reading::Level(_) => (Reading::Level(random.pick(&beyond)), [1, 8, 26, 30, 31]),
    };
    let which = random.below(3);
    if which != 0 {
        part.0 = bad_reading;
    }
    if which != 1 {
        part.1 |= 1 << random.pick(&bad_bit);
    }
}

pub fn any_length(random: &mut Random) -> usize {
    match random.below(8) {
        0 => random.below(100) as usize,
        1 => random.below(600) as usize,
        2 => random.below(EVENTS_ENOUGH as u64 + 17) as usize,
        _ => EVENTS_ENOUGH,
    }
}

/// The record of a scan, now and then with faults, too early or of another length.
pub fn any_record(random: &mut Random, time: u64, parts: &[(Reading, u32)]) -> Vec<u8> {
    let mut parts = parts.to_vec();
    if random.one_in(15) && !parts.is_empty() {
        for _ in 0..random.pick(&[1, 1, 2]) {
            let n = random.below(parts.len() as u64) as usize;
            spoil(random, &mut parts[n]);
        }
    }
    let now = if random.one_in(40) { time.saturating_sub(random.below(20)) } else { time };
    let mut record = record(now, &parts);
    if random.one_in(50) {
        record.resize(random.below(record.len() as u64 + 9) as usize, 0);
    }
    record
}
