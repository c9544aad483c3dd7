//! Settings of small banks, mostly acceptable.

use crate::case::Layout;
use crate::rng::Rng;
use second_opinion::Bank;

/// The largest magnitude of a REAL, and the longest ROCPeriod.
pub const LARGEST: f32 = 999_999_986_991_104.0;
pub const LONGEST_PERIOD: u32 = 3_600_000;
const LONGEST_DURATION: u32 = i32::MAX as u32;

pub struct Settings {
    pub digital: Vec<Digital>,
    pub analog: Vec<Analog>,
    pub is_factory: bool,
}

pub struct Digital {
    flags: u8,
    severity: i32,
    pub min_duration: u32,
}

pub struct Analog {
    flags: u8,
    severity: [i32; 6],
    /// HH, H, L, LL, Deadband, ROCPosLimit, ROCNegLimit.
    reals: [f32; 7],
    pub period: u32,
    pub min_duration: u32,
    /// Readings that a limit makes interesting.
    pub readings: Vec<f32>,
}

impl Settings {
    pub fn random(rng: &mut Rng) -> Settings {
        let (digital, analog) = (count(rng), count(rng));
        Settings {
            digital: (0..digital).map(|_| Digital::random(rng)).collect(),
            analog: (0..analog).map(|_| Analog::random(rng)).collect(),
            is_factory: false,
        }
    }

    /// Of a receiver without settings: Condition and AckRequired set, Severity 500.
    pub fn factory() -> Settings {
        let alarm = || Digital {
            flags: 0b011,
            severity: 500,
            min_duration: 0,
        };
        Settings {
            digital: (0..12).map(|_| alarm()).collect(),
            analog: Vec::new(),
            is_factory: true,
        }
    }

    pub fn layout(&self) -> Layout {
        Layout {
            digital: self.digital.len(),
            analog: self.analog.len(),
        }
    }

    pub fn image(&self) -> Vec<u8> {
        let mut image = vec![self.digital.len() as u8];
        self.digital.iter().for_each(|alarm| alarm.put(&mut image));
        image.push(self.analog.len() as u8);
        self.analog.iter().for_each(|alarm| alarm.put(&mut image));
        image
    }

    /// Every MinDuration and ROCPeriod: the times at which something falls due.
    pub fn spans(&self) -> Vec<u64> {
        let digital = self.digital.iter().map(|alarm| alarm.min_duration);
        let analog = self.analog.iter();
        let analog = analog.flat_map(|alarm| [alarm.min_duration, alarm.period]);
        digital.chain(analog).map(u64::from).collect()
    }
}

/// Alarms of one kind: few, as every rule shows with one.
fn count(rng: &mut Rng) -> usize {
    match rng.below(20) {
        0..=4 => 0,
        5..=12 => 1,
        13..=16 => 2,
        17 | 18 => 3 + rng.below(3),
        _ => 6 + rng.below(7),
    }
}

fn severity(rng: &mut Rng) -> i32 {
    match rng.below(4) {
        0 => rng.pick(&[i32::MIN, -3, -1, 0, 1001, 65_537, i32::MAX]),
        1 => rng.pick(&[1, 2, 999, 1000]),
        _ => rng.below(1001) as i32,
    }
}

fn min_duration(rng: &mut Rng) -> u32 {
    match rng.below(10) {
        0..=3 => 0,
        4..=7 => rng.pick(&[1, 2, 3, 10, 100, 1000]),
        8 => rng.below(5000) as u32,
        _ => rng.pick(&[LONGEST_DURATION, LONGEST_DURATION - 1, 1 << 24]),
    }
}

fn period(rng: &mut Rng) -> u32 {
    match rng.below(10) {
        0 | 1 => 0,
        2..=7 => rng.pick(&[1, 2, 3, 7, 10, 100, 1000]),
        8 => rng.below(5000) as u32,
        _ => rng.pick(&[LONGEST_PERIOD, LONGEST_PERIOD - 1]),
    }
}

impl Digital {
    fn random(rng: &mut Rng) -> Digital {
        Digital {
            flags: rng.below(8) as u8,
            severity: severity(rng),
            min_duration: min_duration(rng),
        }
    }

    fn put(&self, image: &mut Vec<u8>) {
        image.push(self.flags);
        image.extend(self.severity.to_le_bytes());
        image.extend(self.min_duration.to_le_bytes());
    }
}

impl Analog {
    /// Mostly the first of some that is accepted, else as it comes.
    fn random(rng: &mut Rng) -> Analog {
        let mut alarm = Analog::any(rng);
        let tries = if rng.percent(98) { 20 } else { 0 };
        for _ in 0..tries {
            if alarm.is_accepted() {
                break;
            }
            alarm = Analog::any(rng);
        }
        alarm
    }

    fn any(rng: &mut Rng) -> Analog {
        let scale = rng.below(SCALES);
        let mut levels = [0.0; 4].map(|_: f32| level(rng, scale));
        if rng.percent(95) {
            levels.sort_by(|a, b| b.total_cmp(a));
        }
        let deadband = deadband(rng, scale, levels);
        let readings = readings(levels, deadband);
        let period = period(rng);
        let [pos, neg] = [0; 2].map(|_| rate_limit(rng, &readings, period));
        let [hh, h, l, ll] = levels;
        Analog {
            flags: rng.below(32) as u8,
            severity: [0; 6].map(|_| severity(rng)),
            reals: [hh, h, l, ll, deadband, pos, neg],
            period,
            min_duration: min_duration(rng),
            readings,
        }
    }

    fn is_accepted(&self) -> bool {
        let mut image = vec![0, 1];
        self.put(&mut image);
        Bank::read(&image).is_ok()
    }

    fn put(&self, image: &mut Vec<u8>) {
        image.push(self.flags);
        let severities = self.severity.iter().map(|severity| severity.to_le_bytes());
        image.extend(severities.flatten());
        image.extend(self.reals.iter().flat_map(|real| real.to_le_bytes()));
        image.extend(self.period.to_le_bytes());
        image.extend(self.min_duration.to_le_bytes());
    }

    /// The change of a reading over one period that makes the rate come near one of its limits.
    pub fn rate_step(&self, rng: &mut Rng) -> f32 {
        let limit = rng.pick(&[self.reals[5], -self.reals[6]]);
        beside(rng, limit * self.period as f32 / 1000.0)
    }
}

const SCALES: usize = 6;

/// A level: the four limits of an alarm are of one scale, so that they meet each other.
pub fn level(rng: &mut Rng, scale: usize) -> f32 {
    let sign = rng.pick(&[1.0, 1.0, -1.0]);
    sign * match scale {
        0 => rng.below(12) as f32,
        1 => rng.below(100) as f32 * 0.1,
        2 => (500 + 20 * rng.below(25)) as f32,
        3 => f32::from_bits(rng.below(40) as u32),
        4 => f32::from_bits(LARGEST.to_bits() - rng.below(40) as u32),
        _ => f32::from_bits(rng.bits() % (LARGEST.to_bits() + 1)),
    }
}

/// None, some, or as wide as the limits allow: one REAL more or less decides whether they are accepted.
fn deadband(rng: &mut Rng, scale: usize, [hh, h, l, ll]: [f32; 4]) -> f32 {
    let gap = rng.pick(&[h, hh]) - rng.pick(&[l, ll]);
    let wide = match rng.below(10) {
        0..=2 => 0.0,
        3..=5 => gap / rng.pick(&[2.0, 3.0, 4.0, 10.0]),
        6 | 7 => beside(rng, gap),
        8 => level(rng, scale),
        _ => rng.pick(&[0.1, 0.5, 1.0, 20.0, f32::from_bits(1)]),
    };
    within(wide.abs())
}

/// None, or the rate from one interesting reading to another within one period.
fn rate_limit(rng: &mut Rng, readings: &[f32], period: u32) -> f32 {
    if rng.percent(30) {
        return 0.0;
    }
    let difference = rng.pick(readings) - rng.pick(readings);
    let rate = difference * 1000.0 / period.max(1) as f32;
    within(beside(rng, rate.abs()).abs())
}

/// Each limit, and Deadband to both sides of it; of each also the next REAL above and below. Then what no limit names.
fn readings(levels: [f32; 4], deadband: f32) -> Vec<f32> {
    let edges = levels
        .iter()
        .flat_map(|&level| [level, level, level - deadband, level + deadband]);
    let near = edges.flat_map(|edge| [edge, edge.next_down(), edge.next_up()]);
    let middle = (levels[1] + levels[2]) / 2.0;
    let others = [0.0, -0.0, 1.0, LARGEST, -LARGEST, middle, middle, middle];
    near.chain(others).map(within).collect()
}

/// The REAL itself or one beside it.
pub fn beside(rng: &mut Rng, real: f32) -> f32 {
    match rng.below(4) {
        0 => real.next_up(),
        1 => real.next_down(),
        _ => real,
    }
}

/// The nearest REAL of allowed magnitude.
pub fn within(real: f32) -> f32 {
    real.clamp(-LARGEST, LARGEST)
}
