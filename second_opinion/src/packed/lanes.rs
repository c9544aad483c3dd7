//! Four analog alarms compared at once.

use super::places::{ANALOG_STRIDE, FOUR, H, HH, L, LL, join};
use crate::scan::ANALOG_LEN;
use crate::settings::{AnalogSettings, Limits};

/// One number of each of four alarms.
pub type Lanes = [f32; FOUR];

/// What the levels of four alarms are compared with.
#[derive(Clone, Debug)]
pub struct Compared {
    /// HH, H, L, LL: met at or beyond. A level that is not enabled is out of reach.
    enter: [Lanes; 4],
    /// HH, H, L, LL: in alarm it stays at or beyond, which is where it is met, and by the deadband less far.
    leave: [Lanes; 4],
}

/// What a record says of up to four alarms.
#[derive(Clone, Copy, Debug, Default)]
pub struct Found {
    pub met: u64,
    pub kept: u64,
    /// Alarms that have a command, at their first places.
    pub commanded: u64,
}

impl Compared {
    pub fn new(settings: &[AnalogSettings]) -> Compared {
        let out_of_reach = [f32::INFINITY, f32::INFINITY, -f32::INFINITY, -f32::INFINITY];
        let mut compared =
            Compared { enter: out_of_reach.map(|limit| [limit; FOUR]), leave: [[0.0; FOUR]; 4] };
        for (n, alarm) in settings.iter().enumerate() {
            let Limits { hh, h, l, ll, deadband, .. } = alarm.limits;
            let enabled = [alarm.hh_enabled, alarm.h_enabled, alarm.l_enabled, alarm.ll_enabled];
            let leave = [hh - deadband, h - deadband, l + deadband, ll + deadband];
            for (level, limit) in [hh, h, l, ll].into_iter().enumerate() {
                if enabled[level] {
                    compared.enter[level][n] = limit;
                }
                compared.leave[level][n] = leave[level];
            }
        }
        compared
    }

    #[inline(always)]
    pub fn find(&self, parts: &[[u8; ANALOG_LEN]]) -> Found {
        let mut found = [[0; FOUR]; 3];
        match parts.try_into() {
            Ok(parts) => self.find_four(parts, &mut found),
            Err(_) => return self.find_few(parts),
        }
        let [met, kept, commanded] = found.map(join);
        Found { met, kept, commanded }
    }

    /// A call of its own that fills arrays: so the compiler takes all four alarms at once.
    #[inline(never)]
    fn find_four(&self, parts: &[[u8; ANALOG_LEN]; FOUR], found: &mut [[u16; FOUR]; 3]) {
        for n in 0..FOUR {
            [found[0][n], found[1][n], found[2][n]] = self.find_one(n, &parts[n]);
        }
    }

    /// The same for fewer than four.
    fn find_few(&self, parts: &[[u8; ANALOG_LEN]]) -> Found {
        let mut all = Found::default();
        for (n, part) in (0..FOUR).zip(parts) {
            let [met, kept, commanded] =
                self.find_one(n, part).map(|found| u64::from(found) << (ANALOG_STRIDE as usize * n));
            all.met |= met;
            all.kept |= kept;
            all.commanded |= commanded;
        }
        all
    }

    #[inline(always)]
    fn find_one(&self, n: usize, part: &[u8; ANALOG_LEN]) -> [u16; 3] {
        let part = u64::from_le_bytes(*part);
        let (level, commands) = (f32::from_bits(part as u32), (part >> 32) as u32);
        [
            beyond(level, self.enter.each_ref().map(|limits| limits[n])),
            beyond(level, self.leave.each_ref().map(|limits| limits[n])),
            u16::from(commands != 0),
        ]
    }
}

/// The limits HH, H, L, LL that a level is at or beyond.
#[inline(always)]
fn beyond(level: f32, [hh, h, l, ll]: [f32; 4]) -> u16 {
    let bit = |set: bool, bit: u16| if set { bit } else { 0 };
    bit(level >= hh, HH) | bit(level >= h, H) | bit(level <= l, L) | bit(level <= ll, LL)
}
