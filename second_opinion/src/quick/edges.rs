//! What a reading of an analog alarm meets, and what it keeps in alarm.

use super::flags::{Found, Set};
use crate::settings::{AnalogSettings, Limits};

/// The levels among the conditions of an analog alarm.
pub const HH: Set = 1 << 3;
pub const H: Set = 1 << 5;
pub const L: Set = 1 << 7;
pub const LL: Set = 1 << 9;

pub const HIGH: Set = HH | H;
pub const LOW: Set = L | LL;
pub const LEVELS: Set = HIGH | LOW;

/// The farther limits. Where one is met, so is the nearer one of its side if that is enabled.
pub const FAR: Set = HH | LL;
/// A side stands where its first level does: HH for the high one, L for the low one.
pub const SIDES: Set = HH | L;

/// Where a condition begins or ends to be met or kept, as `CHANGES` says: at this reading and above.
#[derive(Clone, Debug)]
pub struct Edges([f32; 8]);

/// What changes at an edge: what is met, and 16 places further on what is kept.
const CHANGES: [u32; 8] = {
    let (hh, h, l, ll) = (HH as u32, H as u32, L as u32, LL as u32);
    [hh, h, l, ll, hh << 16, h << 16, l << 16, ll << 16]
};
/// What is met and kept below all edges.
const LOWEST: u32 = LOW as u32 * 0x1_0001;

impl Edges {
    /// A low limit is no longer met, or kept, from the next reading on. What is not enabled is out of reach.
    pub fn new(settings: &AnalogSettings) -> Edges {
        let Limits { hh, h, l, ll, deadband, .. } = settings.limits;
        let high = |enabled: bool, limit: f32| if enabled { limit } else { f32::INFINITY };
        let low = |enabled: bool, limit: f32| if enabled { limit.next_up() } else { -f32::INFINITY };
        Edges([
            high(settings.hh_enabled, hh),
            high(settings.h_enabled, h),
            low(settings.l_enabled, l),
            low(settings.ll_enabled, ll),
            hh - deadband,
            h - deadband,
            (l + deadband).next_up(),
            (ll + deadband).next_up(),
        ])
    }

    #[inline(always)]
    pub fn find(&self, level: f32) -> Found {
        let changes = self.0.iter().zip(&CHANGES);
        let changed = changes.fold(0, |all, (&edge, &change)| all | if level >= edge { change } else { 0 });
        Found(LOWEST ^ changed)
    }
}

/// The sides of which a set has a level.
#[inline(always)]
pub fn sides(set: Set) -> Set {
    (set | set >> 2) & SIDES
}
