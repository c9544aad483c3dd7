//! The conditions that an analog alarm's rate of change meets.

use super::flags::Set;
use crate::settings::AnalogSettings;

pub const ROC_POS: Set = 1 << 11;
pub const ROC_NEG: Set = 1 << 13;
pub const RATES: Set = ROC_POS | ROC_NEG;

/// ROCPos is met at or above its limit, ROCNeg at or below. What is not enabled is out of reach.
#[derive(Clone, Copy, Debug)]
pub struct RateLimits {
    positive: f32,
    negative: f32,
}

impl RateLimits {
    pub fn new(settings: &AnalogSettings) -> RateLimits {
        let reach = |limit: f32| if limit > 0.0 { limit } else { f32::INFINITY };
        RateLimits { positive: reach(settings.limits.roc_pos), negative: -reach(settings.limits.roc_neg) }
    }

    #[inline(always)]
    pub fn met(&self, rate: f32) -> Set {
        let positive = Set::from(rate >= self.positive) * ROC_POS;
        let negative = Set::from(rate <= self.negative) * ROC_NEG;
        positive | negative
    }
}
