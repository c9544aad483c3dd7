//! One analog alarm.

use super::edges::{Edges, LEVELS};
use super::flags::{COUNT_RESET, ENABLING, Flags, Now, Set, acks};
use super::log::Log;
use super::look::Seen;
use super::rates::{RATES, RateLimits};
use super::report::report;
use super::runs::Runs;
use super::step::Alarm;
use crate::Report;
use crate::alarm::command;
use crate::scan::{ANALOG_LEN, decode_analog};
use crate::settings::{AnalogSettings, LARGEST_REAL};

#[derive(Clone, Debug)]
pub struct Analog {
    edges: Edges,
    flags: Flags,
    /// Of the last accepted scan, or `NONE`.
    commands: u32,
    sample: f32,
    /// When the sample was stored, and how long after it the next one is due.
    stored: u64,
    period: u64,
    rate: f32,
    rate_limits: RateLimits,
    runs: Runs,
    ack_required: Set,
    log: Log<16>,
    settings: AnalogSettings,
}

/// A word that no scan gives: there was none, and there is no sample.
const NONE: u32 = 1 << 31;

/// Levels met, and levels kept.
const FOUND_LEVELS: u32 = LEVELS as u32 * 0x1_0001;

impl Analog {
    /// By its settings and its number.
    pub fn new((settings, number): (AnalogSettings, u8)) -> Analog {
        Analog {
            edges: Edges::new(&settings),
            flags: Flags::FRESH,
            commands: NONE,
            sample: 0.0,
            stored: 0,
            period: if settings.roc_period == 0 { u64::MAX } else { settings.roc_period.into() },
            rate: 0.0,
            rate_limits: RateLimits::new(&settings),
            runs: Runs::new(settings.min_duration),
            ack_required: Set::from(settings.ack_required) * (LEVELS | RATES),
            log: Log::new(number, 1, &settings.severity),
            settings,
        }
    }

    /// Whether a sample is due, if the alarm is enabled and has a rate.
    #[inline(always)]
    fn is_due(&self, time: u64) -> bool {
        time.wrapping_sub(self.stored) >= self.period
    }

    pub fn report(&self, time: u64) -> Report {
        let settings = &self.settings;
        Report {
            rate: self.rate,
            elapsed: self.runs.elapsed(self.flags.met(), time),
            ..report(self.flags, self.commands, &self.log, settings.ack_required, &settings.severity)
        }
    }

    /// Steps 1 to 4, and the first sample.
    #[inline(always)]
    fn obey(&mut self, level: f32, commands: u32, time: u64) -> Set {
        let acting = command::acting(commands, self.commands);
        let (flags, orders) = self.flags.obey(acting, LEVELS | RATES);
        self.flags = flags;
        if orders & 1 << COUNT_RESET != 0 {
            self.log.counts = [0; 16];
        }
        if (orders & 1 << ENABLING != 0) | (self.commands == NONE) {
            (self.rate, self.sample, self.stored) = (0.0, level, time);
        }
        self.commands = commands;
        orders | acks(acting)
    }

    /// The rate conditions met: those of the last scan, or of a new sample.
    #[inline(always)]
    fn rates(&mut self, level: f32, time: u64) -> Set {
        let period = self.settings.roc_period;
        if !self.is_due(time) || self.flags.enabled() == 0 || period == 0 {
            return self.flags.met() & RATES;
        }
        self.rate = (level - self.sample) * 1000.0 / period as f32;
        (self.sample, self.stored) = (level, time);
        self.rate_limits.met(self.rate)
    }
}

impl Alarm<ANALOG_LEN> for Analog {
    const COMMANDS: u32 = command::ANALOG;

    #[inline(always)]
    fn unrest(&self, part: &[u8; ANALOG_LEN], time: u64, seen: &mut Seen) -> u32 {
        let (level, commands) = decode_analog(part);
        seen.room |= LARGEST_REAL.wrapping_sub(level.to_bits() & 0x7FFF_FFFF);
        seen.commands |= commands;
        // Rate conditions change with a sample only.
        let levels = self.flags.unrest(self.edges.find(level)) & FOUND_LEVELS;
        let unrest = levels | u32::from(self.is_due(time));
        (unrest * self.flags.enabled() as u32) | commands | self.commands
    }

    #[inline(always)]
    fn step(&mut self, part: &[u8; ANALOG_LEN], time: u64) -> Set {
        let (level, commands) = decode_analog(part);
        let orders = if commands | self.commands != 0 { self.obey(level, commands, time) } else { 0 };
        let was = self.flags;
        let rates = self.rates(level, time);
        let found = self.edges.find(level);
        let met = found.met() * was.enabled();
        self.runs.begin(was.met(), met, time);
        let ready = self.runs.ready(was.in_alarm(), time);
        let now = Now { orders, met: met | rates, kept: found.kept() | rates, ready };
        let (flags, events) = was.decide(&now, self.ack_required);
        self.flags = flags;
        events
    }

    #[inline(always)]
    fn enter(&mut self, place: usize, time: u64) -> u64 {
        self.log.enter(place, self.flags, self.runs.stamp(place, time), time)
    }
}
