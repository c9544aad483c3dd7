//! One digital alarm.

use super::flags::{CONDITIONS, COUNT_RESET, Flags, Found, Now, Set};
use super::log::Log;
use super::look::Seen;
use super::report::report;
use super::step::Alarm;
use crate::Report;
use crate::alarm::command;
use crate::scan::{DIGITAL_LEN, decode_digital};
use crate::settings::DigitalSettings;
use std::hint::select_unpredictable;

/// The one condition.
const CONDITION: Set = 1 << CONDITIONS;

#[derive(Clone, Debug)]
pub struct Digital {
    flags: Flags,
    /// What each input means.
    means: [Found; 2],
    /// Of the last accepted scan.
    commands: u32,
    /// When the run of met scans began, and how long it must last.
    since: u64,
    lasting: u64,
    ack_required: Set,
    log: Log<8>,
    settings: DigitalSettings,
}

impl Digital {
    /// By its settings and its number.
    pub fn new((settings, number): (DigitalSettings, u8)) -> Digital {
        let means = [false, true].map(|input| {
            let met = input == settings.condition;
            Found((u32::from(met) | u32::from(met | settings.latched) << 16) << CONDITIONS)
        });
        Digital {
            flags: Flags::FRESH,
            means,
            commands: 0,
            since: 0,
            lasting: settings.min_duration.into(),
            ack_required: Set::from(settings.ack_required) * CONDITION,
            log: Log::new(number, 0, &[settings.severity]),
            settings,
        }
    }

    /// Nothing is found while disabled.
    #[inline(always)]
    fn find(&self, input: u8) -> Found {
        let enabled = (self.flags.enabled() as u32).wrapping_neg();
        Found(self.means[usize::from(input & 1)].0 & enabled)
    }

    /// Steps 1 to 4.
    #[inline(always)]
    fn obey(&mut self, commands: u32) -> Set {
        let acting = command::acting(commands, self.commands);
        self.commands = commands;
        let (flags, orders) = self.flags.obey(acting, CONDITION);
        self.flags = flags;
        if orders & 1 << COUNT_RESET != 0 {
            self.log.counts = [0; 8];
        }
        orders
    }

    pub fn report(&self, time: u64) -> Report {
        // Without a run nothing has elapsed.
        let run = time.wrapping_sub(self.since).min(self.lasting);
        let elapsed = if self.flags.met() == 0 { 0 } else { run };
        let settings = &self.settings;
        Report {
            elapsed: [elapsed, 0],
            ..report(self.flags, self.commands, &self.log, settings.ack_required, &[settings.severity])
        }
    }
}

impl Alarm<DIGITAL_LEN> for Digital {
    const COMMANDS: u32 = command::DIGITAL;

    #[inline(always)]
    fn unrest(&self, part: &[u8; DIGITAL_LEN], _: u64, seen: &mut Seen) -> u32 {
        let (input, commands) = decode_digital(part);
        seen.room |= 1_u32.wrapping_sub(input.into());
        seen.commands |= commands;
        self.flags.unrest(self.find(input)) | commands | self.commands
    }

    #[inline(always)]
    fn step(&mut self, part: &[u8; DIGITAL_LEN], time: u64) -> Set {
        let (input, commands) = decode_digital(part);
        let orders = if commands | self.commands != 0 { self.obey(commands) } else { 0 };
        let was = self.flags;
        let found = self.find(input);
        let met = found.met();
        let since = select_unpredictable(met & !was.met() != 0, time, self.since);
        let lasted = time.wrapping_sub(since) >= self.lasting;
        // A reset frees what is latched.
        let kept = met | found.kept() & !(orders >> 1);
        let now = Now { orders, met, kept, ready: Set::from(lasted) << CONDITIONS };
        let (flags, events) = was.decide(&now, self.ack_required);
        (self.flags, self.since) = (flags, since);
        events
    }

    #[inline(always)]
    fn enter(&mut self, place: usize, time: u64) -> u64 {
        self.log.enter(place % 8, self.flags, self.since, time)
    }
}
