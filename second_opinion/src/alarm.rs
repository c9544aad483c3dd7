//! One alarm: its settings, its memory, and the step of one scan.
//!
//! A step is worked out first (`step`, which changes nothing) and carried out later (`commit`), so that
//! a scan can still be refused when all its events are counted.

use crate::EVENT_LEN;
use crate::settings::{AnalogSettings, DigitalSettings, acting_severity};

/// A set of an alarm's conditions, by bit: 0 the digital one; 0 to 5 HH, H, L, LL, ROCPos, ROCNeg.
type Set = u32;

const HIGH: Set = 0b00_0011;
const LOW: Set = 0b00_1100;
const RATES: Set = 0b11_0000;
const SIX: Set = 0b11_1111;

/// Counts stop here.
const MOST_COUNTED: u32 = i32::MAX as u32;

/// Condition number of events that concern the whole alarm.
const WHOLE: u8 = 7;

/// The bits of a command word.
pub mod command {
    pub const ACK: u32 = 1 << 0 | 1 << 7;
    pub const RESET: u32 = 1 << 1 | 1 << 8;
    pub const DISABLE: u32 = 1 << 2 | 1 << 9;
    pub const ENABLE: u32 = 1 << 3 | 1 << 10;
    pub const SUPPRESS: u32 = 1 << 4 | 1 << 11;
    pub const UNSUPPRESS: u32 = 1 << 5 | 1 << 12;
    pub const COUNT_RESET: u32 = 1 << 6;
    /// The first of six acknowledgements by condition, of the program and of the operator.
    pub const PROG_ACKS: u32 = 13;
    pub const OPER_ACKS: u32 = 19;
    pub const IN_FAULT: u32 = 1 << 25;

    /// Bits that a kind of alarm has.
    pub const DIGITAL: u32 = 0x1FFF | IN_FAULT;
    pub const ANALOG: u32 = 0x03FF_FFFF & !RESET;

    /// Bits that command only where the scan before had them clear.
    const EDGE: u32 = 1 << 0 | 1 << 1 | 1 << 6 | 0x3F << PROG_ACKS;

    /// The bits of `now` that command something after a scan with the bits of `before`.
    pub fn acting(now: u32, before: u32) -> u32 {
        now & !(before & EDGE) & !IN_FAULT
    }
}

/// The events of one alarm in one scan, a bit each, in the order in which they are written: bits 0 to 4
/// for kinds 1 to 5, then from bit 8 on four bits for each condition, the lower three for kinds 6 to 8.
#[derive(Clone, Copy, Debug, Default, PartialEq, Eq)]
pub struct Events(u32);

impl Events {
    const COUNT_RESET: u32 = 1 << 4;

    pub fn count(self) -> u32 {
        self.0.count_ones()
    }

    fn of_conditions(acknowledged: Set, returned: Set, activated: Set) -> u32 {
        let spread = |set: Set| SPREAD[(set & SIX) as usize];
        spread(acknowledged) | spread(returned) << 1 | spread(activated) << 2
    }
}

/// A set of six with four bits for each member, from bit 8 on.
const SPREAD: [u32; 64] = {
    let mut table = [0; 64];
    let mut set = 0;
    while set < 64 {
        let mut n = 0;
        while n < 6 {
            table[set] |= ((set as u32 >> n) & 1) << (8 + 4 * n);
            n += 1;
        }
        set += 1;
    }
    table
};

/// What one scan leaves for the next to decide by, times aside: three sets of conditions and the mode, a
/// byte each of one word.
#[derive(Clone, Copy, Debug, Default, PartialEq, Eq)]
pub struct State(u32);

impl State {
    const UNACKNOWLEDGED: u32 = 8;
    const MET: u32 = 16;
    const ENABLED: u32 = 1 << 24;
    const SUPPRESSED: u32 = 1 << 25;
    /// A rate sample is stored.
    const SAMPLED: u32 = 1 << 26;

    const FRESH: State = State(State::ENABLED);

    pub fn in_alarm(self) -> Set {
        self.0 & SIX
    }

    pub fn unacknowledged(self) -> Set {
        self.0 >> State::UNACKNOWLEDGED & SIX
    }

    /// Conditions met in the last scan, if the alarm was enabled in it.
    fn met(self) -> Set {
        self.0 >> State::MET & SIX
    }

    fn has(self, mode: u32) -> bool {
        self.0 & mode != 0
    }

    pub fn enabled(self) -> bool {
        self.has(State::ENABLED)
    }

    pub fn suppressed(self) -> bool {
        self.has(State::SUPPRESSED)
    }

    /// Steps 1 to 3: the mode after the commands, and the events of the whole alarm.
    #[inline(always)]
    fn obey(self, acting: u32) -> (u32, u32) {
        let mode = self.0 & (State::ENABLED | State::SUPPRESSED);
        if acting == 0 {
            return (mode, 0);
        }
        let has = |bits: u32| acting & bits != 0;
        let enabled = has(command::ENABLE) | (self.enabled() & !has(command::DISABLE));
        let suppressed = !has(command::UNSUPPRESS) & (self.suppressed() | has(command::SUPPRESS));
        let events = u32::from(self.enabled() & !enabled)
            | u32::from(!self.enabled() & enabled) << 1
            | u32::from(!self.suppressed() & suppressed) << 2
            | u32::from(self.suppressed() & !suppressed) << 3
            | u32::from(has(command::COUNT_RESET)) << 4;
        let mode = (u32::from(enabled) * State::ENABLED) | (u32::from(suppressed) * State::SUPPRESSED);
        (mode, events)
    }

    /// Steps 5 to 7 for all conditions of an enabled alarm at once. `freed` are the conditions that are
    /// cleared if not met, `ready` those that are due if met.
    #[inline(always)]
    fn decide(
        self,
        mode: u32,
        acks: Set,
        met: Set,
        freed: Set,
        ready: Set,
        ack_required: Set,
    ) -> (State, u32) {
        let acknowledged = self.unacknowledged() & acks;
        let returned = self.in_alarm() & !met & freed;
        let activated = met & ready & !self.in_alarm();
        let in_alarm = self.in_alarm() & !returned | activated;
        let unacknowledged = self.unacknowledged() & !acks | activated & ack_required;
        let state = mode | in_alarm | unacknowledged << State::UNACKNOWLEDGED | met << State::MET;
        (State(state), Events::of_conditions(acknowledged, returned, activated))
    }
}

/// Count and stamps of one condition.
#[derive(Clone, Copy, Debug, Default)]
pub struct Log {
    pub count: u32,
    pub alarm_time: u64,
    pub ack_time: u64,
    pub return_time: u64,
}

/// The memory that both kinds of alarm have, for `N` conditions.
#[derive(Clone, Debug)]
pub struct Memory<const N: usize> {
    pub state: State,
    /// Command word of the last accepted scan.
    pub commands: u32,
    pub reset_time: u64,
    /// Where a condition is in `state.met`: the first time of its row of met scans.
    met_since: [u64; N],
    pub logs: [Log; N],
}

impl<const N: usize> Memory<N> {
    const FRESH: Memory<N> = Memory {
        state: State::FRESH,
        commands: 0,
        reset_time: 0,
        met_since: [0; N],
        logs: [Log { count: 0, alarm_time: 0, ack_time: 0, return_time: 0 }; N],
    };
}

/// How an alarm's events are written.
#[derive(Clone, Copy, Debug)]
struct Labels<const N: usize> {
    ack_required: bool,
    /// Number of the first condition: 0 digital, 1 analog.
    first: u8,
    severity: [u16; N],
}

/// The step of one alarm, worked out and not yet carried out.
#[derive(Clone, Copy, Debug, Default)]
pub struct Next {
    pub state: State,
    pub commands: u32,
    pub events: Events,
}

/// Where events go: the slots behind those already written, and the time of the scan.
pub struct Outlet<'a> {
    pub time: u64,
    pub slots: std::slice::IterMut<'a, [u8; EVENT_LEN]>,
}

impl Outlet<'_> {
    fn put(&mut self, alarm: u8, condition: u8, kind: u8, suppressed: bool, severity: u16) {
        let head = u64::from(alarm)
            | u64::from(condition) << 8
            | u64::from(kind) << 16
            | u64::from(suppressed) << 24
            | u64::from(severity) << 32;
        if let Some(slot) = self.slots.next() {
            slot[..8].copy_from_slice(&head.to_le_bytes());
            slot[8..].copy_from_slice(&self.time.to_le_bytes());
        }
    }
}

impl<const N: usize> Memory<N> {
    /// Carries a step out: state, stamps, counts and events.
    #[inline(always)]
    fn commit(&mut self, next: &Next, labels: &Labels<N>, alarm: u8, out: &mut Outlet) {
        self.begin_rows(next.state.met() & !self.state.met(), out.time);
        self.state = next.state;
        self.commands = next.commands;

        let suppressed = next.state.suppressed();
        let mut events = next.events.0;
        while events != 0 {
            let bit = events.trailing_zeros() as u8;
            let event = events & events.wrapping_neg();
            events ^= event;
            if bit < 8 {
                if event == Events::COUNT_RESET {
                    self.reset_time = out.time;
                    self.logs.iter_mut().for_each(|log| log.count = 0);
                }
                out.put(alarm, WHOLE, bit + 1, suppressed, 0);
                continue;
            }
            let (condition, kind) = ((bit - 8) / 4, 6 + bit % 4);
            let n = usize::from(condition);
            let (Some(log), Some(&since), Some(&severity)) =
                (self.logs.get_mut(n), self.met_since.get(n), labels.severity.get(n))
            else {
                continue; // no step has events of conditions that its alarm lacks
            };
            log.enter(kind, since, labels.ack_required, out.time);
            out.put(alarm, labels.first + condition, kind, suppressed, severity);
        }
    }

    /// The conditions whose row of met scans begins in a scan.
    #[inline(always)]
    fn begin_rows(&mut self, mut begun: Set, time: u64) {
        while begun != 0 {
            if let Some(since) = self.met_since.get_mut(begun.trailing_zeros() as usize) {
                *since = time;
            }
            begun &= begun - 1;
        }
    }
}

impl Log {
    /// Enters an event of kind 6, 7 or 8; `since` is when the row of met scans began.
    #[inline(always)]
    fn enter(&mut self, kind: u8, since: u64, ack_required: bool, time: u64) {
        match kind {
            6 => self.ack_time = time,
            7 => self.return_time = time,
            _ => {
                self.count = MOST_COUNTED.min(self.count.saturating_add(1));
                self.alarm_time = since;
                if !ack_required {
                    self.ack_time = since;
                }
            }
        }
    }
}

#[derive(Clone, Debug)]
pub struct Digital {
    pub settings: DigitalSettings,
    pub memory: Memory<1>,
    labels: Labels<1>,
}

impl Digital {
    pub fn fresh(settings: DigitalSettings) -> Digital {
        let severity = [acting_severity(settings.severity)];
        Digital {
            settings,
            memory: Memory::FRESH,
            labels: Labels { ack_required: settings.ack_required, first: 0, severity },
        }
    }

    #[inline(always)]
    pub fn step(&self, time: u64, input: bool, commands: u32) -> Next {
        let was = self.memory.state;
        let acting = command::acting(commands, self.memory.commands);
        let (mode, whole) = was.obey(acting);
        if mode & State::ENABLED == 0 {
            // Step 4: all sets empty.
            return Next { state: State(mode), commands, events: Events(whole) };
        }
        let met = Set::from(input == self.settings.condition);
        let freed = Set::from(!self.settings.latched || acting & command::RESET != 0);
        let ready = Set::from(self.run(was, time) >= u64::from(self.settings.min_duration));
        let acks = Set::from(acting & command::ACK != 0);
        let (state, own) = was.decide(mode, acks, met, freed, ready, Set::from(self.settings.ack_required));
        Next { state, commands, events: Events(whole | own) }
    }

    #[inline(always)]
    pub fn commit(&mut self, next: &Next, alarm: u8, out: &mut Outlet) {
        self.memory.commit(next, &self.labels, alarm, out);
    }

    /// How long the run that `state` is in has lasted at `time`; 0 without one.
    pub fn run(&self, state: State, time: u64) -> u64 {
        if state.met() == 0 { 0 } else { time.wrapping_sub(self.memory.met_since[0]) }
    }
}

/// An analog alarm's limits as the scan compares with them. What is not enabled is out of reach.
#[derive(Clone, Copy, Debug)]
struct Thresholds {
    /// HH, H, L, LL: met at or beyond.
    enter: [f32; 4],
    /// HH, H, L, LL: cleared when not met and strictly inside.
    leave: [f32; 4],
    /// ROCPos met at or above the first, ROCNeg at or below the second.
    rates: (f32, f32),
}

impl Thresholds {
    fn new(settings: &AnalogSettings) -> Thresholds {
        const NEVER: f32 = f32::INFINITY;
        let limits = settings.limits;
        let rate = |limit: f32| {
            if settings.roc_period > 0 && limit > 0.0 { limit } else { NEVER }
        };
        Thresholds {
            enter: [
                if settings.hh_enabled { limits.hh } else { NEVER },
                if settings.h_enabled { limits.h } else { NEVER },
                if settings.l_enabled { limits.l } else { -NEVER },
                if settings.ll_enabled { limits.ll } else { -NEVER },
            ],
            leave: [
                limits.hh - limits.deadband,
                limits.h - limits.deadband,
                limits.l + limits.deadband,
                limits.ll + limits.deadband,
            ],
            rates: (rate(limits.roc_pos), -rate(limits.roc_neg)),
        }
    }

    fn met(&self, level: f32, rate: f32) -> Set {
        let [hh, h, l, ll] = self.enter;
        Set::from(level >= hh)
            | Set::from(level >= h) << 1
            | Set::from(level <= l) << 2
            | Set::from(level <= ll) << 3
            | Set::from(rate >= self.rates.0) << 4
            | Set::from(rate <= self.rates.1) << 5
    }

    fn freed(&self, level: f32) -> Set {
        let [hh, h, l, ll] = self.leave;
        Set::from(level < hh)
            | Set::from(level < h) << 1
            | Set::from(level > l) << 2
            | Set::from(level > ll) << 3
            | RATES
    }
}

#[derive(Clone, Debug)]
pub struct Analog {
    pub settings: AnalogSettings,
    pub memory: Memory<6>,
    /// Where a side has a condition in `state.met`: the first time of the side's run, high and low.
    run_since: [u64; 2],
    /// The rate sample, where there is one.
    sample: f32,
    sample_time: u64,
    pub rate: f32,
    thresholds: Thresholds,
    labels: Labels<6>,
}

/// The step of an analog alarm: the reading becomes the sample, or not, and the rate.
#[derive(Clone, Copy, Debug, Default)]
pub struct AnalogNext {
    next: Next,
    sample: Option<f32>,
    rate: f32,
}

impl AnalogNext {
    pub fn events(&self) -> Events {
        self.next.events
    }
}

impl Analog {
    pub fn fresh(settings: AnalogSettings) -> Analog {
        let severity = settings.severity.map(acting_severity);
        Analog {
            settings,
            memory: Memory::FRESH,
            run_since: [0; 2],
            sample: 0.0,
            sample_time: 0,
            rate: 0.0,
            thresholds: Thresholds::new(&settings),
            labels: Labels { ack_required: settings.ack_required, first: 1, severity },
        }
    }

    fn sample_is_due(&self, time: u64) -> bool {
        let period = self.settings.roc_period;
        (period > 0) & (time.wrapping_sub(self.sample_time) >= u64::from(period))
    }

    #[inline(always)]
    pub fn step(&self, time: u64, level: f32, commands: u32) -> AnalogNext {
        let was = self.memory.state;
        let acting = command::acting(commands, self.memory.commands);
        let (mode, whole) = was.obey(acting);
        if mode & State::ENABLED == 0 {
            // Step 4: all sets empty, no sample.
            let next = Next { state: State(mode), commands, events: Events(whole) };
            return AnalogNext { next, sample: None, rate: 0.0 };
        }
        let (rate, sample) = if !was.has(State::SAMPLED) {
            (0.0, Some(level))
        } else if self.sample_is_due(time) {
            let difference = level - self.sample;
            (difference * 1000.0 / self.settings.roc_period as f32, Some(level))
        } else {
            (self.rate, None)
        };
        let met = self.thresholds.met(level, rate);
        let freed = self.thresholds.freed(level);

        let min_duration = u64::from(self.settings.min_duration);
        let [high_run, low_run] = self.runs(was, time);
        let high_ready = (high_run >= min_duration) | (was.in_alarm() & HIGH != 0);
        let low_ready = (low_run >= min_duration) | (was.in_alarm() & LOW != 0);
        let ready = RATES | (Set::from(high_ready) * HIGH) | (Set::from(low_ready) * LOW);

        let all = Set::from(acting & command::ACK != 0) * SIX;
        let acks = all | (acting >> command::PROG_ACKS | acting >> command::OPER_ACKS) & SIX;
        let ack_required = Set::from(self.settings.ack_required) * SIX;
        let (state, own) = was.decide(mode | State::SAMPLED, acks, met, freed, ready, ack_required);
        AnalogNext { next: Next { state, commands, events: Events(whole | own) }, sample, rate }
    }

    #[inline(always)]
    pub fn commit(&mut self, next: &AnalogNext, alarm: u8, out: &mut Outlet) {
        let (before, now) = (self.memory.state.met(), next.next.state.met());
        for (since, side) in self.run_since.iter_mut().zip([HIGH, LOW]) {
            if before & side == 0 && now & side != 0 {
                *since = out.time;
            }
        }
        if let Some(level) = next.sample {
            self.sample = level;
            self.sample_time = out.time;
        }
        self.rate = next.rate;
        self.memory.commit(&next.next, &self.labels, alarm, out);
    }

    /// How long the runs that `state` is in have lasted at `time`, high and low side; 0 without one.
    pub fn runs(&self, state: State, time: u64) -> [u64; 2] {
        let run = |side: Set, since: u64| {
            if state.met() & side == 0 { 0 } else { time.wrapping_sub(since) }
        };
        [run(HIGH, self.run_since[0]), run(LOW, self.run_since[1])]
    }
}
