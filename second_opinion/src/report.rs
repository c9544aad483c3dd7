//! The report of one alarm.

use crate::alarm::{Log, Memory, command};
use crate::settings::severity_is_invalid;
use crate::{Bank, Refusal};

/// All that is told about one alarm. A refused report stands for `Report::default()`.
#[derive(Clone, Copy, Debug, Default, PartialEq)]
pub struct Report {
    pub enabled: bool,
    pub suppressed: bool,
    /// InFault of the last accepted scan.
    pub in_faulted: bool,
    /// Some severity of the alarm is out of range.
    pub severity_inv: bool,
    pub reset_time: u64,
    /// 0 for a digital alarm.
    pub rate: f32,
    /// The run so far, at most MinDuration: high and low side, or the digital condition first.
    pub elapsed: [u64; 2],
    /// HH, H, L, LL, ROCPos, ROCNeg, or the digital condition first and five times nothing.
    pub conditions: [Condition; 6],
}

#[derive(Clone, Copy, Debug, Default, PartialEq, Eq)]
pub struct Condition {
    pub in_alarm: bool,
    pub acknowledged: bool,
    pub count: u32,
    pub alarm_time: u64,
    pub ack_time: u64,
    pub return_time: u64,
}

impl Bank {
    /// The report of alarm `n`, counted from 1.
    pub fn report(&self, n: u64) -> Result<Report, Refusal> {
        let index = usize::try_from(n).ok().and_then(|n| n.checked_sub(1));
        index.and_then(|index| self.report_at(index)).ok_or(Refusal::new(14, 0))
    }

    fn report_at(&self, index: usize) -> Option<Report> {
        if let Some(alarm) = self.digital.get(index) {
            let settings = &alarm.settings;
            let run = alarm.run(alarm.memory.state, self.time);
            return Some(Report {
                severity_inv: severity_is_invalid(settings.severity),
                elapsed: [run.min(settings.min_duration.into()), 0],
                ..alarm.memory.report()
            });
        }
        let alarm = self.analog.get(index - self.digital.len())?;
        let settings = &alarm.settings;
        let runs = alarm.runs(alarm.memory.state, self.time);
        Some(Report {
            severity_inv: settings.severity.into_iter().any(severity_is_invalid),
            rate: alarm.rate,
            elapsed: runs.map(|run| run.min(settings.min_duration.into())),
            ..alarm.memory.report()
        })
    }
}

impl<const N: usize> Memory<N> {
    /// The part of the report that both kinds of alarm have.
    fn report(&self) -> Report {
        let mut conditions = [Condition::default(); 6];
        for (n, (condition, log)) in conditions.iter_mut().zip(&self.logs).enumerate() {
            let &Log { count, alarm_time, ack_time, return_time } = log;
            *condition = Condition {
                in_alarm: self.state.in_alarm() >> n & 1 != 0,
                acknowledged: self.state.unacknowledged() >> n & 1 == 0,
                count,
                alarm_time,
                ack_time,
                return_time,
            };
        }
        Report {
            enabled: self.state.enabled(),
            suppressed: self.state.suppressed(),
            in_faulted: self.commands & command::IN_FAULT != 0,
            reset_time: self.reset_time,
            conditions,
            ..Report::default()
        }
    }
}
