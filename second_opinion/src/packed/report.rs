//! The report of one alarm.

use super::Bank;
use super::places::{
    ANALOG_STRIDE, CONDITIONS, COUNT_RESET, DIGITAL_STRIDE, FOUR, HH, L, SUPPRESSION, sides,
};
use crate::alarm::command;
use crate::settings::severity_is_invalid;
use crate::{Condition, Refusal, Report};

impl Bank {
    /// The report of alarm `n`, counted from 1.
    pub fn report(&self, n: u64) -> Result<Report, Refusal> {
        let index = usize::try_from(n).ok().and_then(|n| n.checked_sub(1));
        let report = index.and_then(|index| match index.checked_sub(self.digital.settings.len()) {
            None => self.report_digital(index),
            Some(index) => self.report_analog(index),
        });
        report.ok_or(Refusal::new(14, 0))
    }

    fn report_digital(&self, index: usize) -> Option<Report> {
        let settings = self.digital.settings.get(index)?;
        let first = DIGITAL_STRIDE as usize * index;
        Some(Report {
            severity_inv: severity_is_invalid(settings.severity),
            in_faulted: self.digital.commands.word(first, index) & command::IN_FAULT != 0,
            elapsed: [self.elapsed(0, self.words[0].met, first + CONDITIONS as usize, 0), 0],
            ..self.report_both(0, first, 1)
        })
    }

    fn report_analog(&self, index: usize) -> Option<Report> {
        let (four, index) = (index / FOUR, index % FOUR);
        let analog = self.analog.get(four)?;
        let settings = analog.settings.get(index)?;
        let first = ANALOG_STRIDE as usize * index;
        let met = sides(self.words[four + 1].met);
        let elapsed = |side: u16| self.elapsed(four + 1, met, first + side.trailing_zeros() as usize, 1);
        Some(Report {
            severity_inv: settings.severity.into_iter().any(severity_is_invalid),
            in_faulted: analog.commands.word(first, index) & command::IN_FAULT != 0,
            rate: analog.rates.rate[index],
            elapsed: [HH, L].map(elapsed),
            ..self.report_both(four + 1, first, 6)
        })
    }

    /// How long the run that is met at `place` and stands `further` on has lasted, at most MinDuration.
    fn elapsed(&self, word: usize, met: u64, place: usize, further: usize) -> u64 {
        match met >> place & 1 {
            0 => 0,
            _ => self.journal.elapsed(64 * word + place + further, self.time),
        }
    }

    /// The part of the report that both kinds of alarm have.
    fn report_both(&self, word: usize, first: usize, conditions: usize) -> Report {
        let (word, journal, base) = (&self.words[word], &self.journal, 64 * word);
        let modes = word.modes >> first;
        let mut report = Report {
            enabled: modes & 1 != 0,
            suppressed: modes >> SUPPRESSION & 1 != 0,
            reset_time: journal.lowered(base + first + COUNT_RESET as usize),
            ..Report::default()
        };
        let places = (first + CONDITIONS as usize..).step_by(2);
        for (condition, place) in report.conditions[..conditions].iter_mut().zip(places) {
            let alarm_time = journal.raised(base + place + 1);
            let asked = word.ack_required >> place & 1 != 0;
            *condition = Condition {
                in_alarm: word.in_alarm >> place & 1 != 0,
                acknowledged: word.unacknowledged >> place & 1 == 0,
                count: journal.count(base + place + 1),
                alarm_time,
                ack_time: if asked { journal.lowered(base + place) } else { alarm_time },
                return_time: journal.lowered(base + place + 1),
            };
        }
        report
    }
}
