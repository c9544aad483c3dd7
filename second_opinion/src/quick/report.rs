//! What alarms of both kinds tell.

use super::flags::{CONDITIONS, COUNT_RESET, Flags};
use super::log::Log;
use crate::alarm::command;
use crate::settings::severity_is_invalid;
use crate::{Condition, Report};

/// What an alarm of either kind tells after a scan with these commands: a condition for each severity.
pub fn report<const N: usize>(
    flags: Flags,
    commands: u32,
    Log { lines, counts }: &Log<N>,
    ack_required: bool,
    severity: &[i32],
) -> Report {
    let mut report = Report {
        enabled: flags.enabled() != 0,
        suppressed: flags.suppressed() != 0,
        in_faulted: commands & command::IN_FAULT != 0,
        severity_inv: severity.iter().copied().any(severity_is_invalid),
        reset_time: lines[COUNT_RESET as usize][0].stamp,
        ..Report::default()
    };
    let places = (CONDITIONS as usize..).step_by(2);
    for (condition, place) in report.conditions[..severity.len()].iter_mut().zip(places) {
        let ([acknowledged, _], [returned, activated]) = (lines[place], lines[place + 1]);
        *condition = Condition {
            in_alarm: flags.in_alarm() >> place & 1 != 0,
            acknowledged: flags.unacknowledged() >> place & 1 == 0,
            count: counts[place + 1],
            alarm_time: activated.stamp,
            ack_time: if ack_required { acknowledged.stamp } else { activated.stamp },
            return_time: returned.stamp,
        };
    }
    report
}
