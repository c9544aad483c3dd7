//! What a run met.

use crate::answers::{Answers, Call, Reply};
use crate::case::Case;
use crate::meifgur::EVENT_SIZE;
use crate::receiver::{ANSWER_SHORT, NO_BANK, REPORT_SHORT};
use std::fmt;

const REFUSALS: usize = 14;
const KINDS: usize = 8;

/// Scans of one manner: in a replay, or each in a call.
#[derive(Clone, Copy, Default)]
struct Scans {
    run: u64,
    refused: u64,
    events: u64,
}

#[derive(Default)]
pub struct Tally {
    pub lists: u64,
    replayed: Scans,
    live: Scans,
    restored: u64,
    reports: u64,
    /// By number: of calls, and of each replay's first refused record.
    refusals: [u64; REFUSALS + 1],
    kinds: [u64; KINDS + 1],
    answers_short: u64,
    reports_short: u64,
    no_bank: u64,
    damaged: u64,
    misfits: u64,
}

impl Tally {
    /// Adds a list on which both sides gave `answers`.
    pub fn count(&mut self, case: &Case, answers: &Answers) {
        self.lists += 1;
        self.restored += case.turns.iter().filter(|turn| turn.restored).count() as u64;
        self.damaged += u64::from(!case.flips.is_empty());
        self.misfits += u64::from(case.misfit.is_some());
        for reply in &answers.replies {
            self.count_code(reply.code);
            match reply.call {
                Call::Replay if reply.code == 0 => self.count_replay(case, reply),
                Call::Scan(_) => self.count_scan(reply),
                Call::Report(_) => self.reports += u64::from(reply.code == 0),
                _ => {}
            }
            self.count_kinds(reply);
        }
    }

    fn count_code(&mut self, code: u32) {
        match code {
            0 => {}
            ANSWER_SHORT => self.answers_short += 1,
            REPORT_SHORT => self.reports_short += 1,
            NO_BANK => self.no_bank += 1,
            refusal => self.refusals[refusal as usize] += 1,
        }
    }

    fn count_replay(&mut self, case: &Case, reply: &Reply) {
        let &[events, refused, number, ..] = &reply.answer[..] else {
            unreachable!("an answer that was written has five words");
        };
        self.replayed.run += case.record_count() as u64;
        self.replayed.refused += refused;
        self.replayed.events += events;
        self.count_code(number as u32);
    }

    fn count_scan(&mut self, reply: &Reply) {
        self.live.run += 1;
        self.live.refused += u64::from(reply.code != 0);
        self.live.events += reply.events() as u64;
    }

    fn count_kinds(&mut self, reply: &Reply) {
        let written = reply.lent.chunks_exact(EVENT_SIZE);
        for event in written.take(reply.events()) {
            self.kinds[usize::from(event[2])] += 1;
        }
    }

    pub fn merge(mut self, other: Tally) -> Tally {
        self.lists += other.lists;
        self.replayed.merge(other.replayed);
        self.live.merge(other.live);
        self.restored += other.restored;
        self.reports += other.reports;
        self.answers_short += other.answers_short;
        self.reports_short += other.reports_short;
        self.no_bank += other.no_bank;
        self.damaged += other.damaged;
        self.misfits += other.misfits;
        add(&mut self.refusals, &other.refusals);
        add(&mut self.kinds, &other.kinds);
        self
    }
}

impl Scans {
    fn merge(&mut self, other: Scans) {
        self.run += other.run;
        self.refused += other.refused;
        self.events += other.events;
    }
}

impl fmt::Display for Scans {
    fn fmt(&self, f: &mut fmt::Formatter) -> fmt::Result {
        let Scans {
            run,
            refused,
            events,
        } = self;
        write!(f, "scans {run}, of them refused {refused}, events {events}")
    }
}

fn add(sums: &mut [u64], others: &[u64]) {
    for (sum, other) in sums.iter_mut().zip(others) {
        *sum += other;
    }
}

/// `1: N, 2: N` and so on.
fn numbered(counts: &[u64]) -> String {
    let counts = counts.iter().enumerate().skip(1);
    let counts: Vec<String> = counts.map(|(n, count)| format!("{n}: {count}")).collect();
    counts.join(", ")
}

impl fmt::Display for Tally {
    fn fmt(&self, f: &mut fmt::Formatter) -> fmt::Result {
        writeln!(f, "lists       {}", self.lists)?;
        writeln!(f, "replayed    {}", self.replayed)?;
        writeln!(f, "live        {}", self.live)?;
        writeln!(
            f,
            "  between   saved and restored {}, reports {}",
            self.restored, self.reports
        )?;
        writeln!(f, "events by kind")?;
        writeln!(f, "            {}", numbered(&self.kinds))?;
        writeln!(f, "refusals of settings (1 to 6), of scans and of the first refused record of a replay (7 to 12), of writing (13), of reports (14)")?;
        writeln!(f, "  by number {}", numbered(&self.refusals))?;
        writeln!(
            f,
            "short       answers (code 40): {}, reports (code 41): {}; no bank (code 42): {}",
            self.answers_short, self.reports_short, self.no_bank
        )?;
        write!(
            f,
            "damaged     banks {}; with a wrong length or layout word {}",
            self.damaged, self.misfits
        )
    }
}
