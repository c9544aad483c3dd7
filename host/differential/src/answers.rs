//! What both sides make of a list: every return code, and every word and byte of the buffers that were lent.

use crate::case::{Case, Layout};
use crate::damaged;
use crate::lent::Lent;
use crate::meifgur::{EVENT_SIZE, LOAD_ANSWER, REPORT_SIZE};
use crate::receiver::{Archive, Opinion, Receiver};
use std::fmt;

#[derive(Clone, Copy, Debug, PartialEq, Eq)]
pub enum Call {
    Load,
    Write,
    Replay,
    /// Of an alarm.
    Report(usize),
    /// By the record's number, from 0.
    Scan(usize),
}

impl fmt::Display for Call {
    fn fmt(&self, f: &mut fmt::Formatter) -> fmt::Result {
        match self {
            Call::Load => write!(f, "load"),
            Call::Write => write!(f, "write"),
            Call::Replay => write!(f, "replay"),
            Call::Report(alarm) => write!(f, "report {alarm}"),
            Call::Scan(n) => write!(f, "scan {n}"),
        }
    }
}

/// One call's: what was lent for bytes, and for the answer.
#[derive(Debug, PartialEq, Eq)]
pub struct Reply {
    pub call: Call,
    pub code: u32,
    pub lent: Lent<u8>,
    pub answer: Lent<u64>,
}

impl Reply {
    /// Before the call.
    pub fn untouched(call: Call, bytes: usize, words: usize) -> Reply {
        Reply {
            call,
            code: 0,
            lent: Lent::bytes(bytes),
            answer: Lent::words(words),
        }
    }

    pub fn events(&self) -> usize {
        match (self.call, self.code) {
            (Call::Scan(_), 0) => self.answer[2] as usize,
            (Call::Replay, 0) => self.answer[0] as usize,
            _ => 0,
        }
    }

    /// Bytes that the call says it wrote.
    pub fn written(&self) -> usize {
        match (self.call, self.code) {
            (Call::Write, 0) => self.answer[2] as usize,
            (Call::Report(_), 0) => REPORT_SIZE,
            _ => self.events().saturating_mul(EVENT_SIZE),
        }
    }
}

#[derive(Debug, PartialEq, Eq)]
pub struct Answers {
    pub replies: Vec<Reply>,
    /// What the archive did though no call may.
    pub faults: Vec<String>,
}

impl Answers {
    pub fn of_archive(case: &Case) -> Answers {
        let mut answers = Caller::<Archive>::unloaded().whole_case(case);
        answers.faults.extend(damaged::faults(case));
        answers
    }

    pub fn of_second_opinion(case: &Case) -> Answers {
        Caller::<Opinion>::unloaded().whole_case(case)
    }
}

/// Makes calls and keeps the replies.
pub struct Caller<R> {
    receiver: R,
    replies: Vec<Reply>,
}

impl<R: Receiver> Caller<R> {
    pub fn new(receiver: R) -> Caller<R> {
        Caller {
            receiver,
            replies: Vec::new(),
        }
    }

    fn unloaded() -> Caller<R> {
        Caller::new(R::unloaded())
    }

    pub fn answers(self) -> Answers {
        Answers {
            replies: self.replies,
            faults: self.receiver.faults(),
        }
    }

    /// All records in one call, then, of the same settings loaded anew, scan by scan.
    fn whole_case(mut self, case: &Case) -> Answers {
        self.load(case, case.load_words);
        self.write(case);
        self.replay(case);
        self.reports(case);
        self.load(case, LOAD_ANSWER);
        self.scans(case);
        self.reports(case);
        self.answers()
    }

    pub fn load(&mut self, case: &Case, words: usize) {
        let reply = Reply::untouched(Call::Load, 0, words);
        self.reply(reply, |r, _, answer| r.load(&case.image, answer));
    }

    pub fn write(&mut self, case: &Case) {
        let reply = Reply::untouched(Call::Write, case.out, case.write_words);
        self.reply(reply, |r, out, answer| r.write(out, answer));
    }

    pub fn replay(&mut self, case: &Case) {
        let reply = Reply::untouched(Call::Replay, case.events, case.replay_words);
        self.reply(reply, |r, events, answer| {
            r.replay(&case.records, events, answer)
        });
    }

    /// Each record as a scan, with what stands between them.
    pub fn scans(&mut self, case: &Case) {
        for (n, turn) in case.turns.iter().enumerate() {
            if turn.restored {
                self.receiver.restore();
            }
            self.scan(n, case.record(n), turn.events, turn.words);
            if turn.reported {
                self.reports(case);
                self.write(case);
            }
        }
    }

    pub fn scan(&mut self, n: usize, record: &[u8], events: usize, words: usize) {
        let reply = Reply::untouched(Call::Scan(n), events, words);
        self.reply(reply, |r, events, answer| r.scan(record, events, answer));
    }

    /// Of every alarm, and of some numbers that none has.
    pub fn reports(&mut self, case: &Case) {
        let alarms = Layout::of(&case.image).map_or(0, Layout::alarms);
        for alarm in (0..=alarms + 1).chain([usize::MAX]) {
            self.report(alarm, case.report, case.report_words);
        }
    }

    pub fn report(&mut self, alarm: usize, bytes: usize, words: usize) {
        let reply = Reply::untouched(Call::Report(alarm), bytes, words);
        self.reply(reply, |r, report, answer| r.report(alarm, report, answer));
    }

    fn reply(&mut self, mut reply: Reply, call: impl FnOnce(&mut R, &mut [u8], &mut [u64]) -> u32) {
        reply.code = call(&mut self.receiver, &mut reply.lent, &mut reply.answer);
        self.replies.push(reply);
    }
}
