//! The archive alone, on words that are not as a call left them. Nothing says what bank they mean; but every call ends,
//! touches only what it may, and makes the same of the same words. Blocks that are none of a bank are refused.

use crate::answers::{Answers, Call, Caller, Reply};
use crate::case::{Case, Misfit};
use crate::lent::Lent;
use crate::meifgur::{
    LOAD_ANSWER, REPLAY_ANSWER, REPORT_ANSWER, REPORT_SIZE, SCAN_ANSWER, WRITE_ANSWER,
};
use crate::receiver::{Archive, Receiver, ANSWER_SHORT, NO_BANK, REPORT_SHORT};

/// What went wrong.
pub fn faults(case: &Case) -> Vec<String> {
    let mut faults = Vec::new();
    if !case.flips.is_empty() {
        faults.extend(flipped(case));
    }
    if let Some(misfit) = case.misfit {
        faults.extend(misfitting(case, misfit));
    }
    faults
}

/// A bank that has seen half of the records.
fn in_use(case: &Case) -> Archive {
    let mut archive = Archive::unloaded();
    archive.load(&case.image, &mut Lent::words(LOAD_ANSWER));
    let half = case.records.len() / 2;
    archive.replay(
        &case.records[..half],
        &mut Lent::bytes(case.events),
        &mut Lent::words(REPLAY_ANSWER),
    );
    archive
}

fn flipped(case: &Case) -> Vec<String> {
    let mut archive = in_use(case);
    for flip in &case.flips {
        archive.words.blocks[flip.block][flip.word] ^= flip.bits;
    }
    let answers = every_call(archive.clone(), case);
    let again = every_call(archive, case);
    let unsound = answers.replies.iter().filter(|reply| !is_sound(reply));
    let mut faults: Vec<String> = unsound
        .map(|Reply { call, code, .. }| format!("{call} of damaged words, code {code}: unsound"))
        .collect();
    if answers != again {
        faults.push("the same damaged words are answered otherwise".to_string());
    }
    faults.extend(answers.faults);
    faults
}

fn every_call(archive: Archive, case: &Case) -> Answers {
    let mut caller = Caller::new(archive);
    caller.scans(case);
    caller.reports(case);
    caller.write(case);
    caller.replay(case);
    caller.answers()
}

/// Whether a call gives a code of its own, says that it wrote no more than was lent, and left all behind that.
fn is_sound(reply: &Reply) -> bool {
    let (codes, words) = match reply.call {
        Call::Load => (0..=6, LOAD_ANSWER),
        Call::Scan(_) => (7..=12, SCAN_ANSWER),
        Call::Write => (13..=13, WRITE_ANSWER),
        Call::Report(_) => (14..=14, REPORT_ANSWER),
        Call::Replay => (0..=0, REPLAY_ANSWER),
    };
    let words = match reply.code {
        ANSWER_SHORT | REPORT_SHORT => 0,
        _ => words,
    };
    let others = [0, ANSWER_SHORT, REPORT_SHORT];
    let fresh = Reply::untouched(reply.call, reply.lent.len(), reply.answer.len());
    (codes.contains(&reply.code) || others.contains(&reply.code))
        && reply.lent.is_kept_behind(reply.written(), &fresh.lent)
        && reply.answer.is_kept_behind(words, &fresh.answer)
}

/// Every call on blocks of which one is none of a bank.
fn misfitting(case: &Case, misfit: Misfit) -> Vec<String> {
    let mut archive = in_use(case);
    let blocks = &mut archive.words.blocks;
    match misfit {
        Misfit::Layout { bits } => blocks[0][0] ^= bits,
        Misfit::Length { block, words } => blocks[block] = Lent::words(words),
    }
    let mut caller = Caller::new(archive);
    caller.scan(0, case.record(0), case.events, SCAN_ANSWER);
    caller.report(1, REPORT_SIZE, REPORT_ANSWER);
    caller.replay(&Case {
        replay_words: REPLAY_ANSWER,
        ..case.clone()
    });
    if misfit.block() == 0 {
        caller.write(&Case {
            write_words: WRITE_ANSWER,
            ..case.clone()
        });
    }
    if matches!(misfit, Misfit::Length { .. }) {
        caller.load(case, LOAD_ANSWER);
    }
    let Answers {
        replies,
        mut faults,
    } = caller.answers();
    for reply in replies {
        if reply != no_bank(&reply, misfit.block()) {
            let Reply { call, code, .. } = reply;
            faults.push(format!("{call} with {misfit:?}: code {code}"));
        }
    }
    faults
}

/// The reply to a call with such a block: refusal 42, and nothing else.
fn no_bank(reply: &Reply, block: usize) -> Reply {
    let mut expected = Reply::untouched(reply.call, reply.lent.len(), reply.answer.len());
    expected.code = NO_BANK;
    expected.answer.fill(0);
    let at = match reply.call {
        Call::Replay => 2,
        _ => 0,
    };
    expected.answer[at] = NO_BANK.into();
    expected.answer[at + 1] = block as u64;
    expected
}
