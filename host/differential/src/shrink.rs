//! Makes a list on which the two sides differ smaller, as long as they still differ on it.

use crate::answers::Answers;
use crate::case::{Case, Layout, Turn};
use crate::meifgur::{
    EVENTS_ENOUGH, IMAGE_MOST, LOAD_ANSWER, REPLAY_ANSWER, REPORT_ANSWER, REPORT_SIZE, SCAN_ANSWER,
    WRITE_ANSWER,
};

pub fn differ(case: &Case) -> bool {
    Answers::of_archive(case) != Answers::of_second_opinion(case)
}

/// Less damage, fewer records, alarms and command bits, in this order, until none can be left out.
pub fn shrink(case: &Case) -> Case {
    let mut case = case.clone();
    loop {
        let before = case.clone();
        lend_plenty(&mut case);
        drop_damage(&mut case);
        drop_records(&mut case);
        calm_turns(&mut case);
        drop_alarms(&mut case);
        clear_bits(&mut case);
        if case == before {
            return case;
        }
    }
}

/// Takes the smaller list over if the two sides differ on it too.
fn take(case: &mut Case, smaller: Case) -> bool {
    let taken = differ(&smaller);
    if taken {
        *case = smaller;
    }
    taken
}

/// Buffers that always suffice.
fn lend_plenty(case: &mut Case) {
    let plenty = Case {
        out: IMAGE_MOST,
        events: EVENTS_ENOUGH * case.record_count(),
        report: REPORT_SIZE,
        load_words: LOAD_ANSWER,
        write_words: WRITE_ANSWER,
        replay_words: REPLAY_ANSWER,
        report_words: REPORT_ANSWER,
        ..case.clone()
    };
    take(case, plenty);
}

fn drop_damage(case: &mut Case) {
    let fitting = Case {
        misfit: None,
        ..case.clone()
    };
    take(case, fitting);
    let sound = Case {
        flips: Vec::new(),
        ..case.clone()
    };
    take(case, sound);
    for n in (0..case.flips.len()).rev() {
        let mut smaller = case.clone();
        smaller.flips.remove(n);
        take(case, smaller);
    }
}

/// Scans with plenty of room and nothing around them.
fn calm_turns(case: &mut Case) {
    let calmer: [fn(&mut Turn); 5] = [
        |turn| turn.events = EVENTS_ENOUGH,
        |turn| turn.words = SCAN_ANSWER,
        |turn| turn.longer = false,
        |turn| turn.restored = false,
        |turn| turn.reported = false,
    ];
    for n in 0..case.turns.len() {
        for change in calmer {
            let mut smaller = case.clone();
            change(&mut smaller.turns[n]);
            take(case, smaller);
        }
    }
}

/// Rows of records, long ones first.
fn drop_records(case: &mut Case) {
    let mut row = case.record_count().next_power_of_two();
    while row > 0 {
        let mut first = 0;
        while first < case.record_count() {
            let smaller = case.without_records(first, row);
            if !take(case, smaller) {
                first += row;
            }
        }
        row /= 2;
    }
}

fn drop_alarms(case: &mut Case) {
    // The factory bank's image has no settings to take an alarm out of.
    if case.image.is_empty() {
        return;
    }
    let alarms = Layout::of(&case.image).map_or(0, Layout::alarms);
    for alarm in (0..alarms).rev() {
        if let Some(layout) = Layout::of(&case.image) {
            let smaller = case.without_alarm(layout, alarm);
            take(case, smaller);
        }
    }
}

fn clear_bits(case: &mut Case) {
    let Some(layout) = Layout::of(&case.image) else {
        return;
    };
    for record in (0..case.records.len()).step_by(layout.record_len()) {
        let words = (0..layout.alarms()).flat_map(|alarm| layout.word(alarm));
        for byte in words.map(|at| record + at) {
            clear_bits_of(case, byte);
        }
    }
}

fn clear_bits_of(case: &mut Case, byte: usize) {
    for bit in 0..8 {
        if case.records.get(byte).is_some_and(|b| b >> bit & 1 == 1) {
            let smaller = case.without_bit(byte, bit);
            take(case, smaller);
        }
    }
}
