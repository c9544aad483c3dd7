//! Random lists, biased to coincidences: readings at limits, times at the end of runs, bits held, buffers just too short.

mod damage;
mod scans;
mod settings;

use crate::case::{Case, Layout, Turn};
use crate::meifgur::{
    EVENTS_ENOUGH, EVENT_SIZE, LOAD_ANSWER, REPLAY_ANSWER, REPORT_ANSWER, REPORT_SIZE, SCAN_ANSWER,
    WRITE_ANSWER,
};
use crate::rng::Rng;
use second_opinion::Bank;
use settings::Settings;

/// Bytes of records for a bank without alarms, whose records are of eight bytes.
const SHORT: usize = 100;

pub fn case(rng: &mut Rng) -> Case {
    let settings = settings(rng);
    let mut image = settings.image();
    // The factory bank has two images.
    let full = image.len();
    if settings.is_factory && rng.percent(80) {
        image.clear();
    }
    let mut records = scans::records(rng, &settings);
    if rng.percent(30) {
        damage::records(rng, settings.layout(), &mut records);
    }
    if rng.percent(12) && !image.is_empty() {
        damage::image(rng, settings.layout(), &mut image);
    }
    if Layout::of(&image).is_none() {
        records.truncate(SHORT);
    }
    let mut case = Case {
        out: length(rng, image.len().max(full), 80),
        events: 0,
        report: length(rng, REPORT_SIZE, 94),
        load_words: words(rng, LOAD_ANSWER),
        write_words: words(rng, WRITE_ANSWER),
        replay_words: words(rng, REPLAY_ANSWER),
        report_words: words(rng, REPORT_ANSWER),
        turns: Vec::new(),
        flips: damage::flips(rng),
        misfit: damage::misfit(rng),
        image,
        records,
    };
    let needs = events_needed(&case);
    case.events = length(rng, needs.iter().sum(), 50);
    let most = most_events(&case);
    case.turns = needs.iter().map(|need| turn(rng, *need, most)).collect();
    case
}

/// Now and then those of the factory bank.
fn settings(rng: &mut Rng) -> Settings {
    if rng.percent(4) {
        Settings::factory()
    } else {
        Settings::random(rng)
    }
}

/// Bytes that the events of one scan never exceed.
fn most_events(case: &Case) -> usize {
    let most = |layout: Layout| EVENT_SIZE * (5 * layout.digital + 15 * layout.analog);
    Layout::of(&case.image).map_or(0, most)
}

/// Bytes of each record's events if none is refused for want of space. Only a buffer's length hangs on it, no answer.
fn events_needed(case: &Case) -> Vec<usize> {
    let mut bank = Bank::read(&case.image).unwrap_or(Bank::empty());
    let mut events = [0; EVENTS_ENOUGH];
    let mut need = |n| bank.scan(case.record(n), &mut events).unwrap_or(0);
    let records = 0..case.record_count();
    records.map(|n| EVENT_SIZE * need(n)).collect()
}

/// Of a record whose events need so many bytes. A buffer that suffices for any record of this bank may be filled in another
/// way than one that suffices for this record.
fn turn(rng: &mut Rng, need: usize, most: usize) -> Turn {
    let plenty = [EVENTS_ENOUGH, most, most.saturating_sub(1), most + 1];
    Turn {
        events: match rng.percent(40) {
            true => rng.pick(&plenty),
            false => length(rng, need, 70),
        },
        words: words(rng, SCAN_ANSWER),
        longer: rng.percent(1),
        restored: rng.percent(6),
        reported: rng.percent(6),
    }
}

/// Length of a buffer that needs `need`: mostly enough and some more, else anything around it or below.
fn length(rng: &mut Rng, need: usize, enough: usize) -> usize {
    if rng.percent(enough) {
        return need + rng.below(100);
    }
    match rng.below(8) {
        0 => 0,
        1 => need,
        2 => need.saturating_sub(1),
        3 => need + 1,
        4 => need.saturating_sub(EVENT_SIZE),
        5 => need.saturating_sub(EVENT_SIZE * rng.below(8)),
        6 => rng.below(EVENT_SIZE + 1),
        _ => rng.below(need),
    }
}

/// Words lent for an answer of `need`.
fn words(rng: &mut Rng, need: usize) -> usize {
    match rng.below(50) {
        0 => rng.below(need),
        1..=4 => need + rng.below(4),
        _ => need,
    }
}
