//! Who is timed: calls of the proved archive, and the rivals.

use crate::live::Live;
use crate::load::Load;
use crate::meifgur;
use second_opinion::{quick, Bank, EVENTS_ENOUGH, EVENT_LEN};
use std::hint::black_box;
use std::time::{Duration, Instant};

pub struct Contender {
    pub name: &'static str,
    pub about: &'static str,
    pub proved: bool,
    /// In the chart; all are told apart by the colour-blind too.
    pub colour: &'static str,
    /// The time of all scans of a load, with a buffer that suffices. Each list has a bank of its own, loaded before it.
    pub round: fn(&Load, &mut [u8]) -> Duration,
    pub outcome: fn(&Load, &[u8]) -> Outcome,
}

/// What a list of records came to.
#[derive(PartialEq, Eq)]
pub struct Outcome {
    pub events: Vec<u8>,
    pub reports: Vec<u8>,
}

pub const SCAN: &str = "scan";
pub const PLAIN: &str = "plain";
pub const QUICK: &str = "quick";

pub const CONTENDERS: &[Contender] = &[
    Contender {
        name: SCAN,
        about: "proved",
        proved: true,
        colour: "#1b5e9e",
        round: round::<meifgur::Bank>,
        outcome: outcome::<meifgur::Bank>,
    },
    Contender {
        name: "replay",
        about: "proved",
        proved: true,
        colour: "#6fb1e0",
        round: replay::round,
        outcome: replay::outcome,
    },
    Contender {
        name: QUICK,
        about: "Rust for speed",
        proved: false,
        colour: "#8c2d04",
        round: round::<quick::Bank>,
        outcome: outcome::<quick::Bank>,
    },
    Contender {
        name: PLAIN,
        about: "Rust to be read",
        proved: false,
        colour: "#e08a1e",
        round: round::<Bank>,
        outcome: outcome::<Bank>,
    },
];

pub fn proved() -> impl Iterator<Item = &'static Contender> {
    CONTENDERS.iter().filter(|contender| contender.proved)
}

pub fn rivals() -> impl Iterator<Item = &'static Contender> {
    CONTENDERS.iter().filter(|contender| !contender.proved)
}

/// Record by record. The black boxes in the loop take one word each: one that takes a slice writes its two words and has
/// them read as one where the next call wants them in memory, which makes that call wait.
fn round<B: Live>(load: &Load, buffer: &mut [u8]) -> Duration {
    let buffer: &mut [u8; EVENTS_ENOUGH] = buffer.first_chunk_mut().expect("it suffices");
    let mut time = Duration::ZERO;
    for list in load.lists() {
        let mut bank = B::loaded(&load.image);
        let records = black_box(list).chunks(load.record_len());
        let start = Instant::now();
        for record in records {
            let events = black_box(&mut *buffer);
            black_box(bank.step(record, events));
        }
        time += start.elapsed();
        black_box(&bank);
    }
    time
}

fn outcome<B: Live>(load: &Load, list: &[u8]) -> Outcome {
    let mut bank = B::loaded(&load.image);
    let mut buffer = [0; EVENTS_ENOUGH];
    let mut events = Vec::new();
    for record in list.chunks(load.record_len()) {
        let count = bank.step(record, &mut buffer);
        events.extend_from_slice(&buffer[..EVENT_LEN * count]);
    }
    let reports = reports(load, &bank);
    Outcome { events, reports }
}

/// Of every alarm.
fn reports(load: &Load, bank: &impl Live) -> Vec<u8> {
    let alarms = 1..=load.spec.shape.alarms();
    alarms.flat_map(|alarm| bank.tell(alarm)).collect()
}

/// The archive's replay of a list in one call.
mod replay {
    use super::*;

    pub fn round(load: &Load, buffer: &mut [u8]) -> Duration {
        let mut time = Duration::ZERO;
        for list in load.lists() {
            let mut bank = meifgur::Bank::loaded(&load.image);
            let start = Instant::now();
            black_box(run(&mut bank, black_box(list), black_box(&mut *buffer)));
            time += start.elapsed();
            black_box(&bank);
        }
        time
    }

    pub fn outcome(load: &Load, list: &[u8]) -> Outcome {
        let mut bank = meifgur::Bank::loaded(&load.image);
        let mut events = load.buffer();
        let count = run(&mut bank, list, &mut events);
        events.truncate(EVENT_LEN * count);
        let reports = reports(load, &bank);
        Outcome { events, reports }
    }

    fn run(bank: &mut meifgur::Bank, list: &[u8], events: &mut [u8]) -> usize {
        let replayed = bank.replay(list, events).expect("a bank");
        assert_eq!(replayed.refused, 0, "records without fault");
        replayed.events
    }
}
