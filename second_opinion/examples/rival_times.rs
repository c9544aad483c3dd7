//! Times the plain bank and the quick one, scan by scan, on the benchmark's drives: nanoseconds per scan, the
//! least of 15 rounds in which they take turns.

#[path = "../../host/benchmark/src/drive.rs"]
mod drive;
#[allow(dead_code)]
#[path = "../../host/benchmark/src/image.rs"]
mod image;
#[path = "../../host/benchmark/src/random.rs"]
mod random;

use drive::{DRIVES, Drive};
use image::Shape;
use second_opinion::{Bank, EVENTS_ENOUGH, Refusal, quick};
use std::hint::black_box;
use std::time::Instant;

const SCANS: usize = 100_000;
const ROUNDS: usize = 15;
const SHAPES: [Shape; 3] =
    [Shape { digital: 12, analog: 12 }, Shape { digital: 1, analog: 0 }, Shape { digital: 0, analog: 1 }];

/// Nanoseconds per scan, and the events of all scans.
#[derive(Clone, Copy)]
struct Round {
    time: f64,
    events: usize,
}

impl Round {
    const NONE: Round = Round { time: f64::INFINITY, events: 0 };

    /// Keeps the shorter time of two.
    fn or(&mut self, other: Round) {
        *self = Round { time: self.time.min(other.time), ..other };
    }
}

/// One round over all records.
fn time(
    records: &[u8],
    length: usize,
    mut scan: impl FnMut(&[u8], &mut [u8]) -> Result<usize, Refusal>,
) -> Round {
    let mut buffer = [0; EVENTS_ENOUGH];
    let mut events = 0;
    let start = Instant::now();
    for record in black_box(records).chunks(length) {
        let buffer = black_box(&mut buffer);
        events += scan(record, buffer).expect("a record without fault");
    }
    Round { time: start.elapsed().as_nanos() as f64 / SCANS as f64, events }
}

/// The least of all rounds: plain, quick.
fn compare(shape: Shape, drive: Drive) -> [Round; 2] {
    let (image, records, length) = (shape.image(), drive.records(shape, SCANS), shape.record_len());
    let [mut plain, mut quick] = [Round::NONE; 2];
    for _ in 0..ROUNDS {
        let mut bank = Bank::read(&image).expect("an image without fault");
        plain.or(time(&records, length, |record, events| bank.scan(record, events)));
        let mut bank = quick::Bank::read(&image).expect("an image without fault");
        quick.or(time(&records, length, |record, events| bank.scan(record, events)));
    }
    assert_eq!(plain.events, quick.events, "as many events");
    [plain, quick]
}

/// One line of the table.
fn print(shape: Shape, drive: Drive) {
    let [plain, quick] = compare(shape, drive);
    let (Shape { digital, analog }, name) = (shape, drive.name());
    let events = plain.events as f64 / SCANS as f64;
    let (plain, quick) = (plain.time, quick.time);
    let ratio = quick / plain;
    print!("| {digital:7} | {analog:6} | {name:>5} | {events:15.2} ");
    println!("| {plain:9.1} | {quick:9.1} | {ratio:13.2} |");
}

fn main() {
    println!("| digital | analog | drive | events per scan | plain, ns | quick, ns | quick / plain |");
    println!("| ------: | -----: | ----: | --------------: | --------: | --------: | ------------: |");
    for shape in SHAPES {
        DRIVES.into_iter().for_each(|drive| print(shape, drive));
    }
}
