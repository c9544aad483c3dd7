//! Images, records and words of a bank that are not as they should be.

use super::scans::{ANALOG_BITS, DIGITAL_BITS};
use super::settings::{LARGEST, LONGEST_PERIOD};
use crate::case::{number, Flip, Layout, Misfit};
use crate::meifgur::{MARKS_WORDS, SETTINGS_WORDS, STATES_WORDS};
use crate::rng::Rng;

const BLOCKS: [usize; 3] = [SETTINGS_WORDS, STATES_WORDS, MARKS_WORDS];

/// Patterns of REALs that are none, and numbers outside their range.
const BAD: [u32; 9] = [
    0x7F80_0000,           // infinities
    0xFF80_0000,           //
    0x7FC0_0000,           // NaNs
    0xFF80_0001,           //
    LARGEST.to_bits() + 1, // beyond the bound
    0xD863_5FAA,           // the same, negative
    u32::MAX,              // a NaN, and -1
    1 << 31,               // -0, and below all
    LONGEST_PERIOD + 1,
];

/// One to three faults, often in the same record.
pub fn records(rng: &mut Rng, layout: Layout, records: &mut Vec<u8>) {
    let mut record = rng.below(records.len() / layout.record_len());
    for _ in 0..1 + rng.below(3) {
        spoil_record(rng, layout, records, record);
        if rng.percent(50) {
            record = rng.below(records.len() / layout.record_len());
        }
    }
}

fn spoil_record(rng: &mut Rng, layout: Layout, records: &mut Vec<u8>, record: usize) {
    let start = record * layout.record_len();
    let Some(bytes) = records.get_mut(start..start + layout.record_len()) else {
        return;
    };
    match rng.below(20) {
        0..=3 => go_back(rng, bytes),
        4..=8 => spoil_reading(rng, layout, bytes),
        9..=12 => spoil_word(rng, layout, bytes),
        13..=15 => flip(rng, bytes),
        16..=18 => cut_or_extend(rng, layout, records),
        _ => shift(rng, records),
    }
}

/// An earlier time: mostly a little.
fn go_back(rng: &mut Rng, record: &mut [u8]) {
    let time = number(&record[..8]);
    let back = rng.pick(&[1, 1, 2, 100, 1 << 32, time]);
    record[..8].copy_from_slice(&time.saturating_sub(back).to_le_bytes());
}

fn spoil_reading(rng: &mut Rng, layout: Layout, record: &mut [u8]) {
    if layout.alarms() == 0 {
        return;
    }
    let alarm = rng.below(layout.alarms());
    let reading = &mut record[layout.reading(alarm)];
    if layout.is_digital(alarm) {
        reading[0] = rng.pick(&[2, 3, 128, 255]);
    } else {
        reading.copy_from_slice(&rng.pick(&BAD).to_le_bytes());
    }
}

/// A command bit that the alarm's kind lacks.
fn spoil_word(rng: &mut Rng, layout: Layout, record: &mut [u8]) {
    if layout.alarms() == 0 {
        return;
    }
    let alarm = rng.below(layout.alarms());
    let kind = if layout.is_digital(alarm) {
        DIGITAL_BITS
    } else {
        ANALOG_BITS
    };
    let lacking: Vec<u32> = (0..32).filter(|bit| kind >> bit & 1 == 0).collect();
    let bit = rng.pick(&lacking) as usize;
    record[layout.word(alarm)][bit / 8] |= 1 << (bit % 8);
}

fn flip(rng: &mut Rng, bytes: &mut [u8]) {
    if let Some(byte) = pick_byte(rng, bytes) {
        *byte ^= 1 << rng.below(8);
    }
}

fn pick_byte<'a>(rng: &mut Rng, bytes: &'a mut [u8]) -> Option<&'a mut u8> {
    let at = rng.below(bytes.len());
    bytes.get_mut(at)
}

/// The last record gets a wrong length.
fn cut_or_extend(rng: &mut Rng, layout: Layout, records: &mut Vec<u8>) {
    let some = 1 + rng.below(layout.record_len() - 1);
    if rng.percent(60) {
        records.truncate(records.len().saturating_sub(some));
    } else {
        records.extend((0..some).map(|_| rng.next() as u8));
    }
}

/// A byte goes or comes, and all behind it stands in a wrong place.
fn shift(rng: &mut Rng, records: &mut Vec<u8>) {
    let at = rng.below(records.len());
    if rng.percent(50) {
        records.remove(at);
    } else {
        records.insert(at, rng.next() as u8);
    }
}

pub fn image(rng: &mut Rng, layout: Layout, image: &mut Vec<u8>) {
    match rng.below(10) {
        0 | 1 => flip(rng, image),
        2 => spoil_count(rng, layout, image),
        3 | 4 => image.truncate(rng.below(image.len())),
        5 => image.extend((0..1 + rng.below(70)).map(|_| rng.pick(&[0, 1, 255]))),
        6 => spoil_flags(rng, layout, image),
        _ => spoil_number(rng, layout, image),
    }
}

fn spoil_count(rng: &mut Rng, layout: Layout, image: &mut [u8]) {
    let count = &mut image[rng.pick(&[0, layout.analog_count_at()])];
    *count = rng.pick(&[
        13,
        14,
        255,
        12,
        count.wrapping_add(1),
        count.wrapping_sub(1),
    ]);
}

fn spoil_flags(rng: &mut Rng, layout: Layout, image: &mut [u8]) {
    if layout.alarms() > 0 {
        let alarm = rng.below(layout.alarms());
        image[layout.settings(alarm).start] |= 1 << (3 + rng.below(5));
    }
}

/// One of an alarm's numbers, each of which is four bytes.
fn spoil_number(rng: &mut Rng, layout: Layout, image: &mut [u8]) {
    if layout.alarms() == 0 {
        return;
    }
    let settings = layout.settings(rng.below(layout.alarms()));
    let at = settings.start + 1 + 4 * rng.below((settings.len() - 1) / 4);
    image[at..at + 4].copy_from_slice(&rng.pick(&BAD).to_le_bytes());
}

/// Damage to the words of a bank: mostly none, else one word or many.
pub fn flips(rng: &mut Rng) -> Vec<Flip> {
    let flips = match rng.below(20) {
        0 | 1 => 1 + rng.below(3),
        2 => 1 + rng.below(20),
        3 => 1 + rng.below(1000),
        _ => 0,
    };
    (0..flips).map(|_| flip_word(rng)).collect()
}

/// Of the first words mostly: few alarms are there, and the counts stand in front. The first of the settings is the layout word.
fn flip_word(rng: &mut Rng) -> Flip {
    let block = rng.below(3);
    let end = rng.pick(&[4, 20, 60, BLOCKS[block]]);
    let first = usize::from(block == 0);
    Flip {
        block,
        word: first + rng.below(end - first),
        bits: some_bits(rng),
    }
}

/// At least one.
fn some_bits(rng: &mut Rng) -> u64 {
    match rng.below(4) {
        0 => 1 << rng.below(64),
        1 => 1 << rng.below(8),
        2 => u64::MAX,
        _ => rng.next().max(1),
    }
}

/// A layout word or a length that no bank has, in some lists.
pub fn misfit(rng: &mut Rng) -> Option<Misfit> {
    let block = rng.below(3);
    let length = BLOCKS[block];
    match rng.below(60) {
        0 => Some(Misfit::Layout {
            bits: some_bits(rng),
        }),
        1 | 2 => Some(Misfit::Length {
            block,
            words: rng.pick(&[0, 1, 4, length - 1, length + 1, 2 * length]),
        }),
        _ => None,
    }
}
