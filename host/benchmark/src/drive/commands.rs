//! Command words.

use crate::random::Random;

/// Bits that each kind of alarm has.
pub const DIGITAL: u32 = 0x1FFF | 1 << 25;
pub const ANALOG: u32 = 0x03FF_FFFF & !(1 << 1 | 1 << 8);

const COUNT_RESET: u32 = 1 << 6;
/// Those of the operator.
const ACK: u32 = 1 << 7;
const RESET: u32 = 1 << 8;
const DISABLE: u32 = 1 << 9;
const ENABLE: u32 = 1 << 10;
const SUPPRESS: u32 = 1 << 11;
const UNSUPPRESS: u32 = 1 << 12;
/// By program and by operator.
const DISABLES: u32 = 1 << 2 | DISABLE;

/// Mostly nothing; acknowledgements and resets some scans after an alarm; seldom another mode, and soon back.
pub fn now_and_then(random: &mut Random) -> u32 {
    match random.below(1000) {
        0..40 => ACK,
        40..55 => RESET,
        55..57 => SUPPRESS,
        57..65 => UNSUPPRESS,
        65 => DISABLE,
        66..74 => ENABLE,
        74 => COUNT_RESET,
        _ => 0,
    }
}

/// Every eighth word has about a quarter of all bits; of these words, every eighth may disable.
pub fn many(random: &mut Random) -> u32 {
    match random.below(64) {
        0 => quarter(random),
        1..8 => quarter(random) & !DISABLES,
        _ => 0,
    }
}

fn quarter(random: &mut Random) -> u32 {
    random.next() as u32 & random.next() as u32
}
