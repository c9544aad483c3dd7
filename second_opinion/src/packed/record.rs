//! A scan record checked and taken apart.

use super::Bank;
use super::digital::Inputs;
use crate::Refusal;
use crate::alarm::command;
use crate::scan::{self, ANALOG_LEN, DIGITAL_LEN, TIME_LEN};
use crate::settings::LARGEST_REAL;

/// A record without fault.
#[derive(Clone, Copy)]
pub struct Parts<'a> {
    pub time: u64,
    pub digital: &'a [[u8; DIGITAL_LEN]],
    pub inputs: Inputs,
    pub analog: &'a [[u8; ANALOG_LEN]],
}

impl Bank {
    /// The parts of a record without fault, or its first fault in reading order.
    #[inline(always)]
    pub(super) fn check<'a>(&self, record: &'a [u8]) -> Result<Parts<'a>, Refusal> {
        if record.len() != self.record_len {
            return Err(Refusal::new(7, 0));
        }
        let Some((time, body)) = record.split_first_chunk::<TIME_LEN>() else {
            return Err(Refusal::new(7, 0));
        };
        let time = u64::from_le_bytes(*time);
        if time < self.time {
            return Err(Refusal::new(8, 0));
        }
        let (digital, analog) = body.split_at(DIGITAL_LEN * self.digital.settings.len());
        let (digital, analog) = (digital.as_chunks().0, analog.as_chunks().0);
        let inputs = Inputs::of(digital);
        if inputs.are_faulty() | are_faulty(analog) {
            return Err(first_fault(digital, analog));
        }
        Ok(Parts { time, digital, inputs, analog })
    }
}

/// Whether one of the analog alarms' parts has a fault.
#[inline(always)]
fn are_faulty(parts: &[[u8; ANALOG_LEN]]) -> bool {
    let faults = parts.iter().fold(0, |faults, part| {
        let part = u64::from_le_bytes(*part);
        // Bit 31 of the sum is set where the magnitude's pattern is above that of the largest REAL.
        let sum = (part & 0x7FFF_FFFF) + u64::from(0x7FFF_FFFF - LARGEST_REAL);
        faults | part & u64::from(!command::ANALOG) << 32 | sum & 1 << 31
    });
    faults != 0
}

/// The first fault of a record that has one.
#[cold]
fn first_fault(digital: &[[u8; DIGITAL_LEN]], analog: &[[u8; ANALOG_LEN]]) -> Refusal {
    let digital = digital.iter().map(scan::decode_digital);
    let analog = analog.iter().map(scan::decode_analog);
    let digital = digital.map(|(input, commands)| scan::check_digital(input, commands));
    let analog = analog.map(|(level, commands)| scan::check_analog(level, commands));
    let mut checks = digital.chain(analog).zip(1..);
    let fault = checks.find_map(|(check, n)| check.err().map(|number| Refusal::new(number, n)));
    fault.expect("a fault was seen")
}
