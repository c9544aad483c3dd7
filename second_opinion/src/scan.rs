//! A scan over the whole bank, and many in a row.

use crate::alarm::{AnalogNext, Next, Outlet, command};
use crate::settings::{MOST, is_real};
use crate::{Bank, EVENT_LEN, Refusal};

pub const TIME_LEN: usize = 8;
pub const DIGITAL_LEN: usize = 5;
pub const ANALOG_LEN: usize = 8;

/// The steps of a scan's alarms, worked out and not yet carried out.
#[derive(Default)]
struct Scratch {
    digital: [Next; MOST],
    analog: [AnalogNext; MOST],
}

/// A record taken apart.
#[derive(Clone, Copy)]
pub struct Parts<'a> {
    pub time: u64,
    pub digital: &'a [[u8; DIGITAL_LEN]],
    pub analog: &'a [[u8; ANALOG_LEN]],
}

/// What a replay came to. `number`, `place` and `index` (of the record, from 0) are those of the first
/// refusal; `number` is 0 if there was none.
#[derive(Clone, Copy, Debug, Default, PartialEq, Eq)]
pub struct Replayed {
    pub events: u64,
    pub refused: u64,
    pub number: u32,
    pub place: u64,
    pub index: u64,
}

impl Bank {
    /// Carries one scan record out, writes its events to the front of `events` and gives their number.
    /// A refused one leaves bank and buffer as they were.
    pub fn scan(&mut self, record: &[u8], events: &mut [u8]) -> Result<usize, Refusal> {
        self.scan_with(&mut Scratch::default(), record, events)
    }

    /// Scans one record after the other, each with what is left of `events` behind the events written so
    /// far. A rest shorter than a record is handed on as it is; refused records are passed over.
    pub fn replay(&mut self, records: &[u8], events: &mut [u8]) -> Replayed {
        let mut scratch = Scratch::default();
        let mut replayed = Replayed::default();
        let mut written = 0;
        for (index, record) in records.chunks(self.record_len()).enumerate() {
            let left = events.get_mut(written..).unwrap_or_default();
            match self.scan_with(&mut scratch, record, left) {
                Ok(count) => {
                    written += count * EVENT_LEN;
                    replayed.events += count as u64;
                }
                Err(refusal) => {
                    if replayed.refused == 0 {
                        replayed.number = refusal.number;
                        replayed.place = refusal.place;
                        replayed.index = index as u64;
                    }
                    replayed.refused += 1;
                }
            }
        }
        replayed
    }

    fn scan_with(
        &mut self,
        scratch: &mut Scratch,
        record: &[u8],
        events: &mut [u8],
    ) -> Result<usize, Refusal> {
        let parts = Parts::of(record, self.record_len(), self.digital.len(), self.time)?;
        parts.check()?;
        let count = self.step(scratch, &parts);
        if events.len() < count * EVENT_LEN {
            return Err(Refusal::new(12, 0));
        }
        self.commit(scratch, parts.time, events);
        Ok(count)
    }

    /// Works every alarm's step out and counts the events. Nothing of the bank changes yet.
    fn step(&self, scratch: &mut Scratch, parts: &Parts) -> usize {
        let mut count = 0;
        for ((alarm, part), next) in self.digital.iter().zip(parts.digital).zip(&mut scratch.digital) {
            let (input, commands) = decode_digital(part);
            *next = alarm.step(parts.time, input == 1, commands);
            count += next.events.count() as usize;
        }
        for ((alarm, part), next) in self.analog.iter().zip(parts.analog).zip(&mut scratch.analog) {
            let (level, commands) = decode_analog(part);
            *next = alarm.step(parts.time, level, commands);
            count += next.events().count() as usize;
        }
        count
    }

    /// Carries every alarm's step out.
    fn commit(&mut self, scratch: &Scratch, time: u64, events: &mut [u8]) {
        self.time = time;
        let mut out = Outlet { time, slots: events.as_chunks_mut().0.iter_mut() };
        let first_analog = self.digital.len() as u8 + 1;
        for ((alarm, next), n) in self.digital.iter_mut().zip(&scratch.digital).zip(1..) {
            alarm.commit(next, n, &mut out);
        }
        for ((alarm, next), n) in self.analog.iter_mut().zip(&scratch.analog).zip(first_analog..) {
            alarm.commit(next, n, &mut out);
        }
    }
}

impl Parts<'_> {
    /// The parts of a record of that length, with so many digital alarms, and not before that time.
    #[inline(always)]
    pub fn of(record: &[u8], length: usize, digital: usize, earliest: u64) -> Result<Parts<'_>, Refusal> {
        if record.len() != length {
            return Err(Refusal::new(7, 0));
        }
        let Some((time, body)) = record.split_first_chunk::<TIME_LEN>() else {
            return Err(Refusal::new(7, 0));
        };
        let time = u64::from_le_bytes(*time);
        if time < earliest {
            return Err(Refusal::new(8, 0));
        }
        let (digital, analog) = body.split_at(DIGITAL_LEN * digital);
        Ok(Parts { time, digital: digital.as_chunks().0, analog: analog.as_chunks().0 })
    }

    /// The first fault in reading order, if there is one.
    #[inline(always)]
    pub fn check(&self) -> Result<(), Refusal> {
        for (part, n) in self.digital.iter().zip(1..) {
            let (input, commands) = decode_digital(part);
            check_digital(input, commands).map_err(|number| Refusal::new(number, n))?;
        }
        for (part, n) in self.analog.iter().zip(self.digital.len() + 1..) {
            let (level, commands) = decode_analog(part);
            check_analog(level, commands).map_err(|number| Refusal::new(number, n))?;
        }
        Ok(())
    }
}

/// A digital alarm's reading and command word.
#[inline(always)]
pub fn decode_digital(&[input, a, b, c, d]: &[u8; DIGITAL_LEN]) -> (u8, u32) {
    (input, u32::from_le_bytes([a, b, c, d]))
}

/// An analog alarm's reading and command word, in one load.
#[inline(always)]
pub fn decode_analog(part: &[u8; ANALOG_LEN]) -> (f32, u32) {
    let part = u64::from_le_bytes(*part);
    (f32::from_bits(part as u32), (part >> 32) as u32)
}

/// The number of what is wrong with a digital alarm's part of a record.
#[inline(always)]
pub fn check_digital(input: u8, commands: u32) -> Result<(), u32> {
    if input > 1 {
        Err(9)
    } else if commands & !command::DIGITAL != 0 {
        Err(11)
    } else {
        Ok(())
    }
}

/// The number of what is wrong with an analog alarm's part of a record.
#[inline(always)]
pub fn check_analog(level: f32, commands: u32) -> Result<(), u32> {
    if !is_real(level.to_bits()) {
        Err(10)
    } else if commands & !command::ANALOG != 0 {
        Err(11)
    } else {
        Ok(())
    }
}
