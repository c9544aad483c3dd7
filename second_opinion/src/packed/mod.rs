//! The same bank made for speed, as a measure for others: what each scan looks at is put together beforehand,
//! and the conditions of many alarms are stepped at once, one bit each.
//!
//! - `places`: which bit of a word stands for what.
//! - `record`: a record checked and taken apart.
//! - `digital`, `analog` with `lanes` and `rates`: what is met, what stays in alarm, what is due.
//! - `word`: what is commanded, and the step of all conditions of a word.
//! - `journal`: runs begun, events written with their stamps and counts.
//! - `report`: what the bank tells about an alarm.

mod analog;
mod commands;
mod digital;
mod journal;
mod lanes;
mod places;
mod rates;
mod record;
mod report;
mod word;

use crate::scan::{ANALOG_LEN, DIGITAL_LEN, TIME_LEN};
use crate::{EVENT_LEN, EVENTS_ENOUGH, Refusal, settings};
use analog::Analog;
use digital::Digital;
use journal::{Journal, Runs};
use places::{FOUR, WORDS};
use record::Parts;
use word::{Now, Step, Word};

/// The most events of one alarm in one scan.
const DIGITAL_EVENTS: usize = 5;
const ANALOG_EVENTS: usize = 15;

#[derive(Clone, Debug)]
pub struct Bank {
    /// Time of the last accepted scan, 0 before one.
    time: u64,
    record_len: usize,
    /// Bytes of an event buffer that suffices for every scan.
    enough: usize,
    digital: Digital,
    /// Four each.
    analog: Vec<Analog>,
    /// The digital alarms' word first, then those of the analog ones.
    words: [Word; WORDS],
    journal: Journal,
}

impl Bank {
    /// The bank of a settings image, its alarms fresh.
    pub fn read(image: &[u8]) -> Result<Bank, Refusal> {
        let (digital, analog) = settings::read(image)?;
        let record_len = TIME_LEN + DIGITAL_LEN * digital.len() + ANALOG_LEN * analog.len();
        let enough = EVENT_LEN * (DIGITAL_EVENTS * digital.len() + ANALOG_EVENTS * analog.len());
        let mut words = std::array::from_fn(|n| Word { base: 64 * n, ..Word::default() });
        let mut journal = Journal::new();
        let numbers = (digital.len() as u8 + 1..).step_by(FOUR);
        let digital = Digital::new(digital, &mut words[0], &mut journal);
        let fours = numbers.zip(analog.chunks(FOUR)).zip(&mut words[1..]);
        let analog = fours.map(|((n, four), word)| Analog::new(n, four, word, &mut journal)).collect();
        Ok(Bank { time: 0, record_len, enough, digital, analog, words, journal })
    }

    /// Carries one scan record out, writes its events to the front of `events` and gives their number.
    /// A refused one leaves bank and buffer as they were.
    pub fn scan(&mut self, record: &[u8], events: &mut [u8]) -> Result<usize, Refusal> {
        let parts = self.check(record)?;
        if events.len() < self.enough {
            return self.step_if_it_fits(&parts, events);
        }
        Ok(self.step(&parts, events))
    }

    /// Steps every alarm in place, with a buffer that is long enough.
    #[inline(always)]
    fn step(&mut self, parts: &Parts, events: &mut [u8]) -> usize {
        match self.analog.len() {
            0 => self.step_fours::<0>(parts, events),
            1 => self.step_fours::<1>(parts, events),
            2 => self.step_fours::<2>(parts, events),
            _ => self.step_fours::<3>(parts, events),
        }
    }

    /// The same for a bank with so many fours of analog alarms, so that no loop counts them.
    #[inline(always)]
    fn step_fours<const N: usize>(&mut self, parts: &Parts, events: &mut [u8]) -> usize {
        self.time = parts.time;
        let now = self.read_parts::<N>(parts);
        let words = &mut self.words;
        let unrest = (0..=N).fold(0, |unrest, n| unrest | words[n].unrest(&now[n]));
        if unrest == 0 {
            return 0;
        }
        let mut runs = [Runs::default(); WORDS];
        runs[0] = digital::runs(&words[0], now[0].met);
        for n in 1..=N {
            runs[n] = analog::runs(&words[n], now[n].met);
        }
        let lasted = self.journal.run(&runs, parts.time);
        let mut steps = [Step::default(); WORDS];
        steps[0] = words[0].decide(&now[0], digital::ready(&words[0], lasted[0]));
        for n in 1..=N {
            steps[n] = words[n].decide(&now[n], analog::ready(&words[n], lasted[n]));
        }
        self.journal.write(&steps, parts.time, events)
    }

    /// Steps 1 to 4, and what the readings mean.
    #[inline(always)]
    fn read_parts<const N: usize>(&mut self, parts: &Parts) -> [Now; WORDS] {
        let mut now = [Now::default(); WORDS];
        let journal = &mut self.journal;
        now[0] = self.digital.read(parts.digital, &parts.inputs, &mut self.words[0], journal);
        let Some(fours) = self.analog.first_chunk_mut::<N>() else { return now };
        let mut left = parts.analog;
        for n in 0..N {
            let (part, rest) = left.split_at(left.len().min(FOUR));
            left = rest;
            now[n + 1] = fours[n].read(part, parts.time, &mut self.words[n + 1], journal);
        }
        now
    }

    /// Steps every alarm, and takes it back if the events do not fit.
    #[cold]
    fn step_if_it_fits(&mut self, parts: &Parts, events: &mut [u8]) -> Result<usize, Refusal> {
        let saved = self.clone();
        let mut buffer = [0; EVENTS_ENOUGH];
        let count = self.step(parts, &mut buffer);
        let written = &buffer[..count * EVENT_LEN];
        let Some(front) = events.get_mut(..written.len()) else {
            *self = saved;
            return Err(Refusal::new(12, 0));
        };
        front.copy_from_slice(written);
        Ok(count)
    }
}
