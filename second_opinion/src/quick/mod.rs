//! The same bank made for speed, alarm by alarm, from settings and states alone: in every scan every alarm's
//! reading is compared, and nothing is written for an alarm that does not change.
//!
//! - `look`: which alarms a scan changes, and whether its record has faults.
//! - `step`: the alarms that change stepped, and their events written.
//! - `digital`, `analog`: what changes an alarm of that kind, and its step.
//! - `flags`: an alarm's conditions and modes, a bit each of one word, and their step.
//! - `edges`, `rates`: what a reading meets, and what it keeps in alarm. `runs`: since when.
//! - `log`, `report`: events with their stamps and counts, and what the bank tells about an alarm.

mod analog;
mod digital;
mod edges;
mod flags;
mod log;
mod look;
mod rates;
mod report;
mod runs;
mod step;

use crate::scan::{ANALOG_LEN, DIGITAL_LEN, Parts, TIME_LEN};
use crate::{EVENT_LEN, EVENTS_ENOUGH, Refusal, Report, settings};
use analog::Analog;
use digital::Digital;
use log::Scan;
use look::{Moving, look};
use step::step;

/// The most events of one alarm in one scan.
const DIGITAL_EVENTS: usize = 5;
const ANALOG_EVENTS: usize = 15;

#[derive(Clone, Debug)]
pub struct Bank {
    /// Time of the last accepted scan, 0 before one.
    time: u64,
    record_len: usize,
    /// Bytes of an event buffer that suffices for every scan.
    enough: usize,
    digital: Vec<Digital>,
    analog: Vec<Analog>,
}

impl Bank {
    /// The bank of a settings image, its alarms fresh.
    pub fn read(image: &[u8]) -> Result<Bank, Refusal> {
        let (digital, analog) = settings::read(image)?;
        let (digitals, analogs) = (digital.len(), analog.len());
        let first_analog = digitals as u8 + 1;
        Ok(Bank {
            time: 0,
            record_len: TIME_LEN + DIGITAL_LEN * digitals + ANALOG_LEN * analogs,
            enough: EVENT_LEN * (DIGITAL_EVENTS * digitals + ANALOG_EVENTS * analogs),
            digital: digital.into_iter().zip(1..).map(Digital::new).collect(),
            analog: analog.into_iter().zip(first_analog..).map(Analog::new).collect(),
        })
    }

    /// The report of alarm `n`, counted from 1.
    pub fn report(&self, n: u64) -> Result<Report, Refusal> {
        let index = usize::try_from(n).unwrap_or(0).wrapping_sub(1);
        let digital = self.digital.get(index).map(|alarm| alarm.report(self.time));
        let analog = self.analog.get(index.wrapping_sub(self.digital.len()));
        digital.or(analog.map(|alarm| alarm.report(self.time))).ok_or(Refusal::new(14, 0))
    }

    /// Carries one scan record out, writes its events to the front of `events` and gives their number.
    /// A refused one leaves bank and buffer as they were.
    pub fn scan(&mut self, record: &[u8], events: &mut [u8]) -> Result<usize, Refusal> {
        let parts = Parts::of(record, self.record_len, self.digital.len(), self.time)?;
        let (digital, digital_fault) = look(&self.digital, parts.digital, parts.time);
        let (analog, analog_fault) = look(&self.analog, parts.analog, parts.time);
        if digital_fault | analog_fault {
            return Err(first_fault(parts));
        }
        if events.len() < self.enough {
            return self.step_if_it_fits(parts, [digital, analog], events);
        }
        Ok(self.step(&parts, [digital, analog], events))
    }

    /// Steps the alarms that change in place, with a buffer that is long enough.
    #[inline(always)]
    fn step(&mut self, parts: &Parts, [digital, analog]: [Moving; 2], events: &mut [u8]) -> usize {
        self.time = parts.time;
        let slots = events.as_chunks_mut::<EVENT_LEN>().0;
        let all = slots.len();
        let mut scan = Scan { time: parts.time, slots: slots.iter_mut() };
        step(&mut self.digital, parts.digital, digital, &mut scan);
        step(&mut self.analog, parts.analog, analog, &mut scan);
        all - scan.slots.len()
    }

    /// Steps the alarms that change, and takes it back if the events do not fit.
    #[cold]
    fn step_if_it_fits(
        &mut self,
        parts: Parts,
        moving: [Moving; 2],
        events: &mut [u8],
    ) -> Result<usize, Refusal> {
        let saved = self.clone();
        let mut buffer = [0; EVENTS_ENOUGH];
        let count = self.step(&parts, moving, &mut buffer);
        let written = &buffer[..count * EVENT_LEN];
        let Some(front) = events.get_mut(..written.len()) else {
            *self = saved;
            return Err(Refusal::new(12, 0));
        };
        front.copy_from_slice(written);
        Ok(count)
    }
}

/// The first fault of a record that has one. Out of the way, as records mostly have none.
#[cold]
fn first_fault(parts: Parts) -> Refusal {
    parts.check().expect_err("a fault")
}
