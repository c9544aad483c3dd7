//! Document 01, "Twelve wheels, two alarm blocks": a bank of up to 12 digital and 12 analog alarms,
//! read from a settings image, driven by scan records, changed in place.
//!
//! - [`settings`]: what an image says, read and written.
//! - [`alarm`]: one alarm's memory and the step of one scan.
//! - [`scan`]: a record checked and carried out over the whole bank, and the replay of many.
//! - [`report`], [`bytes`]: what the bank tells about an alarm.
//! - [`quick`], [`packed`]: the same bank again, made for speed, alarm by alarm and many alarms at once.

#![forbid(unsafe_code)]

mod alarm;
mod bytes;
pub mod packed;
pub mod quick;
mod report;
mod scan;
mod settings;

pub use bytes::REPORT_LEN;
pub use report::{Condition, Report};
pub use scan::Replayed;

use alarm::{Analog, Digital};

/// Bytes of one event record.
pub const EVENT_LEN: usize = 16;

/// An event buffer of this many bytes suffices for every scan.
pub const EVENTS_ENOUGH: usize = 3840;

/// A call turned back: the number and place of document 01's table.
#[derive(Clone, Copy, Debug, PartialEq, Eq)]
pub struct Refusal {
    pub number: u32,
    pub place: u64,
}

impl Refusal {
    pub(crate) fn new(number: u32, place: usize) -> Refusal {
        Refusal { number, place: place as u64 }
    }
}

/// The alarms with their settings and all that the accepted scans left behind.
#[derive(Clone, Debug)]
pub struct Bank {
    digital: Vec<Digital>,
    analog: Vec<Analog>,
    /// Time of the last accepted scan, 0 before one.
    time: u64,
}

impl Bank {
    /// The bank of a settings image, its alarms fresh.
    pub fn read(image: &[u8]) -> Result<Bank, Refusal> {
        let (digital, analog) = settings::read(image)?;
        Ok(Bank {
            digital: digital.into_iter().map(Digital::fresh).collect(),
            analog: analog.into_iter().map(Analog::fresh).collect(),
            time: 0,
        })
    }

    /// The bank without alarms, which refused settings leave.
    pub fn empty() -> Bank {
        Bank { digital: Vec::new(), analog: Vec::new(), time: 0 }
    }

    /// Writes the image to the front of `out` and gives its length.
    pub fn write(&self, out: &mut [u8]) -> Result<usize, Refusal> {
        let digital = self.digital.iter().map(|alarm| &alarm.settings);
        let analog = self.analog.iter().map(|alarm| &alarm.settings);
        settings::write(digital, analog, out)
    }

    /// Number of alarms, digital and analog together.
    pub fn alarms(&self) -> usize {
        self.digital.len() + self.analog.len()
    }

    /// True if alarm `n`, counted from 1, is a digital one.
    pub fn is_digital(&self, n: u64) -> bool {
        1 <= n && n <= self.digital.len() as u64
    }

    /// Length of this bank's scan records.
    pub fn record_len(&self) -> usize {
        scan::TIME_LEN + scan::DIGITAL_LEN * self.digital.len() + scan::ANALOG_LEN * self.analog.len()
    }
}
