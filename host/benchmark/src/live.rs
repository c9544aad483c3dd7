//! A bank that is loaded once and then scanned, record by record, and asked for reports.

use crate::meifgur;
use second_opinion::{quick, Bank, REPORT_LEN};

/// The images and records here have no faults: a refusal is a panic.
pub trait Live {
    fn loaded(image: &[u8]) -> Self;

    /// One record; how many events stand at the front of `events`.
    fn step(&mut self, record: &[u8], events: &mut [u8]) -> usize;

    /// Of an alarm, counted from 1.
    fn tell(&self, alarm: usize) -> [u8; REPORT_LEN];
}

const IMAGE: &str = "an image without fault";
const RECORD: &str = "a record without fault";
const ALARM: &str = "an alarm of the bank";

impl Live for meifgur::Bank {
    fn loaded(image: &[u8]) -> Self {
        let mut bank = meifgur::Bank::empty();
        bank.load(image).expect(IMAGE);
        bank
    }

    fn step(&mut self, record: &[u8], events: &mut [u8]) -> usize {
        self.scan(record, events).expect(RECORD)
    }

    fn tell(&self, alarm: usize) -> [u8; REPORT_LEN] {
        self.report(alarm).expect(ALARM)
    }
}

/// Those of the second opinion have the same calls.
macro_rules! rival {
    ($bank:ty) => {
        impl Live for $bank {
            fn loaded(image: &[u8]) -> Self {
                <$bank>::read(image).expect(IMAGE)
            }

            fn step(&mut self, record: &[u8], events: &mut [u8]) -> usize {
                self.scan(record, events).expect(RECORD)
            }

            fn tell(&self, alarm: usize) -> [u8; REPORT_LEN] {
                self.report(alarm as u64).expect(ALARM).to_bytes()
            }
        }
    };
}

rival!(Bank);
rival!(quick::Bank);
