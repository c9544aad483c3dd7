//! What the contenders get for one drive of one bank.

use crate::spec::{Spec, SCANS};
use second_opinion::{Bank, EVENTS_ENOUGH, EVENT_LEN};

/// A bank's image and lists of records for it. Short lists are many, each another one, so that no call is timed on what
/// the processor knows by heart.
pub struct Load {
    pub spec: Spec,
    pub image: Vec<u8>,
    /// One list behind the other.
    records: Vec<u8>,
    /// Events of each list.
    events: Vec<usize>,
}

impl Load {
    pub fn new(spec: Spec) -> Load {
        let scans = spec.scans * SCANS.div_ceil(spec.scans);
        let mut load = Load {
            spec,
            image: spec.shape.image(),
            records: spec.drive.records(spec.shape, scans),
            events: Vec::new(),
        };
        load.events = load.lists().map(|list| load.count(list)).collect();
        load
    }

    pub fn record_len(&self) -> usize {
        self.spec.shape.record_len()
    }

    pub fn lists(&self) -> impl Iterator<Item = &[u8]> {
        self.records.chunks(self.spec.scans * self.record_len())
    }

    /// Scans of all lists.
    pub fn scans(&self) -> usize {
        self.spec.scans * self.events.len()
    }

    pub fn events_per_scan(&self) -> f64 {
        self.events.iter().sum::<usize>() as f64 / self.scans() as f64
    }

    /// Events of a list, counted scan by scan, so that no buffer for the most that could come is needed.
    fn count(&self, list: &[u8]) -> usize {
        let mut bank = Bank::read(&self.image).expect("an image without fault");
        let mut buffer = [0; EVENTS_ENOUGH];
        let records = list.chunks(bank.record_len());
        records
            .map(|record| bank.scan(record, &mut buffer))
            .map(|count| count.expect("a record without fault"))
            .sum()
    }

    /// A buffer for the events of any of the lists, and of one scan more. Every byte is set here, so that all memory is
    /// there before the first call.
    pub fn buffer(&self) -> Vec<u8> {
        let most = self.events.iter().max().map_or(0, |most| EVENT_LEN * most);
        vec![0xA5; most + EVENTS_ENOUGH]
    }
}
