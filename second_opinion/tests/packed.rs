//! The packed bank held to the plain one.

mod common;

use common::rival::{self, Rival};
use second_opinion::{Refusal, Report, packed};

impl Rival for packed::Bank {
    fn read(image: &[u8]) -> Result<Self, Refusal> {
        Self::read(image)
    }

    fn scan(&mut self, record: &[u8], events: &mut [u8]) -> Result<usize, Refusal> {
        self.scan(record, events)
    }

    fn report(&self, n: u64) -> Result<Report, Refusal> {
        self.report(n)
    }
}

#[test]
fn same_as_plain() {
    rival::same_as_plain::<packed::Bank>();
}

#[test]
fn any_images() {
    rival::any_images::<packed::Bank>();
}
