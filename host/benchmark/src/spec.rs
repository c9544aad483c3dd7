//! Which drives of which banks are run.

use crate::drive::{Drive, DRIVES};
use crate::image::Shape;
use std::fmt;

/// The full bank, and the usual number of scans.
pub const ALARMS: usize = 24;
pub const SCANS: usize = 100_000;
/// How the busy drive grows.
pub const ALARM_STEPS: [usize; 8] = [1, 2, 4, 8, 12, 16, 20, ALARMS];
pub const SCAN_STEPS: [usize; 4] = [1000, 10_000, SCANS, 1_000_000];
/// One alarm of either kind.
const SINGLES: [Shape; 2] = [
    Shape {
        digital: 1,
        analog: 0,
    },
    Shape {
        digital: 0,
        analog: 1,
    },
];

#[derive(Clone, Copy, PartialEq, Eq)]
pub struct Spec {
    pub drive: Drive,
    pub shape: Shape,
    pub scans: usize,
}

impl Spec {
    pub fn of_drive(drive: Drive) -> Spec {
        Spec {
            drive,
            shape: Shape::of(ALARMS),
            scans: SCANS,
        }
    }

    pub fn singles() -> impl Iterator<Item = Spec> {
        SINGLES.into_iter().flat_map(|shape| {
            DRIVES.map(|drive| Spec {
                shape,
                ..Spec::of_drive(drive)
            })
        })
    }

    pub fn of_alarms(alarms: usize) -> Spec {
        Spec {
            shape: Shape::of(alarms),
            ..Spec::of_drive(Drive::Busy)
        }
    }

    pub fn of_scans(scans: usize) -> Spec {
        Spec {
            scans,
            ..Spec::of_drive(Drive::Busy)
        }
    }

    /// Each that is needed, once: some stand in several series.
    pub fn all() -> Vec<Spec> {
        let drives = DRIVES.map(Spec::of_drive).into_iter();
        let alarms = ALARM_STEPS.map(Spec::of_alarms).into_iter();
        let scans = SCAN_STEPS.map(Spec::of_scans).into_iter();
        let mut all = Vec::new();
        for spec in drives.chain(Spec::singles()).chain(alarms).chain(scans) {
            if !all.contains(&spec) {
                all.push(spec);
            }
        }
        all
    }
}

impl fmt::Display for Spec {
    fn fmt(&self, f: &mut fmt::Formatter) -> fmt::Result {
        let (drive, scans) = (self.drive.name(), self.scans);
        let Shape { digital, analog } = self.shape;
        write!(
            f,
            "{drive}, {digital} digital and {analog} analog, {scans} scans"
        )
    }
}
