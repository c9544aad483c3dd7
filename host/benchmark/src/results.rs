//! All points of a run, as four series.

use crate::drive::DRIVES;
use crate::spec::{Spec, ALARM_STEPS, SCAN_STEPS};
use crate::timing::Point;

pub struct Results {
    pub rounds: usize,
    pub points: Vec<Point>,
}

impl Results {
    /// The full bank on each drive.
    pub fn drives(&self) -> Vec<&Point> {
        DRIVES.map(|drive| self.of(Spec::of_drive(drive))).to_vec()
    }

    /// One alarm of either kind on each drive.
    pub fn singles(&self) -> Vec<&Point> {
        Spec::singles().map(|spec| self.of(spec)).collect()
    }

    pub fn by_alarms(&self) -> Vec<&Point> {
        ALARM_STEPS.map(|n| self.of(Spec::of_alarms(n))).to_vec()
    }

    pub fn by_scans(&self) -> Vec<&Point> {
        SCAN_STEPS.map(|n| self.of(Spec::of_scans(n))).to_vec()
    }

    fn of(&self, spec: Spec) -> &Point {
        let found = self.points.iter().find(|point| point.spec == spec);
        found.expect("every spec is measured")
    }
}
