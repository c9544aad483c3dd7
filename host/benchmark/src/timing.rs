//! Least times of alternated rounds.

use crate::contenders::CONTENDERS;
use crate::load::Load;
use crate::spec::Spec;

/// What one load came to.
pub struct Point {
    pub spec: Spec,
    pub events_per_scan: f64,
    /// Nanoseconds per scan of each contender, in the order of their list.
    pub times: Vec<f64>,
}

impl Point {
    fn unmeasured(load: &Load) -> Point {
        Point {
            spec: load.spec,
            events_per_scan: load.events_per_scan(),
            times: vec![f64::INFINITY; CONTENDERS.len()],
        }
    }

    /// Every contender once, on the same buffer.
    fn measure(&mut self, load: &Load, buffer: &mut [u8]) {
        for (contender, least) in CONTENDERS.iter().zip(&mut self.times) {
            let time = (contender.round)(load, buffer);
            *least = least.min(time.as_nanos() as f64 / load.scans() as f64);
        }
    }

    /// Nanoseconds per scan of a contender by its name.
    pub fn time(&self, name: &str) -> f64 {
        let mut named = CONTENDERS.iter().zip(&self.times);
        let found = named.find(|(contender, _)| contender.name == name);
        *found.expect("a contender").1
    }

    /// One's time as a multiple of another's.
    pub fn ratio(&self, one: &str, other: &str) -> f64 {
        self.time(one) / self.time(other)
    }
}

/// A round goes through all loads, so that what disturbs the machine for a while spoils no load's every round.
pub fn measure(loads: &[Load], rounds: usize) -> Vec<Point> {
    let mut buffers: Vec<Vec<u8>> = loads.iter().map(Load::buffer).collect();
    let mut points: Vec<Point> = loads.iter().map(Point::unmeasured).collect();
    for _ in 0..rounds {
        for ((load, buffer), point) in loads.iter().zip(&mut buffers).zip(&mut points) {
            point.measure(load, buffer);
        }
    }
    points
}
