//! Whether the archive's scan keeps within its bounds.

use crate::contenders::{QUICK, SCAN};
use crate::results::Results;
use crate::timing::Point;

/// What a scan may take at most, as a multiple of the quick rival's time: of a full bank, and of a bank with one alarm.
pub const FULL_MOST: f64 = 1.3;
pub const SINGLE_MOST: f64 = 1.6;

/// A line for each drive on which a scan takes more than its bound.
pub fn above(results: &Results) -> Vec<String> {
    let full = results.drives().into_iter().map(|point| (point, FULL_MOST));
    let single = results.singles().into_iter();
    let single = single.map(|point| (point, SINGLE_MOST));
    let all = full.chain(single);
    let above = all.filter(|(point, most)| point.ratio(SCAN, QUICK) > *most);
    above.map(|(point, most)| line(point, most)).collect()
}

fn line(point: &Point, most: f64) -> String {
    let ratio = point.ratio(SCAN, QUICK);
    let spec = point.spec;
    format!("{spec}: {SCAN} takes {ratio:.2} times {QUICK}'s time, at most {most} is allowed")
}
