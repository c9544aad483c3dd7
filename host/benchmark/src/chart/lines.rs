//! A line for each contender: how the time of a scan grows.

use super::panel::{Area, Panel};
use super::svg::{Anchor, Svg};
use crate::contenders::CONTENDERS;
use crate::spec::{ALARMS, SCANS};
use crate::table::thousands;
use crate::timing::Point;

/// Left and right of the first and the last point.
const MARGIN: f64 = 14.0;

/// Alarms stand evenly.
pub fn by_alarms(svg: &mut Svg, area: Area, points: &[&Point]) {
    let caption = format!("by alarms: busy drive, {} scans", thousands(SCANS));
    let alarms = points.iter().map(|point| point.spec.shape.alarms());
    let marks: Vec<_> = alarms.map(|n| (n as f64, n.to_string())).collect();
    draw(svg, area, &caption, points, &marks);
}

/// Ten times as many scans stand evenly.
pub fn by_scans(svg: &mut Svg, area: Area, points: &[&Point]) {
    let caption = format!("by scans: busy drive, {ALARMS} alarms");
    let scans = points.iter().map(|point| point.spec.scans);
    let marks: Vec<_> = scans.map(|n| ((n as f64).log10(), short(n))).collect();
    draw(svg, area, &caption, points, &marks);
}

/// `marks` are where each point stands from left to right, and its label.
fn draw(svg: &mut Svg, area: Area, caption: &str, points: &[&Point], marks: &[(f64, String)]) {
    let most = points.iter().flat_map(|point| &point.times);
    let panel = Panel::draw(svg, area, caption, most.copied().fold(0.0, f64::max));
    let (Some((least, _)), Some((most, _))) = (marks.first(), marks.last()) else {
        return;
    };
    let width = area.width - 2.0 * MARGIN;
    let x = |mark: f64| area.left + MARGIN + width * (mark - least) / (most - least);
    for (mark, label) in marks {
        svg.text(x(*mark), area.bottom() + 20.0, Anchor::Middle, label);
    }
    for contender in CONTENDERS {
        let times = points.iter().map(|point| point.time(contender.name));
        let curve = marks.iter().zip(times);
        let curve: Vec<(f64, f64)> = curve
            .map(|((mark, _), time)| (x(*mark), panel.y(time)))
            .collect();
        svg.curve(&curve, contender.colour);
    }
}

/// `100k`, `1M`
fn short(number: usize) -> String {
    match number {
        1_000_000.. => format!("{}M", number / 1_000_000),
        1000.. => format!("{}k", number / 1000),
        _ => number.to_string(),
    }
}
