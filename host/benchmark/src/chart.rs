//! The chart of a run: bars for the drives, lines for how the time grows.

mod bars;
mod lines;
mod panel;
mod svg;

use crate::contenders::CONTENDERS;
use crate::results::Results;
use crate::spec::{ALARMS, SCANS};
use crate::table::thousands;
use crate::tables::single;
use panel::Area;
use svg::{Anchor, Svg};

const WIDTH: f64 = 840.0;
const HEIGHT: f64 = 900.0;
const DRIVES: Area = Area {
    left: 60.0,
    top: 105.0,
    width: 760.0,
    height: 210.0,
};
const SINGLES: Area = Area {
    top: 390.0,
    height: 170.0,
    ..DRIVES
};
const BY_ALARMS: Area = Area {
    left: 60.0,
    top: 665.0,
    width: 340.0,
    height: 190.0,
};
const BY_SCANS: Area = Area {
    left: 480.0,
    ..BY_ALARMS
};

pub fn chart(results: &Results) -> String {
    let mut svg = Svg::new(WIDTH, HEIGHT, "Nanoseconds per scan");
    svg.title(20.0, 30.0, "Nanoseconds per scan, proved calls and rivals");
    legend(&mut svg);
    let scans = thousands(SCANS);
    let caption = format!("by drive: {ALARMS} alarms, {scans} scans");
    bars::draw(&mut svg, DRIVES, &caption, &results.drives(), |point| {
        let (name, events) = (point.spec.drive.name(), point.events_per_scan);
        format!("{name}, {events:.1} events per scan")
    });
    let caption = format!("one alarm, {scans} scans");
    bars::draw(&mut svg, SINGLES, &caption, &results.singles(), single);
    lines::by_alarms(&mut svg, BY_ALARMS, &results.by_alarms());
    lines::by_scans(&mut svg, BY_SCANS, &results.by_scans());
    svg.finish()
}

fn legend(svg: &mut Svg) {
    let width = DRIVES.width / CONTENDERS.len() as f64;
    for (n, contender) in CONTENDERS.iter().enumerate() {
        let left = DRIVES.left + width * n as f64;
        let text = format!("{}: {}", contender.name, contender.about);
        svg.rect(left, 45.0, 14.0, 14.0, contender.colour);
        svg.text(left + 20.0, 57.0, Anchor::Start, &text);
    }
}
