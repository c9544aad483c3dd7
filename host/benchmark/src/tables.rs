//! The tables of the series.

use crate::before::before;
use crate::contenders::{proved, rivals, CONTENDERS, PLAIN};
use crate::image::Shape;
use crate::results::Results;
use crate::table::{table, thousands};
use crate::timing::Point;

pub fn drives(results: &Results) -> String {
    let points = results.drives().into_iter();
    series("drive", points, |point| point.spec.drive.name().to_string())
}

pub fn singles(results: &Results) -> String {
    series("alarm, drive", results.singles().into_iter(), single)
}

pub fn alarms(results: &Results) -> String {
    let points = results.by_alarms().into_iter();
    series("alarms", points, |point| {
        point.spec.shape.alarms().to_string()
    })
}

pub fn scans(results: &Results) -> String {
    let points = results.by_scans().into_iter();
    series("scans", points, |point| thousands(point.spec.scans))
}

/// The full bank: times of then and of this run, each with its multiple of the plain rival's in the same run.
pub fn then_and_now(results: &Results) -> String {
    let then = ["plain", "replay", "by-value scan"].map(|name| format!("then {name}"));
    let then_ratios = ["replay", "by-value scan"].map(|name| format!("then {name} / {PLAIN}"));
    let mut heads = vec!["drive".to_string()];
    heads.extend(then.into_iter().chain(then_ratios));
    heads.push(format!("now {PLAIN}"));
    heads.extend(proved().map(|c| format!("now {}", c.name)));
    heads.extend(proved().map(|c| format!("now {} / {PLAIN}", c.name)));
    let mut rows = vec![heads];
    for point in results.drives() {
        let drive = point.spec.drive;
        let then = before(drive);
        let mut row = vec![drive.name().to_string()];
        row.extend([then.plain, then.replay, then.by_value].map(time));
        row.extend([then.replay, then.by_value].map(|time| ratio(time / then.plain)));
        row.push(time(point.time(PLAIN)));
        row.extend(proved().map(|c| time(point.time(c.name))));
        row.extend(proved().map(|c| ratio(point.ratio(c.name, PLAIN))));
        rows.push(row);
    }
    table(&rows)
}

/// `digital, quiet`
pub fn single(point: &Point) -> String {
    let kind = match point.spec.shape {
        Shape { analog: 0, .. } => "digital",
        _ => "analog",
    };
    format!("{kind}, {}", point.spec.drive.name())
}

/// Events, nanoseconds per scan of each contender, and each call of the archive as a multiple of each rival.
fn series<'a>(
    first: &str,
    points: impl Iterator<Item = &'a Point>,
    label: impl Fn(&Point) -> String,
) -> String {
    let mut heads = vec![first.to_string(), "events per scan".to_string()];
    heads.extend(CONTENDERS.iter().map(|c| format!("{}, ns", c.name)));
    heads.extend(pairs().map(|(ours, rival)| format!("{ours} / {rival}")));
    let mut rows = vec![heads];
    for point in points {
        let mut row = vec![label(point), format!("{:.2}", point.events_per_scan)];
        row.extend(point.times.iter().copied().map(time));
        row.extend(pairs().map(|(ours, rival)| ratio(point.ratio(ours, rival))));
        rows.push(row);
    }
    table(&rows)
}

fn pairs() -> impl Iterator<Item = (&'static str, &'static str)> {
    proved().flat_map(|ours| rivals().map(|rival| (ours.name, rival.name)))
}

fn time(time: f64) -> String {
    format!("{time:.1}")
}

fn ratio(ratio: f64) -> String {
    format!("{ratio:.2}")
}
