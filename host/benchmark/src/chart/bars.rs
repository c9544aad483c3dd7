//! A group of bars for each point, one for each contender.

use super::panel::{Area, Panel};
use super::svg::{Anchor, Svg};
use crate::contenders::CONTENDERS;
use crate::timing::Point;

/// Part of a group's width that its bars take.
const FILLED: f64 = 0.84;

pub fn draw(
    svg: &mut Svg,
    area: Area,
    caption: &str,
    points: &[&Point],
    label: impl Fn(&Point) -> String,
) {
    let most = points.iter().flat_map(|point| &point.times);
    let most = most.copied().fold(0.0, f64::max);
    let panel = Panel::draw(svg, area, caption, most);
    let group = area.width / points.len() as f64;
    for (n, point) in points.iter().enumerate() {
        let left = area.left + group * n as f64;
        draw_group(svg, &panel, (left, group), area.bottom(), point);
        let (middle, below) = (left + group / 2.0, area.bottom() + 20.0);
        svg.text(middle, below, Anchor::Middle, &label(point));
    }
}

fn draw_group(svg: &mut Svg, panel: &Panel, (left, width): (f64, f64), bottom: f64, point: &Point) {
    let bar = FILLED * width / CONTENDERS.len() as f64;
    let first = left + (1.0 - FILLED) / 2.0 * width;
    for (n, (contender, time)) in CONTENDERS.iter().zip(&point.times).enumerate() {
        let x = first + bar * n as f64;
        let y = panel.y(*time);
        svg.rect(x + 1.5, y, bar - 3.0, bottom - y, contender.colour);
        let value = format!("{time:.0}");
        svg.text(x + bar / 2.0, y - 5.0, Anchor::Middle, &value);
    }
}
