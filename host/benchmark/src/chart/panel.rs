//! A part of the chart: its area, its caption, and a scale of nanoseconds from 0 upwards.

use super::svg::{Anchor, Svg};

const GRID: &str = "#dddddd";
const AXIS: &str = "#555555";

#[derive(Clone, Copy)]
pub struct Area {
    pub left: f64,
    pub top: f64,
    pub width: f64,
    pub height: f64,
}

impl Area {
    pub fn bottom(self) -> f64 {
        self.top + self.height
    }
}

pub struct Panel {
    area: Area,
    most: f64,
}

impl Panel {
    /// Draws caption, grid and scale for times up to `most`.
    pub fn draw(svg: &mut Svg, area: Area, caption: &str, most: f64) -> Panel {
        let step = step(most);
        // Some space above the highest, for its number.
        let steps = (1.08 * most / step).ceil();
        let panel = Panel {
            area,
            most: steps * step,
        };
        svg.text(area.left, area.top - 14.0, Anchor::Start, caption);
        let right = area.left + area.width;
        for n in 0..=steps as usize {
            let value = n as f64 * step;
            let y = panel.y(value);
            let colour = if n == 0 { AXIS } else { GRID };
            svg.line((area.left, y), (right, y), colour);
            svg.text(area.left - 8.0, y + 4.5, Anchor::End, &value.to_string());
        }
        panel
    }

    /// The height at which a time stands.
    pub fn y(&self, value: f64) -> f64 {
        self.area.bottom() - self.area.height * value / self.most
    }
}

/// A round step of which some five come to `most`.
fn step(most: f64) -> f64 {
    let rough = most / 5.0;
    let power = 10f64.powf(rough.log10().floor());
    let steps = [1.0, 2.0, 2.5, 5.0, 10.0].map(|factor| factor * power);
    let enough = steps.into_iter().find(|step| *step >= rough);
    enough.unwrap_or(10.0 * power)
}
