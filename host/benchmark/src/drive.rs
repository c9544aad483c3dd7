//! The drives: scan records, 100 ms apart, whose readings and commands keep the alarms more or less busy.

#[path = "drive/commands.rs"] // found too where another crate takes this file in
mod commands;

use crate::image::Shape;
use crate::random::Random;

/// Times in ms.
const START: u64 = 1000;
const INTERVAL: u64 = 100;
/// A level well inside all limits, where each walk starts.
const MIDDLE: f32 = 700.0;
/// Levels of a quiet drive: all inside the limits.
const INSIDE: (f32, f32) = (650.0, 750.0);
/// Levels of the other two: from below LL to above HH.
const ACROSS: (f32, f32) = (450.0, 950.0);

#[derive(Clone, Copy, PartialEq, Eq)]
pub enum Drive {
    /// No commands, readings wander inside the limits: no events.
    Quiet,
    /// Readings wander across the limits, an input changes now and then, someone acknowledges: an event or two a scan.
    Busy,
    /// Readings jump across all limits in each scan, every eighth command word has some bits: ten events a scan and more.
    Storm,
}

pub const DRIVES: [Drive; 3] = [Drive::Quiet, Drive::Busy, Drive::Storm];

impl Drive {
    pub fn name(self) -> &'static str {
        match self {
            Drive::Quiet => "quiet",
            Drive::Busy => "busy",
            Drive::Storm => "storm",
        }
    }

    pub fn records(self, shape: Shape, scans: usize) -> Vec<u8> {
        let mut random = Random::new();
        let mut inputs = vec![0; shape.digital];
        let mut levels = vec![MIDDLE; shape.analog];
        let mut records = Vec::with_capacity(scans * shape.record_len());
        for scan in 0..scans as u64 {
            records.extend((START + INTERVAL * scan).to_le_bytes());
            for input in &mut inputs {
                *input = self.input(&mut random, *input);
                records.push(*input);
                records.extend(self.word(&mut random, commands::DIGITAL).to_le_bytes());
            }
            for level in &mut levels {
                *level = self.level(&mut random, *level);
                records.extend(level.to_le_bytes());
                records.extend(self.word(&mut random, commands::ANALOG).to_le_bytes());
            }
        }
        records
    }

    /// The digital input after `last`.
    fn input(self, random: &mut Random, last: u8) -> u8 {
        match self {
            Drive::Quiet => 0,
            Drive::Busy => last ^ u8::from(random.below(30) == 0),
            Drive::Storm => random.below(2) as u8,
        }
    }

    /// The level after `last`.
    fn level(self, random: &mut Random, last: f32) -> f32 {
        match self {
            Drive::Quiet => walk(random, last, 3.0, INSIDE),
            Drive::Busy => walk(random, last, 30.0, ACROSS),
            Drive::Storm => random.between(ACROSS.0, ACROSS.1),
        }
    }

    /// A command word with bits that the kind of alarm has.
    fn word(self, random: &mut Random, kind: u32) -> u32 {
        match self {
            Drive::Quiet => 0,
            Drive::Busy => commands::now_and_then(random) & kind,
            Drive::Storm => commands::many(random) & kind,
        }
    }
}

/// A step of a random walk between two bounds.
fn walk(random: &mut Random, last: f32, step: f32, bounds: (f32, f32)) -> f32 {
    let next = last + random.between(-step, step);
    next.clamp(bounds.0, bounds.1)
}
