//! One list as it is handed to both sides: an image, the records behind each other, and the lengths of what is lent. Then
//! what is done to the archive's words.

use std::ops::Range;

const TIME: usize = 8;
const WORD: usize = 4;
/// Bytes of an alarm's settings, and of its part of a record.
const DIGITAL: (usize, usize) = (9, 5);
const ANALOG: (usize, usize) = (61, 8);

#[derive(Clone, Debug, PartialEq, Eq)]
pub struct Case {
    pub image: Vec<u8>,
    pub records: Vec<u8>,
    /// Bytes lent for the image written back, for the events of all records in one call, and for a report.
    pub out: usize,
    pub events: usize,
    pub report: usize,
    /// Words lent for the answers; a second load has enough.
    pub load_words: usize,
    pub write_words: usize,
    pub replay_words: usize,
    pub report_words: usize,
    /// How each record is scanned alone.
    pub turns: Vec<Turn>,
    /// How the words of a bank are damaged.
    pub flips: Vec<Flip>,
    pub misfit: Option<Misfit>,
}

/// The scan of one record, and what is done around it.
#[derive(Clone, Copy, Debug, PartialEq, Eq)]
pub struct Turn {
    /// Bytes lent for events, and words for the answer.
    pub events: usize,
    pub words: usize,
    /// The record has one byte more, the first of the next one.
    pub longer: bool,
    /// Before it the bank is saved and restored.
    pub restored: bool,
    /// After it every alarm is reported and the image is written.
    pub reported: bool,
}

/// Bits of a word that are turned over; never of the layout word.
#[derive(Clone, Copy, Debug, PartialEq, Eq)]
pub struct Flip {
    pub block: usize,
    pub word: usize,
    pub bits: u64,
}

/// What makes blocks none of a bank.
#[derive(Clone, Copy, Debug, PartialEq, Eq)]
pub enum Misfit {
    /// Bits of the layout word turned over.
    Layout { bits: u64 },
    /// Another number of words.
    Length { block: usize, words: usize },
}

impl Misfit {
    pub fn block(self) -> usize {
        match self {
            Misfit::Layout { .. } => 0,
            Misfit::Length { block, .. } => block,
        }
    }
}

/// How many alarms of each kind an image speaks of, and so where everything stands. Alarms count from 0 here.
#[derive(Clone, Copy, Debug, PartialEq, Eq)]
pub struct Layout {
    pub digital: usize,
    pub analog: usize,
}

impl Layout {
    /// Of the factory bank, which an image of no bytes means.
    const FACTORY: Layout = Layout {
        digital: 12,
        analog: 0,
    };

    /// By the image's two counts, if its length is the one they ask for. Its alarms may still be refused.
    pub fn of(image: &[u8]) -> Option<Layout> {
        if image.is_empty() {
            return Some(Layout::FACTORY);
        }
        let digital = usize::from(*image.first()?);
        let analog = usize::from(*image.get(1 + DIGITAL.0 * digital)?);
        let layout = Layout { digital, analog };
        (layout.image_len() == image.len() && digital <= 12 && analog <= 12).then_some(layout)
    }

    pub fn alarms(self) -> usize {
        self.digital + self.analog
    }

    pub fn is_digital(self, alarm: usize) -> bool {
        alarm < self.digital
    }

    pub fn image_len(self) -> usize {
        2 + DIGITAL.0 * self.digital + ANALOG.0 * self.analog
    }

    pub fn record_len(self) -> usize {
        TIME + DIGITAL.1 * self.digital + ANALOG.1 * self.analog
    }

    /// Offset of the count of this alarm's section.
    pub fn count_at(self, alarm: usize) -> usize {
        if self.is_digital(alarm) {
            0
        } else {
            self.analog_count_at()
        }
    }

    pub fn analog_count_at(self) -> usize {
        1 + DIGITAL.0 * self.digital
    }

    /// Where an alarm's settings stand in the image.
    pub fn settings(self, alarm: usize) -> Range<usize> {
        if self.is_digital(alarm) {
            let at = 1 + DIGITAL.0 * alarm;
            at..at + DIGITAL.0
        } else {
            let at = self.analog_count_at() + 1 + ANALOG.0 * (alarm - self.digital);
            at..at + ANALOG.0
        }
    }

    /// Where an alarm's reading and command word stand in a record.
    pub fn part(self, alarm: usize) -> Range<usize> {
        if self.is_digital(alarm) {
            let at = TIME + DIGITAL.1 * alarm;
            at..at + DIGITAL.1
        } else {
            let at = TIME + DIGITAL.1 * self.digital + ANALOG.1 * (alarm - self.digital);
            at..at + ANALOG.1
        }
    }

    pub fn reading(self, alarm: usize) -> Range<usize> {
        let part = self.part(alarm);
        part.start..part.end - WORD
    }

    pub fn word(self, alarm: usize) -> Range<usize> {
        let part = self.part(alarm);
        part.end - WORD..part.end
    }
}

impl Case {
    /// Length in which the records are cut. An image without layout makes a bank without alarms.
    pub fn record_len(&self) -> usize {
        Layout::of(&self.image).map_or(TIME, Layout::record_len)
    }

    /// A record as it is scanned alone; nothing where there is none.
    pub fn record(&self, n: usize) -> &[u8] {
        let start = self.records.len().min(n * self.record_len());
        let longer = self.turns.get(n).is_some_and(|turn| turn.longer);
        let end = start + self.record_len() + usize::from(longer);
        &self.records[start..self.records.len().min(end)]
    }

    pub fn record_count(&self) -> usize {
        self.records.len().div_ceil(self.record_len())
    }

    /// Without `count` records from record `first` on.
    pub fn without_records(&self, first: usize, count: usize) -> Case {
        let length = self.record_len();
        let end = self.records.len().min((first + count) * length);
        let mut smaller = self.clone();
        smaller.records.drain(first * length..end);
        smaller.turns.drain(first..end.div_ceil(length));
        smaller
    }

    /// Without an alarm's settings and its part of every record.
    pub fn without_alarm(&self, layout: Layout, alarm: usize) -> Case {
        let mut smaller = self.clone();
        smaller.image[layout.count_at(alarm)] -= 1;
        smaller.image.drain(layout.settings(alarm));
        let part = layout.part(alarm);
        let kept = |at: usize| !part.contains(&(at % layout.record_len()));
        let records = self.records.iter().enumerate();
        smaller.records = records
            .filter(|(at, _)| kept(*at))
            .map(|(_, byte)| *byte)
            .collect();
        smaller
    }

    /// Without one bit of the records.
    pub fn without_bit(&self, byte: usize, bit: u32) -> Case {
        let mut smaller = self.clone();
        smaller.records[byte] &= !(1 << bit);
        smaller
    }
}

/// A little-endian number.
pub fn number(bytes: &[u8]) -> u64 {
    bytes
        .iter()
        .rev()
        .fold(0, |value, byte| value << 8 | u64::from(*byte))
}
