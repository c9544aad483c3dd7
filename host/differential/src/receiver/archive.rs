//! The proved archive, with an eye on its words: nothing outside them is touched, nor any that a call must leave.

use super::Receiver;
use crate::lent::Lent;
use crate::meifgur::{self, MARKS_WORDS, SETTINGS_WORDS, STATES_WORDS};

/// Settings, states, marks, in the order of their places in refusal 42.
#[derive(Clone)]
pub struct Words {
    pub blocks: [Lent<u64>; 3],
}

pub const BLOCKS: [&str; 3] = ["settings", "states", "marks"];

impl Words {
    fn unloaded() -> Words {
        Words {
            blocks: [SETTINGS_WORDS, STATES_WORDS, MARKS_WORDS].map(Lent::words),
        }
    }

    /// Every word as bytes.
    fn save(&self) -> Vec<u8> {
        let words = self.blocks.iter().map(|block| block.iter());
        let words = words.flat_map(|block| block.map(|word| word.to_le_bytes()));
        words.collect::<Vec<_>>().into_flattened()
    }

    fn restored(saved: &[u8]) -> Words {
        let mut words = Words::unloaded();
        let all = words.blocks.iter_mut().flat_map(|block| block.iter_mut());
        for (word, bytes) in all.zip(saved.as_chunks().0) {
            *word = u64::from_le_bytes(*bytes);
        }
        words
    }

    /// Becomes what another one is.
    fn copy(&mut self, other: &Words) {
        for (block, other) in self.blocks.iter_mut().zip(&other.blocks) {
            block.copy(other);
        }
    }
}

#[derive(Clone)]
pub struct Archive {
    pub words: Words,
    /// Before the last call.
    before: Words,
    faults: Vec<String>,
}

/// Which blocks a call may change unless it is refused.
const NONE: [bool; 3] = [false, false, false];
const BY_SCAN: [bool; 3] = [false, true, true];
const ALL: [bool; 3] = [true, true, true];

impl Archive {
    /// Runs a call and looks at what it did to the words. A refused image is one that changes them all the same.
    fn watched(
        &mut self,
        name: &str,
        may_change: [bool; 3],
        call: impl FnOnce(&mut Words) -> u32,
    ) -> u32 {
        self.before.copy(&self.words);
        let code = call(&mut self.words);
        let done = code <= 6;
        for (n, block) in BLOCKS.iter().enumerate() {
            let (now, before) = (&self.words.blocks[n], &self.before.blocks[n]);
            if now != before && !(done && may_change[n] && now.is_kept_behind(now.len(), before)) {
                self.faults.push(format!(
                    "{name}, code {code}: changed {block} that it must leave"
                ));
            }
        }
        code
    }
}

impl Receiver for Archive {
    fn unloaded() -> Archive {
        Archive {
            words: Words::unloaded(),
            before: Words::unloaded(),
            faults: Vec::new(),
        }
    }

    fn load(&mut self, image: &[u8], answer: &mut [u64]) -> u32 {
        self.watched("load", ALL, |words| {
            let [settings, states, marks] = &mut words.blocks;
            meifgur::load_words(image, settings, states, marks, answer)
        })
    }

    fn scan(&mut self, record: &[u8], events: &mut [u8], answer: &mut [u64]) -> u32 {
        self.watched("scan", BY_SCAN, |words| {
            let [settings, states, marks] = &mut words.blocks;
            meifgur::scan_words(settings, states, marks, record, events, answer)
        })
    }

    fn report(&mut self, alarm: usize, report: &mut [u8], answer: &mut [u64]) -> u32 {
        self.watched("report", NONE, |words| {
            let [settings, states, marks] = &words.blocks;
            meifgur::report_words(settings, states, marks, alarm, report, answer)
        })
    }

    fn write(&mut self, out: &mut [u8], answer: &mut [u64]) -> u32 {
        self.watched("write", NONE, |words| {
            meifgur::write_words(&words.blocks[0], out, answer)
        })
    }

    fn replay(&mut self, records: &[u8], events: &mut [u8], answer: &mut [u64]) -> u32 {
        self.watched("replay", BY_SCAN, |words| {
            let [settings, states, marks] = &mut words.blocks;
            meifgur::replay_words(settings, states, marks, records, events, answer)
        })
    }

    fn restore(&mut self) {
        self.words = Words::restored(&self.words.save());
    }

    fn faults(self) -> Vec<String> {
        self.faults
    }
}
