//! The second opinion's bank behind the calls, with codes and answers as the header says them.

use super::{Receiver, ANSWER_SHORT, NO_BANK, REPORT_SHORT};
use crate::meifgur::{LOAD_ANSWER, REPLAY_ANSWER, REPORT_ANSWER, SCAN_ANSWER, WRITE_ANSWER};
use second_opinion::{Bank, Refusal, REPORT_LEN};

/// The bank, once settings were loaded.
pub struct Opinion(Option<Bank>);

/// Of words that no call wrote: the layout word, which is among the settings, is missing.
const UNLOADED: Refusal = Refusal {
    number: NO_BANK,
    place: 0,
};

/// Writes what a call came to into the front of its answer: of a refusal number and place, and 0 behind them.
fn answered<const N: usize>(
    answer: &mut [u64],
    call: impl FnOnce() -> Result<[u64; N], Refusal>,
) -> u32 {
    let Some(answer) = answer.first_chunk_mut() else {
        return ANSWER_SHORT;
    };
    match call() {
        Ok(words) => {
            *answer = words;
            0
        }
        Err(Refusal { number, place }) => {
            *answer = [0; N];
            answer[0] = number.into();
            answer[1] = place;
            number
        }
    }
}

impl Opinion {
    fn bank(&mut self) -> Result<&mut Bank, Refusal> {
        self.0.as_mut().ok_or(UNLOADED)
    }
}

impl Receiver for Opinion {
    fn unloaded() -> Opinion {
        Opinion(None)
    }

    fn load(&mut self, image: &[u8], answer: &mut [u64]) -> u32 {
        answered::<LOAD_ANSWER>(answer, || {
            self.0 = Some(Bank::empty());
            let bank = Bank::read(image)?;
            let alarms = bank.alarms() as u64;
            let digital = (1..=alarms).filter(|n| bank.is_digital(*n)).count() as u64;
            self.0 = Some(bank);
            Ok([0, 0, digital, alarms - digital])
        })
    }

    fn scan(&mut self, record: &[u8], events: &mut [u8], answer: &mut [u64]) -> u32 {
        answered::<SCAN_ANSWER>(answer, || {
            let count = self.bank()?.scan(record, events)?;
            Ok([0, 0, count as u64])
        })
    }

    /// A buffer too short for a report leaves the answer, as an answer that is too short does.
    fn report(&mut self, alarm: usize, report: &mut [u8], answer: &mut [u64]) -> u32 {
        if answer.len() < REPORT_ANSWER {
            return ANSWER_SHORT;
        }
        let Some(front) = report.first_chunk_mut::<REPORT_LEN>() else {
            return REPORT_SHORT;
        };
        answered::<REPORT_ANSWER>(answer, || {
            *front = self.bank()?.report(alarm as u64)?.to_bytes();
            Ok([0, 0])
        })
    }

    fn write(&mut self, out: &mut [u8], answer: &mut [u64]) -> u32 {
        answered::<WRITE_ANSWER>(answer, || {
            let length = self.bank()?.write(out)?;
            Ok([0, 0, length as u64])
        })
    }

    /// Its answer has the refusal behind two numbers.
    fn replay(&mut self, records: &[u8], events: &mut [u8], answer: &mut [u64]) -> u32 {
        let Some(answer) = answer.first_chunk_mut::<REPLAY_ANSWER>() else {
            return ANSWER_SHORT;
        };
        let Ok(bank) = self.bank() else {
            *answer = [0, 0, UNLOADED.number.into(), UNLOADED.place, 0];
            return UNLOADED.number;
        };
        let done = bank.replay(records, events);
        *answer = [
            done.events,
            done.refused,
            done.number.into(),
            done.place,
            done.index,
        ];
        0
    }

    /// It has no words; it goes on.
    fn restore(&mut self) {}

    fn faults(self) -> Vec<String> {
        Vec::new()
    }
}
