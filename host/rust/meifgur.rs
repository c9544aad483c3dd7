//! Safe calls on a `Bank`, and over slices. No allocation; crates/meifgur_c/include/meifgur.h says what each call does and how
//! its buffers are laid out.

pub const VERSION: u32 = 3;
pub const ALARMS_MOST: usize = 24;
pub const IMAGE_MOST: usize = 842;
pub const EVENT_SIZE: usize = 16;
pub const EVENTS_ENOUGH: usize = 3840;
pub const REPORT_SIZE: usize = 224;
/// Words of a bank's three blocks, and of all.
pub const SETTINGS_WORDS: usize = 292;
pub const STATES_WORDS: usize = 580;
pub const MARKS_WORDS: usize = 900;
pub const BANK_WORDS: usize = SETTINGS_WORDS + STATES_WORDS + MARKS_WORDS;
/// Words of each call's answer.
pub const LOAD_ANSWER: usize = 4;
pub const SCAN_ANSWER: usize = 3;
pub const REPORT_ANSWER: usize = 2;
pub const WRITE_ANSWER: usize = 3;
pub const REPLAY_ANSWER: usize = 5;

mod raw {
    // A slice crosses as its pointer and its length.

    /// A scan or a replay: settings, states, marks, records, events, answer.
    pub type Run = unsafe extern "C" fn(
        *const u64,
        usize,
        *mut u64,
        usize,
        *mut u64,
        usize,
        *const u8,
        usize,
        *mut u8,
        usize,
        *mut u64,
        usize,
    ) -> u32;

    #[link(name = "meifgur_c", kind = "static")]
    extern "C" {
        pub fn meifgur_version() -> u32;
        pub fn meifgur_event_size() -> u32;
        pub fn meifgur_events_enough() -> u32;
        pub fn meifgur_image_most() -> u32;
        pub fn meifgur_report_size() -> u32;
        pub fn meifgur_settings_words() -> u32;
        pub fn meifgur_states_words() -> u32;
        pub fn meifgur_marks_words() -> u32;
        pub fn meifgur_record_length(digital: usize, analog: usize) -> usize;
        pub fn meifgur_load_words(
            image: *const u8,
            image_length: usize,
            settings: *mut u64,
            settings_words: usize,
            states: *mut u64,
            states_words: usize,
            marks: *mut u64,
            marks_words: usize,
            answer: *mut u64,
            answer_words: usize,
        ) -> u32;
        pub fn meifgur_scan_words(
            settings: *const u64,
            settings_words: usize,
            states: *mut u64,
            states_words: usize,
            marks: *mut u64,
            marks_words: usize,
            record: *const u8,
            record_length: usize,
            events: *mut u8,
            events_length: usize,
            answer: *mut u64,
            answer_words: usize,
        ) -> u32;
        pub fn meifgur_report_words(
            settings: *const u64,
            settings_words: usize,
            states: *const u64,
            states_words: usize,
            marks: *const u64,
            marks_words: usize,
            alarm: usize,
            report: *mut u8,
            report_length: usize,
            answer: *mut u64,
            answer_words: usize,
        ) -> u32;
        pub fn meifgur_write_words(
            settings: *const u64,
            settings_words: usize,
            out: *mut u8,
            out_length: usize,
            answer: *mut u64,
            answer_words: usize,
        ) -> u32;
        pub fn meifgur_replay_words(
            settings: *const u64,
            settings_words: usize,
            states: *mut u64,
            states_words: usize,
            marks: *mut u64,
            marks_words: usize,
            records: *const u8,
            records_length: usize,
            events: *mut u8,
            events_length: usize,
            answer: *mut u64,
            answer_words: usize,
        ) -> u32;
    }
}

/// The version of the linked archive.
pub fn version() -> u32 {
    unsafe { raw::meifgur_version() }
}

/// Whether the archive has this file's version and sizes.
pub fn sizes_agree() -> bool {
    let sizes = unsafe {
        [
            raw::meifgur_event_size(),
            raw::meifgur_events_enough(),
            raw::meifgur_image_most(),
            raw::meifgur_report_size(),
            raw::meifgur_settings_words(),
            raw::meifgur_states_words(),
            raw::meifgur_marks_words(),
        ]
    };
    let here = [
        EVENT_SIZE,
        EVENTS_ENOUGH,
        IMAGE_MOST,
        REPORT_SIZE,
        SETTINGS_WORDS,
        STATES_WORDS,
        MARKS_WORDS,
    ];
    version() == VERSION && sizes.map(|size| size as usize) == here
}

/// Bytes of a scan record for so many alarms of each kind.
pub fn record_length(digital: usize, analog: usize) -> usize {
    unsafe { raw::meifgur_record_length(digital, analog) }
}

/// A refusal by its number and place.
#[derive(Clone, Copy, Debug, PartialEq, Eq)]
pub struct Refusal {
    pub number: u32,
    pub place: u64,
}

/// How many alarms of each kind a bank has.
#[derive(Clone, Copy, Debug, PartialEq, Eq)]
pub struct Counts {
    pub digital: usize,
    pub analog: usize,
}

/// What a replay came to. A refused record is passed over; of the first, its refusal and which record it was, from 0.
#[derive(Clone, Copy, Debug, PartialEq, Eq)]
pub struct Replayed {
    pub events: usize,
    pub refused: u64,
    pub first: Option<(Refusal, u64)>,
}

/// A bank of alarms: the words that the calls keep it in. A clone is a bank of its own, which goes on from here.
#[derive(Clone, Debug, PartialEq, Eq)]
pub struct Bank {
    settings: [u64; SETTINGS_WORDS],
    states: [u64; STATES_WORDS],
    marks: [u64; MARKS_WORDS],
}

impl Bank {
    /// A bank without alarms.
    pub fn empty() -> Bank {
        let mut bank = Bank::from_words(&[0; BANK_WORDS]);
        let _ = bank.load(&[0, 0]);
        bank
    }

    /// Takes the settings of an image over, with fresh alarms: of no bytes those of the factory bank. A refused image leaves
    /// a bank without alarms.
    pub fn load(&mut self, image: &[u8]) -> Result<Counts, Refusal> {
        let mut answer = [0; LOAD_ANSWER];
        let Bank {
            settings,
            states,
            marks,
        } = self;
        let code = load_words(image, settings, states, marks, &mut answer);
        let [_, place, digital, analog] = answer;
        unless_refused(code, place)?;
        Ok(Counts {
            digital: digital as usize,
            analog: analog as usize,
        })
    }

    /// Runs a record as a scan; its events go to the front of `events`, and their number is given. A refusal leaves both
    /// bank and buffer.
    pub fn scan(&mut self, record: &[u8], events: &mut [u8]) -> Result<usize, Refusal> {
        let mut answer = [0; SCAN_ANSWER];
        let code = scan_words(
            &self.settings,
            &mut self.states,
            &mut self.marks,
            record,
            events,
            &mut answer,
        );
        let [_, place, events] = answer;
        unless_refused(code, place)?;
        Ok(events as usize)
    }

    /// The report of an alarm, counted from 1.
    pub fn report(&self, alarm: usize) -> Result<[u8; REPORT_SIZE], Refusal> {
        let mut report = [0; REPORT_SIZE];
        let mut answer = [0; REPORT_ANSWER];
        let code = report_words(
            &self.settings,
            &self.states,
            &self.marks,
            alarm,
            &mut report,
            &mut answer,
        );
        let [_, place] = answer;
        unless_refused(code, place)?;
        Ok(report)
    }

    /// Writes the settings image to the front of `out` and gives its length. A refusal leaves `out`.
    pub fn write(&self, out: &mut [u8]) -> Result<usize, Refusal> {
        let mut answer = [0; WRITE_ANSWER];
        let code = write_words(&self.settings, out, &mut answer);
        let [_, place, length] = answer;
        unless_refused(code, place)?;
        Ok(length as usize)
    }

    /// Runs each record of `records`; the events of all go to the front of `events`. Refused only on words that hold no bank.
    pub fn replay(&mut self, records: &[u8], events: &mut [u8]) -> Result<Replayed, Refusal> {
        let mut answer = [0; REPLAY_ANSWER];
        let code = replay_words(
            &self.settings,
            &mut self.states,
            &mut self.marks,
            records,
            events,
            &mut answer,
        );
        let [events, refused, number, place, index] = answer;
        unless_refused(code, place)?;
        Ok(Replayed {
            events: events as usize,
            refused,
            first: unless_refused(number as u32, place)
                .err()
                .map(|r| (r, index)),
        })
    }

    /// Every word, to be saved.
    pub fn words(&self) -> [u64; BANK_WORDS] {
        let mut words = [0; BANK_WORDS];
        let (settings, rest) = words.split_at_mut(SETTINGS_WORDS);
        let (states, marks) = rest.split_at_mut(STATES_WORDS);
        settings.copy_from_slice(&self.settings);
        states.copy_from_slice(&self.states);
        marks.copy_from_slice(&self.marks);
        words
    }

    /// The bank that these words were saved from. Words that no bank gave are refused by every call (42), or mean some bank.
    pub fn from_words(words: &[u64; BANK_WORDS]) -> Bank {
        let mut bank = Bank {
            settings: [0; SETTINGS_WORDS],
            states: [0; STATES_WORDS],
            marks: [0; MARKS_WORDS],
        };
        let (settings, rest) = words.split_at(SETTINGS_WORDS);
        let (states, marks) = rest.split_at(STATES_WORDS);
        bank.settings.copy_from_slice(settings);
        bank.states.copy_from_slice(states);
        bank.marks.copy_from_slice(marks);
        bank
    }
}

/// The refusal by its number, unless that is 0. Of a call it is the return code, for 40 and 41 leave the answer.
fn unless_refused(number: u32, place: u64) -> Result<(), Refusal> {
    match number {
        0 => Ok(()),
        _ => Err(Refusal { number, place }),
    }
}

// The calls as the header has them, over blocks, buffers and answers of any length. Each gives the return code. They are sound:
// each pointer has its slice's length, and `&mut` keeps what is written apart from all else.

pub fn load_words(
    image: &[u8],
    settings: &mut [u64],
    states: &mut [u64],
    marks: &mut [u64],
    answer: &mut [u64],
) -> u32 {
    unsafe {
        raw::meifgur_load_words(
            image.as_ptr(),
            image.len(),
            settings.as_mut_ptr(),
            settings.len(),
            states.as_mut_ptr(),
            states.len(),
            marks.as_mut_ptr(),
            marks.len(),
            answer.as_mut_ptr(),
            answer.len(),
        )
    }
}

pub fn scan_words(
    settings: &[u64],
    states: &mut [u64],
    marks: &mut [u64],
    record: &[u8],
    events: &mut [u8],
    answer: &mut [u64],
) -> u32 {
    let call = raw::meifgur_scan_words;
    run_words(call, settings, states, marks, record, events, answer)
}

pub fn report_words(
    settings: &[u64],
    states: &[u64],
    marks: &[u64],
    alarm: usize,
    report: &mut [u8],
    answer: &mut [u64],
) -> u32 {
    unsafe {
        raw::meifgur_report_words(
            settings.as_ptr(),
            settings.len(),
            states.as_ptr(),
            states.len(),
            marks.as_ptr(),
            marks.len(),
            alarm,
            report.as_mut_ptr(),
            report.len(),
            answer.as_mut_ptr(),
            answer.len(),
        )
    }
}

pub fn write_words(settings: &[u64], out: &mut [u8], answer: &mut [u64]) -> u32 {
    unsafe {
        raw::meifgur_write_words(
            settings.as_ptr(),
            settings.len(),
            out.as_mut_ptr(),
            out.len(),
            answer.as_mut_ptr(),
            answer.len(),
        )
    }
}

pub fn replay_words(
    settings: &[u64],
    states: &mut [u64],
    marks: &mut [u64],
    records: &[u8],
    events: &mut [u8],
    answer: &mut [u64],
) -> u32 {
    let call = raw::meifgur_replay_words;
    run_words(call, settings, states, marks, records, events, answer)
}

/// A scan or a replay, which take the same.
fn run_words(
    call: raw::Run,
    settings: &[u64],
    states: &mut [u64],
    marks: &mut [u64],
    records: &[u8],
    events: &mut [u8],
    answer: &mut [u64],
) -> u32 {
    unsafe {
        call(
            settings.as_ptr(),
            settings.len(),
            states.as_mut_ptr(),
            states.len(),
            marks.as_mut_ptr(),
            marks.len(),
            records.as_ptr(),
            records.len(),
            events.as_mut_ptr(),
            events.len(),
            answer.as_mut_ptr(),
            answer.len(),
        )
    }
}
