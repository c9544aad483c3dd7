//! A rival held to the plain bank: the same answers, bytes and reports over random lists of scans.

use super::Reading;
use super::random::{Interest, MOODS, Random, any_image, any_length, any_part, any_record};
use second_opinion::{Bank, EVENT_LEN, EVENTS_ENOUGH, Refusal, Report};
use std::fmt::Debug;

/// A bank that is to answer as the plain one does.
pub trait Rival: Debug + Sized {
    fn read(image: &[u8]) -> Result<Self, Refusal>;
    fn scan(&mut self, record: &[u8], events: &mut [u8]) -> Result<usize, Refusal>;
    fn report(&self, n: u64) -> Result<Report, Refusal>;
}

/// Both banks, on the same calls.
struct Pair<R> {
    plain: Bank,
    rival: R,
    seed: u64,
}

impl<R: Rival> Pair<R> {
    fn read(image: &[u8], seed: u64) -> Result<Pair<R>, Refusal> {
        match (Bank::read(image), R::read(image)) {
            (Ok(plain), Ok(rival)) => Ok(Pair { plain, rival, seed }),
            (Err(plain), Err(rival)) => {
                assert_eq!(plain, rival);
                Err(plain)
            }
            (plain, rival) => panic!("plain {plain:?}, rival {rival:?}"),
        }
    }

    fn scan(&mut self, record: &[u8], length: usize, tally: &mut Tally) {
        let mut ours = [0xEE; EVENTS_ENOUGH + EVENT_LEN];
        let mut theirs = ours;
        let answer = self.rival.scan(record, &mut ours[..length]);
        assert_eq!(answer, self.plain.scan(record, &mut theirs[..length]), "seed {}", self.seed);
        assert!(ours == theirs, "events differ, seed {}", self.seed);
        tally.answers[answer.err().map_or(0, |refusal| refusal.number as usize)] += 1;
        for event in ours.chunks(EVENT_LEN).take(answer.unwrap_or(0)) {
            tally.events[usize::from(event[1])][usize::from(event[2])] += 1;
        }
    }

    fn compare_reports(&self) {
        let alarms = self.plain.alarms() as u64;
        for n in [0, alarms + 1, u64::MAX] {
            assert_eq!(self.rival.report(n), self.plain.report(n));
        }
        for n in 1..=alarms {
            let (ours, theirs) = (self.rival.report(n).unwrap(), self.plain.report(n).unwrap());
            assert_eq!(ours, theirs, "alarm {n}, seed {}", self.seed);
            assert!(ours.to_bytes() == theirs.to_bytes(), "alarm {n}, seed {}", self.seed);
        }
    }
}

/// How often each answer came, accepted or refused by number, and each event by condition and kind.
#[derive(Default)]
struct Tally {
    answers: [u64; 15],
    events: [[u64; 9]; 8],
}

fn one_list<R: Rival>(seed: u64, tally: &mut Tally) {
    let mut random = Random(seed);
    let (image, interests) = any_image(&mut random);
    let mut pair = match Pair::<R>::read(&image, seed) {
        Ok(pair) => pair,
        Err(refusal) => return tally.answers[refusal.number as usize] += 1,
    };
    let mood = &MOODS[random.below(MOODS.len() as u64) as usize];
    let first = |interest: &Interest| match interest {
        Some(_) => (Reading::Level(0.0), 0),
        None => (Reading::Digital(0), 0),
    };
    let mut parts: Vec<(Reading, u32)> = interests.iter().map(first).collect();
    let mut time: u64 = random.pick(&[0, 0, 5, 1000, 1 << 31, u64::MAX - 1000]);
    for _ in 0..random.pick(&[0, 3, 40, 100]) {
        time = time.saturating_add(random.pick(mood.steps));
        for (part, interest) in parts.iter_mut().zip(&interests) {
            *part = any_part(&mut random, mood, interest, part.0);
        }
        let record = any_record(&mut random, time, &parts);
        pair.scan(&record, any_length(&mut random), tally);
        if random.one_in(8) {
            pair.compare_reports();
        }
    }
    pair.compare_reports();
}

/// `LISTS` and `FROM` in the environment: how many lists, and the number of the first.
pub fn same_as_plain<R: Rival>() {
    let number = |name: &str, usual: u64| std::env::var(name).map_or(usual, |n| n.parse().unwrap());
    let (lists, from) = (number("LISTS", 8000), number("FROM", 0));
    let mut tally = Tally::default();
    (from..from + lists).for_each(|seed| one_list::<R>(seed, &mut tally));
    let Tally { answers, events } = tally;
    println!("accepted {}, refused by number {:?}", answers[0], &answers[1..]);
    println!("events by condition and kind {events:?}");
    if lists >= 8000 {
        assert!(answers[0] >= 200_000);
        assert!([5, 7, 8, 9, 10, 11, 12].iter().all(|&number| answers[number] > 100));
        assert!(events[7][1..6].iter().all(|&times| times > 100));
        assert!(events[..7].iter().all(|kinds| kinds[6..].iter().all(|&times| times > 100)));
    }
}

/// Images of no meaning are refused at the same place.
pub fn any_images<R: Rival>() {
    let mut random = Random(7);
    for _ in 0..20_000 {
        let mut image = vec![random.below(3) as u8];
        for _ in 0..random.below(160) {
            image.push(random.pick(&[0, 0, 0, 0, 1, 2, 7, 0x3F, 0x44, 0x80, 0xFF]));
        }
        let _ = Pair::<R>::read(&image, 7);
    }
}
