//! The bank against a second reading of document 01 that keeps no bank: every answer is read off the
//! settings and the whole list of accepted scans, over random lists.

mod common;

use common::{Event, Reading, analog, digital, image, record, report_bytes};
use second_opinion::{Bank, Condition, EVENT_LEN, Refusal, Report};

/// One alarm's settings, spelled out.
#[derive(Clone, Debug)]
struct Settings {
    digital: Option<Digital>,
    ack_required: bool,
    severity: Vec<i32>,
    enabled: [bool; 4],
    limits: [f32; 4],
    deadband: f32,
    roc: [f32; 2],
    period: u32,
    min_duration: u32,
}

#[derive(Clone, Copy, Debug)]
struct Digital {
    condition: bool,
    latched: bool,
}

/// One alarm's part of an accepted scan.
#[derive(Clone, Copy)]
struct Seen {
    time: u64,
    reading: Reading,
    word: u32,
}

/// One alarm's settings with its part of every accepted scan, in order.
struct Past {
    settings: Settings,
    scans: Vec<Seen>,
}

const EDGE: [u32; 9] = [0, 1, 6, 13, 14, 15, 16, 17, 18];

impl Past {
    fn has(&self, k: usize, bit: u32) -> bool {
        self.scans[k].word >> bit & 1 == 1
    }

    /// Bit `bit` commands or acts in scan `k`.
    fn acts(&self, k: usize, bit: u32) -> bool {
        self.has(k, bit) && !(EDGE.contains(&bit) && k > 0 && self.has(k - 1, bit))
    }

    /// `on` after scan `k`, set by the first bits and else cleared by the second; `start` before.
    fn switched(&self, k: usize, start: bool, on: [u32; 2], off: [u32; 2]) -> bool {
        for i in (0..=k).rev() {
            if on.iter().any(|&bit| self.has(i, bit)) {
                return start;
            }
            if off.iter().any(|&bit| self.has(i, bit)) {
                return !start;
            }
        }
        start
    }

    fn enabled(&self, k: usize) -> bool {
        self.switched(k, true, [3, 10], [2, 9])
    }

    fn suppressed(&self, k: usize) -> bool {
        !self.switched(k, true, [5, 12], [4, 11])
    }

    fn conditions(&self) -> usize {
        if self.settings.digital.is_some() { 1 } else { 6 }
    }

    fn level(&self, k: usize) -> f32 {
        match self.scans[k].reading {
            Reading::Level(level) => level,
            Reading::Digital(_) => panic!("a digital reading has no level"),
        }
    }

    /// Rate after scan `k`: from the scan that began the row of enabled ones, sample by sample.
    fn rate(&self, k: usize) -> f32 {
        let period = self.settings.period;
        if self.settings.digital.is_some() || !self.enabled(k) || period == 0 {
            return 0.0;
        }
        let first = (0..=k).rev().take_while(|&i| self.enabled(i)).last().unwrap();
        let (mut sample, mut rate) = (first, 0.0);
        for i in first + 1..=k {
            if self.scans[i].time - self.scans[sample].time >= u64::from(period) {
                let difference = self.level(i) - self.level(sample);
                let thousandfold = difference * 1000.0;
                rate = thousandfold / period as f32;
                sample = i;
            }
        }
        rate
    }

    fn met(&self, k: usize, c: usize) -> bool {
        let settings = &self.settings;
        if let Some(digital) = settings.digital {
            let Reading::Digital(input) = self.scans[k].reading else { panic!() };
            return (input == 1) == digital.condition;
        }
        match c {
            0 | 1 => settings.enabled[c] && self.level(k) >= settings.limits[c],
            2 | 3 => settings.enabled[c] && self.level(k) <= settings.limits[c],
            4 => settings.period > 0 && settings.roc[0] > 0.0 && self.rate(k) >= settings.roc[0],
            _ => settings.period > 0 && settings.roc[1] > 0.0 && self.rate(k) <= -settings.roc[1],
        }
    }

    fn cleared(&self, k: usize, c: usize) -> bool {
        let settings = &self.settings;
        let free = match (settings.digital, c) {
            (Some(digital), _) => !digital.latched || self.acts(k, 1) || self.acts(k, 8),
            (None, 0 | 1) => self.level(k) < settings.limits[c] - settings.deadband,
            (None, 2 | 3) => self.level(k) > settings.limits[c] + settings.deadband,
            _ => true,
        };
        !self.met(k, c) && free
    }

    fn side(&self, c: usize) -> &'static [usize] {
        match (self.settings.digital, c) {
            (None, 0 | 1) => &[0, 1],
            (None, 2 | 3) => &[2, 3],
            (None, 4) => &[4],
            (None, 5) => &[5],
            _ => &[0],
        }
    }

    /// The first time of the row of enabled scans that ends with `k` and has one of `any` met.
    fn row(&self, k: usize, any: &[usize]) -> Option<u64> {
        let met = |i: usize| self.enabled(i) && any.iter().any(|&c| self.met(i, c));
        (0..=k).rev().take_while(|&i| met(i)).last().map(|i| self.scans[i].time)
    }

    fn run(&self, k: usize, c: usize) -> Option<u64> {
        self.row(k, self.side(c)).map(|first| self.scans[k].time - first)
    }

    fn acked(&self, k: usize, c: usize) -> bool {
        let own =
            self.settings.digital.is_none() && (self.acts(k, 13 + c as u32) || self.acts(k, 19 + c as u32));
        self.acts(k, 0) || self.acts(k, 7) || own
    }

    fn story(&self) -> Story {
        let mut story = Story::default();
        for k in 0..self.scans.len() {
            let (mut due, mut activated, mut in_alarm, mut unacked) =
                ([false; 6], [false; 6], [false; 6], [false; 6]);
            for c in 0..self.conditions() {
                let before = |c: usize| k > 0 && story.in_alarm[k - 1][c];
                let lasted = self.run(k, c).is_some_and(|run| run >= u64::from(self.settings.min_duration));
                let level = self.settings.digital.is_none() && c < 4;
                let along = level && self.side(c).iter().any(|&c| before(c));
                let rate = self.settings.digital.is_none() && c >= 4;
                due[c] = self.enabled(k) && self.met(k, c) && (lasted || along || rate);
                activated[c] = due[c] && !before(c);
            }
            story.due.push(due);
            story.activated.push(activated);
            for c in 0..self.conditions() {
                // Some scan was due, and no later one cleared it or left the alarm disabled.
                in_alarm[c] = (0..=k)
                    .any(|j| story.due[j][c] && (j + 1..=k).all(|i| !self.cleared(i, c) && self.enabled(i)));
                // Some scan activated it, and no later one acknowledged it or left the alarm disabled.
                unacked[c] = self.settings.ack_required
                    && (0..=k).any(|j| {
                        story.activated[j][c] && (j + 1..=k).all(|i| !self.acked(i, c) && self.enabled(i))
                    });
            }
            story.in_alarm.push(in_alarm);
            story.unacked.push(unacked);
        }
        story
    }

    /// Events of scan `k`: condition, kind, severity, suppressed.
    fn events(&self, story: &Story, k: usize, alarm: u8) -> Vec<Event> {
        let was_enabled = k == 0 || self.enabled(k - 1);
        let was_suppressed = k > 0 && self.suppressed(k - 1);
        let (enabled, suppressed) = (self.enabled(k), self.suppressed(k));
        let mut events = Vec::new();
        let mut put = |c: u8, kind: u8, severity: u16| {
            events.push((self.scans[k].time, alarm, c, kind, severity, u8::from(suppressed)));
        };
        let whole = [
            was_enabled && !enabled,
            !was_enabled && enabled,
            !was_suppressed && suppressed,
            was_suppressed && !suppressed,
            self.acts(k, 6),
        ];
        for (kind, happens) in (1..).zip(whole) {
            if happens {
                put(7, kind, 0);
            }
        }
        for c in 0..self.conditions() {
            let number = c as u8 + u8::from(self.settings.digital.is_none());
            let severity = self.settings.severity[c].clamp(1, 1000) as u16;
            if self.acknowledges(story, k, c) {
                put(number, 6, severity);
            }
            if self.returns(story, k, c) {
                put(number, 7, severity);
            }
            if story.activated[k][c] {
                put(number, 8, severity);
            }
        }
        events
    }

    fn acknowledges(&self, story: &Story, k: usize, c: usize) -> bool {
        k > 0 && story.unacked[k - 1][c] && self.enabled(k) && self.acked(k, c)
    }

    fn returns(&self, story: &Story, k: usize, c: usize) -> bool {
        k > 0 && story.in_alarm[k - 1][c] && self.enabled(k) && self.cleared(k, c)
    }

    fn report(&self, story: &Story) -> Report {
        let n = self.scans.len();
        let mut report = Report {
            severity_inv: self.settings.severity.iter().any(|&severity| !(1..=1000).contains(&severity)),
            enabled: true,
            ..Report::default()
        };
        for c in 0..self.conditions() {
            report.conditions[c].acknowledged = true;
        }
        let Some(last) = n.checked_sub(1) else {
            return report;
        };
        report.enabled = self.enabled(last);
        report.suppressed = self.suppressed(last);
        report.in_faulted = self.has(last, 25);
        report.rate = self.rate(last);
        let reset = (0..n).rev().find(|&k| self.acts(k, 6));
        report.reset_time = reset.map_or(0, |k| self.scans[k].time);
        let capped = |c| self.run(last, c).unwrap_or(0).min(self.settings.min_duration.into());
        report.elapsed = match self.settings.digital {
            Some(_) => [capped(0), 0],
            None => [capped(0), capped(2)],
        };
        for c in 0..self.conditions() {
            let activation = (0..n).rev().find(|&k| story.activated[k][c]);
            let alarm_time = activation.map_or(0, |k| self.row(k, &[c]).unwrap());
            let ack = (0..n).rev().find(|&k| self.acknowledges(story, k, c));
            let ack_time = ack.map_or(0, |k| self.scans[k].time);
            let returned = (0..n).rev().find(|&k| self.returns(story, k, c));
            report.conditions[c] = Condition {
                in_alarm: story.in_alarm[last][c],
                acknowledged: !story.unacked[last][c],
                count: (reset.unwrap_or(0)..n).filter(|&k| story.activated[k][c]).count() as u32,
                alarm_time,
                ack_time: if self.settings.ack_required { ack_time } else { alarm_time },
                return_time: returned.map_or(0, |k| self.scans[k].time),
            };
        }
        report
    }
}

/// For each scan and condition.
#[derive(Default)]
struct Story {
    due: Vec<[bool; 6]>,
    activated: Vec<[bool; 6]>,
    in_alarm: Vec<[bool; 6]>,
    unacked: Vec<[bool; 6]>,
}

struct Random(u64);

impl Random {
    fn next(&mut self) -> u64 {
        self.0 = self.0.wrapping_add(0x9E37_79B9_7F4A_7C15);
        let mut z = self.0;
        z = (z ^ z >> 30).wrapping_mul(0xBF58_476D_1CE4_E5B9);
        z = (z ^ z >> 27).wrapping_mul(0x94D0_49BB_1331_11EB);
        z ^ z >> 31
    }

    fn below(&mut self, n: u64) -> u64 {
        self.next() % n
    }

    fn one_in(&mut self, n: u64) -> bool {
        self.below(n) == 0
    }

    fn pick<T: Copy>(&mut self, from: &[T]) -> T {
        from[self.below(from.len() as u64) as usize]
    }
}

const SEVERITIES: [i32; 7] = [-3, 0, 1, 700, 1000, 1001, i32::MAX];
const DURATIONS: [u32; 5] = [0, 0, 10, 20, 35];

fn any_settings(random: &mut Random, is_digital: bool) -> (Settings, Vec<u8>) {
    let ack_required = !random.one_in(3);
    let min_duration = random.pick(&DURATIONS);
    if is_digital {
        let (condition, latched) = (random.one_in(2), random.one_in(2));
        let severity = random.pick(&SEVERITIES);
        let flags = u8::from(condition) | u8::from(ack_required) << 1 | u8::from(latched) << 2;
        let settings = Settings {
            digital: Some(Digital { condition, latched }),
            ack_required,
            severity: vec![severity],
            enabled: [false; 4],
            limits: [0.0; 4],
            deadband: 0.0,
            roc: [0.0; 2],
            period: 0,
            min_duration,
        };
        return (settings, digital(flags, severity, min_duration));
    }
    let levels = random.below(16) as u8;
    let deadband = random.pick(&[0.0, -0.0, 0.5, 1.0, 1.5]);
    // In tens around zero, or where a REAL's neighbours are two apart.
    let base = random.pick(&[0.0, 0.0, 16_777_216.0]);
    let limits = [base + 8.0, base + 6.0, base, base - 2.0];
    let roc = [random.pick(&[0.0, 1.0, 100.0]), random.pick(&[0.0, 1.0, 100.0])];
    let period = random.pick(&[0, 1, 10, 30]);
    let severity: [i32; 6] = std::array::from_fn(|_| random.pick(&SEVERITIES));
    let settings = Settings {
        digital: None,
        ack_required,
        severity: severity.to_vec(),
        enabled: std::array::from_fn(|c| levels >> c & 1 == 1),
        limits,
        deadband,
        roc,
        period,
        min_duration,
    };
    let [hh, h, l, ll] = limits;
    let reals = [hh, h, l, ll, deadband, roc[0], roc[1]];
    (settings, analog(levels | u8::from(ack_required) << 4, severity, reals, period, min_duration))
}

fn any_word(random: &mut Random, is_digital: bool) -> u32 {
    let all = if is_digital { 0x0200_1FFF } else { 0x03FF_FFFF & !0x102 };
    match random.below(8) {
        0 => random.next() as u32 & random.next() as u32 & all,
        1 => 1 << random.below(26) & all,
        2 => (1 << random.below(26) | 1 << random.below(26)) & all,
        3 => random.pick(&[1, 1 << 7, 1 << 6, 1 << 25, 1 << 2, 1 << 10]),
        _ => 0,
    }
}

fn any_reading(random: &mut Random, settings: &Settings) -> Reading {
    if settings.digital.is_some() {
        return Reading::Digital(random.below(2) as u8);
    }
    let limit = random.pick(&settings.limits);
    let off = random.pick(&[0.0, 0.0, -0.0, 0.5, 1.0, 1.5, 2.0, 3.0]);
    Reading::Level(if random.one_in(2) { limit + off } else { limit - off })
}

fn one_list(seed: u64) {
    let mut random = Random(seed);
    let counts = [random.below(3), random.below(3)];
    let mut pasts = Vec::new();
    let mut sections = [Vec::new(), Vec::new()];
    for (kind, count) in counts.into_iter().enumerate() {
        for _ in 0..count {
            let (settings, bytes) = any_settings(&mut random, kind == 0);
            sections[kind].push(bytes);
            pasts.push(Past { settings, scans: Vec::new() });
        }
    }
    let image = image(&sections[0], &sections[1]);
    let mut bank = Bank::read(&image).expect("an image of good settings");
    let mut written = vec![0; image.len()];
    assert_eq!((bank.write(&mut written), written), (Ok(image.len()), image));

    let mut time = random.pick(&[0, 5, 1000, u64::MAX - 600]);
    let mut last_time = 0;
    for _ in 0..random.below(40) {
        time += random.pick(&[0, 1, 5, 10, 10, 15]);
        let now = if random.one_in(20) { last_time.max(1) - 1 } else { time };
        let same = random.one_in(3);
        let alarms: Vec<(Reading, u32)> = pasts
            .iter()
            .map(|past| match past.scans.last() {
                Some(seen) if same => (seen.reading, 0),
                _ => (
                    any_reading(&mut random, &past.settings),
                    any_word(&mut random, past.settings.digital.is_some()),
                ),
            })
            .collect();
        let record = record(now, &alarms);
        let length = if random.one_in(4) { random.below(100) as usize } else { 3840 };
        let mut buffer = vec![0xEE; length];
        let before = report_bytes(&bank);
        let reply = bank.scan(&record, &mut buffer);
        if now < last_time {
            assert_eq!(reply, Err(Refusal { number: 8, place: 0 }));
            assert_eq!(report_bytes(&bank), before);
            continue;
        }
        for (past, (reading, word)) in pasts.iter_mut().zip(alarms) {
            past.scans.push(Seen { time: now, reading, word });
        }
        let mut events = Vec::new();
        for (past, n) in pasts.iter().zip(1..) {
            events.extend(past.events(&past.story(), past.scans.len() - 1, n));
        }
        if events.len() * EVENT_LEN > length {
            assert_eq!(reply, Err(Refusal { number: 12, place: 0 }));
            assert_eq!(report_bytes(&bank), before);
            assert!(buffer.iter().all(|&byte| byte == 0xEE));
            pasts.iter_mut().for_each(|past| past.scans.truncate(past.scans.len() - 1));
            continue;
        }
        last_time = now;
        assert_eq!(reply, Ok(events.len()), "seed {seed}");
        let (front, rest) = buffer.split_at(events.len() * EVENT_LEN);
        assert_eq!(front.chunks(EVENT_LEN).map(common::event).collect::<Vec<_>>(), events, "seed {seed}");
        assert!(rest.iter().all(|&byte| byte == 0xEE));
        for (past, n) in pasts.iter().zip(1..) {
            let (found, expected) = (bank.report(n).unwrap(), past.report(&past.story()));
            assert_eq!(found, expected, "seed {seed}");
            assert_eq!(found.rate.to_bits(), expected.rate.to_bits(), "seed {seed}");
        }
    }
}

#[test]
fn lists_of_scans() {
    let lists = std::env::var("LISTS").ok().and_then(|n| n.parse().ok()).unwrap_or(300);
    let from = std::env::var("FROM").ok().and_then(|n| n.parse().ok()).unwrap_or(0);
    (from..from + lists).for_each(one_list);
}

/// Bytes of no meaning end in a refusal or a bank, never in a panic.
#[test]
fn any_bytes() {
    let mut random = Random(7);
    for _ in 0..20_000 {
        let mut image = vec![random.below(3) as u8];
        for _ in 0..random.below(160) {
            image.push(random.pick(&[0, 0, 0, 0, 1, 2, 7, 0x3F, 0x44, 0x80, 0xFF]));
        }
        let mut bank = Bank::read(&image).unwrap_or(Bank::empty());
        let records: Vec<u8> = (0..200).map(|_| random.pick(&[0, 0, 0, 1, 0x40, 0xFF])).collect();
        let mut events = vec![0; random.below(200) as usize];
        bank.replay(&records, &mut events);
        let mut out = vec![0; random.below(900) as usize];
        let _ = bank.write(&mut out);
        bank.report_bytes(&mut out);
        let _ = bank.report(random.next());
    }
}
