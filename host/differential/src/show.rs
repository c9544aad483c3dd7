//! A list and both answers to it, to be read.

use crate::answers::{Answers, Call, Reply};
use crate::case::{number, Case, Layout, Turn};
use crate::meifgur::EVENT_SIZE;
use std::fmt::Write;

const COMMANDS: [&str; 26] = [
    "ProgAck",
    "ProgReset",
    "ProgDisable",
    "ProgEnable",
    "ProgSuppress",
    "ProgUnsuppress",
    "AlarmCountReset",
    "OperAck",
    "OperReset",
    "OperDisable",
    "OperEnable",
    "OperSuppress",
    "OperUnsuppress",
    "HHProgAck",
    "HProgAck",
    "LProgAck",
    "LLProgAck",
    "ROCPosProgAck",
    "ROCNegProgAck",
    "HHOperAck",
    "HOperAck",
    "LOperAck",
    "LLOperAck",
    "ROCPosOperAck",
    "ROCNegOperAck",
    "InFault",
];
const DIGITAL_FLAGS: [&str; 3] = ["Condition", "AckRequired", "Latched"];
const ANALOG_FLAGS: [&str; 5] = ["HH", "H", "L", "LL", "AckRequired"];
/// Of a digital alarm only the first is there.
const CONDITIONS: [&str; 6] = ["HH or digital", "H", "L", "LL", "ROCPos", "ROCNeg"];
const REALS: [&str; 7] = [
    "HH",
    "H",
    "L",
    "LL",
    "Deadband",
    "ROCPosLimit",
    "ROCNegLimit",
];
const KINDS: [&str; 9] = [
    "?",
    "disabled",
    "enabled",
    "suppressed",
    "unsuppressed",
    "count reset",
    "acknowledged",
    "returned",
    "activated",
];

fn dword(bytes: &[u8], at: usize) -> u32 {
    number(&bytes[at..at + 4]) as u32
}

/// A REAL in decimal, exact, with its pattern.
fn real(bits: u32) -> String {
    format!("{:?} ({bits:08X})", f32::from_bits(bits))
}

fn hex(bytes: &[u8]) -> String {
    let bytes: Vec<String> = bytes.iter().map(|byte| format!("{byte:02X}")).collect();
    bytes.join(" ")
}

/// Names of the bits that are set; a bit without a name by its number.
fn bits(word: u32, names: &[&str]) -> String {
    let set = (0..32).filter(|bit| word >> bit & 1 == 1);
    let set: Vec<String> = set
        .map(|bit| match names.get(bit) {
            Some(name) => name.to_string(),
            None => format!("bit {bit}"),
        })
        .collect();
    set.join(" ")
}

/// Settings, records, the damage, and the lengths of what is lent.
pub fn case(case: &Case) -> String {
    let mut text = format!("settings {}\n", hex(&case.image));
    let layout = Layout::of(&case.image);
    match layout {
        Some(_) if case.image.is_empty() => text += "  the factory bank\n",
        Some(layout) => {
            for alarm in 0..layout.alarms() {
                text += &settings(layout, alarm, &case.image[layout.settings(alarm)]);
            }
        }
        None => text += "  its counts and its length don't fit\n",
    }
    for (n, lent) in case.turns.iter().enumerate() {
        text += &record(layout, n, case.record(n));
        text += &turn(lent);
    }
    text + &damage(case) + &lent(case)
}

fn lent(case: &Case) -> String {
    let Case {
        out,
        events,
        report,
        load_words,
        write_words,
        replay_words,
        report_words,
        ..
    } = case;
    format!(
        "lent: load {load_words} words; write {out} bytes, {write_words} words; \
         replay {events} bytes, {replay_words} words; report {report} bytes, {report_words} words\n\n"
    )
}

fn turn(turn: &Turn) -> String {
    let Turn { events, words, .. } = turn;
    let before = ["", "saved and restored before it; "][usize::from(turn.restored)];
    let after = ["", "; reported and written after it"][usize::from(turn.reported)];
    format!("  {before}lent {events} bytes, {words} words{after}\n")
}

fn damage(case: &Case) -> String {
    let mut text = String::new();
    for flip in &case.flips {
        let _ = writeln!(text, "damaged words: {flip:?}");
    }
    if let Some(misfit) = case.misfit {
        let _ = writeln!(text, "no bank: {misfit:?}");
    }
    text
}

fn settings(layout: Layout, alarm: usize, bytes: &[u8]) -> String {
    let number = alarm + 1;
    let severity = |n: usize| dword(bytes, 1 + 4 * n) as i32;
    if layout.is_digital(alarm) {
        let flags = bits(bytes[0].into(), &DIGITAL_FLAGS);
        let duration = dword(bytes, 5) as i32;
        let severity = severity(0);
        return format!(
            "  alarm {number}, digital: {flags}; Severity {severity}, MinDuration {duration}\n"
        );
    }
    let flags = bits(bytes[0].into(), &ANALOG_FLAGS);
    let severities: Vec<i32> = (0..6).map(severity).collect();
    let mut text = format!("  alarm {number}, analog: {flags}; Severities {severities:?}\n");
    for (n, name) in REALS.iter().enumerate() {
        let _ = writeln!(text, "    {name} {}", real(dword(bytes, 25 + 4 * n)));
    }
    let (period, duration) = (dword(bytes, 53), dword(bytes, 57) as i32);
    text + &format!("    ROCPeriod {period}, MinDuration {duration}\n")
}

fn record(layout: Option<Layout>, n: usize, bytes: &[u8]) -> String {
    let Some(layout) = layout.filter(|layout| layout.record_len() == bytes.len()) else {
        return format!("scan {n}: {} bytes: {}\n", bytes.len(), hex(bytes));
    };
    let mut text = format!("scan {n}: time {}\n", number(&bytes[..8]));
    for alarm in 0..layout.alarms() {
        let reading = number(&bytes[layout.reading(alarm)]) as u32;
        let word = dword(bytes, layout.word(alarm).start);
        let reading = match layout.is_digital(alarm) {
            true => reading.to_string(),
            false => real(reading),
        };
        let _ = writeln!(
            text,
            "  alarm {}: {reading} {}",
            alarm + 1,
            bits(word, &COMMANDS)
        );
    }
    text
}

/// Both answers, line by line: once where they agree, and of the reports only where they don't.
pub fn difference(case: &Case) -> String {
    let archive = Answers::of_archive(case);
    let second = Answers::of_second_opinion(case);
    let mut text = String::new();
    for (left, right) in archive.replies.iter().zip(&second.replies) {
        let with_equal = !matches!(left.call, Call::Report(_));
        text += &beside(&lines(left), &lines(right), with_equal);
        text += &first_byte(left, right);
    }
    for fault in archive.faults {
        let _ = writeln!(text, "archive         {fault}");
    }
    text
}

/// The lines of both sides, each beside its counterpart.
fn beside(archive: &[String], second: &[String], with_equal: bool) -> String {
    let mut text = String::new();
    for n in 0..archive.len().max(second.len()) {
        let [left, right] = [archive, second].map(|side| side.get(n).map_or("nothing", |l| l));
        if left != right {
            let _ = writeln!(text, "archive         {left}");
            let _ = writeln!(text, "second opinion  {right}");
        } else if with_equal {
            let _ = writeln!(text, "both            {left}");
        }
    }
    text
}

/// Where the buffers differ first, as the lines above leave out what is behind the events and reports.
fn first_byte(archive: &Reply, second: &Reply) -> String {
    let call = archive.call;
    let byte = archive.lent.first_difference(&second.lent);
    let word = archive.answer.first_difference(&second.answer);
    let places = [("byte", byte), ("word of the answer", word)];
    let places = places.iter().filter_map(|(name, at)| Some((name, (*at)?)));
    places
        .map(|(name, at)| format!("{call}: differ first at {name} {at} (from 0)\n"))
        .collect()
}

/// A line for the answer, and lines for what was written.
fn lines(reply: &Reply) -> Vec<String> {
    let Reply { call, code, .. } = reply;
    let mut lines = vec![format!(
        "{call}: code {code}, answer {:?}",
        &reply.answer[..]
    )];
    let events = reply.lent.chunks_exact(EVENT_SIZE).take(reply.events());
    lines.extend(events.map(event));
    if let (Call::Report(alarm), 0) = (call, code) {
        lines.extend(report(*alarm, &reply.lent));
    }
    lines
}

fn event(bytes: &[u8]) -> String {
    let time = number(&bytes[8..]);
    let (alarm, condition, suppressed) = (bytes[0], bytes[1], bytes[3]);
    let kind = KINDS.get(usize::from(bytes[2])).unwrap_or(&"?");
    let severity = number(&bytes[4..6]);
    format!(
        "event: time {time}, alarm {alarm}, condition {condition}, {kind}, severity {severity}, \
         suppressed {suppressed}"
    )
}

/// A line for the whole alarm and one for each condition.
fn report(alarm: usize, bytes: &[u8]) -> Vec<String> {
    let (whole, conditions) = bytes.split_at(32);
    let mut lines = vec![format!(
        "report {alarm}: enabled {}, suppressed {}, InFaulted {}, SeverityInv {}, rate {}, count reset {}, \
         elapsed {} and {}",
        whole[0],
        whole[1],
        whole[2],
        whole[3],
        real(dword(whole, 4)),
        number(&whole[8..16]),
        number(&whole[16..24]),
        number(&whole[24..32])
    )];
    for (c, name) in conditions.chunks_exact(32).zip(CONDITIONS) {
        lines.push(format!(
            "report {alarm}, {name}: in alarm {}, acknowledged {}, count {}, alarm stamp {}, ack stamp {}, \
             return stamp {}",
            c[0],
            c[1],
            dword(c, 4),
            number(&c[8..16]),
            number(&c[16..24]),
            number(&c[24..32])
        ));
    }
    lines
}
