//! Answers a list of calls, one a line of standard input, in the format of the proved program `calls`.
//! A line that is no call gets `bad`, without the reason.

use std::fmt::Write as _;
use std::io::{self, BufRead, BufWriter, Write};

use second_opinion::{Bank, EVENT_LEN, Refusal};

/// The longest buffer that a call lends.
const LENT_MOST: usize = 65_536;

fn main() -> io::Result<()> {
    let mut bank = Bank::empty();
    let mut out = BufWriter::new(io::stdout().lock());
    for line in io::stdin().lock().lines() {
        let line = line?;
        if line.is_empty() || line.starts_with('#') {
            writeln!(out, "{line}")?;
            continue;
        }
        match reply(&mut bank, &line).unwrap_or(Ok("bad".into())) {
            Ok(text) => writeln!(out, "{text}")?,
            Err(refusal) => writeln!(out, "refused {} {}", refusal.number, refusal.place)?,
        }
    }
    out.flush()
}

/// The answer to a call, or none where the line is no call.
fn reply(bank: &mut Bank, line: &str) -> Option<Result<String, Refusal>> {
    let words: Vec<&str> = line.split_whitespace().collect();
    Some(match words[..] {
        ["settings", image] => settings(bank, &bytes(image)?),
        ["scan", room, "-", record] => scan(bank, room_of(room)?, &bytes(record)?),
        ["report", alarm] => report(bank, alarm.parse().ok()?),
        ["write", room] => write(bank, room_of(room)?),
        _ => return None,
    })
}

fn settings(bank: &mut Bank, image: &[u8]) -> Result<String, Refusal> {
    *bank = Bank::empty();
    *bank = Bank::read(image)?;
    Ok(format!("ok {}", bank.alarms()))
}

fn scan(bank: &mut Bank, room: usize, record: &[u8]) -> Result<String, Refusal> {
    let mut events = vec![0; room];
    let count = bank.scan(record, &mut events)?;
    Ok(format!("ok {count} {}", hex(&events[..count * EVENT_LEN])))
}

fn write(bank: &Bank, room: usize) -> Result<String, Refusal> {
    let mut image = vec![0; room];
    let length = bank.write(&mut image)?;
    Ok(format!("ok {length} {}", hex(&image[..length])))
}

fn report(bank: &Bank, n: u64) -> Result<String, Refusal> {
    let report = bank.report(n)?;
    let modes = [report.enabled, report.suppressed, report.in_faulted, report.severity_inv].map(u8::from);
    let [enabled, suppressed, in_faulted, severity_inv] = modes;
    let (rate, [high, low]) = (report.rate.to_bits(), report.elapsed);
    let mut text = format!("ok {enabled} {suppressed} {in_faulted} {severity_inv} {}", report.reset_time);
    write!(text, " {rate:08x} {high} {low}").unwrap();
    let (first, conditions) = match bank.is_digital(n) {
        true => (0, &report.conditions[..1]),
        false => (1, &report.conditions[..]),
    };
    for (c, number) in conditions.iter().zip(first..) {
        let [in_alarm, acknowledged] = [c.in_alarm, c.acknowledged].map(u8::from);
        write!(text, " / {number} {in_alarm} {acknowledged} {}", c.count).unwrap();
        write!(text, " {} {} {}", c.alarm_time, c.return_time, c.ack_time).unwrap();
    }
    Ok(text)
}

/// The length of a buffer that can be lent.
fn room_of(word: &str) -> Option<usize> {
    word.parse().ok().filter(|room| *room <= LENT_MOST)
}

/// The bytes that pairs of hexadecimal digits spell; `-` is none.
fn bytes(word: &str) -> Option<Vec<u8>> {
    if word == "-" {
        return Some(Vec::new());
    }
    let digits = word.chars().map(|c| c.to_digit(16)).collect::<Option<Vec<u32>>>()?;
    let (pairs, rest) = digits.as_chunks::<2>();
    rest.is_empty().then(|| pairs.iter().map(|[high, low]| (high * 16 + low) as u8).collect())
}

fn hex(bytes: &[u8]) -> String {
    if bytes.is_empty() {
        return "-".into();
    }
    bytes.iter().map(|byte| format!("{byte:02x}")).collect()
}
