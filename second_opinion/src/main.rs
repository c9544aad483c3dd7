//! The program of document 01: settings from bank.set, scan records from standard input.

use std::fs;
use std::io::{self, BufWriter, ErrorKind, Read, Write};
use std::process::ExitCode;

use second_opinion::{Bank, EVENT_LEN, EVENTS_ENOUGH, Refusal};

fn main() -> ExitCode {
    match run(io::stdin().lock(), BufWriter::new(io::stdout().lock())) {
        Ok(()) => ExitCode::SUCCESS,
        Err(error) => {
            // Not by eprintln!, which panics where standard error is closed too.
            let _ = writeln!(io::stderr(), "meifgur: {error}");
            ExitCode::FAILURE
        }
    }
}

fn run(mut input: impl Read, mut out: impl Write) -> io::Result<()> {
    let image = match fs::read("bank.set") {
        Err(error) if error.kind() == ErrorKind::NotFound => Vec::new(),
        other => other?,
    };
    let mut bank = match Bank::read(&image) {
        Ok(bank) => bank,
        Err(refusal) => {
            print_refusal(&mut out, refusal)?;
            return out.flush();
        }
    };

    let mut record = Vec::with_capacity(bank.record_len());
    let mut events = [0; EVENTS_ENOUGH];
    loop {
        record.clear();
        if input.by_ref().take(bank.record_len() as u64).read_to_end(&mut record)? == 0 {
            break;
        }
        match bank.scan(&record, &mut events) {
            Ok(count) => {
                for event in events.as_chunks::<EVENT_LEN>().0.iter().take(count) {
                    print_event(&mut out, event)?;
                }
            }
            Err(refusal) => print_refusal(&mut out, refusal)?,
        }
    }
    print_end(&mut out, &bank)?;
    out.flush()
}

fn print_refusal(out: &mut impl Write, refusal: Refusal) -> io::Result<()> {
    writeln!(out, "refused {} {}", refusal.number, refusal.place)
}

fn print_event(out: &mut impl Write, event: &[u8; EVENT_LEN]) -> io::Result<()> {
    let &[alarm, condition, kind, suppressed, low, high, _, _, ref time @ ..] = event;
    let severity = u16::from_le_bytes([low, high]);
    let time = u64::from_le_bytes(*time);
    writeln!(out, "{time} {alarm} {condition} {kind} {severity} {suppressed}")
}

fn print_end(out: &mut impl Write, bank: &Bank) -> io::Result<()> {
    for n in 1..=bank.alarms() as u64 {
        let Ok(report) = bank.report(n) else { continue };
        let (first, conditions) = match bank.is_digital(n) {
            true => (0, &report.conditions[..1]),
            false => (1, &report.conditions[..]),
        };
        for (condition, number) in conditions.iter().zip(first..) {
            let in_alarm = u8::from(condition.in_alarm);
            let unacknowledged = u8::from(!condition.acknowledged);
            writeln!(out, "end {n} {number} {in_alarm} {unacknowledged} {}", condition.count)?;
        }
    }
    Ok(())
}
