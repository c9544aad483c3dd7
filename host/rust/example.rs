// Document 01's listing by live calls: prints the events of each scan as it is run, then how each condition stands. Midway the
// bank is saved to FILE, and another bank that is restored from there goes on.
//
//   rustc -L native=target/staticlib host/rust/example.rs
//   ./example FILE
#[allow(dead_code)] // not all of the wrapper is called here
mod meifgur;

use meifgur::Bank;
use std::{env, fs, io};

// One digital alarm: Condition, AckRequired, Latched; Severity 700; MinDuration 100. No analog alarm.
const IMAGE: [u8; 11] = [
    0x01, 0x07, 0xBC, 0x02, 0x00, 0x00, 0x64, 0x00, 0x00, 0x00, 0x00,
];

// Time, reading, command word.
const SCANS: [(u64, u8, u32); 6] = [
    (1000, 1, 0),
    (1100, 1, 0),
    (1200, 0, 0),
    (1300, 0, 1 << 8),
    (1400, 0, 1 << 0),
    (1500, 1, 0),
];

fn get(bytes: &[u8]) -> u64 {
    bytes
        .iter()
        .rev()
        .fold(0, |value, b| value << 8 | *b as u64)
}

// Time, alarm, condition, kind, severity, suppressed.
fn print_event(e: &[u8]) {
    println!(
        "{} {} {} {} {} {}",
        get(&e[8..16]),
        e[0],
        e[1],
        e[2],
        get(&e[4..6]),
        e[3]
    );
}

// End, alarm, condition, in alarm, unacknowledged, count.
fn print_condition(alarm: usize, condition: usize, c: &[u8]) {
    println!(
        "end {} {} {} {} {}",
        alarm,
        condition,
        c[0],
        1 - c[1],
        get(&c[4..8])
    );
}

// The conditions of an alarm stand behind the first 32 bytes of its report.
fn print_report(alarm: usize, is_digital: bool, report: &[u8]) {
    let conditions = report[32..].chunks(32);
    if is_digital {
        conditions
            .take(1)
            .for_each(|c| print_condition(alarm, 0, c));
    } else {
        conditions
            .enumerate()
            .for_each(|(i, c)| print_condition(alarm, i + 1, c));
    }
}

fn record((time, reading, command): (u64, u8, u32)) -> Vec<u8> {
    let mut record = time.to_le_bytes().to_vec();
    record.push(reading);
    record.extend_from_slice(&command.to_le_bytes());
    record
}

fn save(bank: &Bank, path: &str) -> io::Result<()> {
    let words = bank.words();
    let bytes: Vec<u8> = words.iter().flat_map(|word| word.to_le_bytes()).collect();
    fs::write(path, bytes)
}

fn restore(path: &str) -> io::Result<Bank> {
    let bytes = fs::read(path)?;
    let mut words = [0; meifgur::BANK_WORDS];
    assert_eq!(bytes.len(), 8 * words.len());
    for (word, bytes) in words.iter_mut().zip(bytes.chunks(8)) {
        *word = get(bytes);
    }
    Ok(Bank::from_words(&words))
}

fn main() -> io::Result<()> {
    assert!(meifgur::sizes_agree());
    let path = env::args().nth(1).expect("argument: FILE");

    let mut bank = Bank::empty();
    // Before there are settings: the factory bank watches twelve silent sensors.
    let counts = bank.load(&[]).expect("the factory bank");
    assert_eq!((counts.digital, counts.analog), (12, 0));
    let counts = bank.load(&IMAGE).expect("settings");
    let mut copy = [0; meifgur::IMAGE_MOST];
    let length = bank.write(&mut copy).expect("settings written");
    assert_eq!(copy[..length], IMAGE);

    let mut events = [0; meifgur::EVENTS_ENOUGH];
    for (n, scan) in SCANS.iter().enumerate() {
        if n == SCANS.len() / 2 {
            save(&bank, &path)?;
            bank = restore(&path)?;
        }
        let count = bank.scan(&record(*scan), &mut events).expect("record");
        for e in events.chunks(meifgur::EVENT_SIZE).take(count) {
            print_event(e);
        }
        bank.report(1).expect("report in between");
    }

    for n in 1..=counts.digital + counts.analog {
        let report = bank.report(n).expect("report");
        print_report(n, n <= counts.digital, &report);
    }
    Ok(())
}
