//! Images and records put together by hand.
#![allow(dead_code)]

pub mod random;
pub mod rival;

use second_opinion::{Bank, EVENT_LEN, EVENTS_ENOUGH, Refusal};

pub fn digital(flags: u8, severity: i32, min_duration: u32) -> Vec<u8> {
    let mut record = vec![flags];
    record.extend(severity.to_le_bytes());
    record.extend(min_duration.to_le_bytes());
    record
}

/// HH, H, L, LL, Deadband, ROCPosLimit, ROCNegLimit.
pub fn analog(flags: u8, severity: [i32; 6], reals: [f32; 7], period: u32, min_duration: u32) -> Vec<u8> {
    let mut record = vec![flags];
    severity.iter().for_each(|severity| record.extend(severity.to_le_bytes()));
    reals.iter().for_each(|real| record.extend(real.to_le_bytes()));
    record.extend(period.to_le_bytes());
    record.extend(min_duration.to_le_bytes());
    record
}

pub fn image(digital: &[Vec<u8>], analog: &[Vec<u8>]) -> Vec<u8> {
    let mut image = vec![digital.len() as u8];
    digital.iter().for_each(|record| image.extend(record));
    image.push(analog.len() as u8);
    analog.iter().for_each(|record| image.extend(record));
    image
}

#[derive(Clone, Copy)]
pub enum Reading {
    Digital(u8),
    Level(f32),
}

pub fn record(time: u64, alarms: &[(Reading, u32)]) -> Vec<u8> {
    let mut record = time.to_le_bytes().to_vec();
    for (reading, commands) in alarms {
        match reading {
            Reading::Digital(input) => record.push(*input),
            Reading::Level(level) => record.extend(level.to_le_bytes()),
        }
        record.extend(commands.to_le_bytes());
    }
    record
}

/// Time, alarm, condition, kind, severity, suppressed.
pub type Event = (u64, u8, u8, u8, u16, u8);

pub fn event(bytes: &[u8]) -> Event {
    assert_eq!(bytes[6..8], [0, 0]);
    let severity = u16::from_le_bytes([bytes[4], bytes[5]]);
    let time = u64::from_le_bytes(bytes[8..16].try_into().unwrap());
    (time, bytes[0], bytes[1], bytes[2], severity, bytes[3])
}

pub fn scan(bank: &mut Bank, record: &[u8]) -> Result<Vec<Event>, Refusal> {
    let mut events = [0xEE; EVENTS_ENOUGH];
    let count = bank.scan(record, &mut events)?;
    let (written, rest) = events.split_at(count * EVENT_LEN);
    assert!(rest.iter().all(|&byte| byte == 0xEE));
    Ok(written.chunks(EVENT_LEN).map(event).collect())
}

pub fn report_bytes(bank: &Bank) -> Vec<u8> {
    let mut out = vec![0; 224 * 24];
    let length = bank.report_bytes(&mut out);
    out.truncate(length);
    out
}
