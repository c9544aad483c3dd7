//! K1 to K12, the listing, and every refusal by its place.

mod common;

use common::{Event, Reading, analog, digital, image, record, report_bytes, scan};
use second_opinion::{Bank, Refusal, Report};

const CONDITION: u8 = 1;
const ACK_REQUIRED: u8 = 2;
const LATCHED: u8 = 4;
const PLAIN: u8 = CONDITION | ACK_REQUIRED;

const HH: u8 = 1;
const H: u8 = 2;
const L: u8 = 4;
const LL: u8 = 8;
const ANALOG_ACK_REQUIRED: u8 = 16;

const PROG_ACK: u32 = 1 << 0;
const DISABLE: u32 = 1 << 2;
const ENABLE: u32 = 1 << 3;
const OPER_ACK: u32 = 1 << 7;
const OPER_RESET: u32 = 1 << 8;

fn one_digital(flags: u8, min_duration: u32) -> Bank {
    Bank::read(&image(&[digital(flags, 700, min_duration)], &[])).unwrap()
}

fn one_analog(levels: u8, reals: [f32; 7], period: u32, min_duration: u32) -> Bank {
    let alarm = analog(levels | ANALOG_ACK_REQUIRED, [100; 6], reals, period, min_duration);
    Bank::read(&image(&[], &[alarm])).unwrap()
}

/// The events of one scan of a bank with one digital alarm, by condition and kind.
fn input(bank: &mut Bank, time: u64, input: u8, commands: u32) -> Vec<(u8, u8)> {
    kinds(scan(bank, &record(time, &[(Reading::Digital(input), commands)])).unwrap())
}

fn level(bank: &mut Bank, time: u64, level: f32, commands: u32) -> Vec<(u8, u8)> {
    kinds(scan(bank, &record(time, &[(Reading::Level(level), commands)])).unwrap())
}

fn kinds(events: Vec<Event>) -> Vec<(u8, u8)> {
    events.into_iter().map(|(_, _, condition, kind, _, _)| (condition, kind)).collect()
}

fn report(bank: &Bank) -> Report {
    bank.report(1).unwrap()
}

#[test]
fn k1_without_duration_the_first_met_scan_activates() {
    let mut bank = one_digital(PLAIN, 0);
    assert_eq!(input(&mut bank, 5, 1, 0), [(0, 8)]);
    let condition = report(&bank).conditions[0];
    assert!(condition.in_alarm && !condition.acknowledged);
    assert_eq!((condition.count, condition.alarm_time), (1, 5));
}

#[test]
fn k2_k3_a_run_must_last() {
    let mut bank = one_digital(PLAIN, 100);
    assert_eq!(input(&mut bank, 1000, 1, 0), []);
    assert_eq!(input(&mut bank, 1099, 1, 0), []);
    assert_eq!(report(&bank).elapsed, [99, 0]);
    assert_eq!(input(&mut bank, 1100, 1, 0), [(0, 8)]);
    assert_eq!(report(&bank).conditions[0].alarm_time, 1000);
    input(&mut bank, 5000, 1, 0);
    assert_eq!(report(&bank).elapsed, [100, 0]);

    let mut bank = one_digital(PLAIN, 100);
    input(&mut bank, 1000, 1, 0);
    assert_eq!(input(&mut bank, 1050, 0, 0), []);
    assert_eq!(report(&bank).elapsed, [0, 0]);
    assert_eq!(input(&mut bank, 1100, 1, 0), []);
}

#[test]
fn k4_a_reset_while_met_is_not_remembered() {
    let mut bank = one_digital(PLAIN | LATCHED, 0);
    input(&mut bank, 1, 1, 0);
    assert_eq!(input(&mut bank, 2, 1, OPER_RESET), []);
    assert_eq!(input(&mut bank, 3, 0, 0), []);
    assert!(report(&bank).conditions[0].in_alarm);
    assert_eq!(input(&mut bank, 4, 0, OPER_RESET), [(0, 7)]);
    assert!(!report(&bank).conditions[0].acknowledged, "a reset doesn't acknowledge");
}

#[test]
fn k5_k6_an_ack_in_or_before_the_activating_scan() {
    let mut bank = one_digital(PLAIN, 0);
    assert_eq!(input(&mut bank, 1, 1, OPER_ACK), [(0, 8)]);
    assert!(!report(&bank).conditions[0].acknowledged);

    let mut bank = one_digital(PLAIN, 0);
    assert_eq!(input(&mut bank, 1, 0, PROG_ACK), []);
    assert_eq!(input(&mut bank, 2, 1, PROG_ACK), [(0, 8)]);
    assert_eq!(input(&mut bank, 3, 1, PROG_ACK), []);
    assert!(!report(&bank).conditions[0].acknowledged);
}

#[test]
fn k7_enable_wins() {
    let mut bank = one_digital(PLAIN, 0);
    assert_eq!(input(&mut bank, 1, 0, ENABLE | DISABLE), []);
    assert_eq!(input(&mut bank, 2, 1, DISABLE), [(7, 1)]);
    assert_eq!(input(&mut bank, 3, 1, ENABLE | DISABLE), [(7, 2), (0, 8)]);
    assert!(report(&bank).enabled);
}

#[test]
fn k8_k9_deadband_delays_the_way_out_alone() {
    let reals = [0.0, 800.0, 0.0, 0.0, 20.0, 0.0, 0.0];
    let mut bank = one_analog(H, reals, 0, 0);
    assert_eq!(level(&mut bank, 1, 800.0, 0), [(2, 8)]);
    assert_eq!(level(&mut bank, 2, 780.0, 0), []);
    assert_eq!(level(&mut bank, 3, 779.5, 0), [(2, 7)]);

    let reals = [0.0, 0.0, 600.0, 0.0, 20.0, 0.0, 0.0];
    let mut bank = one_analog(L, reals, 0, 0);
    assert_eq!(level(&mut bank, 1, 600.0, 0), [(3, 8)]);
    assert_eq!(level(&mut bank, 2, 620.0, 0), []);
    assert_eq!(level(&mut bank, 3, 620.5, 0), [(3, 7)]);
}

#[test]
fn k10_the_side_is_timed_once() {
    let reals = [900.0, 800.0, 0.0, 0.0, 0.0, 0.0, 0.0];
    let mut bank = one_analog(HH | H, reals, 0, 1000);
    assert_eq!(level(&mut bank, 0, 850.0, 0), []);
    assert_eq!(level(&mut bank, 1000, 850.0, 0), [(2, 8)]);
    assert_eq!(level(&mut bank, 1010, 900.0, 0), [(1, 8)]);
    let report = report(&bank);
    assert_eq!(report.conditions[0].alarm_time, 1010);
    assert_eq!(report.conditions[1].alarm_time, 0);
    assert_eq!(report.elapsed, [1000, 0]);
}

#[test]
fn k11_the_rate_waits_for_its_period() {
    let reals = [0.0, 0.0, 0.0, 0.0, 0.0, 5.0, 0.0];
    let mut bank = one_analog(0, reals, 1000, 0);
    assert_eq!(level(&mut bank, 0, 800.0, 0), []);
    assert_eq!(level(&mut bank, 999, 810.0, 0), []);
    assert_eq!(report(&bank).rate, 0.0);
    assert_eq!(level(&mut bank, 1000, 805.0, 0), [(5, 8)]);
    assert_eq!(report(&bank).rate, 5.0);
    assert_eq!(level(&mut bank, 1500, 805.0, DISABLE), [(7, 1)]);
    assert_eq!(report(&bank).rate, 0.0);
}

#[test]
fn k12_severities_act_within_their_range() {
    for (stored, acting) in [(-3, 1), (0, 1), (1, 1), (1000, 1000), (1001, 1000)] {
        let mut bank = Bank::read(&image(&[digital(PLAIN, stored, 0)], &[])).unwrap();
        let events = scan(&mut bank, &record(1, &[(Reading::Digital(1), 0)])).unwrap();
        assert_eq!(events, [(1, 1, 0, 8, acting, 0)]);
        assert_eq!(report(&bank).severity_inv, stored != i32::from(acting));
    }
}

#[test]
fn listing() {
    let image = [0x01, 0x07, 0xBC, 0x02, 0, 0, 0x64, 0, 0, 0, 0];
    let mut bank = Bank::read(&image).unwrap();
    let scans =
        [(1000, 1, 0), (1100, 1, 0), (1200, 0, 0), (1300, 0, 1 << 8), (1400, 0, 1 << 0), (1500, 1, 0)];
    let records: Vec<u8> = scans
        .iter()
        .flat_map(|&(time, input, commands)| record(time, &[(Reading::Digital(input), commands)]))
        .collect();
    let expected = [(1100, 1, 0, 8, 700, 0), (1300, 1, 0, 7, 700, 0), (1400, 1, 0, 6, 700, 0)];

    let mut events = [0; 48];
    let replayed = bank.replay(&records, &mut events);
    assert_eq!((replayed.events, replayed.refused, replayed.number), (3, 0, 0));
    assert_eq!(events.chunks(16).map(common::event).collect::<Vec<_>>(), expected);
    let condition = report(&bank).conditions[0];
    assert_eq!((condition.in_alarm, condition.acknowledged, condition.count), (false, true, 1));
    assert_eq!((condition.alarm_time, condition.return_time, condition.ack_time), (1000, 1300, 1400));
}

#[test]
fn an_ack_and_an_activation_in_one_scan() {
    let mut bank = one_digital(PLAIN, 0);
    input(&mut bank, 1, 1, 0);
    input(&mut bank, 2, 0, 0);
    assert_eq!(input(&mut bank, 3, 1, OPER_ACK), [(0, 6), (0, 8)]);
    let condition = report(&bank).conditions[0];
    assert_eq!((condition.acknowledged, condition.ack_time, condition.count), (false, 3, 2));
}

#[test]
fn without_ack_required_the_ack_stamp_is_the_alarm_stamp() {
    let mut bank = one_digital(CONDITION, 100);
    input(&mut bank, 7, 1, 0);
    assert_eq!(input(&mut bank, 107, 1, OPER_ACK), [(0, 8)]);
    let condition = report(&bank).conditions[0];
    assert!(condition.in_alarm && condition.acknowledged);
    assert_eq!((condition.alarm_time, condition.ack_time), (7, 7));
}

#[test]
fn the_last_time_there_is() {
    let reals = [0.0, 800.0, 0.0, 0.0, 0.0, 5.0, 5.0];
    let mut bank = one_analog(H, reals, 0, i32::MAX as u32);
    assert_eq!(level(&mut bank, 0, 900.0, 0), []);
    assert_eq!(level(&mut bank, u64::MAX, 900.0, 0), [(2, 8)]);
    assert_eq!(report(&bank).rate, 0.0);
    assert_eq!(level(&mut bank, u64::MAX, 0.0, 0), [(2, 7)]);
}

// Refusals

fn refused(number: u32, place: u64) -> Refusal {
    Refusal { number, place }
}

fn settings_refused(image: &[u8], number: u32, place: u64) {
    assert_eq!(Bank::read(image).err(), Some(refused(number, place)), "{image:?}");
}

const REALS: [f32; 7] = [900.0, 800.0, 600.0, 500.0, 20.0, 5.0, 5.0];

fn mixed_image() -> Vec<u8> {
    image(
        &[digital(7, 1, 0), digital(0, 1001, i32::MAX as u32)],
        &[analog(31, [1; 6], REALS, 3_600_000, 9), analog(0, [-1; 6], [-0.0; 7], 0, 0)],
    )
}

#[test]
fn settings_cut_short() {
    let image = mixed_image();
    for length in 1..image.len() {
        // 1 and 10 digital, 19 count, 20 and 81 analog
        let place = [1, 10, 19, 20, 81].into_iter().rfind(|&place| place <= length).unwrap();
        settings_refused(&image[..length], 1, place as u64);
    }
    let mut image = image;
    assert_eq!(image.len(), 142);
    assert!(Bank::read(&image).is_ok());
    image.push(0);
    settings_refused(&image, 6, 142);
    settings_refused(&[0, 0, 0], 6, 2);
}

#[test]
fn no_settings_are_the_factory_bank() {
    let bank = Bank::read(&[]).unwrap();
    let full = image(&vec![digital(3, 500, 0); 12], &[]);
    let mut out = [0xA5; 111];
    assert_eq!(bank.write(&mut out[..109]), Err(refused(13, 0)));
    assert_eq!(bank.write(&mut out), Ok(110));
    assert_eq!((&out[..110], out[110]), (&full[..], 0xA5));
}

#[test]
fn settings_count_over_twelve() {
    settings_refused(&[13], 2, 0);
    settings_refused(&[0, 13], 2, 1);
    settings_refused(&[0, 255, 1, 2, 3], 2, 1);
    assert!(
        Bank::read(&image(&vec![digital(0, 0, 0); 12], &vec![analog(0, [0; 6], REALS, 0, 0); 12])).is_ok()
    );
}

#[test]
fn settings_flags_and_numbers() {
    settings_refused(&image(&[digital(8, 0, u32::MAX)], &[]), 3, 1);
    settings_refused(&image(&[digital(7, 0, 0), digital(128, 0, 0)], &[]), 3, 10);
    settings_refused(&image(&[digital(7, 0, 1 << 31)], &[]), 4, 1);
    let one = |flags, reals, period, duration| {
        image(&[digital(0, 0, 0)], &[analog(flags, [0; 6], reals, period, duration)])
    };
    settings_refused(&one(32, [f32::NAN; 7], 0, 0), 3, 11);
    settings_refused(&one(0, REALS, 3_600_001, 0), 4, 11);
    settings_refused(&one(0, REALS, 0, 1 << 31), 4, 11);
    let largest = 999_999_986_991_104.0_f32;
    assert_eq!(largest.to_bits(), 0x5863_5FA9);
    for n in 0..7 {
        let with = |real: f32| {
            let mut reals = REALS;
            reals[n] = real;
            one(0, reals, 0, 0)
        };
        for bad in
            [f32::NAN, -f32::NAN, f32::INFINITY, f32::NEG_INFINITY, largest.next_up(), -largest.next_up()]
        {
            settings_refused(&with(bad), 4, 11);
        }
        assert!(Bank::read(&with(largest)).is_ok());
        assert!(Bank::read(&with(-0.0)).is_ok());
        if n < 4 {
            assert!(Bank::read(&with(-largest)).is_ok());
        } else {
            settings_refused(&with(-largest), 4, 11);
            settings_refused(&with(-f32::from_bits(1)), 4, 11);
        }
    }
}

#[test]
fn settings_limits() {
    let one = |flags, reals| image(&[], &[analog(flags, [0; 6], reals, 0, 0)]);
    let accepted = |flags, reals| assert!(Bank::read(&one(flags, reals)).is_ok());
    let refused = |flags, reals| settings_refused(&one(flags, reals), 5, 2);
    refused(HH | H, [800.0, 800.0, 0.0, 0.0, 0.0, 0.0, 0.0]);
    refused(L | LL, [0.0, 0.0, 500.0, 500.0, 0.0, 0.0, 0.0]);
    refused(HH | LL, [500.0, 0.0, 0.0, 500.0, 0.0, 0.0, 0.0]);
    accepted(H | L, [0.0, 800.0, 600.0, 900.0, 199.0, 0.0, 0.0]);
    refused(H | L, [0.0, 800.0, 600.0, 0.0, 200.0, 0.0, 0.0]);
    accepted(HH | H, [900.0, 800.0, 850.0, 999.0, 500.0, 0.0, 0.0]);
    // Where a REAL's neighbours are two apart on one side and one on the other, either test can fail alone.
    let (near, far) = (16_777_215.0, 16_777_218.0);
    assert!(near < far - 2.5_f32 && near + 2.5_f32 >= far);
    refused(H | L, [0.0, far, near, 0.0, 2.5, 0.0, 0.0]);
    refused(H | L, [0.0, -near, -far, 0.0, 2.5, 0.0, 0.0]);
    accepted(H | L, [0.0, far, near, 0.0, 1.5, 0.0, 0.0]);
    accepted(H | L, [0.0, -near, -far, 0.0, 1.5, 0.0, 0.0]);
}

#[test]
fn scans_turned_back() {
    let mut bank = Bank::read(&mixed_image()).unwrap();
    assert_eq!((bank.alarms(), bank.record_len()), (4, 34));
    let alarms = [
        (Reading::Digital(1), 0),
        (Reading::Digital(0), 0),
        (Reading::Level(850.0), 0),
        (Reading::Level(0.0), 0),
    ];
    let good = record(1000, &alarms);
    assert_eq!(scan(&mut bank, &good).unwrap().len(), 1);
    let before = report_bytes(&bank);
    let turned_back = |bank: &mut Bank, record: &[u8], number, place| {
        assert_eq!(scan(bank, record), Err(refused(number, place)));
        assert_eq!(report_bytes(bank), before);
    };
    for length in 0..good.len() {
        turned_back(&mut bank, &good[..length], 7, 0);
    }
    turned_back(&mut bank, &[&good[..], &[0]].concat(), 7, 0);
    turned_back(&mut bank, &record(999, &[(Reading::Digital(2), 0), alarms[1], alarms[2], alarms[3]]), 8, 0);

    let with = |n: usize, reading, commands| {
        let mut alarms = alarms;
        alarms[n] = (reading, commands);
        record(1000, &alarms)
    };
    for n in [0, 1] {
        turned_back(&mut bank, &with(n, Reading::Digital(2), u32::MAX), 9, n as u64 + 1);
        turned_back(&mut bank, &with(n, Reading::Digital(255), 0), 9, n as u64 + 1);
        for bit in (13..25).chain(26..32) {
            turned_back(&mut bank, &with(n, Reading::Digital(0), 1 << bit), 11, n as u64 + 1);
        }
    }
    for n in [2, 3] {
        for bad in [f32::NAN, f32::INFINITY, -f32::INFINITY, 1e16, 999_999_986_991_104.0_f32.next_up()] {
            turned_back(&mut bank, &with(n, Reading::Level(bad), u32::MAX), 10, n as u64 + 1);
        }
        for bit in [1, 8].into_iter().chain(26..32) {
            turned_back(&mut bank, &with(n, Reading::Level(0.0), 1 << bit), 11, n as u64 + 1);
        }
    }
}

#[test]
fn event_buffer_too_short() {
    let fresh = one_digital(PLAIN, 0);
    let record = record(1, &[(Reading::Digital(1), 1 << 4 | 1 << 6)]); // suppressed, count reset, activated
    for length in 0..64 {
        let mut bank = fresh.clone();
        let mut events = vec![0xEE; length];
        if length < 48 {
            assert_eq!(bank.scan(&record, &mut events), Err(refused(12, 0)));
            assert!(events.iter().all(|&byte| byte == 0xEE));
            assert_eq!(report_bytes(&bank), report_bytes(&fresh));
        } else {
            assert_eq!(bank.scan(&record, &mut events), Ok(3));
            assert!(events[48..].iter().all(|&byte| byte == 0xEE));
        }
    }
}

#[test]
fn write_and_report() {
    let image = mixed_image();
    let bank = Bank::read(&image).unwrap();
    let mut out = vec![0xEE; image.len() - 1];
    assert_eq!(bank.write(&mut out), Err(refused(13, 0)));
    assert!(out.iter().all(|&byte| byte == 0xEE));
    let mut out = vec![0xEE; image.len() + 1];
    assert_eq!(bank.write(&mut out), Ok(image.len()));
    assert_eq!(out, [&image[..], &[0xEE]].concat());

    assert_eq!(bank.report(0), Err(refused(14, 0)));
    assert_eq!(bank.report(5), Err(refused(14, 0)));
    assert_eq!(bank.report(u64::MAX), Err(refused(14, 0)));
    let inv: Vec<bool> = (1..=4).map(|n| bank.report(n).unwrap().severity_inv).collect();
    assert_eq!(inv, [false, true, false, true]);
    let first = bank.report(1).unwrap();
    assert!(first.enabled && first.conditions[0].acknowledged && !first.conditions[1].acknowledged);
    assert!(bank.report(4).unwrap().conditions.iter().all(|condition| condition.acknowledged));

    let mut empty = Bank::empty();
    assert_eq!(empty.report(1), Err(refused(14, 0)));
    assert_eq!(empty.write(&mut [7, 7]), Ok(2));
    assert_eq!(empty.scan(&8_u64.to_le_bytes(), &mut []), Ok(0));
    assert_eq!(empty.scan(&7_u64.to_le_bytes(), &mut []), Err(refused(8, 0)));
}

#[test]
fn replay_passes_refused_records_over() {
    let mut bank = one_digital(PLAIN, 0);
    let mut records = Vec::new();
    for (time, input) in [(1, 1), (2, 2), (3, 0), (0, 1), (4, 1), (5, 0)] {
        records.extend(record(time, &[(Reading::Digital(input), 0)]));
    }
    records.push(9);
    let mut events = [0; 48];
    let replayed = bank.replay(&records, &mut events);
    // 9, 8, then 12 for the fourth event, then 7 for the rest
    assert_eq!((replayed.events, replayed.refused), (3, 4));
    assert_eq!((replayed.number, replayed.place, replayed.index), (9, 1, 1));
    assert!(report(&bank).conditions[0].in_alarm);
}

#[test]
fn report_bytes_layout() {
    let mut bank = one_analog(H, [0.0, 800.0, 0.0, 0.0, 0.0, 5.0, 0.0], 1000, 50);
    level(&mut bank, 1000, 700.0, 1 << 6 | 1 << 4 | 1 << 25);
    level(&mut bank, 2000, 850.0, 1 << 25);
    level(&mut bank, 2040, 850.0, 1 << 25);
    let bytes = report_bytes(&bank);
    assert_eq!(bytes.len(), 224);
    assert_eq!(bytes[..4], [1, 1, 1, 0]);
    assert_eq!(bytes[4..8], 150.0_f32.to_le_bytes());
    assert_eq!(bytes[8..16], 1000_u64.to_le_bytes());
    assert_eq!(bytes[16..24], 40_u64.to_le_bytes());
    assert_eq!(bytes[24..32], [0; 8]);
    let pos = &bytes[32 + 4 * 32..][..32];
    assert_eq!(pos[..8], [1, 0, 0, 0, 1, 0, 0, 0]);
    assert_eq!(pos[8..16], 2000_u64.to_le_bytes());
    assert_eq!(bytes[32..34], [0, 1]);
}
