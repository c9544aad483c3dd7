//! The page on speed, and its tables, which are printed too.

use crate::bounds::{FULL_MOST, SINGLE_MOST};
use crate::contenders::{QUICK, SCAN};
use crate::results::Results;
use crate::spec::{ALARMS, SCANS};
use crate::table::thousands;
use crate::tables;
use std::fs;

pub fn page(results: &Results) -> String {
    let about = ABOUT.replace("ROUNDS", &results.rounds.to_string());
    let bounds = format!(
        "Bound of {SCAN} / {QUICK} on each drive: {FULL_MOST} with {ALARMS} alarms, {SINGLE_MOST} with one."
    );
    let processor = processor().unwrap_or("a processor without a name".to_string());
    let kit = kit().unwrap_or("a kit without a name".to_string());
    format!(
        "# Speed\n\n{about}\n{bounds}\nMeasured on: {processor}. Archive by: {kit}.\n\n{CHART}\n\n{}",
        all_tables(results)
    )
}

const ABOUT: &str = "\
Nanoseconds per scan of a loaded bank, with a buffer for events that always suffices. Scan: a call of `meifgur_scan_words` of
the proved archive for each record, with events at the buffer's front. Replay: a call of `meifgur_replay_words` for all records
of a list, with the events of all behind one another. The rivals are banks of `second_opinion/`, called once a record, with
events at the front. Plain: written to be read. Quick: made for speed, alarm by alarm, from settings and states alone; nothing
is written for an alarm that does not change.
Before any timing all gave the same events on every list, and the same reports after it. A time is the least of ROUNDS rounds
in which they take turns on the same records and buffer, allocated and touched beforehand. Loading a bank is not timed.
Quiet: no commands, readings wander inside the limits. Busy: readings wander across the limits, inputs change now and then,
someone acknowledges. Storm: readings jump across all limits in each scan, every eighth command word has some bits.
`host/benchmark.sh --write` measures all again and writes this page and its chart; without `--write` it prints the tables.
";

const CHART: &str = "![Bars and lines of the times in the tables below](speed.svg)";

const THEN: &str = "\
Then: the archive before it worked on lent words (commit c7a4cbf, by an older kit), in a run of its own on another machine. Its
replay, and the plain rival then, went from the image to the reports; its by-value scan handed the whole bank over and took it
back.
";

pub fn all_tables(results: &Results) -> String {
    let (drives, singles) = (tables::drives(results), tables::singles(results));
    let (alarms, scans) = (tables::alarms(results), tables::scans(results));
    let then_and_now = tables::then_and_now(results);
    let usual = thousands(SCANS);
    format!(
        "## The drives: {ALARMS} alarms, {usual} scans\n\n{drives}\n\
         ## One alarm: {usual} scans\n\n{singles}\n\
         ## Then and now: {ALARMS} alarms, {usual} scans\n\n{THEN}\n{then_and_now}\n\
         ## More alarms: busy drive, {usual} scans\n\n{alarms}\n\
         ## More scans: busy drive, {ALARMS} alarms\n\n{scans}"
    )
}

/// What the toolchain says that it is.
fn kit() -> Option<String> {
    let said = std::process::Command::new("rt")
        .arg("version")
        .output()
        .ok()?;
    Some(String::from_utf8(said.stdout).ok()?.trim().to_string())
}

/// The model's name, where the system says one.
fn processor() -> Option<String> {
    let text = fs::read_to_string("/proc/cpuinfo").ok()?;
    let line = text.lines().find(|line| line.starts_with("model name"))?;
    Some(line.split_once(':')?.1.trim().to_string())
}
