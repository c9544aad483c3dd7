//! The hand-worked lists of calls that the proved program `calls` is held to.

use std::fs;
use std::process::{Command, Stdio};

/// Behind this heading stand lines that are no calls, which this program answers more shortly.
const NO_CALLS: &str = "# ===== Lines that are no calls";

fn lines_of_calls(text: &str) -> Vec<&str> {
    text.lines().take_while(|line| *line != NO_CALLS).collect()
}

#[test]
fn every_call_gets_its_reply() {
    let folder = concat!(env!("CARGO_MANIFEST_DIR"), "/../crates/calls");
    let calls = fs::read_to_string(format!("{folder}/stdin")).unwrap();
    let replies = fs::read_to_string(format!("{folder}/stdout")).unwrap();
    let output = Command::new(env!("CARGO_BIN_EXE_calls"))
        .stdin(Stdio::from(fs::File::open(format!("{folder}/stdin")).unwrap()))
        .output()
        .unwrap();
    let output = String::from_utf8(output.stdout).unwrap();
    let (calls, replies, output) =
        (lines_of_calls(&calls), lines_of_calls(&replies), lines_of_calls(&output));
    assert!(2000 < calls.len() && calls.len() == replies.len() && calls.len() == output.len());
    for ((call, expected), given) in calls.iter().zip(&replies).zip(&output) {
        assert_eq!(expected, given, "{call}");
    }
}
