//! Whether all contenders give what the plain rival gives: every byte of every event, and every alarm's report after each list.

use crate::contenders::{Contender, Outcome, CONTENDERS, PLAIN};
use crate::load::Load;
use crate::meifgur;

/// Holds each contender to the plain rival on every list; the first difference in words.
pub fn check(load: &Load) -> Result<(), String> {
    let shape = load.spec.shape;
    if meifgur::record_length(shape.digital, shape.analog) != load.record_len() {
        return Err(format!("{}: records of another length", load.spec));
    }
    for (n, list) in load.lists().enumerate() {
        let of = |contender: &Contender| (contender.outcome)(load, list);
        let plain = CONTENDERS.iter().find(|contender| contender.name == PLAIN);
        let plain = plain.map(of).expect("it is one of them");
        for contender in CONTENDERS {
            if let Some(what) = difference(&of(contender), &plain) {
                let (spec, name) = (load.spec, contender.name);
                return Err(format!(
                    "{spec}, list {n}: {name} and {PLAIN} give different {what}"
                ));
            }
        }
    }
    Ok(())
}

fn difference(ours: &Outcome, plain: &Outcome) -> Option<String> {
    let at = |what: &str, at: usize| format!("{what}, first at byte {at}");
    if let Some(byte) = first_other(&ours.events, &plain.events) {
        return Some(at("events", byte));
    }
    first_other(&ours.reports, &plain.reports).map(|byte| at("reports", byte))
}

/// Where two buffers differ first; where one ends, if the other goes on.
fn first_other(ours: &[u8], theirs: &[u8]) -> Option<usize> {
    let mut pairs = ours.iter().zip(theirs);
    let other = pairs.position(|(ours, theirs)| ours != theirs);
    let ends = (ours.len() != theirs.len()).then_some(ours.len().min(theirs.len()));
    other.or(ends)
}
