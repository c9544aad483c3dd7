//! Random lists of scans through the proved archive and through the second opinion, in one replay and then call by call,
//! with saved and restored banks and reports in between: every return code, answer word and byte lent must agree. On words
//! that are damaged the archive runs alone, and must end and touch only what it may. The first list on which something is
//! wrong is made smaller, shown, and ends the run with 1.
//!
//!   differential [LISTS] [SEED] [FIRST]
//!
//! LISTS is how many (1000000), SEED what makes them (the clock), FIRST the number of the first (0), so that a list can be
//! looked at alone. The same SEED makes the same lists.

#![deny(unsafe_code)]

mod answers;
mod case;
mod damaged;
mod generate;
mod lent;
#[path = "../../rust/meifgur.rs"]
#[allow(dead_code)] // not all of the wrapper is called here
#[allow(unsafe_code)] // its calls of the archive
mod meifgur;
mod receiver;
mod rng;
mod show;
mod shrink;
mod tally;

use answers::Answers;
use case::Case;
use rng::Rng;
use std::env;
use std::process::ExitCode;
use std::sync::atomic::{AtomicU64, Ordering};
use std::thread;
use std::time::{Instant, SystemTime, UNIX_EPOCH};
use tally::Tally;

const THREADS: u64 = 2;
const LISTS: u64 = 1_000_000;
/// In place of the number of a list on which the two sides differ.
const NONE: u64 = u64::MAX;

/// Which lists to try.
struct Run {
    lists: u64,
    seed: u64,
    first: u64,
}

impl Run {
    fn from_arguments() -> Result<Run, String> {
        let arguments = env::args().skip(1);
        let numbers: Result<Vec<u64>, String> = arguments
            .map(|word| word.parse().map_err(|_| format!("no number: {word}")))
            .collect();
        let numbers = numbers?;
        if numbers.len() > 3 {
            return Err("arguments: [LISTS] [SEED] [FIRST]".to_string());
        }
        let number = |n: usize| numbers.get(n).copied();
        Ok(Run {
            lists: number(0).unwrap_or(LISTS),
            seed: number(1).unwrap_or_else(clock_seed),
            first: number(2).unwrap_or(0),
        })
    }

    fn case(&self, list: u64) -> Case {
        generate::case(&mut Rng::of_list(self.seed, list))
    }

    /// Every list that is one thread's to try, up to the first known difference.
    fn try_lists(&self, thread: u64, different: &AtomicU64) -> Tally {
        let mut tally = Tally::default();
        let end = self.first + self.lists;
        for list in (self.first + thread..end).step_by(THREADS as usize) {
            if list > different.load(Ordering::Relaxed) {
                break;
            }
            let _named = NamedInPanic(self.seed, list);
            let case = self.case(list);
            let answers = Answers::of_archive(&case);
            if answers == Answers::of_second_opinion(&case) {
                tally.count(&case, &answers);
            } else {
                different.fetch_min(list, Ordering::Relaxed);
            }
        }
        tally
    }
}

fn clock_seed() -> u64 {
    let now = SystemTime::now().duration_since(UNIX_EPOCH);
    now.map_or(1, |since| since.as_secs())
}

/// Says which list it was if either side panics.
struct NamedInPanic(u64, u64);

impl Drop for NamedInPanic {
    fn drop(&mut self) {
        if thread::panicking() {
            eprintln!("PANICKED: seed {}, list {}", self.0, self.1);
        }
    }
}

/// Runs the threads; gives what they met and the first list on which the two sides differ.
fn try_all(run: &Run) -> (Tally, u64) {
    let different = AtomicU64::new(NONE);
    let tally = thread::scope(|scope| {
        let start = |n| {
            let different = &different;
            scope.spawn(move || run.try_lists(n, different))
        };
        let threads: Vec<_> = (0..THREADS).map(start).collect();
        let tallies = threads.into_iter().map(|t| t.join().expect("a thread"));
        tallies.fold(Tally::default(), Tally::merge)
    });
    (tally, different.into_inner())
}

fn show_difference(run: &Run, list: u64) {
    println!(
        "DIFFERENT: seed {}, list {list} (from 0; all before it agree)",
        run.seed
    );
    let case = shrink::shrink(&run.case(list));
    println!("the list, made smaller:\n");
    print!("{}", show::case(&case));
    print!("{}", show::difference(&case));
}

fn main() -> ExitCode {
    let run = match Run::from_arguments() {
        Ok(run) => run,
        Err(what) => {
            eprintln!("differential: {what}");
            return ExitCode::from(2);
        }
    };
    assert!(meifgur::sizes_agree(), "an archive of another version");
    println!("seed        {}", run.seed);
    let start = Instant::now();
    let (tally, different) = try_all(&run);
    println!("{tally}");
    println!("time        {:.1} s", start.elapsed().as_secs_f64());
    if different != NONE {
        show_difference(&run, different);
        return ExitCode::FAILURE;
    }
    println!("archive and second opinion agree");
    ExitCode::SUCCESS
}
