//! Times the proved archive's scan and replay, and two rivals of the second opinion scan by scan, on the same images and
//! records.
//!
//!   benchmark [--check] [--write] [ROUNDS]
//!
//! First all must give the same events and reports on every list. Then they are timed in turns, and the least time of ROUNDS
//! (15) rounds counts. `--check` ends with 1 if scans take more than their bound allows, `--write` writes docs/speed.md and
//! docs/speed.svg; it runs in the repository's folder.

#![deny(unsafe_code)]

mod agree;
mod arguments;
mod before;
mod bounds;
mod chart;
mod contenders;
mod document;
mod drive;
mod image;
mod live;
mod load;
#[path = "../../rust/meifgur.rs"]
#[allow(dead_code)] // not all of the wrapper is called here
#[allow(unsafe_code)] // its calls of the archive
mod meifgur;
mod random;
mod results;
mod spec;
mod table;
mod tables;
mod timing;

use arguments::Arguments;
use load::Load;
use results::Results;
use spec::Spec;
use std::process::ExitCode;
use std::{env, fs};

/// Lines that say what failed.
type Failure = Vec<String>;

fn main() -> ExitCode {
    let arguments = match Arguments::read(env::args().skip(1)) {
        Ok(arguments) => arguments,
        Err(what) => {
            eprintln!("benchmark: {what}");
            return ExitCode::from(2);
        }
    };
    match run(&arguments) {
        Ok(()) => ExitCode::SUCCESS,
        Err(lines) => {
            for line in lines {
                eprintln!("benchmark: FAILED: {line}");
            }
            ExitCode::FAILURE
        }
    }
}

fn run(arguments: &Arguments) -> Result<(), Failure> {
    assert!(meifgur::sizes_agree(), "an archive of another version");
    let loads: Vec<Load> = Spec::all().into_iter().map(Load::new).collect();
    for load in &loads {
        agree::check(load).map_err(|what| vec![what])?;
    }
    println!("archive and rivals give the same events and reports on every list\n");

    let results = Results {
        rounds: arguments.rounds,
        points: timing::measure(&loads, arguments.rounds),
    };
    print!("{}", document::all_tables(&results));
    if arguments.write {
        write(&results).map_err(|error| vec![error.to_string()])?;
    }
    if arguments.check {
        check(&results)?;
    }
    Ok(())
}

fn write(results: &Results) -> std::io::Result<()> {
    fs::write("docs/speed.md", document::page(results))?;
    fs::write("docs/speed.svg", chart::chart(results))?;
    println!("\nwrote docs/speed.md and docs/speed.svg");
    Ok(())
}

fn check(results: &Results) -> Result<(), Failure> {
    let above = bounds::above(results);
    if !above.is_empty() {
        return Err(above);
    }
    println!("\nevery ratio of the full bank and of one alarm is within its bound");
    Ok(())
}
