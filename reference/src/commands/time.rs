//! Both programs' times, side by side: on sheets, on the longest searches, and as a sheet's steps, terms and degree vary,
//! one at a time.

use super::{Command, answer, clearance};
use reference::compare::{Ending, both, both_first_clear};
use reference::cost::{Variant, degrees, products, variants};
use reference::generate::Trial;
use reference::generate::clearance::QueryTrial;
use reference::sheet::{read, text};
use reference::timing::{Times, longest_searches, search_side_by_side, side_by_side};
use std::io;
use std::process::ExitCode;
use std::time::Duration;

pub const TIME: Command = Command {
    name: "time",
    takes: "ROUNDS FILE..",
    does: "times both programs on each sheet, turn and turn about",
    run: |arguments| {
        let (rounds, files) = arguments.split_first()?;
        let rounds = rounds_given(rounds)?;
        (!files.is_empty()).then(|| time(rounds, files))
    },
};

pub const SEARCH: Command = Command {
    name: "search",
    takes: "ROUNDS",
    does: "times both on the longest searches for the first clear run",
    run: |arguments| match arguments {
        [rounds] => Some(search(rounds_given(rounds)?)),
        _ => None,
    },
};

pub const COST: Command = Command {
    name: "cost",
    takes: "ROUNDS FILE",
    does: "times both as a sheet's steps, terms and degree vary, one at a time",
    run: |arguments| match arguments {
        [rounds, file] => Some(cost(rounds_given(rounds)?, file)),
        _ => None,
    },
};

/// How often something is timed: at least once.
fn rounds_given(argument: &str) -> Option<usize> {
    argument.parse().ok().filter(|&rounds| rounds > 0)
}

fn time(rounds: usize, files: &[String]) -> io::Result<ExitCode> {
    println!("microseconds (least, median of {rounds}): plain Rust; proved");
    for file in files {
        let times = side_by_side(&std::fs::read(file)?, rounds);
        print_times(file, times, least_and_median);
    }
    Ok(ExitCode::SUCCESS)
}

fn search(rounds: usize) -> io::Result<ExitCode> {
    println!("microseconds (least, median of {rounds}): plain Rust; proved");
    for trial in longest_searches() {
        match both_first_clear(&trial) {
            Ok(answer) => {
                let QueryTrial { n, count, .. } = trial;
                let (run, row) = (trial.query.run, answer.number());
                let what = format!("{count} rows of {n} quantities, run={run}, first={row}");
                let times = search_side_by_side(&trial, rounds);
                print_times(&what, times, least_and_median);
            }
            Err(numbers) => return clearance::report(&trial, numbers),
        }
    }
    Ok(ExitCode::SUCCESS)
}

fn least_and_median(time: Times) -> String {
    let (least, median) = (micro(time.least), micro(time.median));
    format!("{least:.1}, {median:.1}")
}

fn cost(rounds: usize, file: &str) -> io::Result<ExitCode> {
    let sheet = match read(&std::fs::read(file)?) {
        Ok(sheet) => sheet,
        Err(_) => {
            eprintln!("{file}: not a sheet to vary");
            return Ok(ExitCode::FAILURE);
        }
    };
    println!("microseconds (least of {rounds}), nanoseconds a product: plain Rust; proved");
    for Variant { varied, sheet } in variants(&sheet) {
        let trial = Trial {
            sheet: text(&sheet),
            places: sheet.places(),
        };
        match both(&trial, 0) {
            Ok(outcome) if outcome.ending().result == 0 => {
                let degrees = degrees(&sheet, &outcome.rows);
                let times = side_by_side(&trial.sheet, rounds);
                print_cost(&varied, &degrees, products(&sheet, &degrees), times);
            }
            Ok(outcome) => {
                let Ending { result, at, .. } = outcome.ending();
                eprintln!("{file} with {varied} is refused: result={result} at={at}");
                return Ok(ExitCode::FAILURE);
            }
            Err(outcomes) => return answer::report(&trial, &outcomes),
        }
    }
    Ok(ExitCode::SUCCESS)
}

/// A line of what a varied sheet costs. Its rows have one degree, or some from the least to the most.
fn print_cost(varied: &str, degrees: &[usize], products: usize, times: (Times, Option<Times>)) {
    let least = degrees.iter().min().unwrap_or(&0);
    let most = degrees.iter().max().unwrap_or(&0);
    let degree = if least == most {
        format!("{least}")
    } else {
        format!("{least} to {most}")
    };
    print_times(&format!("{varied}, degree {degree}"), times, |time| {
        let least = micro(time.least);
        format!("{least:.1}, {:.2}", 1000.0 * least / products as f64)
    });
}

fn micro(time: Duration) -> f64 {
    time.as_nanos() as f64 / 1000.0
}

/// A line of both programs' times, each as `shown`.
fn print_times(
    what: &str,
    (ours, theirs): (Times, Option<Times>),
    shown: impl Fn(Times) -> String,
) {
    let theirs = theirs.map_or_else(|| "not linked".to_string(), &shown);
    println!("{what}: {}; {theirs}", shown(ours));
}
