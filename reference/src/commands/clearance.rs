//! The clearance: random rows and queries through both programs, and what is printed where they differ.

use super::{Command, numbers, through};
use reference::compare::{ClearTally, both_first_clear};
use reference::generate::clearance::{QueryTrial, QueryTrials};
use std::io::{self, Write};
use std::process::ExitCode;

pub const FIRST_CLEAR: Command = Command {
    name: "first-clear",
    takes: "SEED COUNT",
    does: "asks both for the first clear run in random rows",
    run: |arguments| {
        let [seed, count] = numbers(arguments)?;
        Some(first_clear(seed, count as usize))
    },
};

fn first_clear(seed: u64, count: usize) -> io::Result<ExitCode> {
    let mut tally = ClearTally::default();
    for trial in QueryTrials::from_seed(seed).take(count) {
        match both_first_clear(&trial) {
            Ok(answer) => tally.count(answer),
            Err(numbers) => return report(&trial, numbers),
        }
    }
    println!("a row: {} queries", tally.rows);
    println!("no row: {} queries", tally.none);
    for (refusal, count) in &tally.refused {
        println!("refusal {refusal}: {count} queries");
    }
    println!("{count} queries from seed {seed} {}", through());
    Ok(ExitCode::SUCCESS)
}

/// Prints the rows and the query that the two programs differ on, and both answers.
pub fn report(trial: &QueryTrial, [ours, theirs]: [i64; 2]) -> io::Result<ExitCode> {
    let mut output = io::stdout().lock();
    writeln!(output, "the two programs differ on this query:")?;
    writeln!(output, "{trial:?}")?;
    writeln!(output, "reference {ours}, proved {theirs}")?;
    Ok(ExitCode::FAILURE)
}
