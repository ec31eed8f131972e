//! A long search: sheets that ended in a new way are altered, and as many stored sheets are converted, both through both
//! programs, until the time is up or they differ.

use super::{Command, answer, conversion, numbers};
use reference::compare::{ConversionTally, Tally, both, both_converted};
use reference::explore::Explorer;
use reference::generate::conversion::StoredTrials;
use std::io;
use std::process::ExitCode;
use std::time::{Duration, Instant};

pub const EXPLORE: Command = Command {
    name: "explore",
    takes: "SEED TIME",
    does: "goes on for TIME seconds, altering sheets that ended in a new way; converts others",
    run: |arguments| {
        let [seed, seconds] = numbers(arguments)?;
        Some(explore(seed, Duration::from_secs(seconds)))
    },
};

fn explore(seed: u64, time: Duration) -> io::Result<ExitCode> {
    let begun = Instant::now();
    let mut explorer = Explorer::from_seed(seed);
    let mut tally = Tally::default();
    let mut conversions = ConversionTally::default();
    for (stored, mark) in StoredTrials::from_seed(seed).zip(1..) {
        let trial = explorer.propose();
        match both(&trial, -mark) {
            Ok(outcome) => {
                tally.count(&outcome);
                explorer.learn(trial, outcome.ending());
            }
            Err(outcomes) => return answer::report(&trial, &outcomes),
        }
        match both_converted(&stored, -mark) {
            Ok((conversion, _)) => conversions.count(&conversion),
            Err(converted) => return conversion::report(&stored, &converted),
        }
        if begun.elapsed() >= time {
            break;
        }
    }
    println!("{} different endings", explorer.endings());
    answer::summarise(&tally, seed);
    conversion::summarise(&conversions, seed);
    Ok(ExitCode::SUCCESS)
}
