//! The commands: the table of them, how one is called, and what they share. Those of a service stand in the file of its
//! name; those that explain, explore and time, in files of their own.

mod answer;
mod clearance;
mod conversion;
mod explain;
mod explore;
mod program;
mod time;

use reference::library::LINKED;
use reference::sheet::MOST_BYTES;
use std::io::{self, Read};
use std::process::ExitCode;

/// A command by its name, what it takes, what it does, and how.
pub struct Command {
    name: &'static str,
    takes: &'static str,
    does: &'static str,
    run: fn(&[String]) -> Ran,
}

/// What came of a command; `None` where its arguments are not understood.
type Ran = Option<io::Result<ExitCode>>;

/// What is done where no command is named.
const UNNAMED: Command = answer::ANSWER;

/// In the order of the usage.
const COMMANDS: [Command; 13] = [
    conversion::CONVERT,
    explain::READ,
    explain::EXPLAIN,
    answer::GENERATE,
    answer::COMPARE,
    clearance::FIRST_CLEAR,
    conversion::CONVERSIONS,
    explore::EXPLORE,
    answer::PROGRAM,
    conversion::CONVERTER,
    time::TIME,
    time::SEARCH,
    time::COST,
];

pub fn run(arguments: &[String]) -> io::Result<ExitCode> {
    let ran = match arguments.split_first() {
        None => (UNNAMED.run)(&[]),
        Some((name, arguments)) => {
            let mut commands = COMMANDS.iter();
            let named = commands.find(|command| command.name == name);
            named.and_then(|command| (command.run)(arguments))
        }
    };
    ran.unwrap_or_else(usage)
}

fn usage() -> io::Result<ExitCode> {
    for command in [UNNAMED].iter().chain(&COMMANDS) {
        let called = format!("reference {} {}", command.name, command.takes);
        eprintln!("{:<29}  {}", called.trim_end(), command.does);
    }
    Ok(ExitCode::from(2))
}

/// Arguments that are so many numbers.
fn numbers<const COUNT: usize>(arguments: &[String]) -> Option<[u64; COUNT]> {
    let numbers = arguments.iter().map(|argument| argument.parse().ok());
    let numbers: Vec<u64> = numbers.collect::<Option<_>>()?;
    numbers.try_into().ok()
}

/// Reads no more of standard input than it takes to see that a sheet is too long.
fn sheet_given() -> io::Result<Vec<u8>> {
    let mut sheet = Vec::with_capacity(MOST_BYTES + 1);
    let most = MOST_BYTES as u64 + 1;
    io::stdin().take(most).read_to_end(&mut sheet)?;
    Ok(sheet)
}

/// Which programs ran, where no difference was found.
fn through() -> &'static str {
    if LINKED {
        "through both programs, no difference"
    } else {
        "through this program alone (the proved planner is not linked)"
    }
}
