//! The answers: of a sheet from standard input; random sheets printed, through both programs, and through a program
//! file.

use super::program::through_program;
use super::{Command, Ran, numbers, sheet_given, through};
use reference::answer::answer;
use reference::compare::{Outcome, Tally, both};
use reference::generate::{Trial, Trials};
use reference::sheet::MOST_PLACES;
use std::io::{self, BufWriter, Write};
use std::process::ExitCode;

pub const ANSWER: Command = Command {
    name: "",
    takes: "",
    does: "reads a sheet from standard input, prints its answer",
    run: |_| Some(answer_sheet()),
};

pub const GENERATE: Command = Command {
    name: "generate",
    takes: "SEED COUNT",
    does: "prints random sheets, each after a line `bytes=B places=P`",
    run: |arguments| {
        let [seed, count] = numbers(arguments)?;
        Some(generate(seed, count as usize))
    },
};

pub const COMPARE: Command = Command {
    name: "compare",
    takes: "SEED COUNT",
    does: "runs random sheets through the proved planner and this program",
    run: |arguments| {
        let [seed, count] = numbers(arguments)?;
        Some(compare(seed, count as usize))
    },
};

pub const PROGRAM: Command = Command {
    name: "program",
    takes: "SEED COUNT FILE",
    does: "runs random sheets through the program FILE and this one",
    run: program,
};

fn answer_sheet() -> io::Result<ExitCode> {
    let mut rows = vec![0; MOST_PLACES];
    let answer = answer(&sheet_given()?, &mut rows);
    io::stdout().write_all(answer.as_bytes())?;
    Ok(ExitCode::SUCCESS)
}

fn generate(seed: u64, count: usize) -> io::Result<ExitCode> {
    let mut output = BufWriter::new(io::stdout().lock());
    for trial in Trials::from_seed(seed).take(count) {
        print_trial(&mut output, &trial)?;
    }
    output.flush()?;
    Ok(ExitCode::SUCCESS)
}

fn print_trial(output: &mut impl Write, trial: &Trial) -> io::Result<()> {
    let Trial { sheet, places } = trial;
    writeln!(output, "bytes={} places={places}", sheet.len())?;
    output.write_all(sheet)
}

fn compare(seed: u64, count: usize) -> io::Result<ExitCode> {
    let mut tally = Tally::default();
    for (trial, mark) in Trials::from_seed(seed).take(count).zip(1_i64..) {
        match both(&trial, -mark) {
            Ok(outcome) => tally.count(&outcome),
            Err(outcomes) => return report(&trial, &outcomes),
        }
    }
    summarise(&tally, seed);
    Ok(ExitCode::SUCCESS)
}

/// Runs random sheets through a program, whose buffers are its own, so that the places of a trial do not matter.
fn program(arguments: &[String]) -> Ran {
    let (seed, count, file) = match arguments {
        [seed, count, file] => (seed, count, file),
        _ => return None,
    };
    let (seed, count) = (seed.parse().ok()?, count.parse().ok()?);
    let mut rows = vec![0; MOST_PLACES];
    let sheets = Trials::from_seed(seed).map(|trial| trial.sheet);
    let expected = |sheet: &[u8]| answer(sheet, &mut rows).into_bytes();
    Some(through_program(seed, count, file, sheets, expected))
}

pub fn summarise(tally: &Tally, seed: u64) {
    for (result, count) in tally.results.iter().enumerate() {
        println!("result {result}: {count} sheets");
    }
    let total: usize = tally.results.iter().sum();
    println!("{total} sheets from seed {seed} {}", through());
}

/// Prints the trial that the two programs differ on, and where they do.
pub fn report(trial: &Trial, [ours, theirs]: &[Outcome; 2]) -> io::Result<ExitCode> {
    let mut output = io::stdout().lock();
    writeln!(output, "the two programs differ on this sheet:")?;
    print_trial(&mut output, trial)?;
    let places = ours.rows.iter().zip(&theirs.rows);
    for (place, (our, their)) in places.enumerate().filter(|(_, (our, their))| our != their) {
        writeln!(output, "place {place}: reference {our}, proved {their}")?;
    }
    if ours.summary != theirs.summary || ours.rows_without_text != theirs.rows_without_text {
        writeln!(output, "without a text, reference: {:?}", ours.summary)?;
        writeln!(output, "without a text, proved: {:?}", theirs.summary)?;
    }
    if ours.text != theirs.text {
        writeln!(output, "reference:")?;
        output.write_all(&ours.text)?;
        writeln!(output, "proved:")?;
        output.write_all(&theirs.text)?;
    }
    Ok(ExitCode::FAILURE)
}
