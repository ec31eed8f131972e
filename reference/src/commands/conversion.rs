//! The conversion: of a stored sheet from standard input; random stored sheets through both programs, and through a
//! program file.

use super::program::through_program;
use super::{Command, Ran, numbers, sheet_given, through};
use reference::compare::{ConversionTally, Converted, both_converted};
use reference::conversion::converted;
use reference::generate::conversion::{StoredTrial, StoredTrials};
use reference::sheet::MOST_PLACES;
use std::io::{self, Write};
use std::process::ExitCode;

pub const CONVERT: Command = Command {
    name: "convert",
    takes: "",
    does: "reads a stored sheet from standard input, prints its conversion",
    run: |arguments| arguments.is_empty().then(convert_sheet),
};

pub const CONVERSIONS: Command = Command {
    name: "conversions",
    takes: "SEED COUNT",
    does: "converts random stored sheets with both",
    run: |arguments| {
        let [seed, count] = numbers(arguments)?;
        Some(conversions(seed, count as usize))
    },
};

pub const CONVERTER: Command = Command {
    name: "converter",
    takes: "SEED COUNT FILE",
    does: "the same with stored sheets and a program that converts them",
    run: converter,
};

fn convert_sheet() -> io::Result<ExitCode> {
    let mut rows = vec![0; MOST_PLACES];
    io::stdout().write_all(&converted(&sheet_given()?, &mut rows))?;
    Ok(ExitCode::SUCCESS)
}

fn conversions(seed: u64, count: usize) -> io::Result<ExitCode> {
    let mut tally = ConversionTally::default();
    for (trial, mark) in StoredTrials::from_seed(seed).take(count).zip(1_i64..) {
        match both_converted(&trial, -mark) {
            Ok((conversion, _)) => tally.count(&conversion),
            Err(converted) => return report(&trial, &converted),
        }
    }
    summarise(&tally, seed);
    Ok(ExitCode::SUCCESS)
}

pub fn summarise(tally: &ConversionTally, seed: u64) {
    println!("two sheets: {} stored sheets", tally.split);
    println!("unaltered: {} stored sheets", tally.unaltered);
    for (refusal, count) in &tally.refused {
        println!("refusal {refusal}: {count} stored sheets");
    }
    let total = tally.split + tally.unaltered + tally.refused.values().sum::<usize>();
    println!("{total} stored sheets from seed {seed} {}", through());
}

/// Prints the stored sheet that the two programs differ on, and where they do.
pub fn report(trial: &StoredTrial, [ours, theirs]: &[Converted; 2]) -> io::Result<ExitCode> {
    let mut output = io::stdout().lock();
    let StoredTrial { sheet, places, .. } = trial;
    writeln!(output, "the two programs differ on this stored sheet:")?;
    writeln!(output, "bytes={} places={places}", sheet.len())?;
    output.write_all(sheet)?;
    for (name, converted) in [("reference", ours), ("proved", theirs)] {
        let (roomy, lent) = (&converted.roomy, &converted.lent);
        writeln!(output, "{name}, of {} bytes:", roomy.length)?;
        output.write_all(converted.text())?;
        let bytes = lent.held.len();
        writeln!(output, "into {bytes} bytes, of {}:", lent.length)?;
        output.write_all(&lent.held)?;
        writeln!(output)?;
    }
    let same = ours.rows == theirs.rows && ours.rows_again == theirs.rows_again;
    writeln!(output, "the same places: {same}")?;
    Ok(ExitCode::FAILURE)
}

/// Runs random stored sheets through a program that converts them.
fn converter(arguments: &[String]) -> Ran {
    let (seed, count, file) = match arguments {
        [seed, count, file] => (seed, count, file),
        _ => return None,
    };
    let (seed, count) = (seed.parse().ok()?, count.parse().ok()?);
    let mut rows = vec![0; MOST_PLACES];
    let sheets = StoredTrials::from_seed(seed).map(|trial| trial.sheet);
    let expected = |sheet: &[u8]| converted(sheet, &mut rows);
    Some(through_program(seed, count, file, sheets, expected))
}
