//! Random sheets through a program file, which reads one from standard input, prints what is expected of it, and says
//! nothing on standard error.

use std::io::{self, Write};
use std::process::{Command, ExitCode, Output, Stdio};

/// Runs so many sheets of a seed through a program, up to the first of which it prints something else than is expected.
pub fn through_program(
    seed: u64,
    count: usize,
    file: &str,
    sheets: impl Iterator<Item = Vec<u8>>,
    expected: impl FnMut(&[u8]) -> Vec<u8>,
) -> io::Result<ExitCode> {
    match first_differing(file, sheets.take(count), expected)? {
        Some(differing) => report(differing),
        None => {
            println!("{count} sheets from seed {seed} through {file}, no difference");
            Ok(ExitCode::SUCCESS)
        }
    }
}

/// A sheet of which a program prints something else than is expected.
struct Differing {
    sheet: Vec<u8>,
    expected: Vec<u8>,
    printed: Output,
}

/// Runs sheets through a program, which reads one from standard input, prints what is expected of it and says nothing
/// on standard error: the first sheet of which it does not.
fn first_differing(
    file: &str,
    sheets: impl Iterator<Item = Vec<u8>>,
    mut expected: impl FnMut(&[u8]) -> Vec<u8>,
) -> io::Result<Option<Differing>> {
    for sheet in sheets {
        let expected = expected(&sheet);
        let printed = piped(file, &sheet)?;
        if printed.stdout != expected || !printed.stderr.is_empty() {
            return Ok(Some(Differing {
                sheet,
                expected,
                printed,
            }));
        }
    }
    Ok(None)
}

fn report(differing: Differing) -> io::Result<ExitCode> {
    let mut output = io::stdout().lock();
    writeln!(output, "the program differs on this sheet:")?;
    output.write_all(&differing.sheet)?;
    writeln!(output, "expected:")?;
    output.write_all(&differing.expected)?;
    writeln!(output, "printed, and said:")?;
    output.write_all(&differing.printed.stdout)?;
    output.write_all(&differing.printed.stderr)?;
    Ok(ExitCode::FAILURE)
}

/// What a program prints, given this input. A program that has read enough may end before it has
/// read all of it.
fn piped(file: &str, input: &[u8]) -> io::Result<Output> {
    let mut child = Command::new(file)
        .stdin(Stdio::piped())
        .stdout(Stdio::piped())
        .stderr(Stdio::piped())
        .spawn()?;
    let mut stdin = child.stdin.take().expect("standard input is a pipe");
    match stdin.write_all(input) {
        Err(error) if error.kind() != io::ErrorKind::BrokenPipe => return Err(error),
        _ => drop(stdin),
    }
    child.wait_with_output()
}
