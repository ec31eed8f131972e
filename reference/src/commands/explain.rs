//! What is made of a sheet from standard input: the sheet as it is read, and why it or its passage is refused.

use super::{Command, sheet_given};
use reference::explain::explanation;
use reference::sheet::{read, text};
use std::io::{self, Write};
use std::process::ExitCode;

pub const READ: Command = Command {
    name: "read",
    takes: "",
    does: "reads a sheet, prints it as read; where it is not read, why not, with exit status 1",
    run: |arguments| arguments.is_empty().then(read_sheet),
};

pub const EXPLAIN: Command = Command {
    name: "explain",
    takes: "",
    does: "reads a sheet, prints why it or its passage is refused",
    run: |arguments| arguments.is_empty().then(explain_sheet),
};

fn read_sheet() -> io::Result<ExitCode> {
    let given = sheet_given()?;
    let (printed, status) = match read(&given) {
        Ok(sheet) => (text(&sheet), ExitCode::SUCCESS),
        Err(_) => (explanation(&given).into_bytes(), ExitCode::FAILURE),
    };
    io::stdout().write_all(&printed)?;
    Ok(status)
}

fn explain_sheet() -> io::Result<ExitCode> {
    let explanation = explanation(&sheet_given()?);
    io::stdout().write_all(explanation.as_bytes())?;
    Ok(ExitCode::SUCCESS)
}
