//! The commands `explain` and `read`, run as a program: what they print, their exit status, and that they take no
//! argument.

use reference::answer::run;
use reference::explain::explanation;
use reference::generate::Trials;
use reference::sheet::{MOST_PLACES, read};
use std::io::Write;
use std::process::{Command, Output, Stdio};

/// What the program prints with these arguments, given this input.
fn program(arguments: &[&str], input: &[u8]) -> Output {
    let mut child = Command::new(env!("CARGO_BIN_EXE_reference"))
        .args(arguments)
        .stdin(Stdio::piped())
        .stdout(Stdio::piped())
        .stderr(Stdio::piped())
        .spawn()
        .unwrap();
    let mut stdin = child.stdin.take().unwrap();
    // A program that does not read its input may end before all of it is written.
    let _ = stdin.write_all(input);
    drop(stdin);
    child.wait_with_output().unwrap()
}

/// What the program prints, which ends with this exit status and says nothing on standard error.
fn printed(arguments: &[&str], input: &[u8], status: i32) -> String {
    let output = program(arguments, input);
    assert_eq!(output.status.code(), Some(status));
    assert_eq!(output.stderr, b"");
    String::from_utf8(output.stdout).unwrap()
}

/// Sheets of every result that a sheet can have.
fn of_every_result() -> Vec<Vec<u8>> {
    let mut rows = vec![0; MOST_PLACES];
    let mut result = |sheet: &[u8]| run(sheet, &mut rows).result;
    let mut of_each = Trials::from_seed(10).map(|trial| trial.sheet);
    let results = [0, 1, 2, 3, 4, 6, 7, 8].into_iter();
    let sheets = results.map(|wanted| of_each.find(|sheet| result(sheet) == wanted).unwrap());
    sheets.collect()
}

#[test]
fn the_command_explain() {
    for sheet in of_every_result() {
        assert_eq!(printed(&["explain"], &sheet, 0), explanation(&sheet));
    }
}

#[test]
fn the_command_read() {
    for sheet in of_every_result() {
        let explained = explanation(&sheet);
        if read(&sheet).is_ok() {
            assert_eq!(printed(&["read"], &sheet, 0).into_bytes(), sheet);
        } else {
            assert_eq!(printed(&["read"], &sheet, 1), explained);
        }
    }
}

#[test]
fn the_commands_take_no_argument() {
    for command in ["read", "explain"] {
        let output = program(&[command, "1"], b"");
        assert_eq!(output.status.code(), Some(2));
        assert_eq!(output.stdout, b"");
        assert!(output.stderr.starts_with(b"reference "));
    }
}
