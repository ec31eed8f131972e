//! Why a sheet or its passage is refused: every word and every refusal at sheets written by hand, the gallery and
//! document 01's cases, random sheets, and the two commands that print it.

mod commands;
mod held;
mod lines;
mod steps;

/// Two quantities and two terms; its passage is accepted.
const TWO: &str = "n=2\nsteps=3\nstep=1024\ntail=2\ntol=1000\nstart=5\nradius=0\nstart=-7\nradius=1\n\
    terms=2\nto=1\ncoef=16777216\nfirst=2\nsecond=0\nto=2\ncoef=-16777216\nfirst=1\nsecond=2\n";

/// The sheet with one of its lines, counted from 1, replaced by these bytes.
fn with_line(sheet: &str, line: usize, replacement: &str) -> String {
    let mut lines: Vec<&str> = sheet.split_inclusive('\n').collect();
    lines[line - 1] = replacement;
    lines.concat()
}

/// The sheet's first lines.
fn first_lines(sheet: &[u8], count: usize) -> Vec<u8> {
    let lines = sheet.split_inclusive(|&byte| byte == b'\n');
    lines.take(count).flatten().copied().collect()
}

/// The values of all lines of an explanation that have this key.
fn values<'a>(explanation: &'a str, key: &str) -> Vec<&'a str> {
    let lines = explanation.lines();
    let values = lines.filter_map(|line| line.strip_prefix(key)?.strip_prefix('='));
    values.collect()
}

/// The numbers of all lines of an explanation that have this key.
fn numbers(explanation: &str, key: &str) -> Vec<i64> {
    let values = values(explanation, key);
    values.iter().map(|value| value.parse().unwrap()).collect()
}

/// The one number of an explanation that has this key.
fn number(explanation: &str, key: &str) -> i64 {
    let numbers = numbers(explanation, key);
    assert_eq!(numbers.len(), 1, "{key}\n{explanation}");
    numbers[0]
}
