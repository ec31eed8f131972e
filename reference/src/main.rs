//! `reference`: reads one sheet from standard input and prints its answer, its conversion, or why it is refused.
//! Its other commands make random sheets and queries, and compare and time the proved planner and this program.

mod commands;

use std::process::ExitCode;
use std::{env, io};

fn main() -> io::Result<ExitCode> {
    let arguments: Vec<String> = env::args().skip(1).collect();
    commands::run(&arguments)
}
