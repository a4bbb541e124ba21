//! Compares the two logs that its arguments name, as 02, No. 1 says, and prints the one line. "A
//! missing or unreadable log counts as empty", one whose argument is missing too.

use std::ffi::OsString;
use std::io::{self, Write};
use std::process::ExitCode;

use model::logs::compare;

fn main() -> ExitCode {
    let names: Vec<OsString> = std::env::args_os().skip(1).collect();
    if names.len() > 2 {
        eprintln!("usage: compare-logs FIRST SECOND");
        return ExitCode::from(2);
    }
    let verdict = compare(&contents(names.first()), &contents(names.get(1)));
    let mut output = io::stdout().lock();
    match writeln!(output, "{verdict}").and_then(|()| output.flush()) {
        Ok(()) => ExitCode::SUCCESS,
        Err(error) => {
            eprintln!("compare-logs: {error}");
            ExitCode::FAILURE
        }
    }
}

fn contents(name: Option<&OsString>) -> Vec<u8> {
    let Some(name) = name else { return Vec::new() };
    std::fs::read(name).unwrap_or_else(|error| {
        eprintln!("compare-logs: {}: {error}", name.display());
        Vec::new()
    })
}
