//! Reads a script on standard input and writes its log on standard output. With `--slow`, time
//! passes by single cycles.

use std::io;
use std::process::ExitCode;

use model::script::{run, Mode};

fn main() -> ExitCode {
    let arguments: Vec<String> = std::env::args().skip(1).collect();
    let mode = match arguments.iter().map(String::as_str).collect::<Vec<_>>()[..] {
        [] => Mode::Arithmetic,
        ["--slow"] => Mode::SingleCycle,
        _ => {
            eprintln!("usage: model [--slow] < SCRIPT > LOG");
            return ExitCode::from(2);
        }
    };
    match run(io::stdin().lock(), io::stdout().lock(), mode) {
        Ok(()) => ExitCode::SUCCESS,
        Err(error) => {
            eprintln!("model: {error}");
            ExitCode::FAILURE
        }
    }
}
