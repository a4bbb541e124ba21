//! Writes the script of a seed, or with `--batch N` a script of N records for measurements of
//! speed, to standard output; or says which families of scripts there are, and which seeds have them.

use std::io::{self, BufWriter, ErrorKind, Write};
use std::process::ExitCode;

use model::generator::{self, FAMILIES};

const USAGE: &str = "\
usage: generate SEED > SCRIPT                    the script of a seed, fixed for one state of this program
       generate --batch RECORDS SEED > SCRIPT    mostly accesses with short advances
       generate --families                       the families of scripts: name, tab, description
       generate --list FIRST LAST                the family of each seed from FIRST to LAST
       generate --help                           these lines";

enum Request {
    Script { seed: u64 },
    Batch { seed: u64, records: usize },
    Families,
    List { first: u64, last: u64 },
    Help,
}

fn main() -> ExitCode {
    let Some(request) = request() else {
        eprintln!("{USAGE}");
        return ExitCode::from(2);
    };
    let output = io::stdout().lock();
    let (result, in_part) = match request {
        Request::Script { seed } => (write(output, &generator::script(seed)), false),
        Request::Batch { seed, records } => (write(output, &generator::batch(seed, records)), false),
        Request::Families => (families(output), true),
        Request::List { first, last } => (list(output, first, last), true),
        Request::Help => (write(output, format!("{USAGE}\n").as_bytes()), true),
    };
    match result {
        Ok(()) => ExitCode::SUCCESS,
        // Half a script is none, but of lines a reader may want the first only.
        Err(error) if in_part && error.kind() == ErrorKind::BrokenPipe => ExitCode::SUCCESS,
        Err(error) => {
            eprintln!("generate: {error}");
            ExitCode::FAILURE
        }
    }
}

fn request() -> Option<Request> {
    let arguments: Vec<String> =
        std::env::args_os().skip(1).map(|argument| argument.into_string().ok()).collect::<Option<_>>()?;
    Some(match arguments.iter().map(String::as_str).collect::<Vec<_>>()[..] {
        ["--families"] => Request::Families,
        ["--help" | "-h"] => Request::Help,
        ["--list", first, last] => {
            let (first, last) = (first.parse().ok()?, last.parse().ok()?);
            if first > last {
                return None;
            }
            Request::List { first, last }
        }
        ["--batch", records, seed] => {
            Request::Batch { seed: seed.parse().ok()?, records: records.parse().ok()? }
        }
        [seed] => Request::Script { seed: seed.parse().ok()? },
        _ => return None,
    })
}

fn write(mut output: impl Write, bytes: &[u8]) -> io::Result<()> {
    output.write_all(bytes)?;
    output.flush()
}

fn families(mut output: impl Write) -> io::Result<()> {
    for family in FAMILIES {
        writeln!(output, "{}\t{}", family.name(), family.description())?;
    }
    output.flush()
}

fn list(output: impl Write, first: u64, last: u64) -> io::Result<()> {
    // Standard output by itself writes each line alone.
    let mut output = BufWriter::new(output);
    for seed in first..=last {
        writeln!(output, "{seed} {}", generator::family(seed).name())?;
    }
    output.flush()
}
