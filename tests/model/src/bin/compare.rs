//! Compares a program with the model, byte for byte, on the scripts of many seeds; and, apart from the
//! program, the model with itself: its arithmetic with its single cycles where spans are short.

use std::ffi::OsString;
use std::fmt::{self, Write as _};
use std::process::ExitCode;
use std::time::Duration;

use model::generator::{self, FAMILIES};
use model::program::{self, Failure};
use model::script::{run, Call, Mode, CALL_LENGTH, ENTRY_LENGTH, LOG_HEADER, SCRIPT_HEADER};

const USAGE: &str = "\
usage: compare PROGRAM [--first SEED] [--count N] [--patience SECONDS]
       PROGRAM on the scripts of N seeds from SEED on; 0, 1000 and 20 where not named
       a program that takes longer than SECONDS for one script is killed, which is a failure
       N and SECONDS are 1 or more, and SEED + N is at most 2^64";

/// Failures that are described, of the program and of the model; later ones are only counted.
const DESCRIBED: u64 = 5;
/// Scripts in a row without an end after which no more are tried.
const LATE_IN_A_ROW: u32 = 3;
/// Numbers that scripts can show, and must have shown once that many have run.
const SHOWN: [usize; 13] = [0, 1, 2, 3, 4, 5, 6, 7, 8, 10, 11, 12, 13];
const ENOUGH_TO_SHOW: u64 = 1000;

fn main() -> ExitCode {
    let arguments: Vec<OsString> = std::env::args_os().skip(1).collect();
    if let [only] = &arguments[..] {
        if only == "--help" || only == "-h" {
            println!("{USAGE}");
            return ExitCode::SUCCESS;
        }
    }
    let Some(task) = Task::new(arguments) else {
        eprintln!("{USAGE}");
        return ExitCode::from(2);
    };
    program::die_together();
    if let Err(reason) = task.try_header() {
        println!("no script was run, for the program fails on a header alone: {reason}");
        println!("0 passed, 1 failed");
        return ExitCode::FAILURE;
    }
    task.compare().report()
}

struct Task {
    program: OsString,
    first: u64,
    last: u64,
    patience: Duration,
}

impl Task {
    fn new(arguments: Vec<OsString>) -> Option<Task> {
        let mut arguments = arguments.into_iter();
        let program = arguments.next().filter(|name| !name.as_encoded_bytes().starts_with(b"-"))?;
        let (mut first, mut count, mut patience) = (None, None, None);
        while let Some(option) = arguments.next() {
            let place = match option.to_str()? {
                "--first" => &mut first,
                "--count" => &mut count,
                "--patience" => &mut patience,
                _ => return None,
            };
            let number: u64 = arguments.next()?.to_str()?.parse().ok()?;
            if place.replace(number).is_some() {
                return None;
            }
        }
        let first = first.unwrap_or(0);
        let last = first.checked_add(count.unwrap_or(1000).checked_sub(1)?)?;
        let patience = Duration::from_secs(patience.unwrap_or(20));
        (!patience.is_zero()).then_some(Task { program, first, last, patience })
    }

    /// Whether the program does anything at all, before thousands of scripts show that it does not.
    fn try_header(&self) -> Result<(), String> {
        let log =
            self.program_log(0, &SCRIPT_HEADER, LOG_HEADER.len()).map_err(|failure| failure.to_string())?;
        if log != LOG_HEADER {
            return Err(format!("its log starts \"{}\" and is not \"{}\"", start(&log), start(&LOG_HEADER)));
        }
        Ok(())
    }

    fn compare(&self) -> Tally {
        let mut tally = Tally::default();
        let mut late = 0;
        for seed in self.first..=self.last {
            let script = generator::script(seed);
            let log = model_log(&script, Mode::Arithmetic);
            tally.note(seed, &log);
            let other = self.program_log(seed, &script, log.len());
            late = if let Err(Failure::Late(..)) = other { late + 1 } else { 0 };
            tally.program.judge(seed, &script, &log, other, "program");
            if generator::family(seed).has_short_spans() {
                let slow = model_log(&script, Mode::SingleCycle);
                tally.model.judge(seed, &script, &log, Ok(slow), "single cycles");
            }
            if late == LATE_IN_A_ROW {
                println!("given up: {late} scripts in a row had no end after {:?}", self.patience);
                break;
            }
        }
        tally
    }

    fn program_log(&self, seed: u64, script: &[u8], expected: usize) -> Result<Vec<u8>, Failure> {
        program::log(&self.program, seed, script, expected, self.patience)
    }
}

fn model_log(script: &[u8], mode: Mode) -> Vec<u8> {
    let mut log = Vec::new();
    run(script, &mut log, mode).expect("memory can be read and written");
    log
}

/// Cases that passed and failed.
#[derive(Default)]
struct Count {
    passed: u64,
    failed: u64,
}

impl Count {
    fn judge(&mut self, seed: u64, script: &[u8], log: &[u8], other: Result<Vec<u8>, Failure>, name: &str) {
        if matches!(&other, Ok(other) if other == log) {
            self.passed += 1;
            return;
        }
        self.failed += 1;
        if self.failed > DESCRIBED {
            return;
        }
        let path = std::env::temp_dir().join(format!("model-seed-{seed}.aps"));
        match std::fs::write(&path, script) {
            Ok(()) => println!("seed {seed} ({:?}), script in {}", generator::family(seed), path.display()),
            Err(error) => println!("seed {seed}, script not saved in {}: {error}", path.display()),
        }
        match other {
            Ok(other) => describe(script, log, &other, name),
            Err(failure) => println!("  {failure}"),
        }
    }
}

impl fmt::Display for Count {
    fn fmt(&self, f: &mut fmt::Formatter) -> fmt::Result {
        write!(f, "{} passed, {} failed", self.passed, self.failed)
    }
}

#[derive(Default)]
struct Tally {
    program: Count,
    /// The checks of the model, and of its scripts, that the program has no part in.
    model: Count,
    scripts: [u64; FAMILIES.len()],
    records: u64,
    numbers: [u64; 14],
}

impl Tally {
    /// Counts what a script's log shows.
    fn note(&mut self, seed: u64, log: &[u8]) {
        let family = generator::family(seed);
        let index = FAMILIES.iter().position(|&other| other == family).expect("FAMILIES is complete");
        self.scripts[index] += 1;
        match log.strip_prefix(&LOG_HEADER) {
            Some(entries) => {
                for entry in entries.chunks_exact(ENTRY_LENGTH) {
                    self.records += 1;
                    self.numbers[usize::from(entry[0])] += 1;
                }
            }
            None if log == b"refused 11\n" => self.numbers[11] += 1,
            None => self.numbers[12] += 1,
        }
    }

    fn report(mut self) -> ExitCode {
        let count = self.scripts.iter().sum::<u64>();
        if count >= ENOUGH_TO_SHOW {
            for number in SHOWN {
                if self.numbers[number] > 0 {
                    self.model.passed += 1;
                } else {
                    println!("number {number} was never seen");
                    self.model.failed += 1;
                }
            }
        }
        println!("the model's checks on itself: {}", self.model);
        let mut line = format!("{count} scripts (");
        for (family, scripts) in FAMILIES.iter().zip(self.scripts) {
            let _ = write!(line, "{family:?} {scripts}, ");
        }
        let _ = write!(line, "in all), {} records; numbers seen:", self.records);
        for (number, seen) in self.numbers.iter().enumerate() {
            let _ = write!(line, " {number}:{seen}");
        }
        println!("{line}");
        println!("{}", self.program);
        ExitCode::from(u8::from(self.program.failed + self.model.failed > 0))
    }
}

/// Prints the first difference of two logs, by record.
fn describe(script: &[u8], log: &[u8], other: &[u8], name: &str) {
    let equal = log.iter().zip(other).take_while(|(a, b)| a == b).count();
    if equal < LOG_HEADER.len() || !log.starts_with(&LOG_HEADER) {
        println!("  model: \"{}\" ({} bytes)", start(log), log.len());
        println!("  {name}: \"{}\" ({} bytes)", start(other), other.len());
        return;
    }
    let index = (equal - LOG_HEADER.len()) / ENTRY_LENGTH;
    println!("  log record {} (counted from 1), {} and {} bytes of log", index + 1, log.len(), other.len());
    println!("  script: {}", show_call(part(script, SCRIPT_HEADER.len(), index, CALL_LENGTH)));
    println!("  model: {}", show_entry(part(log, LOG_HEADER.len(), index, ENTRY_LENGTH)));
    println!("  {name}: {}", show_entry(part(other, LOG_HEADER.len(), index, ENTRY_LENGTH)));
}

fn start(log: &[u8]) -> String {
    log[..log.len().min(16)].escape_ascii().to_string()
}

/// Record `index` of a file, or what there is of it.
fn part(bytes: &[u8], header: usize, index: usize, length: usize) -> &[u8] {
    let start = (header + index * length).min(bytes.len());
    &bytes[start..(start + length).min(bytes.len())]
}

fn show_call(record: &[u8]) -> String {
    match record.try_into().map(Call::decode) {
        Ok(Some(call)) => format!("{call:X?}"),
        Ok(None) => format!("malformed {record:02X?}"),
        Err(_) => format!("cut short {record:02X?}"),
    }
}

fn show_entry(entry: &[u8]) -> String {
    if entry.len() < ENTRY_LENGTH {
        return format!("cut short {entry:02X?}");
    }
    let number =
        |start: usize, end: usize| entry[start..end].iter().fold(0, |sum, &b| sum << 8 | u64::from(b));
    format!(
        "number {}, emitted {:02X?}, levels {:06b}, value {:08X}, cycles {}, pulses {} {} {} {}",
        entry[0],
        &entry[1..3],
        entry[3],
        number(4, 8),
        number(8, 16),
        number(16, 24),
        number(24, 32),
        number(32, 40),
        number(40, 48),
    )
}
