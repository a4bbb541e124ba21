//! The comparison of two logs: each rule of 02, No. 1, and the readings of its sentences.

use std::path::{Path, PathBuf};
use std::process::{Command, Output};

use model::logs::compare;
use model::random::Random;
use model::script::{ENTRY_LENGTH, LOG_HEADER};

/// Checks the line for two logs, and the one for them the other way round.
fn check(first: &[u8], second: &[u8], line: &str, exchanged: &str) {
    assert_eq!(compare(first, second).to_string(), line, "{first:X?} {second:X?}");
    assert_eq!(compare(second, first).to_string(), exchanged, "{second:X?} {first:X?}");
}

/// A log of `count` records without two bytes alike within a record, and `rest` bytes of one more.
fn log(count: usize, rest: usize) -> Vec<u8> {
    let bytes = (0..count * ENTRY_LENGTH + rest).map(|n| (n % ENTRY_LENGTH + n / ENTRY_LENGTH * 7) as u8);
    LOG_HEADER.into_iter().chain(bytes).collect()
}

/// The log with a byte of a record, counted from 1, changed.
fn altered(log: &[u8], record: usize, byte: usize) -> Vec<u8> {
    let mut log = log.to_vec();
    log[LOG_HEADER.len() + (record - 1) * ENTRY_LENGTH + byte] ^= 0x10;
    log
}

/// The fields as 01 lays out a log record, byte by byte.
#[rustfmt::skip]
const FIELD_OF: [&str; ENTRY_LENGTH] = [
    "number", "emitted", "emitted", "levels", "value", "value", "value", "value",
    "cycles", "cycles", "cycles", "cycles", "cycles", "cycles", "cycles", "cycles",
    "pulses 1", "pulses 1", "pulses 1", "pulses 1", "pulses 1", "pulses 1", "pulses 1", "pulses 1",
    "pulses 2", "pulses 2", "pulses 2", "pulses 2", "pulses 2", "pulses 2", "pulses 2", "pulses 2",
    "pulses 3", "pulses 3", "pulses 3", "pulses 3", "pulses 3", "pulses 3", "pulses 3", "pulses 3",
    "pulses 4", "pulses 4", "pulses 4", "pulses 4", "pulses 4", "pulses 4", "pulses 4", "pulses 4",
];

#[test]
fn lines_of_the_paper() {
    let (two, three, four) = (log(2, 0), log(3, 0), log(4, 0));
    check(&three, &three, "equal", "equal");
    check(&three, &altered(&three, 3, 8), "record 3 cycles", "record 3 cycles");
    check(&four, &altered(&three, 3, 47), "record 3 pulses 4", "record 3 pulses 4");
    check(&log(2, 1), &two, "partial 1", "partial 2");
    check(&three, &two, "beginning 2", "beginning 1");
    check(b"APL\x00\x02", &two, "refused 1 12", "refused 2 12");
}

#[test]
fn each_byte_of_a_record() {
    let five = log(5, 0);
    for record in 1..=5 {
        for (byte, field) in FIELD_OF.into_iter().enumerate() {
            let line = format!("record {record} {field}");
            let other = altered(&five, record, byte);
            check(&five, &other, &line, &line);
            // A later difference, of the same record or of another, shows in nothing.
            for later in byte + 1..ENTRY_LENGTH {
                check(&five, &altered(&other, record, later), &line, &line);
            }
            for later in record + 1..=5 {
                check(&five, &altered(&other, later, 0), &line, &line);
            }
        }
    }
}

#[test]
fn headers() {
    let good = log(2, 3);
    let bad: [(&[u8], u8); 14] = [
        (b"", 11),
        (b"A", 11),
        (b"AP", 11),
        (b"APL", 11),
        (b"APL\x00", 11),
        (b"APS\x00\x01", 11),
        (b"aPL\x00\x01", 11),
        (b"ApL\x00\x01 and more", 11),
        (b"APl\x00\x02", 11),
        (b"refused 11\n", 11),
        (b"APL\x00\x00", 12),
        (b"APL\x00\x02 and more", 12),
        (b"APL\x01\x00", 12),
        (b"APL\x01\x01", 12),
    ];
    for (log, number) in bad {
        check(log, &good, &format!("refused 1 {number}"), &format!("refused 2 {number}"));
        // The first log is judged wholly before the second.
        for (other, its) in bad {
            check(log, other, &format!("refused 1 {number}"), &format!("refused 1 {its}"));
        }
    }
}

#[test]
fn partial_records() {
    for length in 1..ENTRY_LENGTH {
        // Beside nothing, a partial record of any length, its own bytes, and whole records.
        let partial = log(2, length);
        check(&partial, &log(2, 0), "partial 1", "partial 2");
        check(&partial, &log(1, 0), "partial 1", "partial 2");
        check(&partial, &log(0, 0), "partial 1", "partial 2");
        check(&partial, &log(3, 0), "partial 1", "partial 2");
        check(&partial, &log(9, 0), "partial 1", "partial 2");
        check(&partial, &log(2, 20), "partial 1", "partial 1");
        check(&partial, &log(9, 20), "partial 1", "partial 1");
        check(&partial, &partial, "partial 1", "partial 1");
        // What is in it is compared with nothing.
        let other = altered(&partial, 3, length - 1);
        check(&partial, &other, "partial 1", "partial 1");
        check(&other, &log(3, 0), "partial 1", "partial 2");
        // A difference before it comes first, also in the last record that both have whole.
        check(&altered(&partial, 2, 47), &log(2, 0), "record 2 pulses 4", "record 2 pulses 4");
        check(&altered(&partial, 1, 0), &log(1, 0), "record 1 number", "record 1 number");
        // One behind what the other has whole does not.
        check(&altered(&partial, 2, 0), &log(1, 0), "partial 1", "partial 2");
        check(&altered(&partial, 2, 0), &log(1, 47), "partial 1", "partial 1");
    }
}

#[test]
fn beginnings() {
    for short in 0..5 {
        for long in short + 1..7 {
            check(&log(short, 0), &log(long, 0), "beginning 1", "beginning 2");
            check(&log(short, 0), &altered(&log(long, 0), long, 0), "beginning 1", "beginning 2");
        }
        check(&log(short, 0), &log(short, 0), "equal", "equal");
    }
}

#[test]
fn records_with_many_digits() {
    let long = vec![0; 100_001 * ENTRY_LENGTH];
    let long = [&LOG_HEADER[..], &long].concat();
    for record in [9, 10, 99, 100, 999, 1000, 9999, 10_000, 99_999, 100_000, 100_001] {
        assert_eq!(compare(&long, &altered(&long, record, 3)).to_string(), format!("record {record} levels"));
    }
}

/// "So of two accepted logs without partial records it says equal exactly when all bytes are equal."
#[test]
fn equal_exactly_when_all_bytes_are() {
    let mut random = Random::new(1);
    for _ in 0..20_000 {
        let [one, other] = [(); 2].map(|()| {
            let mut log = log(random.below(4) as usize, 0);
            if random.one_in(3) && log.len() > LOG_HEADER.len() {
                let place = LOG_HEADER.len() as u64 + random.below((log.len() - LOG_HEADER.len()) as u64);
                log[place as usize] = random.byte();
            }
            log
        });
        assert_eq!(compare(&one, &other).to_string() == "equal", one == other, "{one:X?} {other:X?}");
    }
}

/// A folder that goes when the test ends.
struct Folder(PathBuf);

impl Folder {
    fn new(name: &str) -> Folder {
        let path = std::env::temp_dir().join(format!("model-{name}-{}", std::process::id()));
        std::fs::create_dir(&path).unwrap();
        Folder(path)
    }

    fn file(&self, name: &str, bytes: &[u8]) -> PathBuf {
        let path = self.0.join(name);
        std::fs::write(&path, bytes).unwrap();
        path
    }
}

impl Drop for Folder {
    fn drop(&mut self) {
        let _ = std::fs::remove_dir_all(&self.0);
    }
}

#[test]
fn the_program() {
    let folder = Folder::new("compare-logs");
    let (log, longer) = (folder.file("log", &log(2, 0)), folder.file("longer", &log(3, 0)));
    let version = folder.file("version", b"APL\x00\x02");
    let missing = folder.0.join("missing");
    let run = |names: &[&Path]| -> Output {
        Command::new(env!("CARGO_BIN_EXE_compare-logs")).args(names).output().unwrap()
    };
    let table: [(&[&Path], &[u8]); 11] = [
        (&[&log, &log], b"equal\n"),
        (&[&log, &longer], b"beginning 1\n"),
        (&[&longer, &version], b"refused 2 12\n"),
        (&[], b"refused 1 11\n"),
        (&[&log], b"refused 2 11\n"),
        (&[&version], b"refused 1 12\n"),
        (&[&missing, &version], b"refused 1 11\n"),
        (&[&log, &missing], b"refused 2 11\n"),
        (&[&folder.0, &log], b"refused 1 11\n"),
        (&[&log, &folder.0], b"refused 2 11\n"),
        (&[&log, &log, &log], b""),
    ];
    for (names, line) in table {
        let output = run(names);
        assert_eq!(output.stdout, line, "{names:?}");
        let ordinary = names.len() < 3 && !names.contains(&&*missing) && !names.contains(&&*folder.0);
        assert_eq!(output.stderr.is_empty(), ordinary, "{names:?}");
    }
}
