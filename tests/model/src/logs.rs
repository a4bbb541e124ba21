//! The comparison of two logs that 02, No. 1 asks for; quotations in this module are its sentences,
//! where no other paper is named. Both logs lie in memory whole, and each rule stands by itself: this
//! is to be right at sight, not fast.

use std::cmp::Ordering;
use std::fmt;

use crate::refusal::Refusal;
use crate::script::{ENTRY_LENGTH, LOG_HEADER};

const MARK: &[u8] = b"APL";

/// One of the two logs.
#[derive(Clone, Copy, Debug, PartialEq, Eq)]
pub enum Log {
    First = 1,
    Second = 2,
}

/// A field of a log record: "number, emitted, levels, value, cycles, or pulses of timer n".
#[derive(Clone, Copy, Debug, PartialEq, Eq)]
pub enum Field {
    Number,
    Emitted,
    Levels,
    Value,
    Cycles,
    Pulses(u8),
}

/// The fields in their order, each with its first byte and the one behind its last: in 01 a log record
/// is "0 refusal number; 1 is 1 if a byte was emitted; 2 that byte, else 0; 3 the line levels after it;
/// 4-7 value read; 8-15 cycles passed; 16-47 the four pulse counts, timer 1 first". `Emitted` is
/// bytes 1 and 2 together.
const FIELDS: [(Field, usize, usize); 9] = [
    (Field::Number, 0, 1),
    (Field::Emitted, 1, 3),
    (Field::Levels, 3, 4),
    (Field::Value, 4, 8),
    (Field::Cycles, 8, 16),
    (Field::Pulses(1), 16, 24),
    (Field::Pulses(2), 24, 32),
    (Field::Pulses(3), 32, 40),
    (Field::Pulses(4), 40, 48),
];

#[derive(Clone, Copy, Debug, PartialEq, Eq)]
pub enum Verdict {
    Equal,
    /// The first record that differs, "counted from 1", and the first differing field in it.
    Record(u64, Field),
    /// A log that ends in a partial record.
    Partial(Log),
    /// "the shorter log", a strict beginning of the other.
    Beginning(Log),
    Refused(Log, Refusal),
}

/// The verdict on two logs. One that is missing or unreadable is given as an empty one.
pub fn compare(first: &[u8], second: &[u8]) -> Verdict {
    // "or refuses a log by 11 or 12, the first log judged first"
    for (log, bytes) in [(Log::First, first), (Log::Second, second)] {
        if let Some(refusal) = refusal(bytes) {
            return Verdict::Refused(log, refusal);
        }
    }
    let (first_records, first_rest) = records(first);
    let (second_records, second_rest) = records(second);
    // "The first difference in whole records both have comes first"
    for (record, (one, other)) in (1..).zip(first_records.iter().zip(second_records)) {
        for (field, start, end) in FIELDS {
            if one[start..end] != other[start..end] {
                return Verdict::Record(record, field);
            }
        }
    }
    // "else a partial record at the end is named, with its log, the first log first"; its bytes are
    // compared with nothing.
    for (log, rest) in [(Log::First, first_rest), (Log::Second, second_rest)] {
        if !rest.is_empty() {
            return Verdict::Partial(log);
        }
    }
    // "else a strict beginning; else equal"
    match first_records.len().cmp(&second_records.len()) {
        Ordering::Less => Verdict::Beginning(Log::First),
        Ordering::Greater => Verdict::Beginning(Log::Second),
        Ordering::Equal => Verdict::Equal,
    }
}

/// "11 a file is shorter than 5 bytes or has the wrong mark; 12 the version isn't 1", "11 before 12"
/// (01).
fn refusal(log: &[u8]) -> Option<Refusal> {
    if log.len() < LOG_HEADER.len() || !log.starts_with(MARK) {
        Some(Refusal::Mark)
    } else if !log.starts_with(&LOG_HEADER) {
        Some(Refusal::Version)
    } else {
        None
    }
}

/// The whole records behind the header, and the bytes of a partial one at the end, if there is one.
fn records(log: &[u8]) -> (&[[u8; ENTRY_LENGTH]], &[u8]) {
    log[LOG_HEADER.len()..].as_chunks()
}

/// The line that the tool prints, without its newline: "`equal`, `record 3 cycles`, `record 3 pulses 4`,
/// `partial 1`, `beginning 2` or `refused 1 12`".
impl fmt::Display for Verdict {
    fn fmt(&self, f: &mut fmt::Formatter) -> fmt::Result {
        match *self {
            Verdict::Equal => write!(f, "equal"),
            Verdict::Record(record, field) => write!(f, "record {record} {field}"),
            Verdict::Partial(log) => write!(f, "partial {}", log as u8),
            Verdict::Beginning(log) => write!(f, "beginning {}", log as u8),
            Verdict::Refused(log, refusal) => write!(f, "refused {} {}", log as u8, refusal as u8),
        }
    }
}

impl fmt::Display for Field {
    fn fmt(&self, f: &mut fmt::Formatter) -> fmt::Result {
        match self {
            Field::Number => write!(f, "number"),
            Field::Emitted => write!(f, "emitted"),
            Field::Levels => write!(f, "levels"),
            Field::Value => write!(f, "value"),
            Field::Cycles => write!(f, "cycles"),
            Field::Pulses(timer) => write!(f, "pulses {timer}"),
        }
    }
}
