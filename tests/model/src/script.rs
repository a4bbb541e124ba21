//! Script records, log records, and the run of a whole script. "Numbers are big-endian."

use std::io::{self, ErrorKind, Read, Write};

use crate::board::Board;
use crate::refusal::Refusal;
use crate::slow;
use crate::timer::Passed;

pub const SCRIPT_HEADER: [u8; 5] = *b"APS\x00\x01";
pub const LOG_HEADER: [u8; 5] = *b"APL\x00\x01";
const MARK: &[u8] = b"APS";
pub const CALL_LENGTH: usize = 16;
pub const ENTRY_LENGTH: usize = 48;

/// Records taken from the input at a time. The log does not show where pieces end, so they need not
/// be those of the program described in 01.
const PIECE: usize = 4096;

/// How advances and skips pass their cycles.
#[derive(Clone, Copy, Debug, PartialEq, Eq)]
pub enum Mode {
    Arithmetic,
    SingleCycle,
}

/// A well-formed script record.
#[derive(Clone, Copy, Debug, PartialEq, Eq)]
pub enum Call {
    Read { size: u8, address: u32 },
    Write { size: u8, address: u32, value: u32 },
    Offer { port: u8, byte: u8 },
    Advance { cycles: u64 },
    Skip { limit: u64 },
    Reset,
    Acknowledge,
}

impl Call {
    /// "Byte 3, each blank and a write's bytes 8-11 are 0. Another kind, or one of these not 0, is
    /// malformed."
    pub fn decode(record: &[u8; CALL_LENGTH]) -> Option<Call> {
        Some(match *record {
            [1, size, 0, 0, address @ .., 0, 0, 0, 0, 0, 0, 0, 0] => {
                Call::Read { size, address: u32::from_be_bytes(address) }
            }
            [2, size, 0, 0, a, b, c, d, 0, 0, 0, 0, value @ ..] => Call::Write {
                size,
                address: u32::from_be_bytes([a, b, c, d]),
                value: u32::from_be_bytes(value),
            },
            [3, port, byte, 0, 0, 0, 0, 0, 0, 0, 0, 0, 0, 0, 0, 0] => Call::Offer { port, byte },
            [4, 0, 0, 0, 0, 0, 0, 0, cycles @ ..] => Call::Advance { cycles: u64::from_be_bytes(cycles) },
            [5, 0, 0, 0, 0, 0, 0, 0, limit @ ..] => Call::Skip { limit: u64::from_be_bytes(limit) },
            [6, 0, 0, 0, 0, 0, 0, 0, 0, 0, 0, 0, 0, 0, 0, 0] => Call::Reset,
            // 02, No. 4: "A new script kind 7 acknowledges: bytes 1 to 15 are 0".
            [7, 0, 0, 0, 0, 0, 0, 0, 0, 0, 0, 0, 0, 0, 0, 0] => Call::Acknowledge,
            _ => return None,
        })
    }

    pub fn encode(self) -> [u8; CALL_LENGTH] {
        let mut record = [0; CALL_LENGTH];
        match self {
            Call::Read { size, address } => {
                record[..2].copy_from_slice(&[1, size]);
                record[4..8].copy_from_slice(&address.to_be_bytes());
            }
            Call::Write { size, address, value } => {
                record[..2].copy_from_slice(&[2, size]);
                record[4..8].copy_from_slice(&address.to_be_bytes());
                record[12..].copy_from_slice(&value.to_be_bytes());
            }
            Call::Offer { port, byte } => record[..3].copy_from_slice(&[3, port, byte]),
            Call::Advance { cycles } => {
                record[0] = 4;
                record[8..].copy_from_slice(&cycles.to_be_bytes());
            }
            Call::Skip { limit } => {
                record[0] = 5;
                record[8..].copy_from_slice(&limit.to_be_bytes());
            }
            Call::Reset => record[0] = 6,
            Call::Acknowledge => record[0] = 7,
        }
        record
    }
}

/// A log record. "Anything else that a record's kind does not produce is 0."
#[derive(Clone, Copy, Debug, Default, PartialEq, Eq)]
pub struct Entry {
    /// The refusal number, 0 if not refused.
    pub refusal: u8,
    pub emitted: Option<u8>,
    pub levels: u8,
    pub value: u32,
    pub passed: Passed,
}

impl Entry {
    pub fn encode(&self) -> [u8; ENTRY_LENGTH] {
        let mut bytes = [0; ENTRY_LENGTH];
        bytes[0] = self.refusal;
        bytes[1] = u8::from(self.emitted.is_some());
        bytes[2] = self.emitted.unwrap_or(0);
        bytes[3] = self.levels;
        bytes[4..8].copy_from_slice(&self.value.to_be_bytes());
        bytes[8..16].copy_from_slice(&self.passed.cycles.to_be_bytes());
        for (place, pulses) in bytes[16..].chunks_exact_mut(8).zip(self.passed.pulses) {
            place.copy_from_slice(&pulses.to_be_bytes());
        }
        bytes
    }

    fn refused(refusal: Refusal) -> Entry {
        Entry { refusal: refusal as u8, ..Entry::default() }
    }
}

/// Does one record and returns its log record.
pub fn execute(board: &mut Board, record: &[u8; CALL_LENGTH], mode: Mode) -> Entry {
    let mut entry = Entry::default();
    let call = Call::decode(record).ok_or(Refusal::Malformed);
    if let Err(refusal) = call.and_then(|call| apply(board, call, mode, &mut entry)) {
        entry.refusal = refusal as u8;
    }
    // "Levels are logged for every record, refused, malformed or cut short too": those after it.
    entry.levels = board.levels();
    entry
}

/// Does a call and notes what it produces, which is nothing if it is refused.
fn apply(board: &mut Board, call: Call, mode: Mode, entry: &mut Entry) -> Result<(), Refusal> {
    match call {
        Call::Read { size, address } => entry.value = board.read(address, size)?,
        Call::Write { size, address, value } => entry.emitted = board.write(address, size, value)?,
        Call::Offer { port, byte } => board.offer(port, byte)?,
        Call::Advance { cycles } => {
            entry.passed = match mode {
                Mode::Arithmetic => board.advance(cycles),
                Mode::SingleCycle => slow::advance(board, cycles),
            }
        }
        Call::Skip { limit } => {
            entry.passed = match mode {
                Mode::Arithmetic => board.skip(limit),
                Mode::SingleCycle => slow::skip(board, limit),
            }
        }
        // It sets the levels and works none of them out, so nothing rises.
        Call::Reset => *board = Board::RESET,
        Call::Acknowledge => entry.value = board.irqmp.acknowledge(),
    }
    Ok(())
}

/// Runs a script from reset and writes its log, or `refused 11` or `refused 12` and a newline for a
/// bad header.
pub fn run(mut script: impl Read, mut log: impl Write, mode: Mode) -> io::Result<()> {
    let mut header = [0; SCRIPT_HEADER.len()];
    let length = fill(&mut script, &mut header)?;
    if let Err(refusal) = check_header(&header[..length]) {
        writeln!(log, "refused {}", refusal as u8)?;
        return log.flush();
    }

    let mut board = Board::RESET;
    let mut piece = vec![0; PIECE * CALL_LENGTH];
    let mut entries = Vec::with_capacity(LOG_HEADER.len() + PIECE * ENTRY_LENGTH);
    entries.extend_from_slice(&LOG_HEADER);
    loop {
        let length = fill(&mut script, &mut piece)?;
        let (records, tail) = piece[..length].as_chunks();
        for record in records {
            entries.extend_from_slice(&execute(&mut board, record, mode).encode());
        }
        // "A tail of 1 to 15 bytes adds one log record with number 10." Only the last piece can
        // have one.
        if !tail.is_empty() {
            let entry = Entry { levels: board.levels(), ..Entry::refused(Refusal::Malformed) };
            entries.extend_from_slice(&entry.encode());
        }
        log.write_all(&entries)?;
        entries.clear();
        if length < piece.len() {
            return log.flush();
        }
    }
}

/// "11 before 12": a short header or a wrong mark is 11 whatever the version.
fn check_header(header: &[u8]) -> Result<(), Refusal> {
    if header == SCRIPT_HEADER {
        Ok(())
    } else if header.len() == SCRIPT_HEADER.len() && header.starts_with(MARK) {
        Err(Refusal::Version)
    } else {
        Err(Refusal::Mark)
    }
}

/// Reads until the buffer is full or the input ends, whatever lengths the single reads have, and
/// returns the number of bytes read.
fn fill(input: &mut impl Read, buffer: &mut [u8]) -> io::Result<usize> {
    let mut length = 0;
    while length < buffer.len() {
        match input.read(&mut buffer[length..]) {
            Ok(0) => break,
            Ok(count) => length += count,
            Err(error) if error.kind() == ErrorKind::Interrupted => {}
            Err(error) => return Err(error),
        }
    }
    Ok(length)
}
