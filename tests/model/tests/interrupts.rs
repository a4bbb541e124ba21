//! The interrupt controller of 02, No. 4 and what raises its lines: each rule, and the readings of its
//! sentences, through the script interface.

use model::random::Random;
use model::script::{run, Call, Mode, ENTRY_LENGTH, LOG_HEADER, SCRIPT_HEADER};

const LEVEL: u32 = 0x8000_0200;
const PENDING: u32 = 0x8000_0204;
const FORCE: u32 = 0x8000_0208;
const CLEAR: u32 = 0x8000_020C;
const MASK: u32 = 0x8000_0240;
const EXTENDED: u32 = 0x8000_02C0;
const REGISTERS: [u32; 6] = [LEVEL, PENDING, FORCE, CLEAR, MASK, EXTENDED];

const UNIT: u32 = 0x8000_0300;
const PORTS: [u32; 6] = [0x8000_0100, 0x8010_0100, 0x8010_0200, 0x8010_0300, 0x8010_0400, 0x8010_0500];
const CONTROL: u32 = 8;

const ALL: u32 = u32::MAX;
const ACKNOWLEDGE: Call = Call::Acknowledge;

fn read(address: u32) -> Call {
    Call::Read { size: 4, address }
}

fn write(address: u32, value: u32) -> Call {
    Call::Write { size: 4, address, value }
}

fn offer(port: usize, byte: u8) -> Call {
    Call::Offer { port: port as u8, byte }
}

/// Runs a script from reset and returns its log records: by arithmetic and, with the same log, by single
/// cycles.
fn entries(calls: &[Call]) -> Vec<[u8; ENTRY_LENGTH]> {
    let mut script = SCRIPT_HEADER.to_vec();
    calls.iter().for_each(|call| script.extend(call.encode()));
    let [log, slow] = [Mode::Arithmetic, Mode::SingleCycle].map(|mode| {
        let mut log = Vec::new();
        run(&script[..], &mut log, mode).unwrap();
        log
    });
    assert_eq!(log, slow, "{calls:X?}");
    log[LOG_HEADER.len()..].as_chunks().0.to_vec()
}

/// The values of a script's reads and acknowledges. No record is refused.
fn values(calls: &[Call]) -> Vec<u32> {
    let mut values = Vec::new();
    for (call, entry) in calls.iter().zip(entries(calls)) {
        assert_eq!(entry[0], 0, "{call:X?}");
        let value = u32::from_be_bytes(entry[4..8].try_into().unwrap());
        if matches!(call, Call::Read { .. } | Call::Acknowledge) {
            values.push(value);
        } else {
            assert_eq!(value, 0, "{call:X?}");
        }
    }
    values
}

/// Checks the values at the end of a script.
fn check(calls: &[&[Call]], expected: &[u32]) {
    let calls = calls.concat();
    let values = values(&calls);
    assert_eq!(values[values.len() - expected.len()..], *expected, "{calls:X?}");
}

/// Writes level, pending, force and mask.
fn controller(level: u32, pending: u32, force: u32, mask: u32) -> [Call; 4] {
    [write(LEVEL, level), write(PENDING, pending), write(FORCE, force), write(MASK, mask)]
}

fn read_all() -> [Call; 6] {
    REGISTERS.map(read)
}

/// The word with the bits of some lines.
fn bits(lines: &[u32]) -> u32 {
    lines.iter().fold(0, |word, line| word | 1 << line)
}

#[test]
fn registers() {
    check(&[&read_all()], &[0; 6]);
    // "Level and force keep bits 1 to 15, pending and mask bits 1 to 31"; a write to pending stores.
    for (register, kept) in [(LEVEL, 0xFFFE), (FORCE, 0xFFFE), (PENDING, 0xFFFF_FFFE), (MASK, 0xFFFF_FFFE)] {
        for value in [ALL, 0, 1, 0xFFFF_0000, 0x8765_4321] {
            check(&[&[write(register, ALL), write(register, value), read(register)]], &[value & kept]);
            // No other register feels it.
            let others = REGISTERS.map(|other| if other == register { value & kept } else { 0 });
            check(&[&[write(register, value)], &read_all()], &others);
        }
    }
}

#[test]
fn clear_touches_pending_only() {
    let full = controller(ALL, ALL, ALL, ALL);
    let left = |pending| [0xFFFE, pending, 0xFFFE, 0, 0xFFFF_FFFE, 0];
    check(&[&full, &[write(CLEAR, 0)], &read_all()], &left(0xFFFF_FFFE));
    check(&[&full, &[write(CLEAR, 0x8001_1235)], &read_all()], &left(0x7FFE_EDCA));
    check(&[&full, &[write(CLEAR, 0xF0), write(CLEAR, 0x0F)], &read_all()], &left(0xFFFF_FF00));
    check(&[&full, &[write(CLEAR, ALL)], &read_all()], &left(0));
    // What it clears no longer waits.
    let two = controller(0, bits(&[5, 9]), 0, ALL);
    check(&[&two, &[write(CLEAR, bits(&[9])), ACKNOWLEDGE, ACKNOWLEDGE]], &[5, 0]);
}

#[test]
fn extended_acknowledge_ignores_writes() {
    let taken = [&controller(0, bits(&[23]), 0, ALL)[..], &[ACKNOWLEDGE]].concat();
    for value in [0, 1, 12, 16, 31, ALL] {
        check(&[&[write(EXTENDED, value), read(EXTENDED)]], &[0]);
        check(&[&taken, &[write(EXTENDED, value), read(EXTENDED)]], &[12, 23]);
    }
}

#[test]
fn offsets_without_a_register_are_refused() {
    for address in (LEVEL..UNIT).step_by(4).filter(|address| !REGISTERS.contains(address)) {
        let full = controller(ALL, ALL, ALL, ALL);
        let left = entries(&[&full[..], &read_all()].concat()).split_off(4);
        let mut refused = [0; ENTRY_LENGTH];
        refused[0] = 13;
        for value in [0, ALL] {
            let calls = [&full[..], &[write(address, value), read(address)], &read_all()].concat();
            let log = entries(&calls).split_off(4);
            assert_eq!((&log[..2], &log[2..]), (&[refused; 2][..], &left[..]), "{address:X} {value:X}");
        }
    }
}

#[test]
fn refusals_of_accesses() {
    let table = [
        (3, LEVEL, 1),
        (0, PENDING, 1),
        (255, 0x8000_02FF, 1),
        // From port 0's window into the controller's, and from there into the timer unit's.
        (4, 0x8000_01FE, 3),
        (4, 0x8000_02FD, 3),
        (4, 0x8000_02FE, 3),
        (2, 0x8000_02FF, 3),
        (4, 0x8000_0201, 4),
        (4, 0x8000_0242, 4),
        (2, 0x8000_0243, 4),
        (1, LEVEL, 5),
        (2, MASK, 5),
        (1, 0x8000_02FF, 5),
        (2, 0x8000_02FE, 5),
    ];
    for (size, address, number) in table {
        for call in [Call::Read { size, address }, Call::Write { size, address, value: ALL }] {
            let log = entries(&[&[call], &read_all()[..]].concat());
            assert_eq!(log[0], [&[number][..], &[0; 47]].concat()[..], "{call:X?}");
            assert!(log[1..].iter().all(|entry| *entry == [0; ENTRY_LENGTH]), "{call:X?}");
        }
    }
}

/// "Level 1 goes before level 0, then the higher number."
#[test]
fn order_of_lines() {
    let lines: Vec<u32> = (1..16).collect();
    for one in 1..16 {
        for other in 1..one {
            let two = bits(&[one, other]);
            for (level, first, second) in [
                (0, one, other),
                (two, one, other),
                (bits(&[one]), one, other),
                (bits(&[other]), other, one),
                (!bits(&[one]), other, one),
            ] {
                let acknowledges = [ACKNOWLEDGE; 3];
                check(&[&controller(level, two, 0, ALL), &acknowledges], &[first, second, 0]);
                check(&[&controller(level, 0, two, ALL), &acknowledges], &[first, second, 0]);
                let mixed = controller(level, bits(&[one]), bits(&[other]), ALL);
                check(&[&mixed, &acknowledges], &[first, second, 0]);
            }
        }
    }
    let rest: Vec<u32> = lines.iter().rev().copied().collect();
    check(&[&controller(0, 0xFFFE, 0, ALL), &[ACKNOWLEDGE; 15]], &rest);
}

#[test]
fn a_masked_line_does_not_wait() {
    for line in 1..32 {
        let seen = if line < 16 { line } else { 12 };
        let own = controller(0, bits(&[line]), bits(&[line]), bits(&[line]));
        check(&[&own, &[ACKNOWLEDGE]], &[seen]);
        let others = controller(0, bits(&[line]), bits(&[line]), !bits(&[line]));
        check(&[&others, &[ACKNOWLEDGE, read(PENDING), read(EXTENDED)]], &[0, bits(&[line]), 0]);
        // It was kept, and waits when its mask bit is set.
        check(&[&others, &[ACKNOWLEDGE, write(MASK, bits(&[line])), ACKNOWLEDGE]], &[0, seen]);
    }
}

/// "Taking a line clears its force bit if set, else its pending bit": one that is both waits on.
#[test]
fn forced_and_pending() {
    for line in 1..16 {
        let both = controller(0, bits(&[line]), bits(&[line]), ALL);
        let take = [ACKNOWLEDGE, read(FORCE), read(PENDING)];
        let expected = [line, 0, bits(&[line]), line, 0, 0, 0, 0, 0];
        check(&[&both, &take, &take, &take], &expected);
    }
    // Forced lines wait together with pending ones, and no line's bits but its own are cleared.
    let calls = controller(0, 0xFFFE, 0xFFFE, ALL);
    let take = [ACKNOWLEDGE, read(FORCE), read(PENDING)];
    check(&[&calls, &take, &take], &[15, 0x7FFE, 0xFFFE, 15, 0x7FFE, 0x7FFE]);
}

/// "Lines 16 to 31 reach the processor as line 12, whatever 12's mask bit": with its level and number.
#[test]
fn extended_lines() {
    let take = [ACKNOWLEDGE, read(EXTENDED), read(PENDING)];
    for line in 16..32 {
        for mask in [bits(&[line]), bits(&[12, line]), ALL, !bits(&[12])] {
            check(&[&controller(0, bits(&[line]), 0, mask), &take, &[ACKNOWLEDGE]], &[12, line, 0, 0]);
        }
        // Its own mask bit counts.
        check(&[&controller(0, bits(&[line]), 0, !bits(&[line])), &take], &[0, 0, bits(&[line])]);
        // Force and level have no bit for it.
        check(&[&controller(ALL, 0, ALL << 16, ALL), &take], &[0, 0, 0]);
        // 13 to 15 go before it at one level, lower ones behind it.
        for other in (1..16).filter(|&other| other != 12) {
            let two = bits(&[line, other]);
            for (level, first) in [(0, other > 12), (ALL, other > 12), (1 << 12, false), (!(1 << 12), true)] {
                let order = if first { [other, 12] } else { [12, other] };
                check(&[&controller(level, two, 0, ALL), &[ACKNOWLEDGE; 2]], &order);
            }
        }
        // "the highest waiting extended line"
        for lower in 16..line {
            let two = bits(&[line, lower]);
            check(&[&controller(0, two, 0, ALL), &take, &take], &[12, line, bits(&[lower]), 12, lower, 0]);
            let masked = controller(0, two, 0, !bits(&[line]));
            check(&[&masked, &take, &[ACKNOWLEDGE]], &[12, lower, bits(&[line]), 0]);
        }
    }
}

/// An extended line goes before line 12 itself, even if 12 is forced; 12's bits stay. Then 12 is taken,
/// "and notes 0".
#[test]
fn line_12_beside_extended_lines() {
    let take = [ACKNOWLEDGE, read(EXTENDED), read(PENDING), read(FORCE)];
    let twelve = bits(&[12]);
    let both = bits(&[12, 20]);
    check(&[&controller(0, both, 0, ALL), &take, &take], &[12, 20, twelve, 0, 12, 0, 0, 0]);
    let forced = controller(0, bits(&[20]), twelve, ALL);
    check(&[&forced, &take, &take], &[12, 20, 0, twelve, 12, 0, 0, 0]);
    let three = controller(0, both, twelve, ALL);
    check(&[&three, &take, &take, &take], &[12, 20, twelve, twelve, 12, 0, twelve, 0, 12, 0, 0, 0]);
    // With 12's mask bit 0 its own bits do not wait, and the extended line does.
    let masked = controller(0, both, twelve, !twelve);
    check(&[&masked, &take, &take], &[12, 20, twelve, twelve, 0, 20, twelve, twelve]);
}

/// The number noted stays when another line is taken, or none.
#[test]
fn the_note_stays() {
    let take = [ACKNOWLEDGE, read(EXTENDED)];
    let lines = controller(0, bits(&[31, 11, 5]), bits(&[5]), ALL);
    check(&[&lines, &take, &take, &take, &take, &take], &[12, 31, 11, 31, 5, 31, 5, 31, 0, 31]);
    // Line 12, a reset and nothing else put it to 0.
    let more = [write(PENDING, bits(&[12])), ACKNOWLEDGE, read(EXTENDED)];
    check(&[&lines, &take, &more], &[12, 31, 12, 0]);
    check(&[&lines, &take, &controller(0, 0, 0, 0), &[read(EXTENDED)]], &[31]);
    check(&[&lines, &take, &[Call::Reset, read(EXTENDED)]], &[0]);
}

#[test]
fn nothing_waits() {
    check(&[&[ACKNOWLEDGE, ACKNOWLEDGE], &read_all()], &[0; 8]);
    let masked = controller(ALL, ALL, ALL, 0);
    check(&[&masked, &[ACKNOWLEDGE], &read_all()], &[0, 0xFFFE, 0xFFFF_FFFE, 0xFFFE, 0, 0, 0]);
    // Its log record has nothing but the levels.
    let log = entries(&[write(PORTS[1] + CONTROL, 8), ACKNOWLEDGE]);
    assert_eq!(log[1], [&[0, 0, 0, 2][..], &[0; 44]].concat()[..]);
}

/// "the value read is the line taken (12 for an extended one) or 0", and nothing else is logged but the
/// levels; mask and level registers stay.
#[test]
fn what_an_acknowledge_answers() {
    let raise = [write(PORTS[0] + CONTROL, 8), write(MASK, ALL), write(LEVEL, ALL)];
    let log = entries(&[&raise[..], &[ACKNOWLEDGE], &read_all()].concat());
    assert_eq!(log[3], [&[0, 0, 0, 1, 0, 0, 0, 2][..], &[0; 40]].concat()[..]);
    check(&[&raise, &[ACKNOWLEDGE], &read_all()], &[2, 0xFFFE, 0, 0, 0, 0xFFFF_FFFE, 0]);
    // No time passes, and the timers' IP stays.
    let pulse = [write(UNIT + 0x10, 0), write(UNIT + 0x18, 9), write(UNIT, 0), Call::Advance { cycles: 1 }];
    let after = [write(MASK, ALL), ACKNOWLEDGE, ACKNOWLEDGE, read(UNIT + 0x18), read(UNIT)];
    check(&[&pulse, &after], &[8, 0, 0x18, 0xFFFF]);
}

/// "2 for port 0, 16+p for ports 1 to 5"
#[test]
fn lines_of_ports() {
    for (port, line) in [2, 17, 18, 19, 20, 21].into_iter().enumerate() {
        let control = PORTS[port] + CONTROL;
        let rise = bits(&[line]);
        let see = [read(PENDING), write(CLEAR, ALL)];
        // By TI; by a byte with RI; by RI with a byte waiting.
        check(&[&[write(control, 8)], &see], &[rise]);
        check(&[&[write(control, 5)], &see, &[offer(port, 1)], &see], &[0, rise]);
        check(&[&[write(control, 1), offer(port, 1)], &see, &[write(control, 4)], &see], &[0, rise]);
        // "Lines are set whatever the mask": it is 0 here, and pending is kept.
        let taken = if line == 2 { 2 } else { 12 };
        check(&[&[write(control, 8), ACKNOWLEDGE, write(MASK, ALL), ACKNOWLEDGE]], &[0, taken]);
        // A level that stays 1 is no rise, by whatever it is held.
        check(&[&[write(control, 8)], &see, &[write(control, 8)], &see], &[rise, 0]);
        check(
            &[&[write(control, 9)], &see, &[offer(port, 1)], &see, &[write(control, 5)], &see],
            &[rise, 0, 0],
        );
        check(&[&[write(control, 5), offer(port, 1)], &see, &[offer(port, 2)], &see], &[rise, 0]);
        // Nor is it one after a drain, for the level stays 1 until CONTROL is written.
        let drained = [write(control, 5), offer(port, 1), read(PORTS[port])];
        check(&[&drained, &see, &[offer(port, 2)], &see], &[1, rise, 0]);
        check(&[&drained, &see, &[write(control, 5), offer(port, 2)], &see], &[1, rise, rise]);
        // A fall does not clear the line, and the next rise shows once the line was cleared.
        check(&[&[write(control, 8), write(control, 0)], &see], &[rise]);
        let again =
            [write(control, 8), write(control, 0), write(CLEAR, ALL), read(PENDING), write(control, 8)];
        check(&[&again, &see], &[0, rise]);
        // A refused byte raises nothing; nor do other registers.
        let refused = [write(control, 4), offer(port, 1), write(PORTS[port], 1), write(PORTS[port] + 12, 8)];
        let log = entries(&[&refused[..], &[read(PENDING)]].concat());
        assert_eq!((log[1][0], log[4][4..8].to_vec()), (7, vec![0; 4]));
        // What is pending already stays.
        check(&[&[write(PENDING, ALL), write(control, 8)], &see], &[0xFFFF_FFFE]);
        check(&[&[write(PENDING, 0x100), write(control, 8)], &see], &[0x100 | rise]);
    }
}

/// "A pulse of timer n sets pending line 7+n", once for a span, whatever the mask.
#[test]
fn lines_of_timers() {
    // Ticks in cycles 1, 2 and so on; timer n underflows at each nth count, without timer 4 as it runs
    // at reset.
    let ticks = [write(UNIT + 4, 0), write(UNIT, 0), write(UNIT + 0x48, 0)];
    let timer = |n: u32, control: u32| {
        let base = UNIT + 0x10 * n;
        [write(base, n - 1), write(base + 4, n - 1), write(base + 8, control)]
    };
    let advance = |cycles| Call::Advance { cycles };
    let see = [read(PENDING), write(CLEAR, ALL)];
    for n in 1..5 {
        let line = 1 << (7 + n);
        let span = u64::from(n);
        let run = [&ticks[..], &timer(n, 0x0B)].concat();
        check(&[&run, &[advance(span - 1)], &see, &[advance(1)], &see], &[0, line]);
        check(&[&run, &[advance(100)], &see, &[advance(span)], &see], &[line, line]);
        check(&[&run, &[Call::Skip { limit: span - 1 }], &see, &[Call::Skip { limit: 9 }], &see], &[0, line]);
        check(
            &[&run, &[advance(100), ACKNOWLEDGE, write(MASK, ALL), ACKNOWLEDGE, ACKNOWLEDGE]],
            &[0, 7 + n, 0],
        );
        // An underflow without IE is no pulse; one with IP set is.
        check(&[&[&ticks[..], &timer(n, 0x03)].concat(), &[advance(100)], &see], &[0]);
        let pending = [write(PENDING, bits(&[3, 7 + n, 30])), advance(100)];
        check(&[&run, &pending, &see], &[bits(&[3, 7 + n, 30])]);
    }
    // All four at once, in cycle 12; by then timers 1 to 3 have pulsed before.
    let all = (1..5).flat_map(|n| timer(n, 0x0B)).collect::<Vec<_>>();
    check(&[&ticks, &all, &[advance(11), write(CLEAR, ALL), advance(1)], &see], &[0xF00]);
    check(&[&ticks, &all, &[advance(2)], &see, &[advance(1)], &see], &[0x300, 0x500]);
    let skip = Call::Skip { limit: 100 };
    check(&[&ticks, &all, &[skip, skip], &see, &[skip], &see, &[skip], &see], &[0x300, 0x500, 0xB00]);
    // A pulse that follows another's underflow in the same tick.
    let chain = [timer(1, 0x0B), [write(UNIT + 0x20, 0), write(UNIT + 0x24, 0), write(UNIT + 0x28, 0x2B)]];
    check(&[&ticks, &chain.concat(), &[advance(1)], &see], &[0x300]);
}

/// A span that ends before the tick changes no line, nor does one of 0 cycles.
#[test]
fn short_spans_raise_nothing() {
    for call in [Call::Advance { cycles: 0 }, Call::Skip { limit: 0 }, Call::Advance { cycles: 0xFFFF }] {
        check(&[&[call], &read_all()], &[0; 6]);
        let full = controller(ALL, bits(&[8, 30]), ALL, ALL);
        check(&[&full, &[call], &read_all()], &[0xFFFE, bits(&[8, 30]), 0xFFFE, 0, 0xFFFF_FFFE, 0]);
    }
}

/// "all 0 at reset", with nothing raised by it.
#[test]
fn reset() {
    let full = [&controller(ALL, ALL, ALL, ALL)[..], &[ACKNOWLEDGE; 3]].concat();
    let levels: Vec<Call> = PORTS.into_iter().map(|base| write(base + CONTROL, 8)).collect();
    check(&[&full, &levels, &[Call::Reset], &read_all()], &[0; 6]);
    // The levels fell, so the next ones rise.
    check(&[&levels, &[Call::Reset], &levels, &[read(PENDING)]], &[bits(&[2, 17, 18, 19, 20, 21])]);
}

/// All lines at once, against an order worked out by a plain search.
#[test]
fn acknowledges_until_none_waits() {
    let mut random = Random::new(1);
    for _ in 0..300 {
        let [level, pending, force, mask] = [(); 4].map(|()| match random.below(4) {
            0 => ALL,
            1 => random.word() & random.word(),
            _ => random.word(),
        });
        let (mut pending_left, mut force_left, mut noted) = (pending & !1, force & 0xFFFE, 0);
        let mut expected = Vec::new();
        for _ in 0..48 {
            let waits =
                |line: u32| (pending_left | force_left) >> line & 1 == 1 && mask >> line & 1 == 1 && line > 0;
            let at_level = |line: u32| level >> line & 1 == 1;
            let extended = (16..32).rev().find(|&line| waits(line));
            let at_processor = |line: u32| waits(line) || line == 12 && extended.is_some();
            let high = (1..16).rev().find(|&line| at_processor(line) && at_level(line));
            let first = high.or_else(|| (1..16).rev().find(|&line| at_processor(line)));
            if let Some(line) = first {
                let taken = if line == 12 { extended.unwrap_or(12) } else { line };
                if line == 12 {
                    noted = extended.unwrap_or(0);
                }
                if force_left >> taken & 1 == 1 {
                    force_left -= 1 << taken;
                } else {
                    pending_left -= 1 << taken;
                }
            }
            expected.extend([first.unwrap_or(0), pending_left, force_left, noted]);
        }
        let take = [ACKNOWLEDGE, read(PENDING), read(FORCE), read(EXTENDED)];
        check(&[&controller(level, pending, force, mask), &take.repeat(48)], &expected);
    }
}

/// "bytes 1 to 15 are 0", else the record is malformed and takes nothing.
#[test]
fn malformed_acknowledges() {
    let start = controller(0, bits(&[7]), 0, ALL);
    for index in 1..16 {
        for value in [1, 0x80, 7] {
            let mut script = SCRIPT_HEADER.to_vec();
            start.iter().for_each(|call| script.extend(call.encode()));
            let mut record = [0; 16];
            (record[0], record[index]) = (7, value);
            script.extend(record);
            script.extend(ACKNOWLEDGE.encode());
            let mut log = Vec::new();
            run(&script[..], &mut log, Mode::Arithmetic).unwrap();
            let (malformed, taken) = log[LOG_HEADER.len() + 4 * ENTRY_LENGTH..].split_at(ENTRY_LENGTH);
            assert_eq!(malformed, [&[10][..], &[0; 47]].concat(), "byte {index}");
            assert_eq!(taken, [&[0, 0, 0, 0, 0, 0, 0, 7][..], &[0; 40]].concat(), "byte {index}");
        }
    }
    assert_eq!(ACKNOWLEDGE.encode(), [7, 0, 0, 0, 0, 0, 0, 0, 0, 0, 0, 0, 0, 0, 0, 0]);
}
