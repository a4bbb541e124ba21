//! The bench examples of 01, as 02, No. 3 and No. 4 change them, and edge readings of both papers'
//! sentences, through the script interface. Those of the interrupt controller are in `interrupts`, those of
//! No. 5 in `registers`. The numbers are worked out from the papers; comments say how.

use std::io::{self, ErrorKind, Read};

use model::script::{run, Call, Entry, Mode, ENTRY_LENGTH, LOG_HEADER, SCRIPT_HEADER};
use model::timer::Passed;

const UNIT: u32 = 0x8000_0300;
const PORT0: u32 = 0x8000_0100;
const DATA: u32 = PORT0;
const STATUS: u32 = PORT0 + 4;
const CONTROL: u32 = PORT0 + 8;

fn read(address: u32) -> Call {
    Call::Read { size: 4, address }
}

fn write(address: u32, value: u32) -> Call {
    Call::Write { size: 4, address, value }
}

fn offer(byte: u8) -> Call {
    Call::Offer { port: 0, byte }
}

fn advance(cycles: u64) -> Call {
    Call::Advance { cycles }
}

fn skip(limit: u64) -> Call {
    Call::Skip { limit }
}

/// Writes timer n's counter, reload and control.
fn timer(n: u32, counter: u32, reload: u32, control: u32) -> [Call; 3] {
    let base = UNIT + 0x10 * n;
    [write(base, counter), write(base + 4, reload), write(base + 8, control)]
}

fn value(value: u32) -> Entry {
    Entry { value, ..Entry::default() }
}

fn number(refusal: u8) -> Entry {
    Entry { refusal, ..Entry::default() }
}

fn passed(cycles: u64, pulses: [u64; 4]) -> Entry {
    Entry { passed: Passed { cycles, pulses }, ..Entry::default() }
}

fn at_level(entry: Entry) -> Entry {
    Entry { levels: 1, ..entry }
}

fn log_of(script: impl Read, mode: Mode) -> Vec<u8> {
    let mut log = Vec::new();
    run(script, &mut log, mode).unwrap();
    log
}

fn script_of(calls: &[Call]) -> Vec<u8> {
    let mut script = SCRIPT_HEADER.to_vec();
    calls.iter().for_each(|call| script.extend(call.encode()));
    script
}

/// Checks the last log records of a script, in the single-cycle mode too if its spans are short.
fn check(calls: &[Call], expected: &[Entry]) {
    let script = script_of(calls);
    let mut end = Vec::new();
    expected.iter().for_each(|entry| end.extend(entry.encode()));
    let short =
        |call: &Call| !matches!(call, Call::Advance { cycles: n } | Call::Skip { limit: n } if *n > 1 << 20);
    let modes = [Mode::Arithmetic, Mode::SingleCycle];
    for mode in modes.into_iter().take(if calls.iter().all(short) { 2 } else { 1 }) {
        let log = log_of(&script[..], mode);
        assert_eq!(log.len(), LOG_HEADER.len() + calls.len() * ENTRY_LENGTH);
        assert_eq!(log[log.len() - end.len()..], end, "{mode:?} {calls:X?}");
    }
}

#[test]
fn timer_examples() {
    let quiet = [0; 4];
    check(&[advance(65535), read(UNIT), read(UNIT + 0x40)], &[passed(65535, quiet), value(0), value(0xFFFF)]);
    check(&[advance(65536), read(UNIT + 0x40)], &[passed(65536, quiet), value(0xFFFE)]);

    // A tick each 65536 cycles. 65535 of them bring timer 4 from 0xFFFF to 0, and the next one, in
    // cycle 65536 * 65536, finds it there.
    let timer4 = [read(UNIT + 0x40), read(UNIT + 0x48)];
    let last = passed(4_294_967_296, [0, 0, 0, 1]);
    check(&[&[skip(u64::MAX)], &timer4[..]].concat(), &[last, value(0xFFFF_FFFF), value(0x18)]);
    let before = passed(4_294_967_295, quiet);
    check(&[&[skip(4_294_967_295)], &timer4[..]].concat(), &[before, value(0), value(0x09)]);

    // Ticks in cycles 1, 5, 9 and 13: timer 1 falls to 1, falls to 0, underflows and takes 2, falls
    // to 1.
    let prescaler = [write(UNIT, 0), write(UNIT + 4, 3)];
    let periodic = [&prescaler[..], &timer(1, 2, 2, 0x0B)].concat();
    for (cycles, pulses, counter) in [(8, 0, 0), (9, 1, 2), (12, 1, 2), (13, 1, 1)] {
        let calls = [&periodic[..], &[advance(cycles), read(UNIT + 0x10)]].concat();
        check(&calls, &[passed(cycles, [pulses, 0, 0, 0]), value(counter)]);
    }
    // So a limit of 8 is one cycle short of the pulse. The next ones are three ticks of 4 cycles away.
    for (limit, cycles, pulses) in [(8, 8, 0), (9, 9, 1), (10, 9, 1)] {
        let calls = [&periodic[..], &[skip(limit)]].concat();
        check(&calls, &[passed(cycles, [pulses, 0, 0, 0])]);
    }
    let calls = [&periodic[..], &[skip(100), skip(11), skip(1), skip(12)]].concat();
    let pulse = [1, 0, 0, 0];
    check(&calls, &[passed(9, pulse), passed(11, quiet), passed(1, pulse), passed(12, pulse)]);

    // Timer 1 underflows at ticks 3, 6, 9 and 12. These bring timer 2 from 3 to 2, 1 and 0, and find it
    // there; tick 12 is in cycle 1 + 11 * 4.
    let chained = [&prescaler[..], &timer(1, 2, 2, 0x03), &timer(2, 3, 3, 0x2B)].concat();
    let calls = [&chained[..], &[skip(100), read(UNIT + 0x28)]].concat();
    check(&calls, &[passed(45, [0, 1, 0, 0]), value(0x3B)]);
    check(&[&chained[..], &[skip(44)]].concat(), &[passed(44, quiet)]);

    // Control 0x1B after the first pulse.
    for (written, left) in [(0x0B, 0x1B), (0x1B, 0x0B)] {
        let control = UNIT + 0x18;
        let calls =
            [&periodic[..], &[advance(12), read(control), write(control, written), read(control)]].concat();
        check(&calls, &[value(0x1B), value(0), value(left)]);
    }
}

#[test]
fn serial_examples() {
    check(&[write(CONTROL, 1), offer(7), read(STATUS)], &[value(0x8400_0087)]);
    let eight = [&[write(CONTROL, 1)][..], &[offer(7); 8], &[read(STATUS), offer(7)]].concat();
    check(&eight, &[value(0xA000_0087), number(8)]);

    let calls = [write(CONTROL, 5), offer(7), read(DATA), read(STATUS), write(CONTROL, 5)];
    let empty = at_level(value(0x8000_0086));
    check(&calls, &[number(0), at_level(number(0)), at_level(value(7)), empty, number(0)]);
}

#[test]
fn refusals_of_accesses() {
    let table = [
        (4, 0x8000_01FE, 3),
        (2, 0x8000_0101, 4),
        (1, 0x8000_01FF, 5),
        (3, 0x8000_0200, 1),
        (4, 0x8000_0000, 2),
        (4, 0x8000_0400, 2),
        // Sizes are judged first, wherever the address lies.
        (0, 0x8000_0100, 1),
        (255, 0xFFFF_FFFF, 1),
        // "The address" is the first byte's, and so is "its window".
        (4, 0x8000_00FE, 2),
        (4, 0x8010_01FE, 3),
        (2, 0x8000_01FF, 3),
        (4, 0x8010_05FD, 3),
        (4, 0xFFFF_FFFE, 2),
        (4, 0x8010_0600, 2),
        (2, 0x8000_0100, 5),
        (4, 0x8000_0102, 4),
        // Word offsets without a register; `registers` has them all.
        (4, 0x8000_01FC, 13),
        (4, 0x8000_02FC, 13),
        (4, 0x8000_030C, 13),
        (4, 0x8000_031C, 13),
        (4, 0x8000_0350, 13),
    ];
    for (size, address, refusal) in table {
        let (read, write) = (Call::Read { size, address }, Call::Write { size, address, value: u32::MAX });
        check(&[write, read], &[number(refusal); 2]);
    }
    // Where no window was before No. 4.
    check(&[read(0x8000_0200), write(0x8000_0200, 0), read(0x8000_0200)], &[number(0); 3]);
}

#[test]
fn serial_readings() {
    for (port, refusal) in [(6, 6), (255, 6), (5, 7)] {
        check(&[Call::Offer { port, byte: 1 }], &[number(refusal)]);
    }
    // A full queue with RE off is 7; RE off keeps the queue, and a DATA read then takes nothing.
    let full = [&[write(CONTROL, 1)][..], &[offer(7); 8], &[write(CONTROL, 0)]].concat();
    let calls = [&full[..], &[offer(1), read(DATA), read(STATUS)]].concat();
    check(&calls, &[number(7), value(0), value(0xA000_0087)]);
    // RE plays no part in the level, nor does TE.
    check(&[&full[..], &[write(CONTROL, 4)]].concat(), &[at_level(number(0))]);
    check(&[write(CONTROL, 8), read(CONTROL)], &[at_level(number(0)), at_level(value(0x8000_0008))]);
    check(&[write(CONTROL, 8), Call::Reset], &[number(0)]);
    // Emitted bytes, and the drop of one with TE off.
    let emitted = |byte| Entry { emitted: Some(byte), ..Entry::default() };
    check(&[write(DATA, 65), write(CONTROL, 2), write(DATA, 0xFF00)], &[number(0), number(0), emitted(0)]);
    check(&[write(CONTROL + 4, 0x1FF), read(CONTROL + 4), write(STATUS, 1)], &[value(0xFF), number(0)]);
}

#[test]
fn timer_readings() {
    let quiet = [0; 4];
    // Registers keep what they can hold.
    check(&[write(UNIT, 0x1_2345), read(UNIT)], &[value(0x2345)]);
    check(&[write(UNIT + 8, u32::MAX), read(UNIT + 8)], &[value(0x344)]);
    check(&[write(UNIT + 0x18, 0xFFFF_FFFE), read(UNIT + 0x18)], &[value(0x2A)]);
    // LD loads whatever EN is.
    let calls = [&timer(2, 1, 9, 4)[..], &[read(UNIT + 0x20), read(UNIT + 0x28)]].concat();
    check(&calls, &[value(9), value(0)]);
    // Timer 1 ignores CH; a limit of 0 passes nothing; a pulse at the limit counts. (Timer 4, which
    // runs at reset, is switched off.) The ticks are in cycle 1 and, counted from there, in each
    // second one: (2^64 - 1) / 2 of them, rounded down.
    let prescaler = [write(UNIT, 0), write(UNIT + 4, 1), write(UNIT + 0x48, 0)];
    let calls = [&prescaler[..], &timer(1, 0, 0, 0x2B), &[skip(0), skip(1), advance(u64::MAX)]].concat();
    check(&calls, &[passed(0, quiet), passed(1, [1, 0, 0, 0]), passed(u64::MAX, [(1 << 63) - 1, 0, 0, 0])]);
    // An underflow without IE sets IP and ends no skip.
    let calls = [&prescaler[..], &timer(1, 1, 1, 0x03), &[skip(1000), read(UNIT + 0x18)]].concat();
    check(&calls, &[passed(1000, quiet), value(0x13)]);
}

#[test]
fn prescaler_with_reload_0() {
    let quiet = [0; 4];
    // From value 0 each cycle ticks: the third one finds timer 1 at 0, and then each third.
    let prescaler = [write(UNIT, 0), write(UNIT + 4, 0)];
    let times = [skip(1 << 20), read(UNIT), advance(9), read(UNIT + 0x10)];
    let calls = [&prescaler[..], &timer(1, 2, 2, 0x0B), &times].concat();
    check(&calls, &[passed(3, [1, 0, 0, 0]), value(0), passed(9, [3, 0, 0, 0]), value(2)]);
    // From value 5 the first tick is in cycle 6, and then each cycle ticks.
    let prescaler = [write(UNIT, 5), write(UNIT + 4, 0)];
    let times = [advance(5), read(UNIT), skip(100), read(UNIT), skip(100), advance(10), read(UNIT)];
    let calls = [&prescaler[..], &timer(1, 0, 0, 0x0B), &times].concat();
    let one = passed(1, [1, 0, 0, 0]);
    let ten = passed(10, [10, 0, 0, 0]);
    check(&calls, &[passed(5, quiet), value(0), one, value(0), one, ten, value(0)]);
    check(&[&prescaler[..], &timer(1, 0, 0, 0x0B), &[skip(100)]].concat(), &[passed(6, [1, 0, 0, 0])]);
}

/// Ticks in cycles 1, 3, 5 and so on, and timer 4 off.
const ODD_TICKS: [Call; 3] = [
    Call::Write { size: 4, address: UNIT, value: 0 },
    Call::Write { size: 4, address: UNIT + 4, value: 1 },
    Call::Write { size: 4, address: UNIT + 0x48, value: 0 },
];

#[test]
fn timers_at_0() {
    let pulse = [1, 0, 0, 0];
    // With reload 0 and RS: tick 1 brings counter 1 to 0, and each later one underflows, from cycle 3
    // on.
    let times = [skip(100), skip(100), advance(10), read(UNIT + 0x10), read(UNIT + 0x18)];
    let calls = [&ODD_TICKS[..], &timer(1, 1, 0, 0x0B), &times].concat();
    check(&calls, &[passed(3, pulse), passed(2, pulse), passed(10, [5, 0, 0, 0]), value(0), value(0x1B)]);
    // A counter written 0 by hand: the next tick, after that of cycle 1, is in cycle 3.
    let times = [advance(1), write(UNIT + 0x10, 0), skip(100), read(UNIT + 0x10)];
    let calls = [&ODD_TICKS[..], &timer(1, 5, 6, 0x0B), &times].concat();
    check(&calls, &[passed(1, [0; 4]), number(0), passed(2, pulse), value(6)]);
    // LD together with EN loads a reload of 0.
    let calls = [&ODD_TICKS[..], &timer(1, 9, 0, 0x0F), &[skip(100), read(UNIT + 0x18)]].concat();
    check(&calls, &[passed(1, pulse), value(0x1B)]);
    // A timer before it that underflows at each tick: timer 2 falls to 1, to 0, and underflows at tick
    // 3, in cycle 5; the next three ticks take 6 cycles.
    let calls =
        [&ODD_TICKS[..], &timer(1, 0, 0, 0x03), &timer(2, 2, 2, 0x2B), &[skip(100), skip(100)]].concat();
    check(&calls, &[passed(5, [0, 1, 0, 0]), passed(6, [0, 1, 0, 0])]);
}

#[test]
fn one_shots() {
    let (quiet, pulse) = ([0; 4], [1, 0, 0, 0]);
    let state = [read(UNIT + 0x10), read(UNIT + 0x18)];
    // It underflows once, does not take the reload, and is disabled.
    let times = [advance(u64::MAX), skip(u64::MAX)];
    let calls = [&ODD_TICKS[..], &timer(1, 1, 5, 0x09), &times, &state].concat();
    let rest = [value(0xFFFF_FFFF), value(0x18)];
    check(&calls, &[&[passed(u64::MAX, pulse), passed(u64::MAX, quiet)], &rest[..]].concat());
    // Enabled again after its tick in cycle 3: ticks in cycles 2, 4 and so on. 2^32 - 1 of them bring
    // 0xFFFFFFFF to 0, and the one in cycle 2^33 finds it there. IP was kept.
    let again = [skip(u64::MAX), write(UNIT + 0x18, 0x09), skip((1 << 33) - 1)];
    let calls = [&ODD_TICKS[..], &timer(1, 1, 5, 0x09), &again, &state, &[skip(u64::MAX)], &state].concat();
    let before = [passed(3, pulse), number(0), passed((1 << 33) - 1, quiet), value(0), value(0x19)];
    check(&calls, &[&before[..], &[passed(1, pulse)], &rest].concat());
    // A few counts after it is enabled again, by single cycles too.
    let again = [skip(100), read(UNIT + 0x10), write(UNIT + 0x18, 0x19), advance(6)];
    let calls = [&ODD_TICKS[..], &timer(1, 0, 5, 0x09), &again, &state].concat();
    let entries =
        [passed(1, pulse), value(0xFFFF_FFFF), number(0), passed(6, quiet), value(0xFFFF_FFFC), value(0x09)];
    check(&calls, &entries);

    // Its one underflow, in cycle 3, drives the follower once; enabled again at 0, once more.
    let chain = [timer(1, 1, 0, 0x01), timer(2, 0, 7, 0x2B)].concat();
    let follower = read(UNIT + 0x20);
    let times = [skip(100), advance(1000), follower, write(UNIT + 0x10, 0), write(UNIT + 0x18, 0x01)];
    let calls = [&ODD_TICKS[..], &chain, &times, &[advance(1000), follower], &state].concat();
    let driven = [passed(3, [0, 1, 0, 0]), passed(1000, quiet), value(7), number(0), number(0)];
    let driven_again = [passed(1000, quiet), value(6), value(0xFFFF_FFFF), value(0x10)];
    check(&calls, &[&driven[..], &driven_again].concat());
    // A follower that needs two counts waits for ever.
    let calls = [&ODD_TICKS[..], &timer(1, 1, 0, 0x01), &timer(2, 1, 7, 0x2B), &[skip(u64::MAX), follower]];
    check(&calls.concat(), &[passed(u64::MAX, quiet), value(0)]);
}

#[test]
fn pulses_at_each_cycle() {
    let prescaler = [write(UNIT, 0), write(UNIT + 4, 0)];
    let all = [timer(1, 0, 0, 0x0B), timer(2, 0, 0, 0x2B), timer(3, 0, 0, 0x2B), timer(4, 0, 0, 0x0B)];
    let times = [advance(u64::MAX), skip(u64::MAX), advance(u64::MAX), read(UNIT + 0x10)];
    let calls = [&prescaler[..], &all.concat(), &times].concat();
    let most = passed(u64::MAX, [u64::MAX; 4]);
    check(&calls, &[most, passed(1, [1; 4]), most, value(0)]);
    // Timer 2 has 2^64 - 1 counts for its periods of 2, which leaves one count that brings it to 0;
    // timer 3 for its periods of 3, which leaves none, for 2^64 - 1 is 3 * 6148914691236517205; and
    // timer 4 as many counts as timer 3 has underflows.
    let all = [timer(1, 0, 0, 0x0B), timer(2, 1, 1, 0x2B), timer(3, 2, 2, 0x0B), timer(4, 0, 0, 0x2B)];
    let times = [advance(u64::MAX), read(UNIT + 0x20), read(UNIT + 0x30)];
    let third = 6_148_914_691_236_517_205;
    let calls = [&prescaler[..], &all.concat(), &times].concat();
    check(&calls, &[passed(u64::MAX, [u64::MAX, (1 << 63) - 1, third, third]), value(0), value(2)]);
}

#[test]
fn a_pulse_at_the_largest_limit() {
    // Periods of 2^16 cycles, 2^32 ticks and 2^16 counts: from the reloads, timer 2 first pulses in cycle
    // 2^64, and with the prescaler's value one less, a cycle earlier.
    let chain = [&timer(1, u32::MAX, u32::MAX, 0x03)[..], &timer(2, 0xFFFF, 0xFFFF, 0x2B)].concat();
    let times = [write(UNIT + 0x48, 0), skip(u64::MAX), skip(u64::MAX)];
    let pulse = [0, 1, 0, 0];
    let calls = [&chain[..], &times].concat();
    check(&calls, &[passed(u64::MAX, [0; 4]), passed(1, pulse)]);
    // The second pulse is another 2^64 cycles away.
    let calls = [&chain[..], &[write(UNIT, 0xFFFE)], &times, &[skip(2)]].concat();
    check(&calls, &[passed(u64::MAX, pulse), passed(u64::MAX, [0; 4]), passed(1, pulse)]);
}

#[test]
fn files() {
    let whole = b"\x41\x50\x53\x00\x01\x01\x04\x00\x00\x80\x00\x03\x08\0\0\0\0\0\0\0\0";
    let log = [b"\x41\x50\x4C\x00\x01\x00\x00\x00\x00\x00\x00\x01\x44", &[0; 40][..]].concat();
    assert_eq!(log_of(&whole[..], Mode::Arithmetic), log);

    // Every place of a log record: a byte emitted at level 1, and a skip's cycles and pulses. Prescaler
    // value 0x102 ticks in cycle 0x103, which finds timer 4 at 0.
    let calls =
        [write(CONTROL, 10), write(DATA, 0x3141), write(UNIT, 0x102), write(UNIT + 0x40, 0), skip(0x10203)];
    let log = log_of(&script_of(&calls)[..], Mode::Arithmetic);
    let (emission, last) = (&log[5 + 48..][..48], &log[5 + 4 * 48..]);
    assert_eq!(emission, [&[0, 1, 0x41, 1][..], &[0; 44]].concat());
    assert_eq!(last, [&[0, 0, 0, 1, 0, 0, 0, 0, 0, 0, 0, 0, 0, 0, 1, 3][..], &[0; 31], &[1]].concat());

    let headers: [(&[u8], &[u8]); 10] = [
        (b"", b"refused 11\n"),
        (b"APS\x00", b"refused 11\n"),
        (b"APL\x00\x01", b"refused 11\n"),
        (b"APL\x00\x02", b"refused 11\n"),
        (b"aPS\x00\x01", b"refused 11\n"),
        (b"APS\x00\x02", b"refused 12\n"),
        (b"APS\x01\x01", b"refused 12\n"),
        (b"APS\x00\x00\x00", b"refused 12\n"),
        (b"APS\x00\x01", b"APL\x00\x01"),
        (b"APS\x02\x01 and more", b"refused 12\n"),
    ];
    for (script, log) in headers {
        assert_eq!(log_of(script, Mode::Arithmetic), log, "{script:?}");
    }
}

#[test]
fn malformed_records_and_tails() {
    let table = [
        (read(CONTROL), (2, 3, 8, 15)),
        (write(CONTROL, 0), (2, 3, 8, 11)),
        (offer(1), (3, 3, 4, 15)),
        (advance(1), (1, 3, 4, 7)),
        (skip(1), (1, 3, 4, 7)),
        (Call::Reset, (1, 3, 4, 15)),
        (Call::Acknowledge, (1, 3, 4, 15)),
    ];
    for (call, (a, b, c, d)) in table {
        for index in 0..16 {
            let mut script = script_of(&[write(CONTROL, 8), call, read(CONTROL)]);
            script[5 + 16 + index] ^= 0x40;
            let log = log_of(&script[..], Mode::Arithmetic);
            let malformed = index == 0 || (a..=b).contains(&index) || (c..=d).contains(&index);
            assert_eq!(log[5 + 48] == 10, malformed, "{call:?} byte {index}");
            if malformed {
                let after = [at_level(number(10)).encode(), at_level(value(0x8000_0008)).encode()].concat();
                assert_eq!(log[5 + 48..], after);
            }
        }
    }
    for length in 1..16 {
        let script = [&script_of(&[write(CONTROL, 8)])[..], &Call::Reset.encode()[..length]].concat();
        assert_eq!(log_of(&script[..], Mode::Arithmetic)[5 + 48..], at_level(number(10)).encode());
    }
}

/// Gives one byte at a time, each after an interrupted read.
struct Halting<'a>(&'a [u8], bool);

impl Read for Halting<'_> {
    fn read(&mut self, buffer: &mut [u8]) -> io::Result<usize> {
        self.1 = !self.1;
        if self.1 {
            return Err(ErrorKind::Interrupted.into());
        }
        let length = buffer.len().min(1);
        self.0.read(&mut buffer[..length])
    }
}

#[test]
fn short_and_interrupted_reads() {
    let script = [&script_of(&[advance(3); 5000])[..], &[6; 5]].concat();
    let log = log_of(Halting(&script, false), Mode::Arithmetic);
    assert_eq!(log.len(), 5 + 5001 * 48);
    assert_eq!(log, log_of(&script[..], Mode::Arithmetic));
}
