//! The generator's promises.

use std::collections::BTreeSet;
use std::io::{BufRead, BufReader};
use std::process::{Command, Output, Stdio};

use model::board::Board;
use model::generator::{self, Family, FAMILIES, SHORT_TOTAL};
use model::script::{execute, Call, Entry, Mode, CALL_LENGTH, SCRIPT_HEADER};
use model::timer::{Timer, TimerUnit, CH, EN, IE, IP, RS};

/// The script of a seed is fixed for one state of the generator, which no slip is to change: FNV-1a of
/// the first 256 scripts.
#[test]
fn scripts_are_fixed() {
    let bytes = (0..256).flat_map(generator::script);
    let hash = bytes.fold(0xCBF2_9CE4_8422_2325_u64, |hash, byte| {
        (hash ^ u64::from(byte)).wrapping_mul(0x0100_0000_01B3)
    });
    assert_eq!(hash, 0x6CC4_B80E_EDEE_222A);
}

#[test]
fn twenty_two_seeds_hold_every_family() {
    for first in (0..50).chain(u64::MAX - 50..=u64::MAX - 21) {
        for family in FAMILIES {
            assert!((first..=first + 21).any(|seed| generator::family(seed) == family), "{first} {family:?}");
        }
    }
}

/// The spans that a script's advances and skips ask for.
fn spans(seed: u64) -> Vec<u64> {
    let script = generator::script(seed);
    let records = script[SCRIPT_HEADER.len()..].chunks_exact(CALL_LENGTH);
    let spans = records.filter_map(|record| match Call::decode(record.try_into().unwrap()) {
        Some(Call::Advance { cycles }) => Some(cycles),
        Some(Call::Skip { limit }) => Some(limit),
        _ => None,
    });
    spans.collect()
}

#[test]
fn scripts_of_short_spans_are_short() {
    for family in [Family::Short, Family::Interrupts] {
        assert!(family.has_short_spans() && family.description().contains(" 100,000 cycles "));
        for seed in seeds(family, 2000) {
            assert!(spans(seed).iter().sum::<u64>() <= SHORT_TOTAL, "seed {seed}");
        }
    }
    assert_eq!(SHORT_TOTAL, 100_000);
}

#[test]
fn no_time_passes_in_scripts_of_windows_streams_and_priorities() {
    for family in [Family::Windows, Family::Stream, Family::Priorities] {
        for seed in seeds(family, 2000) {
            assert!(spans(seed).is_empty(), "seed {seed}");
        }
    }
}

fn seeds(family: Family, end: u64) -> impl Iterator<Item = u64> {
    (0..end).filter(move |&seed| generator::family(seed) == family)
}

/// Does the whole records of a script, all well formed, and looks at each with its answer and at the
/// machine before it.
fn follow_machine(seed: u64, mut look: impl FnMut(Call, Entry, &Board)) {
    let script = generator::script(seed);
    let mut board = Board::RESET;
    for record in script[SCRIPT_HEADER.len()..].as_chunks().0 {
        let before = board.clone();
        let entry = execute(&mut board, record, Mode::Arithmetic);
        look(Call::decode(record).unwrap(), entry, &before);
    }
}

/// The same with the timer unit alone.
fn follow(seed: u64, mut look: impl FnMut(Call, Entry, &TimerUnit)) {
    follow_machine(seed, |call, entry, board| look(call, entry, &board.timer_unit));
}

#[test]
fn streams_are_long() {
    // Scripts in which a port accepts more than 256 and more than 65,536 bytes with no reset; scripts
    // that emit as many; and scripts with resets.
    let (mut accept, mut emit, mut reset) = ([0; 2], [0; 2], 0);
    for seed in seeds(Family::Stream, 22 * 64) {
        let (mut accepted, mut most, mut emitted, mut resets) = ([0; 6], 0, 0, 0);
        follow(seed, |call, entry, _| match call {
            Call::Offer { port, .. } if entry.refusal == 0 => {
                accepted[usize::from(port)] += 1;
                most = most.max(accepted[usize::from(port)]);
            }
            Call::Reset => {
                resets += 1;
                (accepted, emitted) = ([0; 6], 0);
            }
            _ => emitted += u32::from(entry.emitted.is_some()),
        });
        assert!(resets == 0 || resets >= 300, "seed {seed}");
        reset += u32::from(resets > 0);
        for (index, bound) in [256, 65_536].into_iter().enumerate() {
            accept[index] += u32::from(most > bound);
            emit[index] += u32::from(emitted > bound);
        }
    }
    assert!(reset == 2 && accept[0] >= 24 && accept[1] == 2 && emit[0] >= 8 && emit[1] == 1);
}

/// A queue may be a ring: each of its places is filled and emptied at each level.
#[test]
fn streams_go_round() {
    const PORTS: [u32; 6] = [0x8000_0100, 0x8010_0100, 0x8010_0200, 0x8010_0300, 0x8010_0400, 0x8010_0500];
    let mut filled = [[false; 8]; 8];
    let mut emptied = [[false; 8]; 8];
    for seed in seeds(Family::Stream, 122) {
        let (mut accepted, mut taken) = ([0; 6], [0; 6]);
        follow(seed, |call, entry, _| match call {
            Call::Offer { port, .. } if entry.refusal == 0 => {
                let port = usize::from(port);
                filled[taken[port] % 8][accepted[port] - taken[port]] = true;
                accepted[port] += 1;
            }
            // A byte that is read is never 0.
            Call::Read { address, .. } if PORTS.contains(&address) && entry.value > 0 => {
                let port = PORTS.iter().position(|&base| base == address).unwrap();
                emptied[taken[port] % 8][accepted[port] - taken[port] - 1] = true;
                taken[port] += 1;
            }
            Call::Reset => (accepted, taken) = ([0; 6], [0; 6]),
            _ => {}
        });
    }
    assert_eq!([filled, emptied], [[[true; 8]; 8]; 2]);
}

/// How far away the first pulse of four timers in a chain is, in cycles.
fn distance(unit: &TimerUnit) -> f64 {
    let controls = unit.timers.each_ref().map(|timer| timer.control & (EN | RS | IE | CH));
    if controls != [EN | RS, EN | RS | CH, EN | RS | CH, EN | RS | IE | CH] {
        return 0.0;
    }
    let mut nth = 1.0;
    for timer in unit.timers.iter().rev() {
        nth = f64::from(timer.counter) + 1.0 + (nth - 1.0) * (f64::from(timer.reload) + 1.0);
    }
    nth * (f64::from(unit.scaler_reload) + 1.0)
}

#[test]
fn chains_are_long() {
    let (mut farthest, mut pulses, mut pulses_in_all, mut waits) = (0.0_f64, 0, 0, 0);
    // Skips to a pulse in the last cycle of the largest limit.
    let mut to_the_last = 0;
    for seed in seeds(Family::Chains, 500) {
        let (mut in_all, mut waited) = (0, 0);
        follow(seed, |call, entry, unit| match call {
            Call::Skip { .. } | Call::Advance { .. } => {
                farthest = farthest.max(distance(unit));
                let at_the_last = entry.passed.cycles == u64::MAX && entry.passed.pulses != [0; 4];
                to_the_last += u32::from(at_the_last && matches!(call, Call::Skip { .. }));
                pulses = pulses.max(entry.passed.pulses[0]);
                in_all += u128::from(entry.passed.pulses[0]);
                waited += 1;
            }
            Call::Reset => (in_all, waited) = (0, 0),
            _ => {}
        });
        pulses_in_all = pulses_in_all.max(in_all);
        waits = waits.max(waited);
    }
    assert_eq!(farthest, 2.0_f64.powi(144));
    assert!(
        pulses == u64::MAX && pulses_in_all > u64::MAX.into() && waits > 256 && to_the_last > 1,
        "{pulses} {pulses_in_all} {waits} {to_the_last}"
    );
}

/// Skips end with the cycle of the next pulse, or with the one before it or after it.
#[test]
fn skips_are_aimed_at_pulses() {
    for family in [Family::Timers, Family::Short] {
        let mut aimed = [0; 3];
        for seed in seeds(family, 700) {
            follow_machine(seed, |call, _, board| {
                let Call::Skip { limit } = call else { return };
                let next = board.clone().skip(u64::MAX);
                if next.pulses != [0; 4] && next.cycles > 1 && limit.abs_diff(next.cycles) <= 1 {
                    aimed[(limit - (next.cycles - 1)) as usize] += 1;
                }
            });
        }
        assert!(aimed.iter().all(|&count| count >= 20), "{family:?} {aimed:?}");
    }
}

/// Time passes in all the states that matter.
#[test]
fn timers_are_in_rare_states() {
    let is = |timer: &Timer, bits: u32| timer.control & bits == bits;
    let at_0 = |timer: &Timer| is(timer, EN) && timer.counter == 0;
    let underflows_always = |timer: &Timer| at_0(timer) && is(timer, RS) && timer.reload == 0;
    let one_shot = |timer: &Timer| is(timer, EN) && !is(timer, RS);
    let enabled_again = |timer: &Timer| is(timer, EN | IP) && timer.counter == u32::MAX;
    for family in [Family::Timers, Family::Short] {
        let mut seen = [0; 8];
        for seed in seeds(family, 500) {
            follow(seed, |_, Entry { passed, .. }, TimerUnit { scaler, scaler_reload, timers, .. }| {
                let states = [
                    *scaler_reload == 0 && *scaler == 0,
                    *scaler_reload == 0 && *scaler > 0,
                    timers.iter().any(at_0),
                    timers.iter().any(underflows_always),
                    timers.iter().any(enabled_again),
                    timers.windows(2).any(|pair| underflows_always(&pair[0]) && is(&pair[1], EN | CH)),
                    timers.windows(2).any(|pair| one_shot(&pair[0]) && is(&pair[1], EN | CH)),
                    passed.cycles > 1 && passed.pulses.contains(&passed.cycles),
                ];
                if passed.cycles > 0 {
                    seen.iter_mut().zip(states).for_each(|(count, state)| *count += u32::from(state));
                }
            });
        }
        assert!(seen.iter().all(|&count| count >= 5), "{family:?} {seen:?}");
    }
}

/// Acknowledges are met with one and with many lines waiting, in the states in which their order, their
/// mask and what they clear and note can be told.
#[test]
fn lines_are_in_rare_states() {
    const LINE_12: u32 = 1 << 12;
    const EXTENDED: u32 = 0xFFFF_0000;
    for family in [Family::Interrupts, Family::Priorities] {
        let mut seen = [0; 16];
        for seed in seeds(family, 1000) {
            follow_machine(seed, |call, entry, Board { irqmp, .. }| {
                if call != Call::Acknowledge {
                    return;
                }
                let set = irqmp.pending | irqmp.force;
                let waiting = set & irqmp.mask;
                let (extended, own) = (waiting & EXTENDED, waiting & !EXTENDED);
                let states = [
                    waiting == 0 && set == 0,
                    waiting == 0 && set != 0,
                    waiting == 0 && irqmp.extended_acknowledge != 0,
                    set & !irqmp.mask & EXTENDED > extended && extended != 0,
                    waiting.count_ones() > 20,
                    // Levels that put a lower line first.
                    own & irqmp.level != 0 && own & !irqmp.level > own & irqmp.level,
                    // Extended lines alone, beside lines that go before and after 12, and beside 12.
                    extended != 0 && own == 0,
                    extended.count_ones() > 1,
                    extended != 0 && own >> 13 != 0 && entry.value == 12,
                    extended != 0 && own >> 13 != 0 && entry.value > 12,
                    extended != 0 && own & irqmp.level != 0 && entry.value < 12,
                    extended != 0 && irqmp.mask & LINE_12 == 0 && set & LINE_12 != 0,
                    extended != 0 && own & irqmp.force & LINE_12 != 0 && entry.value == 12,
                    // Line 12 itself, and another one, after an extended line.
                    extended == 0 && entry.value == 12 && irqmp.extended_acknowledge != 0,
                    entry.value != 12 && entry.value != 0 && irqmp.extended_acknowledge != 0,
                    entry.value != 0 && irqmp.pending & irqmp.force & 1 << entry.value != 0,
                ];
                seen.iter_mut().zip(states).for_each(|(count, state)| *count += u32::from(state));
            });
        }
        assert!(seen.iter().all(|&count| count >= 5), "{family:?} {seen:?}");
    }
}

/// Rises are met of each port and by each cause, and the lines of one and of many timers, pending already
/// or not; and levels that stay or fall while the line isn't, or is, pending.
#[test]
fn lines_rise_by_every_cause() {
    const PORT_LINES: [u32; 6] = [2, 17, 18, 19, 20, 21];
    let (mut by_control, mut by_byte, mut stays, mut falls) = ([0; 6], [0; 6], 0, 0);
    let (mut pulsed, mut again) = ([0; 5], 0);
    for seed in seeds(Family::Interrupts, 1000) {
        follow_machine(seed, |call, entry, board| {
            let (before, after) = (board.levels(), entry.levels);
            for (port, line) in PORT_LINES.into_iter().enumerate() {
                let is_set = |levels: u8| levels >> port & 1 == 1;
                let pending = board.irqmp.pending >> line & 1 == 1;
                match (is_set(before), is_set(after), call) {
                    (false, true, Call::Write { .. }) => by_control[port] += 1,
                    (false, true, Call::Offer { .. }) => by_byte[port] += 1,
                    (true, true, Call::Offer { port: own, .. }) if usize::from(own) == port => {
                        stays += u32::from(!pending)
                    }
                    (true, false, Call::Write { .. }) => falls += u32::from(pending),
                    _ => {}
                }
            }
            let timers = entry.passed.pulses.map(|pulses| pulses > 0);
            pulsed[timers.iter().filter(|&&pulsed| pulsed).count()] += 1;
            again += u32::from((0..4).any(|n| timers[n] && board.irqmp.pending >> (8 + n) & 1 == 1));
        });
    }
    let counts = [&by_control[..], &by_byte, &[stays, falls], &pulsed, &[again]].concat();
    assert!(counts.iter().all(|&count| count >= 5), "{counts:?}");
}

/// Most mixed scripts have something to do with the controller before the end, which reads everything.
#[test]
fn mixed_scripts_meet_the_controller() {
    let (mut met, mut all) = (0, 0);
    for seed in seeds(Family::Mixed, 1000) {
        let mut writes = 0;
        follow(seed, |call, _, _| match call {
            Call::Write { address: 0x8000_0200..0x8000_0300, .. } | Call::Acknowledge => writes += 1,
            _ => {}
        });
        met += u32::from(writes > 0);
        all += 1;
    }
    assert!(met * 10 > all * 8, "{met} of {all}");
}

const CONTROLLER: u32 = 0x8000_0200;
const UNIT: u32 = 0x8000_0300;
const BASES: [u32; 8] =
    [0x8000_0100, CONTROLLER, UNIT, 0x8010_0100, 0x8010_0200, 0x8010_0300, 0x8010_0400, 0x8010_0500];

/// The offsets of the registers in the window at a base.
fn registers(base: u32) -> &'static [u32] {
    match base {
        UNIT => &[0x00, 0x04, 0x08, 0x10, 0x14, 0x18, 0x20, 0x24, 0x28, 0x30, 0x34, 0x38, 0x40, 0x44, 0x48],
        CONTROLLER => &[0x00, 0x04, 0x08, 0x0C, 0x40, 0xC0],
        _ => &[0x00, 0x04, 0x08, 0x0C],
    }
}

/// The address, the size and whether it is a write.
fn access(call: Call) -> Option<(u32, u8, bool)> {
    match call {
        Call::Read { size, address } => Some((address, size, false)),
        Call::Write { size, address, .. } => Some((address, size, true)),
        _ => None,
    }
}

/// Whether all records of its scripts are well formed, and the header.
fn is_well_formed(family: Family) -> bool {
    !matches!(family, Family::Damaged | Family::Headers | Family::Bytes)
}

/// Each word without a register is read and written within eight turns of all families, wherever they
/// start; and accesses of other sizes, unaligned ones and those past the end are met there.
#[test]
fn every_word_without_a_register_is_met() {
    for first in [0, 22 * 1001] {
        let (mut words, mut others) = (BTreeSet::new(), BTreeSet::new());
        for seed in (first..first + 8 * 22).filter(|&seed| generator::family(seed) == Family::Windows) {
            follow(seed, |call, entry, _| {
                let Some((address, size, write)) = access(call) else { return };
                let base = address & !0xFF;
                match entry.refusal {
                    13 => drop(words.insert((address, write))),
                    // Past the end, unaligned or short, in the unit, the controller or a port.
                    3..=5 if !registers(base).contains(&(address & 0xFC)) => {
                        let base = if matches!(base, UNIT | CONTROLLER) { base } else { 0 };
                        others.insert((entry.refusal, size, base, write));
                    }
                    _ => {}
                }
            });
        }
        for base in BASES {
            for write in [false, true] {
                let met = words.iter().filter(|word| word.0 & !0xFF == base && word.1 == write).count();
                assert_eq!(met, 64 - registers(base).len(), "{base:X} {write}");
            }
        }
        // 3 and 4 at sizes 2 and 4, and 5 at 1 and 2.
        assert_eq!(others.len(), 6 * 3 * 2, "{others:X?}");
    }
}

/// Two in five of the accesses of `Windows` are refused by 13. In the other families but `Chains` there are
/// some as well, and most accesses reach a register.
#[test]
fn most_accesses_reach_a_register() {
    for family in FAMILIES.into_iter().filter(|&family| is_well_formed(family)) {
        let (mut all, mut reached, mut refused) = (0, 0, 0);
        for seed in seeds(family, 500) {
            follow(seed, |call, entry, _| {
                if access(call).is_some() {
                    all += 1;
                    reached += u32::from(entry.refusal == 0);
                    refused += u32::from(entry.refusal == 13);
                }
            });
        }
        let (reached, refused) = (1000 * reached / all, 1000 * refused / all);
        if family == Family::Windows {
            assert!(reached > 400 && (200..500).contains(&refused), "{reached} {refused}");
        } else {
            let least = u32::from(family != Family::Chains);
            assert!(reached > 950 && (least..30).contains(&refused), "{family:?} {reached} {refused}");
        }
    }
}

/// Words without a register are accessed while their device has something to lose: bytes that wait with RE
/// and TE on, a level at 1, one that is 1 by a byte that has gone, a set IP, a running timer, a noted line.
#[test]
fn refused_accesses_meet_devices_in_use() {
    let mut seen = [[0; 7]; 2];
    for seed in (0..500).filter(|&seed| is_well_formed(generator::family(seed))) {
        follow_machine(seed, |call, entry, board| {
            let Some((address, _, write)) = access(call) else { return };
            if entry.refusal != 13 {
                return;
            }
            let base = address & !0xFF;
            let port =
                BASES.iter().position(|&other| other == base).filter(|_| !matches!(base, UNIT | CONTROLLER));
            let mut board = board.clone();
            let (mut control, mut status, mut level) = (0, 0, false);
            if let Some(index) = port {
                let port = index.saturating_sub(2);
                control = board.read(base + 8, 4).unwrap();
                status = board.read(base + 4, 4).unwrap();
                level = board.levels() >> port & 1 == 1;
            }
            let timers = &board.timer_unit.timers;
            let states = [
                control & 3 == 3 && status & 1 == 1,
                level && status & 1 == 1,
                level && status & 1 == 0 && control & 8 == 0,
                base == UNIT && timers.iter().any(|timer| timer.control & IP != 0),
                base == UNIT
                    && timers
                        .iter()
                        .any(|timer| timer.control & (EN | RS) == EN | RS && timer.counter != timer.reload),
                base == CONTROLLER && board.irqmp.extended_acknowledge != 0 && board.irqmp.pending != 0,
                port.is_none() && board.levels() != 0,
            ];
            seen[usize::from(write)]
                .iter_mut()
                .zip(states)
                .for_each(|(count, state)| *count += u32::from(state));
        });
    }
    assert!(seen.iter().flatten().all(|&count| count >= 10), "{seen:?}");
}

fn generate(arguments: &[&str]) -> Output {
    Command::new(env!("CARGO_BIN_EXE_generate")).args(arguments).output().unwrap()
}

fn lines(arguments: &[&str]) -> Vec<String> {
    let output = generate(arguments);
    assert!(output.status.success() && output.stderr.is_empty(), "{arguments:?}");
    let text = String::from_utf8(output.stdout).unwrap();
    assert!(text.ends_with('\n'), "{arguments:?}");
    text.lines().map(str::to_string).collect()
}

#[test]
fn families() {
    let lines = lines(&["--families"]);
    assert_eq!(lines.len(), FAMILIES.len());
    for (line, family) in lines.iter().zip(FAMILIES) {
        let (name, description) = line.split_once('\t').unwrap();
        assert_eq!(name, format!("{family:?}").to_lowercase());
        assert!(!description.is_empty() && !description.contains('\t'), "{line}");
    }
}

#[test]
fn lists() {
    for (first, last) in [(0, 0), (0, 99), (7, 8), (123_456, 125_000), (u64::MAX - 20, u64::MAX)] {
        let expected: Vec<_> = (first..=last)
            .map(|seed| format!("{seed} {:?}", generator::family(seed)).to_lowercase())
            .collect();
        assert_eq!(lines(&["--list", &first.to_string(), &last.to_string()]), expected);
    }
}

/// The first lines of a list without an end, so to say, and then no reader.
#[test]
fn lists_stream() {
    let mut child = Command::new(env!("CARGO_BIN_EXE_generate"))
        .args(["--list", "0", "18446744073709551615"])
        .stdout(Stdio::piped())
        .stderr(Stdio::piped())
        .spawn()
        .unwrap();
    let mut line = String::new();
    BufReader::new(child.stdout.take().unwrap()).read_line(&mut line).unwrap();
    let output = child.wait_with_output().unwrap();
    assert_eq!(line, "0 short\n");
    assert!(output.status.success() && output.stderr.is_empty(), "{output:?}");
}

#[test]
fn scripts_of_the_program() {
    for seed in [0, 15, u64::MAX] {
        assert_eq!(generate(&[&seed.to_string()]).stdout, generator::script(seed));
    }
    assert_eq!(generate(&["--batch", "100", "5"]).stdout, generator::batch(5, 100));
}

#[test]
fn usage() {
    let usage = generate(&["--help"]);
    assert!(usage.status.success() && usage.stderr.is_empty());
    assert!(usage.stdout.starts_with(b"usage: generate "));
    assert_eq!(generate(&["-h"]), usage);
    let table: [&[&str]; 17] = [
        &[],
        &["x"],
        &["-1"],
        &["18446744073709551616"],
        &["1", "2"],
        &["--bogus"],
        &["--bogus", "1"],
        &["--batch", "1"],
        &["--batch", "x", "1"],
        &["--families", "1"],
        &["--help", "1"],
        &["--list"],
        &["--list", "1"],
        &["--list", "2", "1"],
        &["--list", "1", "x"],
        &["--list", "0", "18446744073709551616"],
        &["--list", "1", "2", "3"],
    ];
    for arguments in table {
        let output = generate(arguments);
        assert_eq!(output.status.code(), Some(2), "{arguments:?}");
        assert!(output.stdout.is_empty() && output.stderr == usage.stdout, "{arguments:?}");
    }
}
