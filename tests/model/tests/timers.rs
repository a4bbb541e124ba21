//! The arithmetic of time against single cycles, on machines with a random timer unit and interrupt
//! controller.

use model::board::Board;
use model::irqmp::Irqmp;
use model::random::Random;
use model::slow;
use model::timer::{Passed, Timer, TimerUnit};

fn scaler(random: &mut Random) -> u16 {
    match random.below(8) {
        0 => 0,
        1 => 0xFFFF,
        2 => random.word() as u16,
        _ => random.below(5) as u16,
    }
}

fn counter(random: &mut Random) -> u32 {
    match random.below(8) {
        0 => 0,
        1 => u32::MAX - random.below(2) as u32,
        2 => random.word(),
        _ => random.below(5) as u32,
    }
}

fn board(random: &mut Random) -> Board {
    let mut board = Board::RESET;
    let timers = [(); 4].map(|()| Timer {
        counter: counter(random),
        reload: counter(random),
        control: random.word() & 0x3B | random.pick(&[0, 1, 1]),
    });
    board.timer_unit = TimerUnit { scaler: scaler(random), scaler_reload: scaler(random), df: false, timers };
    board.irqmp = Irqmp {
        level: random.word() & 0xFFFE,
        pending: random.word() & random.word() & 0xFFFF_FFFE,
        force: random.word() & 0xFFFE,
        mask: random.word() & 0xFFFF_FFFE,
        extended_acknowledge: 16 + random.below(16) as u32,
    };
    board
}

/// What time has to do with.
fn state(board: &Board) -> (&TimerUnit, &Irqmp) {
    (&board.timer_unit, &board.irqmp)
}

/// A controller with the lines of timers that pulsed set: "A pulse of timer n sets pending line 7+n".
fn raised(irqmp: &Irqmp, pulses: [u64; 4]) -> Irqmp {
    let lines = (1..=4).filter(|&n| pulses[n - 1] > 0).fold(0, |lines, n| lines | 1 << (7 + n));
    Irqmp { pending: irqmp.pending | lines, ..irqmp.clone() }
}

type Pass = fn(&mut Board, u64) -> Passed;

#[test]
fn short_spans() {
    let mut random = Random::new(1);
    for _ in 0..20_000 {
        let start = board(&mut random);
        let span = random.below(400);
        let calls: [(Pass, Pass); 2] = [(Board::advance, slow::advance), (Board::skip, slow::skip)];
        for (fast, slow) in calls {
            let (mut a, mut b) = (start.clone(), start.clone());
            let passed = fast(&mut a, span);
            assert_eq!(passed, slow(&mut b, span), "{start:X?} {span}");
            assert_eq!(state(&a), state(&b), "{start:X?} {span}");
            assert_eq!(a.irqmp, raised(&start.irqmp, passed.pulses), "{start:X?} {span}");
        }
    }
}

fn any_span(random: &mut Random) -> u64 {
    match random.below(8) {
        0 => u64::MAX - random.below(3),
        _ => random.next_u64() >> random.below(64),
    }
}

/// One cycle more than a span of any length is that span and then a single cycle. With
/// `short_spans` this carries the single cycle over to every span.
#[test]
fn long_advances() {
    let mut random = Random::new(2);
    for _ in 0..200_000 {
        let start = board(&mut random);
        let span = any_span(&mut random).min(u64::MAX - 1);
        let (mut a, mut b) = (start.clone(), start.clone());
        let longer = a.advance(span + 1);
        let mut shorter = b.advance(span);
        for (count, pulsed) in shorter.pulses.iter_mut().zip(slow::cycle(&mut b)) {
            *count += u64::from(pulsed);
        }
        assert_eq!((longer.cycles, longer.pulses), (span + 1, shorter.pulses), "{start:X?} {span}");
        assert_eq!(state(&a), state(&b), "{start:X?} {span}");
    }
}

/// A skip has no pulse before its last cycle, and stops short of its limit at a pulse only.
#[test]
fn long_skips() {
    let mut random = Random::new(3);
    for _ in 0..200_000 {
        let start = board(&mut random);
        let limit = any_span(&mut random).max(1);
        let (mut a, mut b) = (start.clone(), start.clone());
        let skipped = a.skip(limit);
        assert!((1..=limit).contains(&skipped.cycles), "{start:X?} {limit}");
        assert_eq!(b.advance(skipped.cycles - 1).pulses, [0; 4], "{start:X?} {limit}");
        assert_eq!(slow::cycle(&mut b).map(u64::from), skipped.pulses, "{start:X?} {limit}");
        assert!(skipped.cycles == limit || skipped.pulses != [0; 4], "{start:X?} {limit}");
        assert_eq!(state(&a), state(&b), "{start:X?} {limit}");
    }
}
