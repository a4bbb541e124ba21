//! The slow run's time: one cycle of the machine after another, by the rule as 01 and 02, No. 3 and
//! No. 4 write it. It shares the registers with module `timer` and the lines with module `board`, but
//! none of their arithmetic.

use crate::board::Board;
use crate::timer::{Passed, TimerUnit, CH, EN, IE, IP, RS, TIMERS};

/// One cycle of the machine; tells which timers pulsed.
pub fn cycle(board: &mut Board) -> [bool; TIMERS] {
    let pulsed = unit_cycle(&mut board.timer_unit);
    board.raise_timers(pulsed);
    pulsed
}

fn unit_cycle(unit: &mut TimerUnit) -> [bool; TIMERS] {
    let mut pulsed = [false; TIMERS];
    // "if the prescaler value is 0 there is a tick [..] Otherwise it falls by 1."
    if unit.scaler > 0 {
        unit.scaler -= 1;
        return pulsed;
    }
    // No. 3: "A tick now sets the prescaler value to the reload even where that is 0".
    unit.scaler = unit.scaler_reload;
    // "One tick serves timers 1 to 4 in order."
    let mut previous_underflowed = false;
    for n in 1..=TIMERS {
        let timer = &mut unit.timers[n - 1];
        let enabled = timer.control & EN != 0;
        let chained = timer.control & CH != 0 && n != 1;
        let counts = enabled && (!chained || previous_underflowed);
        previous_underflowed = false;
        if !counts {
            continue;
        }
        // No. 3: "a counting timer at 0 underflows [..] A counter above 0 only falls."
        if timer.counter > 0 {
            timer.counter -= 1;
            continue;
        }
        previous_underflowed = true;
        // No. 3: "with RS it takes the reload, without it the counter stays at 0xFFFFFFFF and EN is
        // cleared".
        if timer.control & RS != 0 {
            timer.counter = timer.reload;
        } else {
            timer.counter = 0xFFFF_FFFF;
            timer.control &= !EN;
        }
        // "IP is set; [..] with IE there is one pulse, whether or not IP was set already."
        timer.control |= IP;
        pulsed[n - 1] = timer.control & IE != 0;
    }
    pulsed
}

/// "An advance does one cycle as often as its span says."
pub fn advance(board: &mut Board, cycles: u64) -> Passed {
    let mut passed = Passed::default();
    while passed.cycles < cycles {
        step(board, &mut passed);
    }
    passed
}

/// "A skip does one cycle after another while none had a pulse of any timer and the limit isn't
/// reached."
pub fn skip(board: &mut Board, limit: u64) -> Passed {
    let mut passed = Passed::default();
    while passed.pulses == [0; TIMERS] && passed.cycles < limit {
        step(board, &mut passed);
    }
    passed
}

fn step(board: &mut Board, passed: &mut Passed) {
    let pulsed = cycle(board);
    passed.cycles += 1;
    for (count, pulsed) in passed.pulses.iter_mut().zip(pulsed) {
        *count += u64::from(pulsed);
    }
}
