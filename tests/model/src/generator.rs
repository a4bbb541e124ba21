//! Scripts determined by a seed, varied and biased to rare states. The script of a seed is fixed for
//! one state of this generator, and a later one may have another. It asks nothing of the model: it
//! remembers what it wrote to the timer unit, to choose spans near the unit's periods and pulses, and
//! how many bytes wait in a `Stream`, to keep them flowing.

use std::ops::Range;

use crate::random::Random;
use crate::script::{Call, CALL_LENGTH, SCRIPT_HEADER};
use crate::{irqmp, timer, uart};

#[derive(Clone, Copy, Debug, PartialEq, Eq)]
pub enum Family {
    /// Timer units with spans of every length.
    Timers,
    /// Timer units with small periods and at most `SHORT_TOTAL` cycles, for the single-cycle mode.
    Short,
    /// Serial ports.
    Serial,
    /// Accesses at and around the windows' edges, of all sizes, and where a window has no register.
    Windows,
    /// All of the above.
    Mixed,
    /// The same with malformed records between.
    Damaged,
    /// Good and bad headers.
    Headers,
    /// Random bytes.
    Bytes,
    /// Record counts around multiples of 4096 bytes.
    Long,
    /// Serial ports in long use, at all fill levels of their queues. No time passes.
    Stream,
    /// Timers in long use: chains with the pulses far away, and pulses beyond 32 and 64 bits.
    Chains,
    /// The interrupt controller with all that raises its lines, and at most `SHORT_TOTAL` cycles.
    Interrupts,
    /// The interrupt controller by itself. No time passes.
    Priorities,
}

pub const FAMILIES: [Family; 13] = [
    Family::Timers,
    Family::Short,
    Family::Serial,
    Family::Windows,
    Family::Mixed,
    Family::Damaged,
    Family::Headers,
    Family::Bytes,
    Family::Long,
    Family::Stream,
    Family::Chains,
    Family::Interrupts,
    Family::Priorities,
];

impl Family {
    pub fn name(self) -> &'static str {
        match self {
            Family::Timers => "timers",
            Family::Short => "short",
            Family::Serial => "serial",
            Family::Windows => "windows",
            Family::Mixed => "mixed",
            Family::Damaged => "damaged",
            Family::Headers => "headers",
            Family::Bytes => "bytes",
            Family::Long => "long",
            Family::Stream => "stream",
            Family::Chains => "chains",
            Family::Interrupts => "interrupts",
            Family::Priorities => "priorities",
        }
    }

    /// What its scripts hold, in a line.
    pub fn description(self) -> &'static str {
        match self {
            Family::Timers => "the timer unit, with advances and skips of every length up to 2^64-1 cycles",
            Family::Short => {
                "the timer unit with small periods; advances and skips ask for at most 100,000 cycles in \
                 all, so that a simulator that steps single cycles can be tried"
            }
            Family::Serial => {
                "the serial ports: full and drained queues, the receiver off; now and then an advance or a \
                 skip, of any length"
            }
            Family::Windows => {
                "accesses of all sizes at and around the windows' edges, and where a window has no register; \
                 no time passes"
            }
            Family::Mixed => "timers, serial, interrupts and windows, mixed",
            Family::Damaged => "mixed with malformed records between, or each kind with each blank set",
            Family::Headers => "good and bad headers, some cut short, with a few records of mixed or none",
            Family::Bytes => "random bytes, most of them behind a good header",
            Family::Long => "mixed, with 250 to 4,101 records, and a part of one more behind most of them",
            Family::Stream => {
                "the serial ports in long use: hundreds of bytes through a queue between two resets; of 32 \
                 scripts in a row one has more than 65,536 bytes (140,000 or 205,000 records), and one has \
                 300 resets and more; no time passes"
            }
            Family::Chains => {
                "timers in long use: chains whose pulses are up to 2^144 cycles away, up to 2^64-1 pulses in \
                 a wait and more than 2^64 in a few, hundreds of waits"
            }
            Family::Interrupts => {
                "the interrupt controller: lines raised by CONTROL writes, by offered bytes and by pulses, \
                 masked, cleared and acknowledged; at most 100,000 cycles in all, as in short"
            }
            Family::Priorities => {
                "the interrupt controller by itself: pending and forced lines, up to all of them, at both \
                 levels, the extended ones beside line 12, acknowledged in a row; no time passes"
            }
        }
    }

    /// Whether time passes in its scripts, but so little that single cycles can pass it.
    pub fn has_short_spans(self) -> bool {
        matches!(self, Family::Short | Family::Interrupts)
    }
}

/// The most cycles that the advances and skips of a script with short spans ask for in all.
pub const SHORT_TOTAL: u64 = 100_000;

/// The families of seeds in a row, over and over.
const TURNS: [Family; 22] = {
    use Family::*;
    [
        Short, Timers, Mixed, Interrupts, Serial, Short, Windows, Priorities, //
        Timers, Headers, Short, Damaged, Interrupts, Timers, Serial, Short, //
        Priorities, Bytes, Mixed, Long, Stream, Chains,
    ]
};

/// The family of a seed. Any 22 seeds in a row hold every family.
pub fn family(seed: u64) -> Family {
    TURNS[(seed % TURNS.len() as u64) as usize]
}

/// The script of a seed.
pub fn script(seed: u64) -> Vec<u8> {
    let mut generator = Generator::new(seed, family(seed));
    generator.fill();
    generator.script
}

/// A script of a number of records, mostly accesses and short advances, for measurements
/// of speed. Nine in ten advances end before the next tick.
pub fn batch(seed: u64, records: usize) -> Vec<u8> {
    let mut generator = Generator::new(seed, Family::Mixed);
    while generator.records() < records {
        generator.batch_step();
    }
    generator.script.truncate(SCRIPT_HEADER.len() + records * CALL_LENGTH);
    generator.script
}

const UNIT: u32 = 0x8000_0300;
const CONTROLLER: u32 = 0x8000_0200;
const PORTS: [u32; 6] = [0x8000_0100, 0x8010_0100, 0x8010_0200, 0x8010_0300, 0x8010_0400, 0x8010_0500];
const WINDOWS: [u32; 8] = [PORTS[0], CONTROLLER, UNIT, PORTS[1], PORTS[2], PORTS[3], PORTS[4], PORTS[5]];
const WINDOW: u32 = 0x100;

/// The offsets in a window that have a register, by what stands there.
const PORT_REGISTERS: [u32; 4] = [uart::DATA, uart::STATUS, uart::CONTROL, uart::SCALER];
const CONTROLLER_REGISTERS: [u32; 6] =
    [irqmp::LEVEL, irqmp::PENDING, irqmp::FORCE, irqmp::CLEAR, irqmp::MASK, irqmp::EXTENDED_ACKNOWLEDGE];
const UNIT_REGISTERS: [u32; 15] =
    [0x00, 0x04, 0x08, 0x10, 0x14, 0x18, 0x20, 0x24, 0x28, 0x30, 0x34, 0x38, 0x40, 0x44, 0x48];

/// Whether an address in the window at a base is a register's.
fn is_register(base: u32, address: u32) -> bool {
    let offset = address - base;
    match base {
        UNIT => UNIT_REGISTERS.contains(&offset),
        CONTROLLER => CONTROLLER_REGISTERS.contains(&offset),
        _ => PORT_REGISTERS.contains(&offset),
    }
}

/// The lines of ports and timers, bit n for line n.
const BOARD_LINES: u32 = 1 << 2 | 0xF << 8 | 0x1F << 17;
/// The line that the lines from 16 up reach the processor as.
const LINE_12: u32 = 1 << 12;
const EXTENDED: u32 = 0xFFFF_0000;

/// For each kind, the bytes of its record that must be 0.
const BLANKS: [&[usize]; 8] = [
    &[],
    &[2, 3, 8, 9, 10, 11, 12, 13, 14, 15],
    &[2, 3, 8, 9, 10, 11],
    &[3, 4, 5, 6, 7, 8, 9, 10, 11, 12, 13, 14, 15],
    &[1, 2, 3, 4, 5, 6, 7],
    &[1, 2, 3, 4, 5, 6, 7],
    &[1, 2, 3, 4, 5, 6, 7, 8, 9, 10, 11, 12, 13, 14, 15],
    &[1, 2, 3, 4, 5, 6, 7, 8, 9, 10, 11, 12, 13, 14, 15],
];

/// Bytes that a port's queue holds.
const QUEUE: u64 = 8;

/// A port of a `Stream`.
struct Stream {
    port: usize,
    /// Whether a byte is sent for each one that is read.
    echo: bool,
    /// CONTROL as last written, with RE set.
    control: u32,
    /// Numbers the bytes that are offered, accepted or not.
    offered: u64,
    accepted: u64,
    /// Bytes in the queue.
    waiting: u64,
}

struct Generator {
    random: Random,
    /// How often all turns were taken before this seed.
    round: u64,
    script: Vec<u8>,
    family: Family,
    /// Whether some records are pushed malformed.
    damaging: bool,
    /// What is left of `SHORT_TOTAL`.
    cycles_left: u64,
    /// The values last written to the timer unit, or where a one-shot was brought to rest.
    scaler: u64,
    scaler_reload: u64,
    counters: [u64; timer::TIMERS],
    reloads: [u64; timer::TIMERS],
}

impl Generator {
    fn new(seed: u64, family: Family) -> Generator {
        Generator {
            random: Random::new(seed),
            round: seed / TURNS.len() as u64,
            script: SCRIPT_HEADER.to_vec(),
            family,
            damaging: false,
            cycles_left: SHORT_TOTAL,
            scaler: 0xFFFF,
            scaler_reload: 0xFFFF,
            counters: [0, 0, 0, 0xFFFF],
            reloads: [0, 0, 0, 0xFFFF],
        }
    }

    fn fill(&mut self) {
        let count = 20 + self.random.below(100) as usize;
        match self.family {
            Family::Timers | Family::Short => self.repeat(count, Generator::timer_step),
            Family::Serial => self.repeat(count, Generator::serial_step),
            Family::Windows => {
                self.repeat(3 * count, Generator::window_step);
                // By turns, so that a run of some hundred seeds has every window for sure.
                self.sweep_window(WINDOWS[(self.round % WINDOWS.len() as u64) as usize]);
            }
            Family::Mixed => self.repeat(count, Generator::mixed_step),
            Family::Damaged if self.random.one_in(4) => self.every_blank(),
            Family::Damaged => {
                self.damaging = true;
                self.repeat(count, Generator::mixed_step);
                self.damaging = false;
            }
            Family::Headers => return self.header(),
            Family::Bytes => return self.bytes(),
            Family::Long => {
                // With its header, a script of 256 or 512 records ends just behind a multiple of
                // 4096 bytes.
                let start = self.random.pick(&[250, 250, 509, 509, 762, 1000, 1000, 4090]);
                let target = start + self.random.below(12) as usize;
                self.repeat(target, Generator::mixed_step);
                self.script.truncate(SCRIPT_HEADER.len() + target * CALL_LENGTH);
                return self.tail();
            }
            // The longest ones by turns, so that a run of some thousand seeds has them for sure.
            Family::Stream => match self.round % 64 {
                4 | 36 => self.stream_with_resets(),
                12 => self.stream(65_600, false),
                44 => self.stream(65_600, true),
                _ => {
                    let echo = self.random.one_in(3);
                    self.stream(120, echo);
                }
            },
            Family::Chains => self.repeat(4 * count, Generator::chain_step),
            Family::Interrupts => self.repeat(4 * count, Generator::interrupt_step),
            Family::Priorities => self.repeat(2 * count, Generator::priority_step),
        }
        self.read_everything();
        if self.random.one_in(4) {
            self.tail();
        }
    }

    fn repeat(&mut self, count: usize, step: fn(&mut Generator)) {
        while self.records() < count {
            if self.random.one_in(50) {
                self.reset();
            }
            step(self);
        }
    }

    fn mixed_step(&mut self) {
        match self.random.below(10) {
            0..=2 => self.timer_step(),
            3..=5 => self.serial_step(),
            6 => self.window_step(),
            7 | 8 => self.interrupt_step(),
            _ => self.pass(),
        }
    }

    // Records.

    fn records(&self) -> usize {
        self.script.len().saturating_sub(SCRIPT_HEADER.len()) / CALL_LENGTH
    }

    fn push(&mut self, call: Call) {
        let mut record = call.encode();
        if self.damaging && self.random.one_in(3) {
            self.damage(&mut record);
        }
        self.script.extend_from_slice(&record);
    }

    fn damage(&mut self, record: &mut [u8; CALL_LENGTH]) {
        let nonzero = self.random.pick(&[1, 2, 0x10, 0x80, 0xFF]);
        match self.random.below(6) {
            0..=2 => record[self.random.pick(BLANKS[usize::from(record[0])])] = nonzero,
            3 => {
                if self.random.one_in(2) {
                    record.fill(0);
                }
                record[0] = self.random.pick(&[0, 7, 8, 9, 0x81, 0x87, 0xFF]);
            }
            4 => record[self.random.below(16) as usize] = self.random.byte(),
            _ => record.fill_with(|| self.random.byte()),
        }
    }

    fn read(&mut self, address: u32) {
        self.push(Call::Read { size: 4, address });
    }

    fn write(&mut self, address: u32, value: u32) {
        self.push(Call::Write { size: 4, address, value });
    }

    fn reset(&mut self) {
        self.push(Call::Reset);
        (self.scaler, self.scaler_reload) = (0xFFFF, 0xFFFF);
        (self.counters, self.reloads) = ([0, 0, 0, 0xFFFF], [0, 0, 0, 0xFFFF]);
    }

    fn tail(&mut self) {
        let length = self.random.below(16) as usize;
        let call = self.random.pick(&[
            Call::Reset,
            Call::Acknowledge,
            Call::Advance { cycles: 1 },
            Call::Offer { port: 0, byte: 1 },
        ]);
        let mut record = call.encode();
        if self.random.one_in(2) {
            record.fill_with(|| self.random.byte());
        }
        self.script.extend_from_slice(&record[..length]);
    }

    // Timer unit.

    fn timer_step(&mut self) {
        match self.random.below(15) {
            0 | 1 => self.set_up_timers(),
            2 => self.set_up_chain(),
            3 if !self.family.has_short_spans() && self.random.one_in(2) => {
                if self.random.one_in(2) {
                    self.set_up_long_chain();
                } else {
                    self.skip_to_edge();
                }
            }
            3 => self.set_up_chain(),
            4 => self.write_timer_register(),
            5 => self.read_timers(),
            6 => {
                let offset = 4 * self.random.below(24) as u32;
                self.read(UNIT + offset);
            }
            7 | 8 => self.aim_at_pulses(),
            9 | 10 => self.enable_again(),
            _ => {
                if self.random.one_in(6) {
                    self.set_up_many_pulses();
                }
                for _ in 0..=self.random.below(4) {
                    self.pass();
                }
                if self.random.one_in(2) {
                    self.see_timers();
                } else if self.random.one_in(2) {
                    self.see_lines();
                }
            }
        }
        // It is refused, and leaves alone what stands in the same block.
        if self.random.one_in(3) {
            let address = self.word_without_register(UNIT);
            self.access(4, address);
            let block = address - address % timer::TIMER_STRIDE;
            for register in (block..address).step_by(4).filter(|&register| is_register(UNIT, register)) {
                self.read(register);
            }
        }
    }

    fn write_timer(&mut self, timer: usize, register: u32, value: u32) {
        match register {
            timer::COUNTER => self.counters[timer - 1] = value.into(),
            timer::RELOAD => self.reloads[timer - 1] = value.into(),
            _ if value & timer::LD != 0 => self.counters[timer - 1] = self.reloads[timer - 1],
            _ => {}
        }
        self.write(UNIT + timer as u32 * timer::TIMER_STRIDE + register, value);
    }

    fn set_up_timer(&mut self, timer: usize, counter: u32, reload: u32, control: u32) {
        self.write_timer(timer, timer::RELOAD, reload);
        self.write_timer(timer, timer::COUNTER, counter);
        self.write_timer(timer, timer::CONTROL, control);
    }

    fn write_prescaler(&mut self) {
        if !self.random.one_in(4) {
            let value = self.prescaler_value();
            self.scaler_reload = u64::from(value as u16);
            self.write(UNIT + timer::SCALER_RELOAD, value);
        }
        if !self.random.one_in(4) {
            let value = self.prescaler_value();
            self.scaler = u64::from(value as u16);
            self.write(UNIT + timer::SCALER, value);
        }
    }

    fn set_prescaler(&mut self, value: u16, reload: u16) {
        (self.scaler, self.scaler_reload) = (value.into(), reload.into());
        self.write(UNIT + timer::SCALER_RELOAD, reload.into());
        self.write(UNIT + timer::SCALER, value.into());
    }

    fn set_up_timers(&mut self) {
        self.write_prescaler();
        for timer in 1..=timer::TIMERS {
            if self.random.one_in(3) {
                continue;
            }
            let (reload, counter, control) =
                (self.counter_value(), self.counter_value(), self.control_value());
            self.write_timer(timer, timer::RELOAD, reload);
            if !self.random.one_in(4) {
                self.write_timer(timer, timer::COUNTER, counter);
            }
            self.write_timer(timer, timer::CONTROL, control);
        }
    }

    /// A chain of 2 to 4 timers with small reloads, now and then broken by a one-shot or a disabled
    /// timer.
    fn set_up_chain(&mut self) {
        self.write_prescaler();
        let first = 1 + self.random.below(3) as usize;
        let last = (first + 1 + self.random.below(3) as usize).min(timer::TIMERS);
        for timer in first..=last {
            let mut control = timer::EN | timer::RS;
            if timer > first || self.random.one_in(6) {
                control |= timer::CH;
            }
            if timer == last || self.random.one_in(4) {
                control |= timer::IE;
            }
            match self.random.below(12) {
                0 | 1 => control &= !timer::RS,
                2 => control &= !timer::EN,
                3 => control |= timer::IP,
                4 => control |= timer::LD,
                _ => {}
            }
            let reload =
                if self.random.one_in(8) { self.counter_value() } else { self.random.below(5) as u32 };
            let counter = if self.random.one_in(4) { self.counter_value() } else { reload };
            self.set_up_timer(timer, counter, reload, control);
        }
    }

    /// Timers 1 and 2, or 1 to 3, chained, with the only pulse so far away that its tick or cycle
    /// may not fit into 64 bits; and a skip to it.
    fn set_up_long_chain(&mut self) {
        self.write_prescaler();
        let last = 2 + self.random.below(2) as usize;
        for timer in 1..=timer::TIMERS {
            let shorter = u32::MAX >> self.random.below(24);
            let number = self.random.pick(&[0, u32::MAX, u32::MAX, shorter, shorter]);
            let few = self.random.below(3) as u32;
            let control = match timer {
                _ if timer > last => 0,
                _ if timer == last => timer::EN | timer::RS | timer::IE | timer::CH,
                _ => timer::EN | timer::RS | timer::CH,
            };
            self.set_up_timer(timer, number, number.wrapping_sub(few), control);
        }
        let limit = self.random.pick(&[u64::MAX, u64::MAX, u64::MAX - 1, 1 << 63]);
        self.push(Call::Skip { limit });
        self.see_timers();
    }

    /// Most cycles tick, and timer 1 pulses with every tick, the others with every first, second or
    /// third of their counts.
    fn set_up_many_pulses(&mut self) {
        let reload = self.random.pick(&[0, 0, 0, 1, 2]);
        self.set_prescaler(reload, reload);
        for timer in 1..=timer::TIMERS {
            let reload = if timer == 1 { 0 } else { self.random.below(3) as u32 };
            let chained = self.random.pick(&[0, timer::CH]);
            self.set_up_timer(timer, reload, reload, timer::EN | timer::RS | timer::IE | chained);
        }
    }

    fn switch_off(&mut self, timers: impl IntoIterator<Item = usize>) {
        for timer in timers {
            self.write_timer(timer, timer::CONTROL, 0);
        }
    }

    /// A timer, or a chain of them, whose pulses alone come, in cycles that are known; and skips to the
    /// first few of them, or just short of them or past.
    fn aim_at_pulses(&mut self) {
        let (value, reload) = (self.prescaler_value(), self.prescaler_value());
        self.set_prescaler(value as u16, reload as u16);
        let first = 1 + self.random.below(4) as usize;
        let last = (first + self.random.below(3) as usize).min(timer::TIMERS);
        self.switch_off((1..first).chain(last + 1..=timer::TIMERS));
        for timer in first..=last {
            let mut control = timer::EN | timer::RS;
            if timer > first || timer == 1 && self.random.one_in(4) {
                control |= timer::CH;
            }
            if timer == last {
                control |= timer::IE;
            }
            if self.random.one_in(6) {
                control &= !timer::RS;
            }
            let (counter, reload) = (self.counter_value(), self.counter_value());
            self.set_up_timer(timer, counter, reload, control);
        }
        let mut left = self.cycles_to_underflow(first - 1..last);
        if self.random.one_in(3) {
            let part = self.random.below(left);
            left -= self.wait(part, false);
        }
        for _ in 0..3 {
            let limit = self.at_or_beside(left);
            left = left.saturating_sub(self.wait(limit, true));
            if self.random.one_in(2) {
                self.see_timers();
            }
            // With the pulse, the whole chain and the prescaler start again.
            if left == 0 {
                left = self.period(first - 1..last);
            }
        }
    }

    /// A one-shot that comes to rest, with a follower or without, and is enabled again: as it is, or
    /// loaded, or to run on.
    fn enable_again(&mut self) {
        let (value, reload) = (self.prescaler_value(), self.prescaler_value());
        self.set_prescaler(value as u16, reload as u16);
        let timer = 1 + self.random.below(4) as usize;
        if !self.random.one_in(4) {
            self.switch_off((1..=timer::TIMERS).filter(|&other| other != timer));
        }
        let (counter, reload) = (self.random.below(4) as u32, self.counter_value());
        let interrupt = self.random.pick(&[0, timer::IE, timer::IE, timer::IE]);
        self.set_up_timer(timer, counter, reload, timer::EN | interrupt);
        if timer < timer::TIMERS && self.random.one_in(2) {
            let (counter, reload) = (self.random.below(3) as u32, self.random.below(3) as u32);
            let control = timer::EN | timer::RS | timer::IE | timer::CH;
            self.set_up_timer(timer + 1, counter, reload, control);
        }
        let left = self.cycles_to_underflow(timer - 1..timer);
        let more = self.random.pick(&[0, 0, 1, 5, 1 << 20]);
        let stops = more == 0 || self.random.one_in(2);
        self.wait(left + more, stops);
        self.see_timers();
        self.counters[timer - 1] = u32::MAX.into();
        self.scaler = self.scaler_reload;
        for _ in 0..=self.random.below(2) {
            let others = self.random.pick(&[0, 0, timer::LD, timer::RS, timer::IP, timer::IP | timer::RS]);
            self.write_timer(timer, timer::CONTROL, timer::EN | timer::IE | others);
            let left = self.cycles_to_underflow(timer - 1..timer);
            let (span, stops) = (self.at_or_beside(left), !self.random.one_in(4));
            self.wait(span, stops);
            self.see_timers();
        }
    }

    /// A span that ends with a cycle, or the one before it or after it, or goes on.
    fn at_or_beside(&mut self, cycle: u64) -> u64 {
        let after = cycle.saturating_add(1);
        self.random.pick(&[cycle, cycle, cycle - 1, cycle - 1, after, after, after.saturating_mul(3)])
    }

    /// Cycles to the first underflow of the last of some timers in a chain, as they were written. A
    /// number counts down to 0, and once more; then it starts again from the reload.
    fn cycles_to_underflow(&self, timers: Range<usize>) -> u64 {
        let timers = timers.rev().map(|index| (self.counters[index], self.reloads[index]));
        let prescaler = std::iter::once((self.scaler, self.scaler_reload));
        // The count with an underflow is the underflow, or tick, of what it counts.
        timers.chain(prescaler).fold(1, |nth: u64, (number, reload)| {
            (reload + 1).saturating_mul(nth - 1).saturating_add(number + 1)
        })
    }

    /// Cycles between two such underflows, or between ticks if there are no timers.
    fn period(&self, timers: Range<usize>) -> u64 {
        let prescaler = self.scaler_reload + 1;
        self.reloads[timers].iter().fold(prescaler, |cycles, reload| cycles.saturating_mul(reload + 1))
    }

    fn write_timer_register(&mut self) {
        let timer = 1 + self.random.below(4) as usize;
        match self.random.below(8) {
            0 => {
                let value = self.counter_value();
                self.write_timer(timer, timer::COUNTER, value);
            }
            1 => {
                let value = self.counter_value();
                self.write_timer(timer, timer::RELOAD, value);
            }
            2 => {
                let value = self.random.pick(&[0, 0x200, 0x1FF, 0xFFFF_FDFF, 0xFFFF_FFFF]);
                self.write(UNIT + timer::CONFIG, value);
                self.read(UNIT + timer::CONFIG);
            }
            3 => self.write_prescaler(),
            4 => {
                let (address, value) = (self.word_without_register(UNIT), self.random.word());
                self.write(address, value);
                self.read(address);
                if self.random.one_in(2) {
                    self.read_timers();
                }
            }
            _ => {
                let value = self.control_value();
                self.write_timer(timer, timer::CONTROL, value);
            }
        }
    }

    fn prescaler_value(&mut self) -> u32 {
        let wide = !self.family.has_short_spans() || self.random.one_in(6);
        match self.random.below(8) {
            0 => 0,
            1 if wide => self.random.pick(&[0xFFFF, 0xFFFE, 0x1_0000, 0x1_0001, 0xFFFF_FFFF, 0xABCD_0003]),
            2 if wide => self.random.word() >> self.random.below(32),
            3 => self.random.below(40) as u32,
            _ => self.random.below(5) as u32,
        }
    }

    fn counter_value(&mut self) -> u32 {
        match self.random.below(10) {
            0 => 0,
            1 => self.random.below(40) as u32,
            2 => self.random.pick(&[0xFFFE, 0xFFFF, 0x7FFF_FFFF, 0xFFFF_FFFE, 0xFFFF_FFFF]),
            3 if !self.family.has_short_spans() => self.random.word() >> self.random.below(32),
            _ => self.random.below(6) as u32,
        }
    }

    fn control_value(&mut self) -> u32 {
        let high_bits = if self.random.one_in(4) { self.random.word() & !0x3F } else { 0 };
        let value = match self.random.below(8) {
            0 | 1 => timer::EN | timer::RS | timer::IE,
            2 => timer::EN | timer::IE,
            3 => timer::EN | timer::RS | timer::IE | timer::CH,
            _ => self.random.below(64) as u32,
        };
        value | high_bits
    }

    fn pass(&mut self) {
        let (span, stops) = (self.span(), self.random.one_in(2));
        self.wait(span, stops);
    }

    /// Advances, or skips where it may stop; not too far where spans are short. Returns what it asked for.
    fn wait(&mut self, mut span: u64, stops: bool) -> u64 {
        if self.family.has_short_spans() {
            // A period of 65536 fits into the total once.
            let most = if self.random.one_in(20) { 70_000 } else { 2_000 };
            span = span.min(most).min(self.cycles_left);
            self.cycles_left -= span;
        }
        self.push(if stops { Call::Skip { limit: span } } else { Call::Advance { cycles: span } });
        span
    }

    fn span(&mut self) -> u64 {
        let near = self.random.pick(&[0, 0, 0, 1, u64::MAX, 2, u64::MAX - 1]);
        match self.random.below(if self.family.has_short_spans() { 7 } else { 10 }) {
            0 => self.random.below(4),
            1 => self.random.below(50),
            2 => self.scaler.wrapping_add(near),
            // Near the first underflow after a set-up.
            3 => {
                let first = self.random.below(4) as usize;
                self.cycles_to_underflow(first..first + 1).wrapping_add(near)
            }
            // Near multiples of the periods of the prescaler, of a timer, and of a chain.
            4..=6 => {
                let (first, length) = (self.random.below(4) as usize, self.random.below(4) as usize);
                let base = self.period(first..(first + length).min(timer::TIMERS));
                let most = if self.random.one_in(4) { u64::MAX / base } else { 6.min(u64::MAX / base) };
                base.wrapping_mul(1 + self.random.below(most)).wrapping_add(near)
            }
            7 => (1 << self.random.below(64)) + self.random.below(3) - 1,
            8 => self.random.pick(&[u64::MAX, u64::MAX - 1, u64::MAX / 2, 1 << 63, 1 << 48, 1 << 32]),
            _ => self.random.next_u64() >> self.random.below(64),
        }
    }

    fn read_timers(&mut self) {
        for register in UNIT_REGISTERS {
            self.read(UNIT + register);
        }
    }

    /// Looks at the timers after time has passed, and at the lines that they may have raised.
    fn see_timers(&mut self) {
        self.read_timers();
        if self.random.one_in(2) {
            self.see_lines();
        }
    }

    // Timers in long use.

    fn chain_step(&mut self) {
        match self.random.below(10) {
            0..=3 => self.set_up_any_chain(),
            4 | 5 => self.set_up_farthest_chain(),
            6 | 7 => return self.skip_to_edge(),
            8 => return self.many_pulses(),
            _ => return self.many_waits(),
        }
        for _ in 0..=self.random.below(5) {
            self.pass_far();
            self.see_timers();
        }
    }

    fn pass_far(&mut self) {
        let any = self.random.next_u64() >> self.random.below(64);
        let span = self.random.pick(&[u64::MAX, u64::MAX, 1 << 63, 1 << 32, any, any]);
        match self.random.below(6) {
            0 => self.pass(),
            1 | 2 => self.push(Call::Advance { cycles: span }),
            _ => self.push(Call::Skip { limit: span }),
        }
    }

    /// A chain of two to four timers with numbers from end to end. The other timers are mostly off, so
    /// that their pulses do not come first.
    fn set_up_any_chain(&mut self) {
        let small = 2 + self.random.below(6) as u16;
        let reload = self.random.pick(&[0, 1, 0xFFFF, small]);
        let value = self.random.pick(&[reload, reload, 0, 0xFFFF, small]);
        self.set_prescaler(value, reload);
        let length = 2 + self.random.below(3) as usize;
        let first = 1 + self.random.below((timer::TIMERS - length + 1) as u64) as usize;
        let last = first + length - 1;
        for timer in 1..=timer::TIMERS {
            if !(first..=last).contains(&timer) {
                if !self.random.one_in(8) {
                    self.write_timer(timer, timer::CONTROL, 0);
                }
                continue;
            }
            let mut control = timer::EN | timer::RS;
            if timer > first || timer == 1 && self.random.one_in(4) {
                control |= timer::CH;
            }
            if timer == last || self.random.one_in(4) {
                control |= timer::IE;
            }
            if self.random.one_in(12) {
                control &= !timer::RS;
            }
            let reload = self.far_number();
            let counter = if self.random.one_in(3) { self.far_number() } else { reload };
            self.set_up_timer(timer, counter, reload, control);
        }
    }

    fn far_number(&mut self) -> u32 {
        let any = self.random.word() >> self.random.below(32);
        self.random.pick(&[0, 0, 1, 0xFFFF, u32::MAX >> 1, u32::MAX, u32::MAX, any, any])
    }

    /// A chain of four timers with the only pulse about as far away as it can be, and a skip to it.
    /// Most periods are powers of two: what is left of a product that wraps, at 2^64 or 2^128, is then
    /// so small that it lies within the limit. With 2^32 everywhere, tick 0 is left, which is no
    /// negative cycle where the prescaler's value is not below its reload.
    fn set_up_farthest_chain(&mut self) {
        let small = self.random.below(6) as u16;
        let reload = self.random.pick(&[0, 0xFFFF, 0xFFFF, 0xFFFF, 0xFF, 1]);
        let value = self.random.pick(&[reload, 0xFFFF, 0xFFFF, small]);
        self.set_prescaler(value, reload);
        for timer in 1..=timer::TIMERS {
            let (numbers, mut control) = match timer {
                1 => (&[u32::MAX, u32::MAX, 0xFFFF, u32::MAX >> 1], timer::EN | timer::RS),
                _ => (&[u32::MAX, u32::MAX, u32::MAX, u32::MAX >> 1], timer::EN | timer::RS | timer::CH),
            };
            if timer == timer::TIMERS {
                control |= timer::IE;
            }
            let reload = self.random.pick(numbers);
            let more = if timer == 1 { self.random.below(4) as u32 } else { 0 };
            self.set_up_timer(timer, reload.saturating_add(more), reload, control);
        }
        let limit = self.random.pick(&[u64::MAX, u64::MAX, u64::MAX - 1, 1 << 63]);
        self.push(Call::Skip { limit });
        self.see_timers();
    }

    /// A chain of four timers with the first pulse, the only one, in cycle 2^64 or a few cycles or ticks
    /// beside it: the periods are powers of two, and their product is 2^64. There a product may fit
    /// and the sum not; and the pulse may come with the last cycle of the largest limit.
    fn skip_to_edge(&mut self) {
        let all_ones = |bits: u64| (1_u64 << bits) - 1;
        let bits = self.random.below(17);
        let mut bits_left = 64 - bits;
        let reload = all_ones(bits) as u16;
        let few = 1 + self.random.below(2) as u16;
        let (more, less) = (reload.saturating_add(few), reload.saturating_sub(few));
        let value = self.random.pick(&[reload, more, less, less]);
        self.set_prescaler(value, reload);
        for timer in 1..=timer::TIMERS {
            let least = bits_left.saturating_sub(32 * (timer::TIMERS - timer) as u64);
            let bits = least + self.random.below(bits_left.min(32) - least + 1);
            bits_left -= bits;
            let reload = all_ones(bits) as u32;
            let few = if timer == 1 && self.random.one_in(4) { 1 + self.random.below(2) as u32 } else { 0 };
            let counter = self.random.pick(&[reload.saturating_add(few), reload.saturating_sub(few)]);
            let control = match timer {
                1 => timer::EN | timer::RS,
                timer::TIMERS => timer::EN | timer::RS | timer::CH | timer::IE,
                _ => timer::EN | timer::RS | timer::CH,
            };
            self.set_up_timer(timer, counter, reload, control);
        }
        let limit = self.random.pick(&[u64::MAX, u64::MAX, u64::MAX, u64::MAX - 1]);
        self.push(Call::Skip { limit });
        self.see_timers();
        self.push(Call::Skip { limit: 3 });
        self.read(CONTROLLER + irqmp::PENDING);
    }

    /// The pulses of each wait or of all five do not fit into 32 bits, or those of all five into 64.
    fn many_pulses(&mut self) {
        self.set_up_many_pulses();
        let few = self.random.below(1000);
        let more = 1 << (35 + self.random.below(29));
        let cycles = self.random.pick(&[
            u64::MAX,
            u64::MAX,
            u64::MAX - few,
            1 << 32,
            (1 << 32) + few,
            more,
            more + few,
        ]);
        for _ in 0..5 {
            self.push(Call::Advance { cycles });
            self.see_timers();
        }
    }

    /// More waits than 8 bits count, most of the skips with a pulse.
    fn many_waits(&mut self) {
        self.set_up_chain();
        for _ in 0..260 + self.random.below(60) {
            let call = match self.random.below(4) {
                0 => Call::Advance { cycles: self.random.below(100) },
                _ => Call::Skip { limit: 1 << 40 },
            };
            self.push(call);
        }
        self.see_timers();
    }

    // Serial ports.

    fn serial_step(&mut self) {
        // Mostly one of two ports, so that queues fill.
        let port = self.random.pick(&[0, 0, 0, 3, 3, 3, 1, 2, 4, 5]);
        let base = PORTS[port];
        let run = if self.random.one_in(4) { 12 } else { 1 + self.random.below(3) };
        match self.random.below(18) {
            0..=2 => {
                let mut value = self.random.below(16) as u32;
                value |= self.random.pick(&[0, uart::RE, uart::RE]);
                value |= self.random.pick(&[0, 0, 0x8000_0000, 0xFFFF_FFF0, 0x0000_0FB0]);
                self.write(base + uart::CONTROL, value);
                if self.random.one_in(2) {
                    self.read(base + uart::CONTROL);
                }
            }
            3..=5 => {
                for _ in 0..run {
                    let byte = self.random.byte();
                    self.push(Call::Offer { port: port as u8, byte });
                }
            }
            6 | 7 => {
                for _ in 0..run {
                    self.read(base + uart::DATA);
                }
            }
            8 => self.read(base + uart::STATUS),
            9 => {
                let value = if self.random.one_in(4) { 0xFFFF_FF00 } else { self.random.word() };
                self.write(base + uart::DATA, value);
            }
            10 => {
                let value = self.random.word();
                self.write(base + uart::SCALER, value);
                self.read(base + uart::SCALER);
            }
            11 => {
                // Ignored by STATUS, refused elsewhere.
                let nowhere = self.word_without_register(base);
                let address = self.random.pick(&[base + uart::STATUS, nowhere, nowhere]);
                let value = self.random.word();
                self.write(address, value);
                self.read(address);
                self.read_port(base);
            }
            12 => {
                let port = self.random.pick(&[0, 1, 2, 3, 4, 5, 6, 7, 8, 0x80, 0xFF]);
                let byte = self.random.byte();
                self.push(Call::Offer { port, byte });
            }
            13 => self.read_port(base),
            14 => self.drain_raised(port, run),
            15 => self.switch_receiver_off(port, run),
            _ => self.see_lines(),
        }
    }

    /// Bytes wait while RE is off; then it is switched on again.
    fn switch_receiver_off(&mut self, port: usize, run: u64) {
        let control = self.random.below(8) as u32 * uart::TE;
        self.write(PORTS[port] + uart::CONTROL, control | uart::RE);
        for _ in 0..run {
            let byte = self.random.byte();
            self.push(Call::Offer { port: port as u8, byte });
        }
        self.write(PORTS[port] + uart::CONTROL, control);
        for _ in 0..self.random.below(4) {
            match self.random.below(3) {
                0 => self.push(Call::Offer { port: port as u8, byte: 0xEE }),
                1 => self.read(PORTS[port] + uart::DATA),
                _ => self.read(PORTS[port] + uart::STATUS),
            }
        }
        if self.random.one_in(2) {
            self.write(PORTS[port] + uart::CONTROL, control | uart::RE);
            for _ in 0..run {
                self.read(PORTS[port] + uart::DATA);
            }
        }
    }

    /// Takes all received bytes of a port whose line is raised, which leaves the level, and then
    /// does something that must leave it too.
    fn drain_raised(&mut self, port: usize, run: u64) {
        let base = PORTS[port];
        self.write(base + uart::CONTROL, uart::RE | uart::TE | uart::RI);
        for byte in 0..run as u8 {
            self.push(Call::Offer { port: port as u8, byte });
        }
        for _ in 0..8 {
            self.read(base + uart::DATA);
        }
        match self.random.below(6) {
            0 => self.write(base + uart::DATA, 0x55),
            1 => self.write(base + uart::STATUS, 0xFFFF_FFFF),
            2 => self.write(base + uart::SCALER, 1),
            3 => {
                let address = self.word_without_register(base);
                self.access(4, address);
            }
            4 => self.pass(),
            _ => self.push(Call::Offer { port: 6, byte: 1 }),
        }
        self.read_port(base);
        if self.random.one_in(2) {
            self.see_lines();
        }
    }

    fn read_port(&mut self, base: u32) {
        for offset in [uart::STATUS, uart::CONTROL, uart::SCALER] {
            self.read(base + offset);
        }
    }

    /// Reads every register, and empties the receive queues.
    fn read_everything(&mut self) {
        self.read_timers();
        self.read_controller();
        for port in [0, 1, 2, 3, 4, 5] {
            self.read_port(PORTS[port]);
            if port == 0 || port == 3 || self.random.one_in(4) {
                self.write(PORTS[port] + uart::CONTROL, uart::RE | uart::RI);
                for _ in 0..9 {
                    self.read(PORTS[port] + uart::DATA);
                }
                self.read_port(PORTS[port]);
            }
        }
        self.read(CONTROLLER + irqmp::PENDING);
    }

    // Interrupt controller.

    /// All that raises lines, and what the controller does with them.
    fn interrupt_step(&mut self) {
        match self.random.below(16) {
            0..=3 => self.raise_by_control(),
            4..=6 => self.raise_by_bytes(),
            7..=11 => self.raise_by_pulses(),
            _ => self.priority_step(),
        }
    }

    /// The controller by itself.
    fn priority_step(&mut self) {
        match self.random.below(24) {
            0..=4 => self.two_lines(),
            5..=10 => self.around_line_12(),
            11 | 12 => self.many_lines(),
            13..=15 => self.write_controller_register(),
            16 => self.see_lines(),
            17 => self.nothing_waits(),
            18 => self.reset_in_use(),
            19 => self.access_without_register(CONTROLLER),
            _ => {
                let address = self.address_near(CONTROLLER);
                self.access_of_any_size(address);
                self.read_controller();
            }
        }
    }

    fn read_controller(&mut self) {
        for register in CONTROLLER_REGISTERS {
            self.read(CONTROLLER + register);
        }
    }

    /// Looks at the lines that were raised. Most are taken or cleared, so that the next rise shows.
    fn see_lines(&mut self) {
        self.read(CONTROLLER + irqmp::PENDING);
        let lines = self.lines();
        match self.random.below(8) {
            0 | 1 => return,
            2 | 3 => self.write(CONTROLLER + irqmp::CLEAR, u32::MAX),
            4 => self.write(CONTROLLER + irqmp::PENDING, 0),
            5 => {
                let register = self.random.pick(&[irqmp::CLEAR, irqmp::CLEAR, irqmp::PENDING]);
                self.write(CONTROLLER + register, lines);
            }
            _ => {
                let mask = self.random.pick(&[u32::MAX, u32::MAX, BOARD_LINES, lines]);
                self.write(CONTROLLER + irqmp::MASK, mask);
                let times = 1 + self.random.below(4);
                return self.acknowledge(times);
            }
        }
        if self.random.one_in(2) {
            self.read_controller();
        }
    }

    /// Acknowledges a few times in a row. What each one leaves is looked at, or only the end.
    fn acknowledge(&mut self, times: u64) {
        let look = self.random.below(4);
        for _ in 0..times {
            self.push(Call::Acknowledge);
            match look {
                0 => {}
                1 => self.read_controller(),
                _ => {
                    self.read(CONTROLLER + irqmp::EXTENDED_ACKNOWLEDGE);
                    let register = self.random.pick(&[irqmp::PENDING, irqmp::PENDING, irqmp::FORCE]);
                    self.read(CONTROLLER + register);
                }
            }
        }
        if look != 1 {
            self.read_controller();
        }
    }

    fn set_up_controller(&mut self, level: u32, pending: u32, force: u32, mask: u32) {
        self.write(CONTROLLER + irqmp::LEVEL, level);
        self.write(CONTROLLER + irqmp::PENDING, pending);
        self.write(CONTROLLER + irqmp::FORCE, force);
        self.write(CONTROLLER + irqmp::MASK, mask);
        if self.random.one_in(4) {
            self.read_controller();
        }
    }

    /// A word of lines, few or many.
    fn lines(&mut self) -> u32 {
        let (any, other) = (self.random.word(), self.random.word());
        let line = 1 << self.random.below(32);
        match self.random.below(12) {
            0 => 0,
            1 => u32::MAX,
            2 => self.random.pick(&[1, LINE_12, 0xF000, 0xFFFE, 0xFFFF, EXTENDED, EXTENDED | LINE_12]),
            3 | 4 => line,
            5 => !line,
            6 => any & BOARD_LINES,
            7 => any & other,
            8 => any | other,
            9 => any & other & self.random.word(),
            _ => any,
        }
    }

    /// Two lines, each pending or forced or both, which mostly wait, so that one goes before the other;
    /// and more acknowledges than they need.
    fn two_lines(&mut self) {
        let (mut pending, mut force) = (0, 0);
        let lines: [u32; 2] = [(); 2].map(|()| 1 << (1 + self.random.below(31)));
        for line in lines {
            match self.random.below(4) {
                0 => force |= line,
                1 => (pending, force) = (pending | line, force | line),
                _ => pending |= line,
            }
        }
        let (level, hidden) = (self.lines(), self.lines());
        let level = self.random.pick(&[lines[0], !lines[0], level]);
        let mask = self.random.pick(&[pending | force, u32::MAX, u32::MAX, !hidden]);
        self.set_up_controller(level, pending, force, mask);
        let times = 1 + self.random.below(5);
        self.acknowledge(times);
    }

    /// Extended lines, or none, beside line 12 pending or forced or both, beside those that go before 12
    /// at its level and those that go after it; with and without 12's mask and level bits.
    fn around_line_12(&mut self) {
        let extended = 1 << (16 + self.random.below(16));
        let some = self.lines() & EXTENDED;
        let mut pending = self.random.pick(&[0, extended, extended, extended | some, some]);
        let mut force = 0;
        for group in [LINE_12, 0xE000, 0x0FFE] {
            if self.random.one_in(2) {
                continue;
            }
            let lines = group & (self.random.word() | LINE_12);
            match self.random.below(4) {
                0 => force |= lines,
                1 => (pending, force) = (pending | lines, force | lines),
                _ => pending |= lines,
            }
        }
        let (any_level, any) = (self.random.word(), self.random.word());
        let level = self.random.pick(&[0, LINE_12, LINE_12, 0xE000, 0xF000, any_level]);
        let hidden = self.random.pick(&[0, LINE_12, LINE_12, extended, any]);
        self.set_up_controller(level, pending, force, !hidden);
        let times = 2 + self.random.below(6);
        self.acknowledge(times);
    }

    /// Many lines at once, now and then all of them, acknowledged until none waits.
    fn many_lines(&mut self) {
        let [level, pending, force, mask] = [(); 4].map(|()| self.lines());
        if self.random.one_in(6) {
            self.set_up_controller(level, u32::MAX, u32::MAX, u32::MAX);
            // 31 pending ones and 15 forced ones, and one more.
            return self.acknowledge(47);
        }
        let mask = if self.random.one_in(2) { u32::MAX } else { mask };
        self.set_up_controller(level, pending, force, mask);
        let times = 1 + self.random.below(12);
        self.acknowledge(times);
    }

    /// A word to a register, or to an offset without one.
    fn write_controller_register(&mut self) {
        let nowhere = self.word_without_register(CONTROLLER);
        let address = self.random.pick(&[
            CONTROLLER + irqmp::LEVEL,
            CONTROLLER + irqmp::PENDING,
            CONTROLLER + irqmp::FORCE,
            CONTROLLER + irqmp::FORCE,
            CONTROLLER + irqmp::CLEAR,
            CONTROLLER + irqmp::CLEAR,
            CONTROLLER + irqmp::MASK,
            CONTROLLER + irqmp::EXTENDED_ACKNOWLEDGE,
            CONTROLLER + irqmp::EXTENDED_ACKNOWLEDGE,
            nowhere,
        ]);
        let lines = self.lines();
        let number = self.random.below(32) as u32;
        let value = self.random.pick(&[lines, lines, number]);
        self.write(address, value);
        if self.random.one_in(2) {
            self.read(address);
        }
        self.read_controller();
    }

    /// Acknowledges in vain: no line, or none but masked ones, after an extended line was taken.
    fn nothing_waits(&mut self) {
        let extended = 1 << (16 + self.random.below(16));
        let (level, others) = (self.lines(), self.lines());
        self.set_up_controller(level, extended, 0, extended);
        self.push(Call::Acknowledge);
        match self.random.below(3) {
            0 => self.set_up_controller(level, others, others, !others),
            1 => self.set_up_controller(level, others, others, 1),
            _ => self.set_up_controller(level, 0, EXTENDED, u32::MAX),
        }
        let times = 1 + self.random.below(3);
        self.acknowledge(times);
    }

    /// A reset with every register set and a port's level at 1.
    fn reset_in_use(&mut self) {
        let port = self.random.pick(&PORTS);
        let (level, pending, force) = (self.lines(), self.lines(), self.lines());
        self.set_up_controller(level | LINE_12, pending | EXTENDED, force | 0xF000, u32::MAX);
        self.push(Call::Acknowledge);
        self.write(port + uart::CONTROL, uart::TI);
        self.reset();
        self.read_controller();
        self.write(CONTROLLER + irqmp::MASK, u32::MAX);
        self.acknowledge(2);
    }

    /// A port's level goes up and down, or stays, by CONTROL writes; now and then with bytes waiting.
    fn raise_by_control(&mut self) {
        let port = self.random.below(6) as usize;
        let base = PORTS[port];
        if self.random.one_in(2) {
            self.write(base + uart::CONTROL, uart::RE);
            for byte in 0..=self.random.below(2) as u8 {
                self.push(Call::Offer { port: port as u8, byte });
            }
        }
        for _ in 0..2 + self.random.below(5) {
            let value = self.random.pick(&[0, 0, uart::RI, uart::TI, uart::TI, uart::RI | uart::TI]);
            let others = self.random.pick(&[0, uart::RE, uart::TE, uart::TE, 0xFFFF_FFF0]);
            self.write(base + uart::CONTROL, value | others);
            if !self.random.one_in(3) {
                self.see_lines();
            }
            // It must raise nothing.
            if self.random.one_in(4) {
                let nowhere = self.word_without_register(base);
                let (data, status, scaler) = (base + uart::DATA, base + uart::STATUS, base + uart::SCALER);
                let address = self.random.pick(&[data, data, status, scaler, nowhere]);
                self.write(address, 0x5A);
                self.read(CONTROLLER + irqmp::PENDING);
            }
        }
    }

    /// A port's level goes up by a byte, and stays while bytes come and go; it goes down when CONTROL is
    /// written with none waiting.
    fn raise_by_bytes(&mut self) {
        let port = self.random.below(6) as usize;
        let base = PORTS[port];
        let control = self.random.pick(&[uart::RE | uart::RI, uart::RE | uart::RI, uart::RE]);
        for _ in 0..2 + self.random.below(5) {
            match self.random.below(8) {
                0..=2 => {
                    let byte = self.random.byte();
                    self.push(Call::Offer { port: port as u8, byte });
                }
                3 | 4 => {
                    for _ in 0..self.random.pick(&[1, 2, 9]) {
                        self.read(base + uart::DATA);
                    }
                }
                5 => self.write(base + uart::DATA, 0x55),
                _ => {
                    self.write(base + uart::CONTROL, uart::RE);
                    for _ in 0..self.random.pick(&[0, 9]) {
                        self.read(base + uart::DATA);
                    }
                    self.write(base + uart::CONTROL, control);
                    self.push(Call::Offer { port: port as u8, byte: 1 });
                }
            }
            if !self.random.one_in(3) {
                self.see_lines();
            }
        }
    }

    /// Timers with small periods, some or all with IE: one, or a few, pulse in a wait, once or more.
    fn raise_by_pulses(&mut self) {
        let (value, reload) = (self.random.below(3) as u16, self.random.below(3) as u16);
        self.set_prescaler(value, reload);
        for timer in 1..=timer::TIMERS {
            let counter = self.random.below(6) as u32;
            let control = self.random.pick(&[
                0,
                timer::EN | timer::RS,
                timer::EN | timer::IE,
                timer::EN | timer::RS | timer::IE,
                timer::EN | timer::RS | timer::IE,
                timer::EN | timer::RS | timer::IE | timer::CH,
            ]);
            let reload = self.random.pick(&[counter, 1, 20]);
            self.set_up_timer(timer, counter, reload, control);
        }
        if self.random.one_in(3) {
            let mask = self.lines();
            self.write(CONTROLLER + irqmp::MASK, mask);
        }
        for _ in 0..1 + self.random.below(5) {
            let (span, stops) = (self.random.pick(&[1, 2, 3, 5, 8, 13, 60]), self.random.one_in(2));
            self.wait(span, stops);
            if !self.random.one_in(4) {
                self.see_lines();
            }
        }
    }

    // Serial ports in long use.

    /// A port that accepts at least this many bytes with no reset, now and then with another one
    /// beside it; both are empty at the end.
    fn stream(&mut self, least: u64, echo: bool) {
        let bytes = least + self.random.below(280);
        let port = self.random.below(6) as usize;
        let mut streams = vec![self.open_stream(port, echo)];
        // The longest scripts are long enough with one port.
        if least < 1000 && self.random.one_in(3) {
            let other = (port + 1 + self.random.below(5) as usize) % PORTS.len();
            streams.push(self.open_stream(other, !echo));
        }
        while streams[0].accepted < bytes {
            let index = self.random.pick(&[0, 0, streams.len() - 1]);
            self.stream_step(&mut streams[index]);
        }
        for stream in streams {
            for _ in 0..=QUEUE {
                self.read(PORTS[stream.port] + uart::DATA);
            }
            self.read_port(PORTS[stream.port]);
        }
    }

    /// More resets than 8 bits count, each of a port in use, of timers that were set up and of a
    /// controller that may have a pending line.
    fn stream_with_resets(&mut self) {
        for _ in 0..300 + self.random.below(100) {
            let port = self.random.below(6) as usize;
            let mut stream = self.open_stream(port, false);
            self.stream_step(&mut stream);
            self.set_up_timers();
            self.reset();
            self.read_port(PORTS[port]);
            self.read_timers();
            self.read(CONTROLLER + irqmp::PENDING);
        }
    }

    fn open_stream(&mut self, port: usize, echo: bool) -> Stream {
        let offered = self.random.below(255);
        let mut stream = Stream { port, echo, control: 0, offered, accepted: 0, waiting: 0 };
        self.write_stream_control(&mut stream);
        stream
    }

    fn write_stream_control(&mut self, stream: &mut Stream) {
        let transmitter = if stream.echo { uart::TE } else { self.random.pick(&[0, uart::TE]) };
        let interrupts = self.random.pick(&[0, uart::RI, uart::RI, uart::TI, uart::RI | uart::TI]);
        stream.control = uart::RE | transmitter | interrupts;
        self.write(PORTS[stream.port] + uart::CONTROL, stream.control);
    }

    /// Some bytes in and some out, now and then with something else between.
    fn stream_step(&mut self, stream: &mut Stream) {
        let base = PORTS[stream.port];
        for _ in 0..self.stream_run(QUEUE - stream.waiting) {
            self.offer_next(stream);
            if stream.waiting < QUEUE {
                stream.waiting += 1;
                stream.accepted += 1;
            }
        }
        if self.random.one_in(5) {
            self.stream_aside(stream);
        }
        for _ in 0..self.stream_run(stream.waiting) {
            self.read(base + uart::DATA);
            stream.waiting = stream.waiting.saturating_sub(1);
            if stream.echo {
                let value = self.random.word();
                self.write(base + uart::DATA, value);
            }
        }
    }

    /// Now and then more than a queue has room for, or than wait in it.
    fn stream_run(&mut self, most: u64) -> u64 {
        let run = 1 + self.random.below(9);
        if self.random.one_in(32) {
            run
        } else {
            run.min(most)
        }
    }

    /// Bytes tell their place. None is 0, as the empty queue reads, and they come again after 255,
    /// which is no power of two.
    fn offer_next(&mut self, stream: &mut Stream) {
        let byte = 1 + (stream.offered % 255) as u8;
        stream.offered += 1;
        self.push(Call::Offer { port: stream.port as u8, byte });
    }

    fn stream_aside(&mut self, stream: &mut Stream) {
        let base = PORTS[stream.port];
        let run = 1 + self.random.below(4);
        match self.random.below(9) {
            0..=2 => self.read(base + uart::STATUS),
            3 => self.read(base + uart::CONTROL),
            4 | 5 => {
                for _ in 0..run {
                    let value = self.random.word();
                    self.write(base + uart::DATA, value);
                }
            }
            6 => self.write_stream_control(stream),
            7 => {
                let address = self.word_without_register(base);
                self.access(4, address);
            }
            _ => {
                self.write(base + uart::CONTROL, stream.control & !uart::RE);
                for _ in 0..run {
                    match self.random.below(3) {
                        0 => self.offer_next(stream),
                        1 => self.read(base + uart::DATA),
                        _ => self.read(base + uart::STATUS),
                    }
                }
                self.write(base + uart::CONTROL, stream.control);
            }
        }
    }

    // Windows.

    fn window_step(&mut self) {
        let base = match self.random.below(4) {
            0 => UNIT,
            1 => CONTROLLER,
            _ => self.random.pick(&PORTS),
        };
        if self.random.one_in(8) {
            return self.access_without_register(base);
        }
        let address = self.address_near(base);
        self.access_of_any_size(address);
    }

    /// Accesses to a device in use where it has no register, among them short and unaligned ones and some
    /// that run past the window; and to registers that ignore a write. Then the device is looked at.
    fn access_without_register(&mut self, base: u32) {
        if !self.random.one_in(3) {
            self.put_in_use(base);
        }
        // The level of a port stays when its bytes are taken.
        if PORTS.contains(&base) && self.random.one_in(4) {
            for _ in 0..QUEUE {
                self.read(base + uart::DATA);
            }
        }
        for _ in 0..1 + self.random.below(8) {
            let word = self.word_without_register(base);
            match self.random.below(12) {
                0..=2 => {
                    let size = self.random.pick(&[1, 1, 2, 2, 4]);
                    let more = self.random.below(4) as u32;
                    self.access(size, word + more);
                }
                3 => {
                    let (size, fit) = self.random.pick(&[(2, 1), (2, 1), (4, 1), (4, 2), (4, 3)]);
                    self.access(size, base + WINDOW - fit);
                }
                4 => {
                    let register = match base {
                        UNIT => timer::CONFIG,
                        CONTROLLER => irqmp::EXTENDED_ACKNOWLEDGE,
                        _ => uart::STATUS,
                    };
                    self.access(4, base + register);
                }
                _ => self.access(4, word),
            }
        }
        self.look_at(base);
    }

    /// Every word of a window that is no register's, written and read with the device in use; then short and
    /// unaligned accesses to them, and those that run past the window.
    fn sweep_window(&mut self, base: u32) {
        self.put_in_use(base);
        let words: Vec<u32> =
            (base..base + WINDOW).step_by(4).filter(|&address| !is_register(base, address)).collect();
        // Each bit both ways, so that one that is stored somewhere shows.
        let value = self.random.word();
        for value in [value, !value] {
            for &address in &words {
                self.write(address, value);
            }
            self.look_at(base);
        }
        for &address in &words {
            self.read(address);
            if self.random.one_in(2) {
                let (size, more) = (self.random.pick(&[1, 2, 2, 4]), self.random.below(4) as u32);
                self.access(size, address + more);
            }
        }
        for (size, fit) in [(2, 1), (4, 1), (4, 2), (4, 3)] {
            let address = base + WINDOW - fit;
            self.push(Call::Write { size, address, value });
            self.push(Call::Read { size, address });
        }
        self.look_at(base);
    }

    /// The address of a word of a window that is no register's, mostly one near the registers.
    fn word_without_register(&mut self, base: u32) -> u32 {
        loop {
            let words = self.random.pick(&[20, 24, 64]);
            let address = base + 4 * self.random.below(words) as u32;
            if !is_register(base, address) {
                return address;
            }
        }
    }

    /// Lets a device have something to lose, and mostly a port's level at 1.
    fn put_in_use(&mut self, base: u32) {
        if !PORTS.contains(&base) {
            let port = self.random.pick(&PORTS);
            let control = self.random.pick(&[0, uart::TI, uart::TI]);
            self.write(port + uart::CONTROL, control);
        }
        match base {
            UNIT => {
                self.set_up_timers();
                let value = self.random.word();
                self.write(UNIT + timer::CONFIG, value);
            }
            CONTROLLER => {
                let [level, pending, force] = [(); 3].map(|()| self.lines());
                self.set_up_controller(level, pending | EXTENDED, force | LINE_12, u32::MAX);
                self.push(Call::Acknowledge);
            }
            _ => {
                let port = PORTS.iter().position(|&other| other == base).expect("it is a port's");
                let others = self.random.pick(&[0, uart::RI, uart::TI]);
                self.write(base + uart::CONTROL, uart::RE | uart::TE | uart::RI | others);
                let value = self.random.word();
                self.write(base + uart::SCALER, value);
                for _ in 0..1 + self.random.below(QUEUE) {
                    let byte = self.random.byte();
                    self.push(Call::Offer { port: port as u8, byte });
                }
            }
        }
    }

    /// Reads what the registers of a device hold.
    fn look_at(&mut self, base: u32) {
        match base {
            UNIT => self.read_timers(),
            CONTROLLER => self.read_controller(),
            _ => self.read_port(base),
        }
    }

    fn access_of_any_size(&mut self, address: u32) {
        let size = match self.random.below(4) {
            0 | 1 => 4,
            2 => self.random.pick(&[0, 1, 2, 3, 4, 5, 8, 255]),
            _ => self.random.byte(),
        };
        self.access(size, address);
    }

    fn access(&mut self, size: u8, address: u32) {
        if self.random.one_in(2) {
            self.push(Call::Read { size, address });
        } else {
            let value = self.random.word() >> self.random.below(32);
            self.push(Call::Write { size, address, value });
        }
    }

    /// An address at or around a window, or anywhere.
    fn address_near(&mut self, base: u32) -> u32 {
        let few = self.random.below(9) as u32;
        match self.random.below(8) {
            0 | 1 => base + 4 * self.random.below(20) as u32,
            2 => base + self.random.below(0x100) as u32,
            3 => base + WINDOW - few,
            4 => base - few,
            5 => base + WINDOW + few,
            6 => base ^ 1 << self.random.below(32),
            _ => match self.random.below(4) {
                0 => few,
                1 => u32::MAX - few,
                2 => self.random.pick(&[
                    0x8000_0000,
                    0x8000_0200,
                    0x8000_0400,
                    0x8010_0000,
                    0x8010_0600,
                    0xFF90_0000,
                ]),
                _ => self.random.word(),
            },
        }
    }

    // Damaged scripts.

    /// One record of each kind with each of its blank bytes set in turn, on a machine where the
    /// undamaged record would show; and the kinds that do not exist.
    fn every_blank(&mut self) {
        self.write(PORTS[0] + uart::CONTROL, uart::RE | uart::TE | uart::RI);
        for byte in 1..=4 {
            self.push(Call::Offer { port: 0, byte });
        }
        self.write(UNIT + timer::SCALER, 3);
        self.set_up_controller(0, u32::MAX, u32::MAX, u32::MAX);
        let calls = [
            Call::Read { size: 4, address: PORTS[0] + uart::DATA },
            Call::Write { size: 4, address: PORTS[0] + uart::DATA, value: 0x41 },
            Call::Write { size: 4, address: UNIT + timer::SCALER_RELOAD, value: 5 },
            Call::Offer { port: 0, byte: 9 },
            Call::Advance { cycles: 1 },
            Call::Skip { limit: 2 },
            Call::Reset,
            Call::Acknowledge,
        ];
        for call in calls {
            for &blank in BLANKS[usize::from(call.encode()[0])] {
                let mut record = call.encode();
                record[blank] = 1 << self.random.below(8);
                self.script.extend_from_slice(&record);
            }
        }
        for kind in [0, 8, 9, 10, 0x10, 0x20, 0x40, 0x80, 0x86, 0x87, 0xFF] {
            let mut record = [0; CALL_LENGTH];
            record[0] = kind;
            self.script.extend_from_slice(&record);
        }
    }

    /// Headers cut short or with some bytes changed, with and without records and a tail behind.
    fn header(&mut self) {
        if self.random.one_in(2) {
            for _ in 0..self.random.below(4) {
                self.mixed_step();
            }
            if self.random.one_in(2) {
                self.tail();
            }
        }
        for _ in 0..self.random.pick(&[0, 1, 1, 1, 2]) {
            let index = self.random.pick(&[0, 1, 2, 3, 3, 4, 4]);
            self.script[index] = match self.random.below(4) {
                0 => self.random.byte(),
                1 => self.script[index] ^ 1 << self.random.below(8),
                2 => self.script[index].wrapping_add(1),
                _ => b"apl\x01\x00"[index],
            };
        }
        if self.random.one_in(3) {
            self.script.truncate(self.random.below(6) as usize);
        }
    }

    /// Random bytes: at all places, behind a good header, with the kinds that exist, or with blanks
    /// besides.
    fn bytes(&mut self) {
        let shape = self.random.below(4);
        if shape == 0 {
            self.script.clear();
        }
        for _ in 0..self.random.below(60) {
            let mut record = [0; CALL_LENGTH];
            record.fill_with(|| self.random.byte());
            if shape >= 2 {
                record[0] = 1 + self.random.below(7) as u8;
            }
            if shape == 3 {
                for &blank in BLANKS[usize::from(record[0])] {
                    record[blank] = 0;
                }
            }
            self.script.extend_from_slice(&record);
        }
        self.tail();
    }

    // Batches.

    fn batch_step(&mut self) {
        let base = self.random.pick(&PORTS);
        let register = UNIT + 4 * self.random.below(20) as u32;
        let call = match self.random.below(100) {
            0..=19 => Call::Read { size: 4, address: base + 4 * self.random.below(4) as u32 },
            20..=37 => Call::Read { size: 4, address: register },
            38 => Call::Read { size: 4, address: CONTROLLER + irqmp::PENDING },
            39 => match self.random.below(4) {
                0 => Call::Write { size: 4, address: CONTROLLER + irqmp::MASK, value: BOARD_LINES },
                _ => Call::Acknowledge,
            },
            40..=54 => Call::Write { size: 4, address: base + uart::DATA, value: self.random.word() },
            55..=57 => {
                Call::Write { size: 4, address: base + uart::CONTROL, value: uart::RE | uart::TE | uart::RI }
            }
            58..=63 => {
                let timer = UNIT + timer::TIMER_STRIDE * (1 + self.random.below(4) as u32);
                let (register, value) = self.random.pick(&[
                    (timer::COUNTER, 0x20),
                    (timer::RELOAD, 0x40),
                    (timer::CONTROL, timer::EN | timer::RS | timer::IE),
                ]);
                Call::Write { size: 4, address: timer + register, value }
            }
            64 => Call::Write { size: 4, address: UNIT + timer::SCALER_RELOAD, value: 999 },
            65..=69 => Call::Offer { port: self.random.below(6) as u8, byte: self.random.byte() },
            70 => Call::Skip { limit: 1 << 40 },
            _ => Call::Advance { cycles: 1 + self.random.below(200) },
        };
        self.push(call);
    }
}
