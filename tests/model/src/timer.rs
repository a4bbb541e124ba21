//! GPTIMER unit: a prescaler and four timers, counting as 02, No. 3 says. Time passes by division, in two
//! parts: cycles at the prescaler, and its ticks at the timers. Module `slow` has the single cycles.

use crate::refusal::Refusal;

pub const SCALER: u32 = 0x00;
pub const SCALER_RELOAD: u32 = 0x04;
pub const CONFIG: u32 = 0x08;
/// Offsets within the block of timer n, which stands at n times `TIMER_STRIDE`.
pub const COUNTER: u32 = 0x0;
pub const RELOAD: u32 = 0x4;
pub const CONTROL: u32 = 0x8;
pub const TIMER_STRIDE: u32 = 0x10;

pub const TIMERS: usize = 4;

/// Control bits.
pub const EN: u32 = 1 << 0;
pub const RS: u32 = 1 << 1;
pub const LD: u32 = 1 << 2;
pub const IE: u32 = 1 << 3;
pub const IP: u32 = 1 << 4;
pub const CH: u32 = 1 << 5;
const CONTROL_WRITABLE: u32 = EN | RS | IE | CH;

/// CONFIG's fixed fields: SI, interrupt 8, four timers.
const CONFIG_FIXED: u32 = 0x144;
const CONFIG_DF: u32 = 1 << 9;

/// The unit's registers, those of a timer with its index. No other offset has one.
enum Register {
    Scaler,
    ScalerReload,
    Config,
    Counter(usize),
    Reload(usize),
    Control(usize),
}

impl Register {
    fn at(offset: u32) -> Result<Register, Refusal> {
        match (offset / TIMER_STRIDE, offset % TIMER_STRIDE) {
            (0, SCALER) => Ok(Register::Scaler),
            (0, SCALER_RELOAD) => Ok(Register::ScalerReload),
            (0, CONFIG) => Ok(Register::Config),
            (n @ 1..=4, COUNTER) => Ok(Register::Counter(n as usize - 1)),
            (n @ 1..=4, RELOAD) => Ok(Register::Reload(n as usize - 1)),
            (n @ 1..=4, CONTROL) => Ok(Register::Control(n as usize - 1)),
            _ => Err(Refusal::NoRegister),
        }
    }
}

/// What an advance or a skip did: the cycles passed and each timer's pulses in them.
#[derive(Clone, Copy, Debug, Default, PartialEq, Eq)]
pub struct Passed {
    pub cycles: u64,
    pub pulses: [u64; TIMERS],
}

#[derive(Clone, Debug, PartialEq, Eq)]
pub struct Timer {
    pub counter: u32,
    pub reload: u32,
    pub control: u32,
}

#[derive(Clone, Debug, PartialEq, Eq)]
pub struct TimerUnit {
    pub scaler: u16,
    pub scaler_reload: u16,
    pub df: bool,
    pub timers: [Timer; TIMERS],
}

/// A number that counts down over and over: above 0 it "only falls", at 0 it underflows and takes the
/// reload. So does a timer with RS in its counts, and one without to its only underflow; and the
/// prescaler in cycles, where the underflow is the tick.
#[derive(Clone, Copy)]
struct Countdown {
    number: u64,
    reload: u64,
}

impl Countdown {
    fn new(number: impl Into<u64>, reload: impl Into<u64>) -> Countdown {
        Countdown { number: number.into(), reload: reload.into() }
    }

    /// Counts to the first underflow: those that bring the number to 0, and the one that finds it
    /// there.
    fn left(self) -> u64 {
        self.number + 1
    }

    /// Counts from one underflow to the next.
    fn period(self) -> u64 {
        self.reload + 1
    }

    /// The number after some counts, and the underflows in them.
    fn after(self, counts: u64) -> (u64, u64) {
        match counts.checked_sub(self.left()) {
            None => (self.number - counts, 0),
            Some(rest) => (self.reload - rest % self.period(), 1 + rest / self.period()),
        }
    }

    /// The count with the `nth` underflow (`nth` is 1 or more); none if it lies beyond 64 bits.
    fn count_of_underflow(self, nth: u64) -> Option<u64> {
        self.period().checked_mul(nth - 1)?.checked_add(self.left())
    }
}

impl Timer {
    const RESET: Timer = Timer { counter: 0, reload: 0, control: 0 };

    fn has(&self, bits: u32) -> bool {
        self.control & bits == bits
    }

    fn write_control(&mut self, value: u32) {
        // "A 1 in bit 4 clears IP, a 0 keeps it."
        self.control = value & CONTROL_WRITABLE | self.control & IP & !value;
        // "A 1 in bit 2 copies reload to counter."
        if value & LD != 0 {
            self.counter = self.reload;
        }
    }

    fn countdown(&self) -> Countdown {
        Countdown::new(self.counter, self.reload)
    }

    /// Is offered a number of counts, takes them if enabled, and returns how often it underflowed.
    fn count(&mut self, counts: u64) -> u64 {
        if !self.has(EN) {
            return 0;
        }
        let (counter, underflows) = self.countdown().after(counts);
        self.counter = counter as u32;
        if underflows == 0 {
            return 0;
        }
        self.control |= IP;
        if self.has(RS) {
            return underflows;
        }
        // "without it the counter stays at 0xFFFFFFFF and EN is cleared": the rest of the counts meets
        // a disabled timer.
        self.counter = 0xFFFF_FFFF;
        self.control &= !EN;
        1
    }

    /// The count at which the `nth` underflow from now comes (`nth` is 1 or more); none if it never
    /// comes or lies beyond 64 bits.
    fn count_of_underflow(&self, nth: u64) -> Option<u64> {
        if !self.has(EN) || nth > 1 && !self.has(RS) {
            return None;
        }
        self.countdown().count_of_underflow(nth)
    }
}

impl TimerUnit {
    /// "prescaler both 0xFFFF; DF 0; timers 1 to 3 all 0; timer 4 control 0x09, counter and reload
    /// 0xFFFF"
    pub const RESET: TimerUnit = TimerUnit {
        scaler: 0xFFFF,
        scaler_reload: 0xFFFF,
        df: false,
        timers: [
            Timer::RESET,
            Timer::RESET,
            Timer::RESET,
            Timer { counter: 0xFFFF, reload: 0xFFFF, control: EN | IE },
        ],
    };

    /// Reads the register at an offset.
    pub fn read(&self, offset: u32) -> Result<u32, Refusal> {
        Ok(match Register::at(offset)? {
            Register::Scaler => u32::from(self.scaler),
            Register::ScalerReload => u32::from(self.scaler_reload),
            Register::Config => CONFIG_FIXED | if self.df { CONFIG_DF } else { 0 },
            Register::Counter(index) => self.timers[index].counter,
            Register::Reload(index) => self.timers[index].reload,
            Register::Control(index) => self.timers[index].control,
        })
    }

    /// Writes the register at an offset.
    pub fn write(&mut self, offset: u32, value: u32) -> Result<(), Refusal> {
        match Register::at(offset)? {
            Register::Scaler => self.scaler = value as u16,
            Register::ScalerReload => self.scaler_reload = value as u16,
            Register::Config => self.df = value & CONFIG_DF != 0,
            Register::Counter(index) => self.timers[index].counter = value,
            Register::Reload(index) => self.timers[index].reload = value,
            Register::Control(index) => self.timers[index].write_control(value),
        }
        Ok(())
    }

    /// "A tick now sets the prescaler value to the reload even where that is 0, and then each cycle
    /// ticks."
    fn prescaler(&self) -> Countdown {
        Countdown::new(self.scaler, self.scaler_reload)
    }

    /// Lets the prescaler pass a number of cycles and returns the ticks among them.
    pub fn pass_prescaler(&mut self, cycles: u64) -> u64 {
        let (value, ticks) = self.prescaler().after(cycles);
        self.scaler = value as u16;
        ticks
    }

    /// Lets the timers pass a number of ticks, and returns each one's pulses in them.
    pub fn pass_ticks(&mut self, ticks: u64) -> [u64; TIMERS] {
        let mut pulses = [0; TIMERS];
        // "An enabled timer counts if CH is 0, or if timer n-1 underflowed in this same tick. Timer
        // 1 ignores CH." So a timer's counts are all ticks, or as many as timer n-1 has underflows
        // in them.
        let mut underflows = ticks;
        for (timer, pulses) in self.timers.iter_mut().zip(&mut pulses) {
            let counts = if timer.has(CH) { underflows } else { ticks };
            underflows = timer.count(counts);
            if timer.has(IE) {
                *pulses = underflows;
            }
        }
        pulses
    }

    /// The first cycle, counted from 1, with a pulse; none if there is none within 64 bits.
    pub fn cycles_to_pulse(&self) -> Option<u64> {
        let with_interrupt = (0..TIMERS).filter(|&index| self.timers[index].has(IE));
        let tick = with_interrupt.filter_map(|index| self.tick_of_underflow(index, 1)).min()?;
        self.prescaler().count_of_underflow(tick)
    }

    /// The tick of a timer's `nth` underflow. A chained timer's k-th count comes with the k-th
    /// underflow of the timer before it.
    fn tick_of_underflow(&self, index: usize, nth: u64) -> Option<u64> {
        let timer = &self.timers[index];
        let count = timer.count_of_underflow(nth)?;
        if index > 0 && timer.has(CH) {
            self.tick_of_underflow(index - 1, count)
        } else {
            Some(count)
        }
    }
}
