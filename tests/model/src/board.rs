//! The machine: six serial ports, a timer unit and an interrupt controller behind their bus windows, and
//! the lines from the ones to the other.

use crate::irqmp::{bit, Irqmp};
use crate::refusal::Refusal;
use crate::timer::{Passed, TimerUnit, TIMERS};
use crate::uart::Uart;

pub const UARTS: usize = 6;

/// The controller's lines, by port and by timer: "2 for port 0, 16+p for ports 1 to 5" and, of timer n,
/// "line 7+n" (02, No. 4).
const UART_LINES: [u32; UARTS] = [2, 17, 18, 19, 20, 21];
const TIMER_LINES: [u32; TIMERS] = [8, 9, 10, 11];

/// Every window has this length and starts at a multiple of it.
const WINDOW_LENGTH: u32 = 0x100;

#[derive(Clone, Copy)]
enum Device {
    Uart(usize),
    TimerUnit,
    Irqmp,
}

/// The device whose window starts at a base address.
fn device_at(base: u32) -> Option<Device> {
    match base {
        0x8000_0100 => Some(Device::Uart(0)),
        0x8000_0200 => Some(Device::Irqmp),
        0x8000_0300 => Some(Device::TimerUnit),
        0x8010_0100 => Some(Device::Uart(1)),
        0x8010_0200 => Some(Device::Uart(2)),
        0x8010_0300 => Some(Device::Uart(3)),
        0x8010_0400 => Some(Device::Uart(4)),
        0x8010_0500 => Some(Device::Uart(5)),
        _ => None,
    }
}

/// Finds the device and word offset of an access. The numbers 1 to 5 are judged "in that order"; the
/// device itself knows its registers and judges 13, which is "checked after 5" (02, No. 5).
fn decode(address: u32, size: u8) -> Result<(Device, u32), Refusal> {
    let offset = address % WINDOW_LENGTH;
    let size = u32::from(size);
    if !matches!(size, 1 | 2 | 4) {
        return Err(Refusal::Size);
    }
    let device = device_at(address - offset).ok_or(Refusal::NoWindow)?;
    if offset + size > WINDOW_LENGTH {
        Err(Refusal::PastEnd)
    } else if !address.is_multiple_of(size) {
        Err(Refusal::Misaligned)
    } else if size != 4 {
        Err(Refusal::NotWord)
    } else {
        Ok((device, offset))
    }
}

#[derive(Clone, Debug)]
pub struct Board {
    uarts: [Uart; UARTS],
    pub timer_unit: TimerUnit,
    pub irqmp: Irqmp,
}

impl Board {
    pub const RESET: Board =
        Board { uarts: [Uart::RESET; UARTS], timer_unit: TimerUnit::RESET, irqmp: Irqmp::RESET };

    /// A bus read; returns the value.
    pub fn read(&mut self, address: u32, size: u8) -> Result<u32, Refusal> {
        match decode(address, size)? {
            (Device::Uart(port), offset) => self.with_uart(port, |uart| uart.read(offset)),
            (Device::TimerUnit, offset) => self.timer_unit.read(offset),
            (Device::Irqmp, offset) => self.irqmp.read(offset),
        }
    }

    /// A bus write; returns the byte that a port emitted, if any.
    pub fn write(&mut self, address: u32, size: u8, value: u32) -> Result<Option<u8>, Refusal> {
        match decode(address, size)? {
            (Device::Uart(port), offset) => self.with_uart(port, |uart| uart.write(offset, value)),
            (Device::TimerUnit, offset) => self.timer_unit.write(offset, value).map(|()| None),
            (Device::Irqmp, offset) => self.irqmp.write(offset, value).map(|()| None),
        }
    }

    /// Offers a byte to a port's receiver.
    pub fn offer(&mut self, port: u8, byte: u8) -> Result<(), Refusal> {
        let port = usize::from(port);
        if port >= UARTS {
            return Err(Refusal::NoPort);
        }
        self.with_uart(port, |uart| uart.receive(byte))
    }

    /// Passes a number of cycles. The lines of the whole span are raised at once: the first pulse sets a
    /// line, and nothing in between takes it.
    pub fn advance(&mut self, cycles: u64) -> Passed {
        let ticks = self.timer_unit.pass_prescaler(cycles);
        // Most advances end before the tick. Timers and controller have no part in them.
        if ticks == 0 {
            return Passed { cycles, pulses: [0; TIMERS] };
        }
        let pulses = self.timer_unit.pass_ticks(ticks);
        self.raise_timers(pulses.map(|pulses| pulses > 0));
        Passed { cycles, pulses }
    }

    /// Passes "the fewest cycles, one or more, whose last has a pulse", or the limit if none is within
    /// it.
    pub fn skip(&mut self, limit: u64) -> Passed {
        let cycles = self.timer_unit.cycles_to_pulse().map_or(limit, |cycles| cycles.min(limit));
        self.advance(cycles)
    }

    /// "A pulse of timer n sets pending line 7+n".
    pub fn raise_timers(&mut self, pulsed: [bool; TIMERS]) {
        let lines = TIMER_LINES.into_iter().zip(pulsed).filter(|&(_, pulsed)| pulsed);
        self.irqmp.raise(lines.map(|(line, _)| bit(line)).sum());
    }

    /// Lets something be done to a port. "a line level rising from 0 to 1 sets the port's line", whatever
    /// made it rise.
    fn with_uart<T>(&mut self, port: usize, act: impl FnOnce(&mut Uart) -> T) -> T {
        let uart = &mut self.uarts[port];
        let before = uart.level();
        let answer = act(uart);
        if uart.level() && !before {
            self.irqmp.raise(bit(UART_LINES[port]));
        }
        answer
    }

    /// The levels of the ports' interrupt lines, bit p for port p.
    pub fn levels(&self) -> u8 {
        let set = |(port, uart): (usize, &Uart)| u8::from(uart.level()) << port;
        self.uarts.iter().enumerate().map(set).sum()
    }
}
