//! IRQMP interrupt controller for one processor, as 02, No. 4 adds it; quotations in this module are its
//! sentences. What raises its lines is the board's matter.

use crate::refusal::Refusal;

pub const LEVEL: u32 = 0x00;
pub const PENDING: u32 = 0x04;
pub const FORCE: u32 = 0x08;
pub const CLEAR: u32 = 0x0C;
pub const MASK: u32 = 0x40;
pub const EXTENDED_ACKNOWLEDGE: u32 = 0xC0;

/// "Level and force keep bits 1 to 15, pending and mask bits 1 to 31". There is no line 0.
const LINES_TO_15: u32 = 0x0000_FFFE;
const LINES_TO_31: u32 = 0xFFFF_FFFE;

/// "Lines 16 to 31 reach the processor as line 12"
const EXTENDED_LINES: u32 = 0xFFFF_0000;
const EXTENDED_AS: u32 = 12;

/// The controller's registers. No other offset has one.
enum Register {
    Level,
    Pending,
    Force,
    Clear,
    Mask,
    ExtendedAcknowledge,
}

impl Register {
    fn at(offset: u32) -> Result<Register, Refusal> {
        match offset {
            LEVEL => Ok(Register::Level),
            PENDING => Ok(Register::Pending),
            FORCE => Ok(Register::Force),
            CLEAR => Ok(Register::Clear),
            MASK => Ok(Register::Mask),
            EXTENDED_ACKNOWLEDGE => Ok(Register::ExtendedAcknowledge),
            _ => Err(Refusal::NoRegister),
        }
    }
}

#[derive(Clone, Debug, PartialEq, Eq)]
pub struct Irqmp {
    pub level: u32,
    pub pending: u32,
    pub force: u32,
    pub mask: u32,
    /// The extended line taken with the last line 12, or 0 if that was line 12 itself.
    pub extended_acknowledge: u32,
}

/// The bit of a line.
pub const fn bit(line: u32) -> u32 {
    1 << line
}

/// The line with the highest number, if there is one.
fn highest(lines: u32) -> Option<u32> {
    lines.checked_ilog2()
}

impl Irqmp {
    /// "all 0 at reset"
    pub const RESET: Irqmp = Irqmp { level: 0, pending: 0, force: 0, mask: 0, extended_acknowledge: 0 };

    /// Reads the register at an offset.
    pub fn read(&self, offset: u32) -> Result<u32, Refusal> {
        Ok(match Register::at(offset)? {
            Register::Level => self.level,
            Register::Pending => self.pending,
            Register::Force => self.force,
            // "it reads 0"
            Register::Clear => 0,
            Register::Mask => self.mask,
            Register::ExtendedAcknowledge => self.extended_acknowledge,
        })
    }

    /// Writes the register at an offset.
    pub fn write(&mut self, offset: u32, value: u32) -> Result<(), Refusal> {
        match Register::at(offset)? {
            Register::Level => self.level = value & LINES_TO_15,
            Register::Pending => self.pending = value & LINES_TO_31,
            Register::Force => self.force = value & LINES_TO_15,
            // "Ones written to clear clear pending bits"; those of force stay.
            Register::Clear => self.pending &= !value,
            Register::Mask => self.mask = value & LINES_TO_31,
            // "Extended acknowledge ignores writes."
            Register::ExtendedAcknowledge => {}
        }
        Ok(())
    }

    /// Makes lines pending, whatever the mask, and whether or not they are already.
    pub fn raise(&mut self, lines: u32) {
        self.pending |= lines;
    }

    /// The processor takes the first line that waits. Returns the line as the processor sees it, or 0
    /// if none waits.
    pub fn acknowledge(&mut self) -> u32 {
        let Some(line) = self.first() else { return 0 };
        if line == EXTENDED_AS {
            // "taking 12 takes the highest waiting extended line if any and notes its number, else
            // line 12 and notes 0"
            let extended = highest(self.waiting() & EXTENDED_LINES);
            self.take(extended.unwrap_or(line));
            self.extended_acknowledge = extended.unwrap_or(0);
        } else {
            self.take(line);
        }
        line
    }

    /// "A line waits when pending or forced, and its mask bit is 1."
    fn waiting(&self) -> u32 {
        (self.pending | self.force) & self.mask
    }

    /// The first of the lines that wait at the processor: "Level 1 goes before level 0, then the higher
    /// number." An extended line has the level and the number of line 12, "whatever 12's mask bit".
    fn first(&self) -> Option<u32> {
        let waiting = self.waiting();
        let as_extended = if waiting & EXTENDED_LINES != 0 { bit(EXTENDED_AS) } else { 0 };
        let at_processor = waiting & !EXTENDED_LINES | as_extended;
        highest(at_processor & self.level).or(highest(at_processor))
    }

    /// "Taking a line clears its force bit if set, else its pending bit".
    fn take(&mut self, line: u32) {
        if self.force & bit(line) != 0 {
            self.force &= !bit(line);
        } else {
            self.pending &= !bit(line);
        }
    }
}
