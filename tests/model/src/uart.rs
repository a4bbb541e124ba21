//! APBUART serial port.

use crate::refusal::Refusal;

pub const DATA: u32 = 0x00;
pub const STATUS: u32 = 0x04;
pub const CONTROL: u32 = 0x08;
pub const SCALER: u32 = 0x0C;

/// CONTROL bits.
pub const RE: u32 = 1 << 0;
pub const TE: u32 = 1 << 1;
pub const RI: u32 = 1 << 2;
pub const TI: u32 = 1 << 3;
const FA: u32 = 1 << 31;

/// STATUS with an empty receive FIFO: FA, TH, TE and TS.
const STATUS_EMPTY: u32 = 0x8000_0086;
const STATUS_DR: u32 = 1;
const STATUS_RCNT_SHIFT: u32 = 26;

const FIFO_SIZE: usize = 8;

/// The port's registers. No other offset has one.
enum Register {
    Data,
    Status,
    Control,
    Scaler,
}

impl Register {
    fn at(offset: u32) -> Result<Register, Refusal> {
        match offset {
            DATA => Ok(Register::Data),
            STATUS => Ok(Register::Status),
            CONTROL => Ok(Register::Control),
            SCALER => Ok(Register::Scaler),
            _ => Err(Refusal::NoRegister),
        }
    }
}

#[derive(Clone, Debug)]
pub struct Uart {
    control: u32,
    scaler: u8,
    /// Receive FIFO, a ring: `count` bytes, the oldest at `head`.
    fifo: [u8; FIFO_SIZE],
    head: usize,
    count: usize,
    /// Level of the interrupt line. Stored, because it is worked out at certain events only.
    level: bool,
}

impl Uart {
    /// "CONTROL 0x80000000, SCALER 0, empty queue, level 0"
    pub const RESET: Uart =
        Uart { control: FA, scaler: 0, fifo: [0; FIFO_SIZE], head: 0, count: 0, level: false };

    pub fn level(&self) -> bool {
        self.level
    }

    /// Reads the register at an offset.
    pub fn read(&mut self, offset: u32) -> Result<u32, Refusal> {
        Ok(match Register::at(offset)? {
            Register::Data => self.take_received(),
            Register::Status => {
                let data_ready = if self.count > 0 { STATUS_DR } else { 0 };
                STATUS_EMPTY | data_ready | (self.count as u32) << STATUS_RCNT_SHIFT
            }
            Register::Control => self.control,
            Register::Scaler => u32::from(self.scaler),
        })
    }

    /// Writes the register at an offset and returns the byte emitted, if any.
    pub fn write(&mut self, offset: u32, value: u32) -> Result<Option<u8>, Refusal> {
        match Register::at(offset)? {
            // "the low 8 bits are emitted at once if TE is 1, else dropped"
            Register::Data => return Ok((self.control & TE != 0).then_some(value as u8)),
            // "Writes are ignored."
            Register::Status => {}
            Register::Control => {
                self.control = value | FA;
                self.update_level();
            }
            Register::Scaler => self.scaler = value as u8,
        }
        Ok(None)
    }

    /// A byte arrives at the receiver: it "joins the queue's end if RE is 1 and fewer than 8 wait".
    pub fn receive(&mut self, byte: u8) -> Result<(), Refusal> {
        if self.control & RE == 0 {
            return Err(Refusal::ReceiverDisabled);
        }
        if self.count == FIFO_SIZE {
            return Err(Refusal::FifoFull);
        }
        self.fifo[(self.head + self.count) % FIFO_SIZE] = byte;
        self.count += 1;
        self.update_level();
        Ok(())
    }

    /// "0 if RE is 0 or the queue is empty; else the oldest byte, which leaves". The level stays as
    /// it was.
    fn take_received(&mut self) -> u32 {
        if self.control & RE == 0 || self.count == 0 {
            return 0;
        }
        let byte = self.fifo[self.head];
        self.head = (self.head + 1) % FIFO_SIZE;
        self.count -= 1;
        u32::from(byte)
    }

    /// "worked out anew on a CONTROL write and on an accepted byte only. It is 1 if (RI and queue
    /// not empty) or TI."
    fn update_level(&mut self) {
        self.level = (self.control & RI != 0 && self.count > 0) || self.control & TI != 0;
    }
}
