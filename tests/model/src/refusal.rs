//! The refusal numbers that a script can show.

#[derive(Clone, Copy, Debug, PartialEq, Eq)]
#[repr(u8)]
pub enum Refusal {
    /// "size is not 1, 2 or 4"
    Size = 1,
    /// "the address lies in no window"
    NoWindow = 2,
    /// "the access runs past its window's end"
    PastEnd = 3,
    /// "the address is no multiple of the size"
    Misaligned = 4,
    /// "the size is 1 or 2"
    NotWord = 5,
    /// "an offered byte names a port above 5"
    NoPort = 6,
    /// "that port's RE is 0"
    ReceiverDisabled = 7,
    /// "that port already holds 8 bytes"
    FifoFull = 8,
    /// "a script record is malformed or cut short"
    Malformed = 10,
    /// "a file is shorter than 5 bytes or has the wrong mark"
    Mark = 11,
    /// "the version isn't 1"
    Version = 12,
    /// "Word accesses to an offset without a register" (02, No. 5)
    NoRegister = 13,
}
