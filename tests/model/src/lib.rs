//! An independent test model of one GR712RC board: six APBUARTs, one GPTIMER unit, one IRQMP, their bus
//! windows, and the script runner. Written from the scope paper (01) with the later requests 02, No. 3
//! to No. 5, its sources and the list of readings; quotations in comments are sentences of 01, about what
//! counts down, of No. 3, about interrupts, of No. 4, and about offsets without a register, of No. 5.
//!
//! The program holds one machine that starts at reset and changes it by accepted calls only, so no
//! state of it is ever ill formed and number 9 cannot arise.
//!
//! Beside it, and apart from the machine: the comparison of two logs that 02, No. 1 asks for, the
//! generator of scripts, and what runs another program on them.

pub mod board;
pub mod generator;
pub mod irqmp;
pub mod logs;
pub mod program;
pub mod random;
pub mod refusal;
pub mod script;
pub mod slow;
pub mod timer;
pub mod uart;
