//! 02, No. 5: "Word accesses to an offset without a register get number 13, a bus error, checked after 5."
//! Every offset of every window, and what a refused access must leave alone, through the script interface;
//! and the devices' own calls. Which offsets have a register is worked out from 01 and from No. 4.

use model::irqmp::Irqmp;
use model::refusal::Refusal;
use model::script::{run, Call, Entry, Mode, ENTRY_LENGTH, LOG_HEADER, SCRIPT_HEADER};
use model::timer::TimerUnit;
use model::uart::Uart;

const CONTROLLER: u32 = 0x8000_0200;
const UNIT: u32 = 0x8000_0300;
const PORTS: [u32; 6] = [0x8000_0100, 0x8010_0100, 0x8010_0200, 0x8010_0300, 0x8010_0400, 0x8010_0500];

const PORT_REGISTERS: [u32; 4] = [0x00, 0x04, 0x08, 0x0C];
const CONTROLLER_REGISTERS: [u32; 6] = [0x00, 0x04, 0x08, 0x0C, 0x40, 0xC0];
/// Prescaler value, prescaler reload and CONFIG; then counter, reload and control of each timer.
const UNIT_REGISTERS: [u32; 15] =
    [0x00, 0x04, 0x08, 0x10, 0x14, 0x18, 0x20, 0x24, 0x28, 0x30, 0x34, 0x38, 0x40, 0x44, 0x48];

/// Each window's base, with the offsets of its registers.
fn windows() -> Vec<(u32, &'static [u32])> {
    let mut windows: Vec<(u32, &[u32])> = vec![(CONTROLLER, &CONTROLLER_REGISTERS), (UNIT, &UNIT_REGISTERS)];
    windows.extend(PORTS.map(|base| (base, &PORT_REGISTERS[..])));
    windows
}

fn read(address: u32) -> Call {
    Call::Read { size: 4, address }
}

fn write(address: u32, value: u32) -> Call {
    Call::Write { size: 4, address, value }
}

fn entry(refusal: u8, levels: u8, value: u32) -> [u8; ENTRY_LENGTH] {
    Entry { refusal, levels, value, ..Entry::default() }.encode()
}

/// The log records of a script that starts at reset, by arithmetic and, with the same log, by single
/// cycles.
fn entries(calls: &[Call]) -> Vec<[u8; ENTRY_LENGTH]> {
    let mut script = SCRIPT_HEADER.to_vec();
    calls.iter().for_each(|call| script.extend(call.encode()));
    let [log, slow] = [Mode::Arithmetic, Mode::SingleCycle].map(|mode| {
        let mut log = Vec::new();
        run(&script[..], &mut log, mode).unwrap();
        log
    });
    assert_eq!(log, slow, "{calls:X?}");
    log[LOG_HEADER.len()..].as_chunks().0.to_vec()
}

/// Leaves no register of the machine as it is at reset, but CLEAR, which reads 0; each port with bytes,
/// and with RE and TE, so that a DATA read and write would show; and the levels of `BUSY_LEVELS`.
fn busy() -> Vec<Call> {
    let mut calls = vec![write(UNIT, 7), write(UNIT + 4, 9), write(UNIT + 8, 0x200)];
    for timer in 1..=4 {
        let base = UNIT + 0x10 * timer;
        calls.extend([write(base, 0), write(base + 4, 0x1111_1111 * timer), write(base + 8, 0x0B)]);
    }
    // Each timer underflows, which sets its IP and its line.
    calls.push(Call::Advance { cycles: 8 });
    for (port, base) in (0..).zip(PORTS) {
        calls.extend([write(base + 8, if port % 2 == 0 { 0x57 } else { 0x53 }), write(base + 12, 0xA0)]);
        calls.extend((1..=2 + port % 3).map(|byte| Call::Offer { port, byte: 0x10 * port + byte }));
    }
    let controller = [(0x00, 0x1234), (0x40, 0xFFFF_FFFE), (0x08, 0x5678)];
    calls.extend(controller.map(|(offset, value)| write(CONTROLLER + offset, value)));
    // Line 12 is at level 1 and forced, so an extended line is taken and noted.
    calls.push(Call::Acknowledge);
    calls
}

/// RI is set at ports 0, 2 and 4.
const BUSY_LEVELS: u8 = 0b01_0101;

/// Reads every register.
fn registers() -> Vec<Call> {
    let windows = windows().into_iter();
    windows.flat_map(|(base, offsets)| offsets.iter().map(move |offset| read(base + offset))).collect()
}

/// Reads every register, empties the queues, and lets time pass.
fn look() -> Vec<Call> {
    let mut calls = registers();
    for base in PORTS {
        calls.extend([read(base); 5]);
    }
    calls.extend([Call::Skip { limit: 1000 }, Call::Acknowledge, read(UNIT + 0x10)]);
    calls
}

/// The machine of `busy` has something to lose everywhere.
#[test]
fn the_busy_machine() {
    let setup = busy();
    let reads = registers();
    let log = entries(&[&setup[..], &reads].concat());
    assert!(log[..setup.len()].iter().all(|entry| entry[0] == 0));
    let at_reset = entries(&reads);
    for ((call, busy), reset) in reads.iter().zip(&log[setup.len()..]).zip(&at_reset) {
        assert_eq!((busy[0], busy[3]), (0, BUSY_LEVELS), "{call:X?}");
        let alike = busy[4..8] == reset[4..8];
        assert_eq!(alike, *call == read(CONTROLLER + 0x0C), "{call:X?}");
    }
    // Prescaler and timers after the tick in cycle 8, with DF; lines 8 to 11 and those of the levels that
    // rose, without the highest, which was taken.
    let value = |address| {
        let index = reads.iter().position(|&call| call == read(address)).unwrap();
        u32::from_be_bytes(log[setup.len() + index][4..8].try_into().unwrap())
    };
    assert_eq!([UNIT, UNIT + 4, UNIT + 8].map(value), [9, 9, 0x344]);
    assert_eq!([UNIT + 0x10, UNIT + 0x14, UNIT + 0x18].map(value), [0x1111_1111, 0x1111_1111, 0x1B]);
    assert_eq!([UNIT + 0x40, UNIT + 0x44, UNIT + 0x48].map(value), [0x4444_4444, 0x4444_4444, 0x1B]);
    assert_eq!(
        [0x04, 0x08, 0xC0].map(|offset| value(CONTROLLER + offset)),
        [1 << 2 | 0xF << 8 | 1 << 18, 0x5678, 20]
    );
    assert_eq!([0, 4, 8, 12].map(|offset| value(PORTS[4] + offset)), [0x41, 0x8800_0087, 0x8000_0057, 0xA0]);
}

/// The number of an access at an offset of a window: "1 to 5 in that order", and then 13.
fn number(registers: &[u32], offset: u32, size: u8) -> u8 {
    match (size, offset) {
        (0 | 3 | 5.., _) => 1,
        (4, 0xFD..) | (2, 0xFF) => 3,
        (4, _) if !offset.is_multiple_of(4) => 4,
        (2, _) if !offset.is_multiple_of(2) => 4,
        (1 | 2, _) => 5,
        _ if registers.contains(&offset) => 0,
        _ => 13,
    }
}

#[test]
fn every_offset_at_every_size() {
    for (base, registers) in windows() {
        let mut seen = [[0; 14]; 5];
        for (size, offset) in [1, 2, 3, 4].into_iter().flat_map(|size| (0..0x100).map(move |o| (size, o))) {
            let expected = number(registers, offset, size);
            seen[usize::from(size)][usize::from(expected)] += 1;
            let address = base + offset;
            // Ones would be seen in each register that takes a write.
            for call in [Call::Read { size, address }, Call::Write { size, address, value: u32::MAX }] {
                let log = entries(&[call]);
                assert_eq!(log[0][0], expected, "{call:X?}");
                if expected != 0 {
                    assert_eq!(log[0], entry(expected, 0, 0), "{call:X?}");
                }
            }
        }
        // Words: three run past the end, 64 are aligned, and 60, 58 or 49 of them have no register.
        let mut words = [0; 14];
        let found = registers.len();
        (words[0], words[3], words[4], words[13]) = (found, 3, 256 - 64 - 3, 64 - found);
        let mut half_words = [0; 14];
        (half_words[3], half_words[4], half_words[5]) = (1, 127, 128);
        let (mut bytes, mut others) = ([0; 14], [0; 14]);
        (bytes[5], others[1]) = (256, 256);
        assert_eq!(seen, [[0; 14], bytes, half_words, others, words], "{base:X}");
    }
}

/// A refusal by 13 answers nothing but the levels, and leaves every register and every queue alone.
#[test]
fn refused_words_change_nothing() {
    let (setup, after) = (busy(), look());
    let untouched = entries(&[&setup[..], &after].concat()).split_off(setup.len());
    let mut refused = 0;
    for (base, registers) in windows() {
        for address in
            (base..base + 0x100).step_by(4).filter(|address| !registers.contains(&(address - base)))
        {
            for call in
                [read(address), write(address, 0), write(address, u32::MAX), write(address, 0x0000_052C)]
            {
                let mut log = entries(&[&setup[..], &[call], &after].concat()).split_off(setup.len());
                assert_eq!(log.remove(0), entry(13, BUSY_LEVELS, 0), "{call:X?}");
                assert_eq!(log, untouched, "{call:X?}");
                refused += 1;
            }
        }
    }
    // Six ports, the controller and the unit.
    assert_eq!(refused, 4 * (6 * 60 + 58 + 49));
}

/// All of them in a row do as little.
#[test]
fn refused_words_in_a_row() {
    let (setup, after) = (busy(), look());
    let words = windows().into_iter().flat_map(|(base, registers)| {
        (base..base + 0x100).step_by(4).filter(move |address| !registers.contains(&(address - base)))
    });
    let refused: Vec<Call> = words.flat_map(|address| [write(address, !address), read(address)]).collect();
    let log = entries(&[&setup[..], &refused, &after].concat());
    let (between, end) = log[setup.len()..].split_at(refused.len());
    assert_eq!(between, vec![entry(13, BUSY_LEVELS, 0); 2 * (6 * 60 + 58 + 49)]);
    assert_eq!(end, &entries(&[&setup[..], &after].concat())[setup.len()..]);
}

/// Accesses to such offsets that are refused by 3, 4 or 5 keep their number, and change as little.
#[test]
fn checked_after_5() {
    let (setup, after) = (busy(), look());
    let untouched = entries(&[&setup[..], &after].concat()).split_off(setup.len());
    let table = [
        (1, UNIT + 0x0C, 5),
        (2, UNIT + 0x1C, 5),
        (1, UNIT + 0x1F, 5),
        (2, UNIT + 0x2D, 4),
        (4, UNIT + 0x3D, 4),
        (4, UNIT + 0x0A, 4),
        (2, UNIT + 0x50, 5),
        (4, UNIT + 0xFD, 3),
        (4, UNIT + 0xFE, 3),
        (2, UNIT + 0xFF, 3),
        (1, CONTROLLER + 0x10, 5),
        (2, CONTROLLER + 0x46, 5),
        (2, CONTROLLER + 0x81, 4),
        (4, CONTROLLER + 0xC2, 4),
        (4, CONTROLLER + 0xFF, 3),
        (1, PORTS[0] + 0x10, 5),
        (2, PORTS[2] + 0x12, 5),
        (2, PORTS[3] + 0x13, 4),
        (4, PORTS[4] + 0x11, 4),
        (4, PORTS[5] + 0xFD, 3),
        (3, PORTS[5] + 0x10, 1),
        (0, UNIT + 0x0C, 1),
    ];
    for (size, address, number) in table {
        for call in [Call::Read { size, address }, Call::Write { size, address, value: 0x0000_052C }] {
            let mut log = entries(&[&setup[..], &[call], &after].concat()).split_off(setup.len());
            assert_eq!(log.remove(0), entry(number, BUSY_LEVELS, 0), "{call:X?}");
            assert_eq!(log, untouched, "{call:X?}");
        }
    }
}

/// A register that ignores a write, or some of its bits, or reads 0, is a register all the same.
#[test]
fn registers_that_ignore_writes() {
    let (setup, after) = (busy(), look());
    let untouched = entries(&[&setup[..], &after].concat()).split_off(setup.len());
    let status = PORTS.map(|base| write(base + 4, u32::MAX));
    // DF is set, so it stays. CLEAR reads 0, and nothing written to it clears nothing.
    let others = [
        write(UNIT + 8, u32::MAX),
        write(UNIT + 8, 0x200),
        write(CONTROLLER + 0xC0, 0),
        write(CONTROLLER + 0xC0, 31),
        write(CONTROLLER + 0x0C, 0),
        read(CONTROLLER + 0x0C),
    ];
    for call in [&status[..], &others].concat() {
        let mut log = entries(&[&setup[..], &[call], &after].concat()).split_off(setup.len());
        assert_eq!(log.remove(0), entry(0, BUSY_LEVELS, 0), "{call:X?}");
        assert_eq!(log, untouched, "{call:X?}");
    }
}

/// "A customer's driver read a timer latch that isn't there and took 0 for a time."
#[test]
fn the_latch_that_is_not_there() {
    let start = [write(UNIT, 0), write(UNIT + 4, 0), write(UNIT + 0x14, 5), write(UNIT + 0x18, 0x0F)];
    let calls = [
        Call::Advance { cycles: 2 },
        read(UNIT + 0x1C),
        read(UNIT + 0x10),
        write(UNIT + 0x1C, 1),
        Call::Skip { limit: 100 },
    ];
    let log = entries(&[&start[..], &calls].concat()).split_off(start.len() + 1);
    assert_eq!(log[..3], [entry(13, 0, 0), entry(0, 0, 3), entry(13, 0, 0)]);
    // Counts at 3, 2, 1 and 0.
    assert_eq!(log[3][8..24], [0, 0, 0, 0, 0, 0, 0, 4, 0, 0, 0, 0, 0, 0, 0, 1]);
}

/// The devices' own calls answer an offset that is no register's alike, "odd ones included".
#[test]
fn calls_of_the_devices() {
    for offset in (0..0x200).chain([0x8000_0000, 0x8000_0100, u32::MAX - 3, u32::MAX]) {
        let mut uart = Uart::RESET;
        let found = PORT_REGISTERS.contains(&offset);
        assert_eq!(uart.read(offset).err(), (!found).then_some(Refusal::NoRegister), "{offset:X}");
        assert_eq!(uart.write(offset, 0).err(), (!found).then_some(Refusal::NoRegister), "{offset:X}");

        let mut unit = TimerUnit::RESET;
        let found = UNIT_REGISTERS.contains(&offset);
        assert_eq!(unit.read(offset).err(), (!found).then_some(Refusal::NoRegister), "{offset:X}");
        assert_eq!(unit.write(offset, 5).err(), (!found).then_some(Refusal::NoRegister), "{offset:X}");
        assert_eq!(unit == TimerUnit::RESET, !found || offset == 8, "{offset:X}");

        let mut irqmp = Irqmp::RESET;
        let found = CONTROLLER_REGISTERS.contains(&offset);
        assert_eq!(irqmp.read(offset).err(), (!found).then_some(Refusal::NoRegister), "{offset:X}");
        assert_eq!(irqmp.write(offset, 2).err(), (!found).then_some(Refusal::NoRegister), "{offset:X}");
        assert_eq!(irqmp == Irqmp::RESET, !found || matches!(offset, 0x0C | 0xC0), "{offset:X}");
    }
    assert_eq!(Refusal::NoRegister as u8, 13);
}
