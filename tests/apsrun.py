"""The cases of tests/apsrun, which says what is printed. Arguments: the program, and a folder with faults.so in it."""
import collections
import os
import random
import resource
import signal
import struct
import subprocess
import sys
import threading

PROGRAM, FOLDER = sys.argv[1:]
SECONDS = 5  # in which any run ends

# Scripts and logs, as 01 lays them out.

PIECE = 4096
PORTS = [0x80000100, 0x80100100, 0x80100200, 0x80100300, 0x80100400, 0x80100500]
DATA, STATUS, CONTROL, SCALER = 0x00, 0x04, 0x08, 0x0C
RE, TE, RI, TI = 1, 2, 4, 8
UNIT = 0x80000300
PRESCALER, PRESCALER_RELOAD, CONFIG = UNIT, UNIT + 4, UNIT + 8
TIMER1, TIMER2, TIMER3, TIMER4 = TIMERS = [UNIT + 0x10 * n for n in (1, 2, 3, 4)]  # counter, +4 reload, +8 control
IRQMP = 0x80000200
LEVEL, PENDING, FORCE, CLEAR, MASK, EXTENDED = (IRQMP + offset for offset in (0x00, 0x04, 0x08, 0x0C, 0x40, 0xC0))
PORT_LINES = [2, 17, 18, 19, 20, 21]
TIMER_LINES = [8, 9, 10, 11]
ALL_LINES = 0xFFFFFFFE  # bits 1 to 31
LARGEST = 2**64 - 1
# The number that an access to each of a window's 64 words gets: 0 where there is a register, else 13.
PORT_WORDS = [
    0, 0, 0, 0,  # DATA, STATUS, CONTROL, SCALER
    *60 * [13],  # 0x10 to 0xFC
]
UNIT_WORDS = [
    0, 0, 0, 13,  # prescaler, its reload, CONFIG; 0x0C
    0, 0, 0, 13,  # timer 1: counter, reload, control; 0x1C
    0, 0, 0, 13,  # timer 2; 0x2C
    0, 0, 0, 13,  # timer 3; 0x3C
    0, 0, 0, 13,  # timer 4; 0x4C
    *44 * [13],  # 0x50 to 0xFC
]
IRQMP_WORDS = [
    0, 0, 0, 0,  # level, pending, force, clear
    *12 * [13],  # 0x10 to 0x3C
    0,  # mask, 0x40
    *31 * [13],  # 0x44 to 0xBC
    0,  # extended acknowledge, 0xC0
    *15 * [13],  # 0xC4 to 0xFC
]
WINDOWS = {**dict.fromkeys(PORTS, PORT_WORDS), UNIT: UNIT_WORDS, IRQMP: IRQMP_WORDS}
assert all(len(words) == 64 for words in WINDOWS.values())
WITHOUT = [base + 4 * at for base, words in WINDOWS.items() for at, number in enumerate(words) if number == 13]


def script(*records):
    return b"APS\x00\x01" + b"".join(records)


def log(*entries):
    return b"APL\x00\x01" + b"".join(entries)


def record(kind, one=0, two=0, address=0, number=0):
    return struct.pack(">BBBxIQ", kind, one, two, address, number)


def read(address, size=4):
    return record(1, size, address=address)


def write(address, value, size=4):
    return record(2, size, address=address, number=value)


def offer(port, byte):
    return record(3, port, byte)


def advance(cycles):
    return record(4, number=cycles)


def skip(limit):
    return record(5, number=limit)


RESET = record(6)
ACKNOWLEDGE = record(7)


def entry(number=0, emitted=None, levels=0, value=0, cycles=0, pulses=(0, 0, 0, 0)):
    return struct.pack(">BBBBIQ4Q", number, emitted is not None, emitted or 0, levels, value, cycles, *pulses)


# The bytes that must be 0 in a record of each kind.
BLANKS = {
    1: [2, 3, *range(8, 16)],
    2: [2, 3, *range(8, 12)],
    3: range(3, 16),
    4: range(1, 8),
    5: range(1, 8),
    6: range(1, 16),
    7: range(1, 16),
}


def altered(record, at, byte):
    return record[:at] + bytes([byte]) + record[at + 1:]


def refusal(size, address):
    """The number that an access gets, by the table of 01 and 02."""
    base = next((base for base in WINDOWS if base <= address < base + 0x100), None)
    if size not in (1, 2, 4):
        return 1
    if base is None:
        return 2
    if address + size > base + 0x100:
        return 3
    if address % size:
        return 4
    if size < 4:
        return 5
    return WINDOWS[base][(address - base) // 4]


class Walk:
    """A long script, and the log that 01's and 02's rules give it. Each step adds some records, each with its entry, and keeps what
    later ones need to know of the machine: all of the ports and of the interrupt controller, the prescaler's value and the timers'
    reloads. Between two steps no timer is enabled, and only the step `time` has ticks."""

    def __init__(self, length):
        self.any = random.Random(length)
        self.records, self.entries = [], []
        self.reset()
        ports = [self.control, self.scaler, self.data, self.offer, self.take]
        lines = [self.lines, self.acknowledge]
        steps = [*ports, *ports, *lines, *lines, self.look, self.reload, self.wait, self.time]
        steps += [self.malformed, self.refused, self.nothing]
        while len(self.records) < length:
            self.any.choice([*20 * steps, self.reset])()
        self.records, self.entries = self.records[:length], self.entries[:length]

    def say(self, record, **answer):
        self.records.append(record)
        self.entries.append(entry(levels=sum(level << port for port, level in enumerate(self.levels)), **answer))

    def draw(self):
        return self.any.randrange(6), self.any.getrandbits(32)

    def work_out_level(self, port):
        control, before = self.controls[port], self.levels[port]
        self.levels[port] = int(control & TI != 0 or (control & RI != 0 and self.queues[port] != []))
        if self.levels[port] > before:
            self.registers[PENDING] |= 1 << PORT_LINES[port]

    def reset(self):
        self.registers = dict.fromkeys([LEVEL, PENDING, FORCE, CLEAR, MASK, EXTENDED], 0)
        self.controls, self.scalers, self.queues, self.levels = [2**31] * 6, [0] * 6, [[] for _ in PORTS], [0] * 6
        self.prescaler, self.reloads = 0xFFFF, [0, 0, 0, 0xFFFF]
        self.say(RESET)
        self.say(write(TIMER4 + 8, 0))

    def control(self):
        port, value = self.draw()
        self.controls[port] = value | 2**31
        self.work_out_level(port)
        self.say(write(PORTS[port] + CONTROL, value))

    def scaler(self):
        port, value = self.draw()
        self.scalers[port] = value & 0xFF
        self.say(write(PORTS[port] + SCALER, value))

    def data(self):
        port, value = self.draw()
        self.say(write(PORTS[port] + DATA, value), emitted=value & 0xFF if self.controls[port] & TE else None)

    def offer(self):
        port = self.any.randrange(8)
        for byte in self.any.randbytes(self.any.randrange(1, 6)):
            if port > 5:
                self.say(offer(port, byte), number=6)
            elif not self.controls[port] & RE:
                self.say(offer(port, byte), number=7)
            elif len(self.queues[port]) == 8:
                self.say(offer(port, byte), number=8)
            else:
                self.queues[port].append(byte)
                self.work_out_level(port)
                self.say(offer(port, byte))

    def take(self):
        port, _ = self.draw()
        takes = self.controls[port] & RE and self.queues[port]
        self.say(read(PORTS[port] + DATA), value=self.queues[port].pop(0) if takes else 0)

    def look(self):
        port, _ = self.draw()
        waiting = len(self.queues[port])
        self.say(read(PORTS[port] + STATUS), value=0x80000086 + (waiting > 0) + (waiting << 26))
        self.say(read(PORTS[port] + CONTROL), value=self.controls[port])
        self.say(read(PORTS[port] + SCALER), value=self.scalers[port])
        self.say(read(PRESCALER), value=self.prescaler)
        for timer, reload in zip(TIMERS, self.reloads):
            self.say(read(timer + 4), value=reload)

    def lines(self):
        """A write of one of the controller's registers, and a read of all."""
        registers = self.registers
        register, value = self.any.choice([*registers]), self.any.getrandbits(32) & self.any.getrandbits(32)
        if register == CLEAR:
            registers[PENDING] &= ~value
        elif register != EXTENDED:
            registers[register] = value & (0xFFFE if register in (LEVEL, FORCE) else ALL_LINES)
        self.say(write(register, value))
        for register, value in registers.items():
            self.say(read(register), value=value)

    def acknowledge(self):
        """The line first in order: level, then number, an extended one as 12. Force goes before pending."""
        registers = self.registers
        for _ in range(self.any.randrange(1, 4)):
            waiting = (registers[PENDING] | registers[FORCE]) & registers[MASK]
            seen = [line for line in range(1, 16) if waiting >> line & 1 or (line == 12 and waiting >> 16)]
            line = max(seen, key=lambda line: (registers[LEVEL] >> line & 1, line), default=0)
            taken = waiting.bit_length() - 1 if line == 12 and waiting >> 16 else line
            if line == 12:
                registers[EXTENDED] = taken if taken > 15 else 0
            register = FORCE if registers[FORCE] >> taken & 1 else PENDING
            registers[register] &= ~(1 << taken)
            self.say(ACKNOWLEDGE, value=line)

    def reload(self):
        timer, value = self.any.randrange(4), self.any.getrandbits(32)
        self.reloads[timer] = value
        self.say(write(TIMERS[timer] + 4, value))

    def wait(self):
        """Some cycles without a tick, and a new prescaler value now and then."""
        cycles = self.any.randrange(self.prescaler + 1)
        self.prescaler -= cycles
        self.say(self.any.choice([advance, skip])(cycles), cycles=cycles)
        if self.prescaler < 0x1000:
            value = self.any.getrandbits(32)
            self.prescaler = value & 0xFFFF
            self.say(write(PRESCALER, value))

    def time(self):
        """One timer alone, that restarts or not. Ticks: in the first cycle, and in each `period`-th after it. Pulses: at the
        `counts`-th tick, which finds the counter at 0, and where it restarts in each `counts`-th after it."""
        n, timer = self.any.choice([*enumerate(TIMERS)])
        prescaler_reload, reload = (self.any.randrange(2 ** self.any.randrange(bits + 1)) for bits in (16, 32))
        cycles = self.any.randrange(1, 2 ** self.any.randrange(1, 65))
        period, counts, restarts = prescaler_reload + 1, reload + 1, self.any.randrange(2)
        self.say(write(PRESCALER, 0))
        self.say(write(PRESCALER_RELOAD, prescaler_reload))
        self.say(write(timer + 4, reload))
        self.say(write(timer + 8, 0x0D + 2 * restarts))  # EN, IE, and LD: the counter takes the reload; RS or not
        passes = self.any.choice([advance, skip])
        passed = min(cycles, reload * period + 1) if passes is skip else cycles
        ticks = (passed - 1) // period + 1
        underflows = ticks // counts if restarts else min(ticks // counts, 1)
        rests = underflows and not restarts
        self.say(passes(cycles), cycles=passed, pulses=[underflows if other == timer else 0 for other in TIMERS])
        if underflows:
            self.registers[PENDING] |= 1 << TIMER_LINES[n]
        self.say(read(timer), value=0xFFFFFFFF if rests else reload - ticks % counts)
        control = 0x08 if rests else 0x09 + 2 * restarts
        self.say(read(timer + 8), value=control + (0x10 if underflows else 0))
        self.say(write(timer + 8, 0x10))
        self.prescaler, self.reloads[n] = prescaler_reload - (passed - 1) % period, reload

    def malformed(self):
        """Another kind, or a record that would show in the machine but for one byte."""
        port, value = self.draw()
        base = PORTS[port]
        good = [read(base + DATA), write(base + CONTROL, value), offer(port, 0x55), advance(1), skip(1), RESET, ACKNOWLEDGE]
        record = self.any.choice(good)
        if self.any.randrange(2):
            self.say(altered(record, self.any.choice(BLANKS[record[0]]), self.any.randrange(1, 256)), number=10)
        else:
            self.say(altered(record, 0, self.any.choice([0, *range(8, 256)])), number=10)

    def refused(self):
        address = self.any.choice([*PORTS, UNIT, IRQMP]) + self.any.choice([*range(-4, 16), *range(0xFC, 0x104)])
        size = self.any.choice([0, 1, 1, 2, 2, 3, 4, 4, 255])
        number = refusal(size, address)
        if number:
            self.say(read(address, size), number=number)
            self.say(write(address, 0xFFFFFFFF, size), number=number)

    def nothing(self):
        """Offsets without a register."""
        address = self.any.choice(WITHOUT)
        self.say(write(address, self.any.getrandbits(32)), number=13)
        self.say(read(address), number=13)


# The table of cases: what is tried, the script, what must come of it, and how the program is run (the arguments of `run`).

CASES = []

# What must come of a run that fails: a message that names the stream, and on standard output a beginning of the log, of
# so many bytes at the least and at the most; where `whole` is set, it ends with a whole record.
Failure = collections.namedtuple("Failure", "stream log least most whole")


def case(what, data, want, **how):
    CASES.append((what, data, want, how))


def example(what, *pairs):
    """A script whose records stand beside their log records."""
    case(what, script(*(pair[0] for pair in pairs)), log(*(pair[1] for pair in pairs)))


def faulty(what, data, want, faults):
    """With the faults of faults.c."""
    case(" ".join([what, "with", *(f"{name}={number}" for name, number in faults.items())]), data, want, faults=faults)


# 1. Headers.
BEHIND = b"", b"\x00", read(CONFIG), 300 * read(CONFIG) + b"\x01"
WRONG_MARKS = [altered(b"APS", at, byte) for at in range(3) for byte in (0, b"APS"[at] ^ 0x20)]
for header in sorted({whole[:length] for whole in (b"APS\x00\x01", b"APL\x00\x01", bytes(5)) for length in range(5)}):
    case(f"a script of {len(header)} bytes ({header.hex(' ')})", header, b"refused 11\n")
for behind in BEHIND:
    for version in (1, 0, 2, 0x0100, 0x0101):
        for mark in (b"APS", *WRONG_MARKS):
            header = mark + version.to_bytes(2, "big")
            if header != b"APS\x00\x01":
                refused = b"refused 12\n" if mark == b"APS" else b"refused 11\n"
                case(f"header {header.hex(' ')} and {len(behind)} bytes behind it", header + behind, refused)
    case(f"the log's mark and {len(behind)} bytes behind its header", log(behind), b"refused 11\n")
case("a header alone", script(), b"\x41\x50\x4C\x00\x01")
for byte in (0, 1, 10, 255):
    case(f"a header and one byte {byte}", script(bytes([byte])), b"\x41\x50\x4C\x00\x01" + b"\x0A" + bytes(47))

# 2. Tails, behind records that raise and lower lines. A piece holds 256 records.
for count in (0, 1, 255, 256, 257):
    records, entries, levels = [], [], 0
    for n in range(count):
        port, raised = n % 6, n % 4 != 3
        levels = levels & ~(1 << port) | raised << port
        records.append(write(PORTS[port] + CONTROL, TI if raised else 0))
        entries.append(entry(levels=levels))
    assert count == 0 or levels != 0
    case(f"{count} records and no tail", script(*records), log(*entries))
    for length in range(1, 16):
        for tail in (bytes(15), 15 * b"\xFF", RESET, write(PORTS[1] + CONTROL, TI)):
            tail = tail[:length]
            what = f"{count} records and a tail of {length} bytes ({tail.hex(' ')})"
            case(what, script(*records, tail), log(*entries, entry(10, levels=levels)))

# 3. Scripts of many pieces.
TAIL = RESET[:9]


def with_tail(walk, count):
    tail = entry(10, levels=walk.entries[count - 1][3])
    return script(*walk.records[:count], TAIL), log(*walk.entries[:count], tail)


short, long, longest = Walk(600), Walk(5000), Walk(8193)
SHORT = with_tail(short, 600)
LONG = script(*long.records), log(*long.entries)
LONGEST = script(*longest.records), log(*longest.entries)
case("600 records and a tail", *SHORT)
case("5000 records", *LONG)
case("8193 records and a tail", *with_tail(longest, 8193))
# The program gathers the logs of 16 pieces, 4096 records: scripts that end around the ends of what it writes at once.
for count in (3840, 3841, 4095, 4096, 4097, 6144, 8191, 8192):
    case(f"{count} records", script(*longest.records[:count]), log(*longest.entries[:count]))
    case(f"{count} records and a tail", *with_tail(longest, count))

# Each byte that must be 0, each kind, each size and each port number, in a machine with two lines raised and port 0 quiet. The
# lines are 18 and 21, and wait.
GOOD = read(PORTS[0] + CONTROL), write(PORTS[0] + CONTROL, TI), offer(4, 0), advance(1), skip(1), RESET, ACKNOWLEDGE
KINDS = [0, *range(8, 256)]
RAISED = (
    (write(MASK, ALL_LINES), entry()),
    (write(PORTS[2] + CONTROL, TI), entry(levels=0b000100)),
    (write(PORTS[5] + CONTROL, TI), entry(levels=0b100100)),
)
UNCHANGED = (
    (read(PRESCALER), entry(levels=0b100100, value=0xFFFF)),
    (read(PENDING), entry(levels=0b100100, value=0x240000)),
    (read(EXTENDED), entry(levels=0b100100)),
)


def with_two_raised(what, *pairs):
    example(what, *RAISED, *((record, entry(levels=0b100100, **answer)) for record, answer in pairs), *UNCHANGED)


TEN = {"number": 10}
for good in GOOD:
    bad = [altered(good, at, byte) for at in BLANKS[good[0]] for byte in (1, 0x80, 0xFF)]
    with_two_raised(f"kind {good[0]} with a byte that is not 0", *((record, TEN) for record in bad))
    with_two_raised(f"other kinds, else as kind {good[0]}", *((altered(good, 0, kind), TEN) for kind in KINDS))
sizes = [(size, {"number": refusal(size, PORTS[0] + SCALER)}) for size in range(256)]
with_two_raised("reads of each size", *((read(PORTS[0] + SCALER, size), answer) for size, answer in sizes))
with_two_raised("writes of each size", *((write(PORTS[0] + SCALER, 0, size), answer) for size, answer in sizes))
with_two_raised("offers to each port", *((offer(port, 1), {"number": 7 if port < 6 else 6}) for port in range(256)))

# 4. The same through a pipe.
case("600 records and a tail through a pipe, byte by byte", *SHORT, chunk=1)
for chunk in (7, PIECE - 1, PIECE, PIECE + 1):
    case(f"600 records and a tail through a pipe, {chunk} bytes at a time", *SHORT, chunk=chunk)
    case(f"5000 records through a pipe, {chunk} bytes at a time", *LONG, chunk=chunk)
for header, refused in ((b"APS\x00\x02", b"refused 12\n"), (b"APS\x00", b"refused 11\n"), (b"", b"refused 11\n")):
    case(f"header {header.hex(' ')} through a pipe, byte by byte", header, refused, chunk=1)

# 5. Reads and writes that fall short or are interrupted show in nothing.
FAULTS = [
    *({"READ_MOST": most} for most in (1, 2, 3, 15, 16, 17, 1000, PIECE - 1)),
    *({"WRITE_MOST": most} for most in (1, 2, 4, 47, 48, 49, 1000, PIECE)),
    *({"READ_EINTR": n} for n in (2, 3, 7)),
    *({"WRITE_EINTR": n} for n in (2, 3, 7)),
    {"READ_MOST": 7, "READ_EINTR": 2, "WRITE_MOST": 11, "WRITE_EINTR": 2},
    {"READ_MOST": 4, "READ_EINTR": 3, "WRITE_MOST": 3, "WRITE_EINTR": 5},
]
for faults in FAULTS:
    for name, (data, whole) in {"600 records and a tail": SHORT, "5000 records": LONG}.items():
        faulty(name, data, whole, faults)
for faults in ({"WRITE_MOST": 100000}, {"WRITE_MOST": 48 * 4096 - 1}, {"WRITE_EINTR": 2}):  # large writes
    faulty("8193 records", *LONGEST, faults)
for faults in ({"READ_MOST": 1, "READ_EINTR": 2}, {"WRITE_MOST": 1, "WRITE_EINTR": 2}, {"WRITE_MOST": 10}):
    faulty("a header of version 2", b"APS\x00\x02", b"refused 12\n", faults)
    faulty("a script of 4 bytes", b"APS\x00", b"refused 11\n", faults)


# A read that fails: the pieces before are logged, no record that was not read whole is, and no tail is made up.
def read_fails(name, data, whole, n, most=None):
    size = most or PIECE
    pieces = (n - 1 - -(-5 // size)) // -(-PIECE // size)  # by reads of the header and of whole pieces
    least = 5 + 48 * 256 * pieces if pieces >= 0 else 0
    brought = (n - 1) * size
    known = 5 + 48 * ((brought - 5) // 16) if brought >= 5 else 0
    faults = {"READ_EIO": n} | ({"READ_MOST": most} if most else {})
    faulty(name, data, Failure(b"apsrun: stdin: ", whole, least, known, True), faults)


for n in (1, 2, 3, 10, 17, 18, 19, 21):  # the 18th after 16 pieces, the 21st in the last
    read_fails("5000 records", *LONG, n)
for n in (33, 34):
    read_fails("8193 records", *LONGEST, n)
for n, most in ((2, 1), (5, 1), (6, 1), (5 + 16 + 1, 1), (5 + 16 + 9, 1), (3, 3), (100, 3), (4, 4095), (300, 16), (300, 100)):
    read_fails("5000 records", *LONG, n, most)
for n in range(5 + 2 * 16 + 1, 5 + 2 * 16 + len(TAIL) + 2):  # from before the tail's first byte to after its last
    walk = Walk(2)
    read_fails("2 records and a tail", script(*walk.records, TAIL), log(*walk.entries, entry(10)), n, 1)
for n in range(1, 6):
    read_fails("a script of 4 bytes", b"APS\x00", b"", n, *([1] if n > 1 else []))


# A write that fails.
def write_fails(name, data, whole, n, most=None):
    faults = {"WRITE_ENOSPC": n} | ({"WRITE_MOST": most} if most else {})
    put = (n - 1) * most if most else 0 if n == 1 else len(whole) - 1
    faulty(name, data, Failure(b"apsrun: stdout: ", whole, min(put, 5), put, False), faults)


for n, most in ((1, None), (2, None), (3, None), (2, 1), (6, 1), (7, 1), (54, 1), (2, 3), (1000, 48), (200, 1000), (3, 100000)):
    write_fails("5000 records", *LONG, n, most)
write_fails("8193 records", *LONGEST, 4)
faulty("5000 records", LONG[0], Failure(b"apsrun: stdout: ", LONG[1], 5, 5, True), {"READ_EIO": 10, "WRITE_ENOSPC": 2})
write_fails("a header alone", script(), log(), 1)
write_fails("a header of version 2", b"APS\x00\x02", b"refused 12\n", 1)
write_fails("a header of version 2", b"APS\x00\x02", b"refused 12\n", 11, 1)

# 6. Reads and writes that the system refuses.
for words in (["script.aps"], ["--help"], [""], ["a", "b"]):
    case(f"the arguments {words}", script(RESET), Failure(b"usage: apsrun < SCRIPT > LOG\n", b"", 0, 0, False), words=words)
case("a directory as standard input", b"", Failure(b"apsrun: stdin: ", b"", 0, 0, True), stdin=FOLDER)
FULL = Failure(b"apsrun: stdout: ", b"", 0, 0, False)
case("a header with standard output /dev/full", script(), FULL, stdout="/dev/full")
case("a header of version 2 with standard output /dev/full", b"APS\x00\x02", FULL, stdout="/dev/full")
case("5000 records with standard output /dev/full", LONG[0], FULL, stdout="/dev/full")
for room in (100000, 200000):  # the last write that fits is cut short, in the first large one and in the second
    want = Failure(b"apsrun: stdout: ", LONGEST[1], room, room, False)
    case(f"8193 records into a file of {room} bytes at the most", LONGEST[0], want, room=room)

# 7. 01's bench examples.
case(
    "01: a whole file",
    bytes.fromhex("41 50 53 00 01  01 04 00 00 80 00 03 08") + bytes(8),
    bytes.fromhex("41 50 4C 00 01  00 00 00 00 00 00 01 44") + bytes(40),
)
example(
    "01: advance 65535 and 65536 from reset",
    (RESET, entry()),
    (advance(65535), entry(cycles=65535)),
    (read(PRESCALER), entry(value=0)),
    (read(TIMER4), entry(value=0xFFFF)),
    (RESET, entry()),
    (advance(65536), entry(cycles=65536)),
    (read(PRESCALER), entry(value=0xFFFF)),
    (read(TIMER4), entry(value=0xFFFE)),
)
example(
    "01, 02: skip with the largest limit from reset",
    (skip(LARGEST), entry(cycles=4294967296, pulses=(0, 0, 0, 1))),
    (read(TIMER4), entry(value=0xFFFFFFFF)),
    (read(TIMER4 + 8), entry(value=0x18)),
    (skip(LARGEST), entry(cycles=LARGEST)),
)
example(
    "01, 02: one cycle less",
    (skip(4294967295), entry(cycles=4294967295)),
    (read(TIMER4), entry(value=0)),
    (read(TIMER4 + 8), entry(value=0x09)),
    (advance(1), entry(cycles=1, pulses=(0, 0, 0, 1))),
)
WRITTEN = entry()
TWO_COUNTS = (
    (write(PRESCALER, 0), WRITTEN),
    (write(PRESCALER_RELOAD, 3), WRITTEN),
    (write(TIMER1, 2), WRITTEN),
    (write(TIMER1 + 4, 2), WRITTEN),
)
example(
    "01, 02: advance 12 with prescaler 0, reload 3, timer 1 at 2; then control 0x1B",
    *TWO_COUNTS,
    (write(TIMER1 + 8, 0x0B), WRITTEN),
    (advance(12), entry(cycles=12, pulses=(1, 0, 0, 0))),
    (read(TIMER1), entry(value=2)),
    (read(TIMER1 + 8), entry(value=0x1B)),
    (write(TIMER1 + 8, 0x0B), WRITTEN),
    (read(TIMER1 + 8), entry(value=0x1B)),
    (write(TIMER1 + 8, 0x1B), WRITTEN),
    (read(TIMER1 + 8), entry(value=0x0B)),
)
example(
    "01, 02: advance 13, as before",
    *TWO_COUNTS,
    (write(TIMER1 + 8, 0x0B), WRITTEN),
    (advance(13), entry(cycles=13, pulses=(1, 0, 0, 0))),
    (read(TIMER1), entry(value=1)),
)
CHAINED = (
    *TWO_COUNTS,
    (write(TIMER1 + 8, 0x03), WRITTEN),
    (write(TIMER2, 3), WRITTEN),
    (write(TIMER2 + 4, 3), WRITTEN),
    (write(TIMER2 + 8, 0x2B), WRITTEN),
)
example(
    "01, 02: skip 100 with timer 2 chained",
    *CHAINED,
    (skip(100), entry(cycles=45, pulses=(0, 1, 0, 0))),
    (read(TIMER2 + 8), entry(value=0x3B)),
)
example(
    "01, 02: skip 20 with timer 2 chained, and on to the cycle before the pulse",
    *CHAINED,
    (skip(20), entry(cycles=20)),
    (skip(24), entry(cycles=24)),
    (read(TIMER2 + 8), entry(value=0x2B)),
    (skip(0), entry(cycles=0)),
    (skip(1), entry(cycles=1, pulses=(0, 1, 0, 0))),
)
example(
    "01: STATUS with one byte and with eight, and the ninth",
    (write(PORTS[0] + CONTROL, 1), WRITTEN),
    (offer(0, 0x41), entry()),
    (read(PORTS[0] + STATUS), entry(value=0x84000087)),
    *((offer(0, byte), entry()) for byte in b"BCDEFGH"),
    (read(PORTS[0] + STATUS), entry(value=0xA0000087)),
    (offer(0, 0x49), entry(number=8)),
    *((read(PORTS[0] + DATA), entry(value=byte)) for byte in b"ABCDEFGH"),
    (read(PORTS[0] + DATA), entry(value=0)),
)
example(
    "01: a level that stays until CONTROL is written",
    (write(PORTS[3] + CONTROL, 5), entry()),
    (offer(3, 0x7A), entry(levels=0b001000)),
    (read(PORTS[3] + DATA), entry(levels=0b001000, value=0x7A)),
    (read(PORTS[3] + STATUS), entry(levels=0b001000, value=0x80000086)),
    (write(PORTS[3] + CONTROL, 5), entry()),
)
example(
    "01, 02: the five sizes and addresses; 0x80000200 lies in the interrupt controller's window",
    (read(0x800001FE, 4), entry(number=3)),
    (read(0x80000101, 2), entry(number=4)),
    (read(0x800001FF, 1), entry(number=5)),
    (read(0x80000200, 4), entry()),
    (read(0x80000200, 3), entry(number=1)),
    (write(0x800001FE, 0xFFFFFFFF, 4), entry(number=3)),
    (write(0x80000101, 0xFFFFFFFF, 2), entry(number=4)),
    (write(0x800001FF, 0xFFFFFFFF, 1), entry(number=5)),
    (write(0x80000200, 0xFFFFFFFF, 3), entry(number=1)),
    (read(0x80000200, 4), entry()),
    (write(0x80000200, 0xFFFFFFFF, 4), entry()),
    (read(0x80000200, 4), entry(value=0xFFFE)),
)
example(
    "02: sizes and addresses in the interrupt controller's window, and around the three that touch",
    *(
        (kind(address, size), entry(number=number))
        for kind in (read, lambda address, size: write(address, 0xFFFFFFFF, size))
        for number, size, address in (
            (1, 3, 0x800002FF), (1, 0, 0x80000204), (1, 8, 0x80000240),
            (2, 4, 0x800000FE), (2, 4, 0x80000400), (2, 1, 0x80000400), (1, 3, 0x80000400),
            (3, 4, 0x800001FE), (3, 4, 0x800002FE), (3, 4, 0x800002FD), (3, 4, 0x800002FF), (3, 2, 0x800002FF), (3, 4, 0x800003FE),
            (4, 2, 0x80000201), (4, 4, 0x80000202), (4, 4, 0x800002C2), (4, 2, 0x800002FD),
            (5, 1, 0x80000200), (5, 2, 0x80000200), (5, 1, 0x80000241), (5, 2, 0x800002FE), (5, 1, 0x800002FF),
        )
    ),
    *((read(register), entry()) for register in (LEVEL, PENDING, FORCE, CLEAR, MASK, EXTENDED)),
)

# A timer with reload n pulses at every (n + 1)-th of the 2^63 ticks.
PERIODS = (1, 3, 5, 7)
example(
    "pulse counts of 64 bits: a tick in every other cycle, from the first on",
    (write(PRESCALER, 0), WRITTEN),
    (write(PRESCALER_RELOAD, 1), WRITTEN),
    *((write(timer + 4, period - 1), WRITTEN) for timer, period in zip(TIMERS, PERIODS)),
    *((write(timer + 8, 0x0F), WRITTEN) for timer in TIMERS),
    (advance(LARGEST), entry(cycles=LARGEST, pulses=[2**63 // period for period in PERIODS])),
    *((read(timer), entry(value=period - 1 - 2**63 % period)) for timer, period in zip(TIMERS, PERIODS)),
)

# 8. 02's short spans: the prescaler at 5, and timer 1 pulses at its next tick. Behind each span what it left is read.
PULSE_NEXT = (
    (write(PRESCALER, 5), WRITTEN),
    (write(PRESCALER_RELOAD, 3), WRITTEN),
    (write(TIMER1, 0), WRITTEN),
    (write(TIMER1 + 4, 2), WRITTEN),
    (write(TIMER1 + 8, 0x0B), WRITTEN),
)
for kind, spans in (
    # a span, the cycles and the pulses that it has, and the prescaler and timer 1 after it
    (advance, [(0, 0, 0, 5, 0), (1, 1, 0, 4, 0), (5, 5, 0, 0, 0), (6, 6, 1, 3, 2), (7, 7, 1, 2, 2), (10, 10, 1, 3, 1)]),
    (skip, [(0, 0, 0, 5, 0), (1, 1, 0, 4, 0), (5, 5, 0, 0, 0), (6, 6, 1, 3, 2), (7, 6, 1, 3, 2), (LARGEST, 6, 1, 3, 2)]),
):
    for span, cycles, pulses, prescaler, timer in spans:
        example(
            f"02: {kind.__name__} {span} with the prescaler at 5",
            *PULSE_NEXT,
            (kind(span), entry(cycles=cycles, pulses=(pulses, 0, 0, 0))),
            (read(PRESCALER), entry(value=prescaler)),
            (read(TIMER1), entry(value=timer)),
        )
    example(
        f"02: {kind.__name__} 5, in two, and on to the tick",
        *PULSE_NEXT,
        (kind(2), entry(cycles=2)),
        (kind(3), entry(cycles=3)),
        (kind(0), entry()),
        (kind(1), entry(cycles=1, pulses=(1, 0, 0, 0))),
    )

# 9. 02's underflow after zero.
example(
    "02: prescaler and timer with reload 0: a pulse in each cycle",
    (write(PRESCALER, 0), WRITTEN),
    (write(PRESCALER_RELOAD, 0), WRITTEN),
    (write(TIMER1 + 8, 0x0B), WRITTEN),
    (advance(3), entry(cycles=3, pulses=(3, 0, 0, 0))),
    (read(PRESCALER), entry(value=0)),
    (read(TIMER1), entry(value=0)),
    (read(TIMER4), entry(value=0xFFFC)),
    (skip(100), entry(cycles=1, pulses=(1, 0, 0, 0))),
    (advance(LARGEST), entry(cycles=LARGEST, pulses=(LARGEST, 0, 0, 1))),
)
example(
    "02: prescaler reload 0 and a value above it: the first tick in cycle 6, then one in each",
    (write(PRESCALER, 5), WRITTEN),
    (write(PRESCALER_RELOAD, 0), WRITTEN),
    (write(TIMER1 + 8, 0x0B), WRITTEN),
    (advance(5), entry(cycles=5)),
    (advance(1), entry(cycles=1, pulses=(1, 0, 0, 0))),
    (advance(2), entry(cycles=2, pulses=(2, 0, 0, 0))),
)
example(
    "02: a one-shot rests at 0xFFFFFFFF, and enabled again takes 2^32 counts; what is chained to it counts once each time",
    (write(PRESCALER, 0), WRITTEN),
    (write(PRESCALER_RELOAD, 0), WRITTEN),
    (write(TIMER4 + 8, 0), WRITTEN),
    (write(TIMER1, 1), WRITTEN),
    (write(TIMER1 + 4, 7), WRITTEN),
    (write(TIMER1 + 8, 0x09), WRITTEN),
    (write(TIMER2, 5), WRITTEN),
    (write(TIMER2 + 8, 0x2B), WRITTEN),
    (advance(1), entry(cycles=1)),
    (read(TIMER1), entry(value=0)),
    (read(TIMER1 + 8), entry(value=0x09)),
    (advance(100), entry(cycles=100, pulses=(1, 0, 0, 0))),
    (read(TIMER1), entry(value=0xFFFFFFFF)),
    (read(TIMER1 + 8), entry(value=0x18)),
    (read(TIMER2), entry(value=4)),
    (write(TIMER1 + 8, 0x09), WRITTEN),
    (skip(2**32 - 1), entry(cycles=2**32 - 1)),
    (read(TIMER1), entry(value=0)),
    (skip(LARGEST), entry(cycles=1, pulses=(1, 0, 0, 0))),
    (read(TIMER2), entry(value=3)),
)

# 10. 02's interrupt controller.
LINES_OFF = (write(MASK, 0), WRITTEN)  # the mask, as at reset


def registers(levels=0, **others):
    """A read of each register; those that are not named are 0."""
    named = {"level": LEVEL, "pending": PENDING, "force": FORCE, "clear": CLEAR, "mask": MASK, "extended": EXTENDED}
    assert set(others) <= set(named)
    return [(read(address), entry(levels=levels, value=others.get(name, 0))) for name, address in named.items()]


EACH_CYCLE_TICKS = (
    (write(PRESCALER, 0), WRITTEN),
    (write(PRESCALER_RELOAD, 0), WRITTEN),
    (write(TIMER4 + 8, 0), WRITTEN),
    (write(TIMER4, 0), WRITTEN),
    (write(TIMER4 + 4, 0), WRITTEN),
)
for n, timer, pending in zip((1, 2, 3, 4), TIMERS, (0x100, 0x200, 0x400, 0x800)):
    for passes, cycles in ((advance, 3), (skip, 1)):
        pulses = [(n == other) * cycles for other in (1, 2, 3, 4)]
        example(
            f"02: pulses of timer {n} in {passes.__name__} 3 set line {7 + n}, and nothing else does",
            *EACH_CYCLE_TICKS,
            (write(timer + 8, 0x03), WRITTEN),  # EN and RS: underflows without a pulse
            (passes(3), entry(cycles=3)),
            *registers(),
            (write(timer + 8, 0x1B), WRITTEN),  # with IE, and IP is cleared
            (passes(0), entry()),
            *registers(),
            (passes(3), entry(cycles=cycles, pulses=pulses)),
            *registers(pending=pending),
            (write(timer + 8, 0x10), WRITTEN),  # it stands, and IP is cleared: the line stays
            (passes(3), entry(cycles=3)),
            *registers(pending=pending),
            (ACKNOWLEDGE, entry()),
            (write(MASK, ALL_LINES), WRITTEN),
            *registers(pending=pending, mask=ALL_LINES),
            (ACKNOWLEDGE, entry(value=7 + n)),
            *registers(mask=ALL_LINES),
            (ACKNOWLEDGE, entry()),
            (write(timer + 8, 0x0B), WRITTEN),
            (passes(3), entry(cycles=cycles, pulses=pulses)),
            (passes(3), entry(cycles=cycles, pulses=pulses)),
            (ACKNOWLEDGE, entry(value=7 + n)),
            (ACKNOWLEDGE, entry()),
            (read(timer + 8), entry(value=0x1B)),
        )
example(
    "02: pulses of all four timers in the longest advance, and in one cycle",
    *EACH_CYCLE_TICKS,
    (write(MASK, ALL_LINES), WRITTEN),
    *((write(timer + 8, 0x0B), WRITTEN) for timer in TIMERS),
    (advance(LARGEST), entry(cycles=LARGEST, pulses=4 * [LARGEST])),
    *registers(pending=0xF00, mask=ALL_LINES),
    *((ACKNOWLEDGE, entry(value=line)) for line in (11, 10, 9, 8, 0)),
    (skip(LARGEST), entry(cycles=1, pulses=(1, 1, 1, 1))),
    (write(CLEAR, 0xA00), WRITTEN),
    *((ACKNOWLEDGE, entry(value=line)) for line in (10, 8, 0)),
)
example(
    "02: a short advance and a short skip leave the lines",
    (write(PENDING, 0x80000006), WRITTEN),
    (advance(7), entry(cycles=7)),
    (skip(7), entry(cycles=7)),
    *registers(pending=0x80000006),
)

for p, pending in enumerate((0x4, 0x20000, 0x40000, 0x80000, 0x100000, 0x200000)):
    port, up, line = PORTS[p] + CONTROL, 1 << p, (2, 12, 12, 12, 12, 12)[p]
    noted = {"extended": 16 + p} if p else {}
    example(
        f"02: rises of port {p}'s level, and what is none",
        (offer(p, 0x40), entry(number=7)),
        (write(port, TI, 2), entry(number=5)),
        (write(port, RE | RI), WRITTEN),
        *registers(),
        (offer(p, 0x41), entry(levels=up)),  # a rise, by a byte
        *registers(up, pending=pending),
        (write(MASK, ALL_LINES), entry(levels=up)),
        (ACKNOWLEDGE, entry(levels=up, value=line)),
        *registers(up, mask=ALL_LINES, **noted),
        (offer(p, 0x42), entry(levels=up)),  # the level stays 1
        (write(port, RE | RI), entry(levels=up)),
        (write(port, RE | RI | TI), entry(levels=up)),
        (read(PORTS[p] + DATA), entry(levels=up, value=0x41)),
        (read(PORTS[p] + DATA), entry(levels=up, value=0x42)),
        (offer(p, 0x43), entry(levels=up)),
        (ACKNOWLEDGE, entry(levels=up)),
        *registers(up, mask=ALL_LINES, **noted),
        (write(port, RE), entry()),  # it falls
        (offer(p, 0x44), entry()),
        *registers(mask=ALL_LINES, **noted),
        (write(port, RI), entry(levels=up)),  # a rise, by a write: RI and two bytes that wait
        *registers(up, pending=pending, mask=ALL_LINES, **noted),
        (write(port, 0), entry()),  # it falls, and the line stays
        *registers(pending=pending, mask=ALL_LINES, **noted),
        (write(CLEAR, pending), WRITTEN),
        (write(port, TI), entry(levels=up)),  # a rise, by TI
        *registers(up, pending=pending, mask=ALL_LINES, **noted),
        (RESET, entry()),  # it falls, and the line is gone
        *registers(),
        (write(port, TI), entry(levels=up)),
        *registers(up, pending=pending),
    )
example(
    "02: a byte that the full queue refuses is no rise",
    (write(PORTS[1] + CONTROL, RE), WRITTEN),
    *((offer(1, byte), WRITTEN) for byte in range(8)),
    (offer(1, 8), entry(number=8)),
    *registers(),
)
example(
    "02: rises of all ports, taken in order",
    *((write(PORTS[p] + CONTROL, TI), entry(levels=2 ** (p + 1) - 1)) for p in range(6)),
    *registers(0x3F, pending=0x3E0004),
    (write(MASK, 0x3E0004), entry(levels=0x3F)),
    *(pair for noted in (21, 20, 19, 18, 17) for pair in (
        (ACKNOWLEDGE, entry(levels=0x3F, value=12)), (read(EXTENDED), entry(levels=0x3F, value=noted)))),
    (ACKNOWLEDGE, entry(levels=0x3F, value=2)),
    *registers(0x3F, mask=0x3E0004, extended=17),
)

# What each register keeps of what is written to it.
KEPT = ("level", LEVEL, 0xFFFE), ("pending", PENDING, ALL_LINES), ("force", FORCE, 0xFFFE), ("mask", MASK, ALL_LINES)
for name, register, kept in KEPT:
    example(
        f"02: what the register {name} keeps",
        *(pair for value in (0xFFFFFFFF, 0, 1, 0x10000, 0xA5A5A5A5, 0x5A5A5A5A, *(1 << bit for bit in range(32)))
          for pair in ((write(register, value), WRITTEN), *registers(**{name: value & kept}))),
    )
example(
    "02: clear clears pending bits and reads 0; extended acknowledge ignores writes",
    (write(PENDING, 0xFFFFFFFF), WRITTEN),
    (write(FORCE, 0xFFFFFFFF), WRITTEN),
    (write(CLEAR, 0), WRITTEN),
    *registers(pending=0xFFFFFFFE, force=0xFFFE),
    (write(CLEAR, 0x00FF00FF), WRITTEN),
    *registers(pending=0xFF00FF00, force=0xFFFE),
    (write(EXTENDED, 0x1F), WRITTEN),
    (write(EXTENDED, 0xFFFFFFFF), WRITTEN),
    *registers(pending=0xFF00FF00, force=0xFFFE),
    (write(CLEAR, 0xFFFFFFFF), WRITTEN),
    *registers(force=0xFFFE),
)


def acknowledged(what, level, pending, force, mask, *answers):
    """Acknowledges from these registers: of each its value, and pending, force and extended acknowledge after it. The last one
    must leave all as it is, and is done again."""
    example(
        f"02: {what}",
        (write(LEVEL, level), WRITTEN),
        (write(PENDING, pending), WRITTEN),
        (write(FORCE, force), WRITTEN),
        (write(MASK, mask), WRITTEN),
        *(pair for value, pending, force, noted in (*answers, answers[-1]) for pair in (
            (ACKNOWLEDGE, entry(value=value)), *registers(level=level, pending=pending, force=force, mask=mask, extended=noted))),
    )


acknowledged("no line", 0xFFFE, 0, 0, ALL_LINES, (0, 0, 0, 0))
acknowledged("all lines, and none with its mask bit", 0xFFFE, ALL_LINES, 0xFFFE, 0, (0, ALL_LINES, 0xFFFE, 0))
for line in range(1, 16):
    bit = 1 << line
    acknowledged(f"line {line} pending", 0, bit, 0, bit, (line, 0, 0, 0), (0, 0, 0, 0))
    acknowledged(f"line {line} forced", 0, 0, bit, bit, (line, 0, 0, 0), (0, 0, 0, 0))
    acknowledged(f"line {line} forced and pending", bit, bit, bit, bit, (line, bit, 0, 0), (line, 0, 0, 0), (0, 0, 0, 0))
    acknowledged(f"line {line} without its mask bit", bit, bit, bit, ALL_LINES ^ bit, (0, bit, bit, 0))
for line in range(16, 32):
    bit = 1 << line
    acknowledged(f"line {line} pending", 0, bit, 0, bit, (12, 0, 0, line), (0, 0, 0, line))
    acknowledged(f"line {line} without its mask bit", 0, bit, 0, ALL_LINES ^ bit, (0, bit, 0, 0))
acknowledged("all lines, level 0", 0, ALL_LINES, 0, ALL_LINES,
             (15, 0xFFFF7FFE, 0, 0), (14, 0xFFFF3FFE, 0, 0), (13, 0xFFFF1FFE, 0, 0),
             (12, 0x7FFF1FFE, 0, 31), (12, 0x3FFF1FFE, 0, 30), (12, 0x1FFF1FFE, 0, 29), (12, 0x0FFF1FFE, 0, 28),
             (12, 0x07FF1FFE, 0, 27), (12, 0x03FF1FFE, 0, 26), (12, 0x01FF1FFE, 0, 25), (12, 0x00FF1FFE, 0, 24),
             (12, 0x007F1FFE, 0, 23), (12, 0x003F1FFE, 0, 22), (12, 0x001F1FFE, 0, 21), (12, 0x000F1FFE, 0, 20),
             (12, 0x00071FFE, 0, 19), (12, 0x00031FFE, 0, 18), (12, 0x00011FFE, 0, 17), (12, 0x00001FFE, 0, 16),
             (12, 0x00000FFE, 0, 0),
             (11, 0x7FE, 0, 0), (10, 0x3FE, 0, 0), (9, 0x1FE, 0, 0), (8, 0xFE, 0, 0), (7, 0x7E, 0, 0), (6, 0x3E, 0, 0),
             (5, 0x1E, 0, 0), (4, 0xE, 0, 0), (3, 0x6, 0, 0), (2, 0x2, 0, 0), (1, 0, 0, 0), (0, 0, 0, 0))
acknowledged("level before number: 1 of level 1, 15 of level 0", 0x0002, 0x8002, 0, ALL_LINES,
             (1, 0x8000, 0, 0), (15, 0, 0, 0), (0, 0, 0, 0))
acknowledged("number among those of one level: 9 and 3 of level 1, 14 and 11 of level 0", 0x0208, 0x4A08, 0, ALL_LINES,
             (9, 0x4808, 0, 0), (3, 0x4800, 0, 0), (14, 0x0800, 0, 0), (11, 0, 0, 0), (0, 0, 0, 0))
acknowledged("level before force: 5 is pending with level 1, 6 forced with level 0", 0x0020, 0x0020, 0x0040, ALL_LINES,
             (5, 0, 0x40, 0), (6, 0, 0, 0), (0, 0, 0, 0))
acknowledged("number before force: 7 is pending, 4 forced", 0, 0x0080, 0x0010, ALL_LINES,
             (7, 0, 0x10, 0), (4, 0, 0, 0), (0, 0, 0, 0))
acknowledged("a level bit of a line that does not wait", 0x4000, 0x4100, 0x4000, 0x0100,
             (8, 0x4000, 0x4000, 0), (0, 0x4000, 0x4000, 0))
acknowledged("an extended line behind 13 and before 11", 0, 0x00012800, 0, ALL_LINES,
             (13, 0x00010800, 0, 0), (12, 0x0800, 0, 16), (11, 0, 0, 16), (0, 0, 0, 16))
acknowledged("an extended line of 12's level 1: behind 13 of level 1, before 15 of level 0", 0x3000, 0x8000A000, 0, ALL_LINES,
             (13, 0x80008000, 0, 0), (12, 0x8000, 0, 31), (15, 0, 0, 31), (0, 0, 0, 31))
acknowledged("an extended line of 12's level 0, behind 1 of level 1", 0x0002, 0x00020002, 0, ALL_LINES,
             (1, 0x00020000, 0, 0), (12, 0, 0, 17), (0, 0, 0, 17))
acknowledged("an extended line beside 12 forced and pending, without 12's mask bit", 0, 0x00101000, 0x1000, 0x00100000,
             (12, 0x1000, 0x1000, 20), (0, 0x1000, 0x1000, 20))
acknowledged("an extended line beside 12 forced and pending, with 12's mask bit", 0, 0x00101000, 0x1000, 0x00101000,
             (12, 0x1000, 0x1000, 20), (12, 0x1000, 0, 0), (12, 0, 0, 0), (0, 0, 0, 0))
acknowledged("12 beside an extended line that lacks its mask bit", 0, 0x00101000, 0, 0x1000,
             (12, 0x00100000, 0, 0), (0, 0x00100000, 0, 0))
acknowledged("the higher of two extended lines that wait, beside one that does not", 0, 0x01090000, 0, 0x00090000,
             (12, 0x01010000, 0, 19), (12, 0x01000000, 0, 16), (0, 0x01000000, 0, 16))
acknowledged("a number that stays noted", 0, 0x00020008, 0x0800, ALL_LINES,
             (12, 0x8, 0x800, 17), (11, 0x8, 0, 17), (3, 0, 0, 17), (0, 0, 0, 17))

# A line that is not masked any more waits; one that is masked does not; a timer's IP and a port's level stay.
example(
    "02: the mask taken away and put back",
    (write(PENDING, 0x00040400), WRITTEN),
    (ACKNOWLEDGE, entry()),
    (write(MASK, 0x400), WRITTEN),
    (ACKNOWLEDGE, entry(value=10)),
    (ACKNOWLEDGE, entry()),
    (write(MASK, 0x40000), WRITTEN),
    LINES_OFF,
    (ACKNOWLEDGE, entry()),
    (write(MASK, 0x40000), WRITTEN),
    (ACKNOWLEDGE, entry(value=12)),
    *registers(mask=0x40000, extended=18),
)
example(
    "02: a reset clears the whole controller and raises no line",
    (write(PORTS[4] + CONTROL, TI), entry(levels=0b010000)),
    (write(MASK, ALL_LINES), entry(levels=0b010000)),
    (ACKNOWLEDGE, entry(levels=0b010000, value=12)),
    (write(LEVEL, 0xFFFF), entry(levels=0b010000)),
    (write(PENDING, 0x12345678), entry(levels=0b010000)),
    (write(FORCE, 0xABCD), entry(levels=0b010000)),
    *registers(0b010000, level=0xFFFE, pending=0x12345678, force=0xABCC, mask=ALL_LINES, extended=20),
    (RESET, entry()),
    *registers(),
    (write(MASK, ALL_LINES), WRITTEN),
    (ACKNOWLEDGE, entry()),
    (write(PORTS[4] + CONTROL, TI), entry(levels=0b010000)),
    (ACKNOWLEDGE, entry(levels=0b010000, value=12)),
    (read(EXTENDED), entry(levels=0b010000, value=20)),
)
case(
    "02: an acknowledge that is cut short",
    script(write(PENDING, 2), write(MASK, 2), ACKNOWLEDGE[:15]),
    log(entry(), entry(), entry(10)),
)

# 11. 02's accesses without a register. Each word of each window: what it reads at reset, after 0xFFFFFFFF was written to all 64, in
# order, and the levels by then. Those that are not named read 0, or are refused.
for name, base, at_reset, written, levels in (
    *((f"port {p}", base, {0x04: 0x80000086, 0x08: 0x80000000}, {0x04: 0x80000086, 0x08: 0xFFFFFFFF, 0x0C: 0xFF}, 1 << p)
      for p, base in enumerate(PORTS)),
    ("the timer unit", UNIT,
     {0x00: 0xFFFF, 0x04: 0xFFFF, 0x08: 0x144, 0x40: 0xFFFF, 0x44: 0xFFFF, 0x48: 0x09},
     {0x00: 0xFFFF, 0x04: 0xFFFF, 0x08: 0x344, 0x10: 0xFFFFFFFF, 0x14: 0xFFFFFFFF, 0x18: 0x2B, 0x20: 0xFFFFFFFF, 0x24: 0xFFFFFFFF,
      0x28: 0x2B, 0x30: 0xFFFFFFFF, 0x34: 0xFFFFFFFF, 0x38: 0x2B, 0x40: 0xFFFFFFFF, 0x44: 0xFFFFFFFF, 0x48: 0x2B}, 0),
    ("the interrupt controller", IRQMP, {}, {0x00: 0xFFFE, 0x08: 0xFFFE, 0x40: 0xFFFFFFFE}, 0),  # clear is written behind pending
):
    numbers = WINDOWS[base]
    offsets = range(0, 0x100, 4)
    # A port's level rises as CONTROL is written, at 0x08.
    raised = [levels if offset >= 0x08 else 0 for offset in offsets]
    example(
        f"02: the 64 words of {name}, read, written and read again",
        *((read(base + offset), entry(number, value=at_reset.get(offset, 0))) for offset, number in zip(offsets, numbers)),
        *((write(base + offset, 0xFFFFFFFF), entry(number, levels=up)) for offset, number, up in zip(offsets, numbers, raised)),
        *((read(base + offset), entry(number, levels=levels, value=written.get(offset, 0)))
          for offset, number in zip(offsets, numbers)),
    )

# A machine with something in every register: all ports with RE, TE, RI and three bytes, the lines 2, 17 to 20 pending, 21 taken.
FILLED = (
    *(pair for p, port in enumerate(PORTS) for pair in (
        (write(port + CONTROL, RE | TE | RI), entry(levels=2**p - 1)),
        (write(port + SCALER, 0x31 + p), entry(levels=2**p - 1)),
        *((offer(p, byte + p), entry(levels=2 ** (p + 1) - 1)) for byte in (0x41, 0x51, 0x61)),
    )),
    *((write(address, value), entry(levels=0x3F)) for address, value in (
        (PRESCALER, 5), (PRESCALER_RELOAD, 9), (CONFIG, 0x200),
        (TIMER1, 0x11), (TIMER1 + 4, 0x12), (TIMER1 + 8, 0x09), (TIMER2, 0x21), (TIMER2 + 4, 0x22), (TIMER2 + 8, 0x2B),
        (TIMER3, 0x31), (TIMER3 + 4, 0x32), (TIMER3 + 8, 0x03), (TIMER4, 0x41), (TIMER4 + 4, 0x42), (TIMER4 + 8, 0x20),
        (LEVEL, 0x10), (FORCE, 0x8000), (MASK, 0x200000),
    )),
    (ACKNOWLEDGE, entry(levels=0x3F, value=12)),
)
AS_FILLED = (
    *(pair for p, port in enumerate(PORTS) for pair in (
        (read(port + STATUS), entry(levels=0x3F, value=0x8C000087)),  # three bytes wait
        (read(port + CONTROL), entry(levels=0x3F, value=0x80000007)),
        (read(port + SCALER), entry(levels=0x3F, value=0x31 + p)),
    )),
    *((read(address), entry(levels=0x3F, value=value)) for address, value in (
        (PRESCALER, 5), (PRESCALER_RELOAD, 9), (CONFIG, 0x344),
        (TIMER1, 0x11), (TIMER1 + 4, 0x12), (TIMER1 + 8, 0x09), (TIMER2, 0x21), (TIMER2 + 4, 0x22), (TIMER2 + 8, 0x2B),
        (TIMER3, 0x31), (TIMER3 + 4, 0x32), (TIMER3 + 8, 0x03), (TIMER4, 0x41), (TIMER4 + 4, 0x42), (TIMER4 + 8, 0x20),
        (LEVEL, 0x10), (PENDING, 0x1E0004), (FORCE, 0x8000), (CLEAR, 0), (MASK, 0x200000), (EXTENDED, 21),
    )),
)
BYTES_TAKEN = tuple((read(port + DATA), entry(levels=0x3F, value=byte + p))
                    for p, port in enumerate(PORTS) for byte in (0x41, 0x51, 0x61))


def in_a_filled_machine(what, *pairs):
    """Records that change nothing, each with its number."""
    example(f"02: {what}", *FILLED, *AS_FILLED, *((record, entry(number, levels=0x3F)) for record, number in pairs), *AS_FILLED,
            *BYTES_TAKEN)


for value in (0, 0xFFFFFFFF, 0x00000041):
    in_a_filled_machine(f"writes of {value:#x} where there is no register", *((write(address, value), 13) for address in WITHOUT))
in_a_filled_machine("reads where there is no register", *((read(address), 13) for address in WITHOUT))
# 13 comes after 1 to 5.
for name, base in (("port 0", PORTS[0]), ("port 5", PORTS[5]), ("the timer unit", UNIT), ("the interrupt controller", IRQMP)):
    for kind in (read, lambda address, size: write(address, 0xFFFFFFFF, size)):
        in_a_filled_machine(
            f"{'reads' if kind is read else 'writes'} of other sizes, and unaligned ones, in the window of {name}",
            *((kind(base + offset, 1), 5) for offset in range(256)),
            *((kind(base + offset, 2), 5) for offset in range(0, 256, 2)),
            *((kind(base + offset, 2), 4) for offset in range(1, 255, 2)),
            (kind(base + 255, 2), 3),
            *((kind(base + offset, 4), 4) for offset in range(252) if offset % 4),
            *((kind(base + offset, 4), 3) for offset in (253, 254, 255)),
            *((kind(base + offset, size), 1) for offset in (0x0C, 0x10, 0x1C, 0x44, 0xFC, 0xFF) for size in (0, 3, 5, 8, 255)),
        )
sizes = {1: 5, 2: 5, 4: 13}
in_a_filled_machine("accesses of each size where there is no register", *(
    (kind, sizes.get(size, 1)) for size in range(256) for address in (PORTS[3] + 0x10, UNIT + 0x1C, UNIT + 0x50, IRQMP + 0x44)
    for kind in (read(address, size), write(address, 0xFFFFFFFF, size))))
# 10 comes before 13.
in_a_filled_machine("malformed accesses where there is no register, and good ones between them", *(
    pair for address in (PORTS[2] + 0x10, UNIT + 0x0C, UNIT + 0x4C, IRQMP + 0xFC)
    for good in (read(address), write(address, 0xFFFFFFFF))
    for at in BLANKS[good[0]] for pair in ((altered(good, at, 0xFF), 10), (good, 13))))
for length in range(1, 16):
    case(f"02: {length} bytes of a read where there is no register, behind such reads",
         script(*3 * [read(UNIT + 0x1C)], read(UNIT + 0x1C)[:length]), log(*3 * [entry(13)], entry(10)))
for count in (255, 256, 257, 4095, 4096, 4097):  # around the ends of pieces, and of what is written at once
    case(f"02: {count} accesses where there is no register, a level raised before the last, and a tail",
         script(*(count - 2) * [read(UNIT + 0x2C)], write(PORTS[5] + CONTROL, TI), write(IRQMP + 0x10, 1), RESET[:9]),
         log(*(count - 2) * [entry(13)], entry(levels=0b100000), entry(13, levels=0b100000), entry(10, levels=0b100000)))
example(
    "02: registers that ignore writes, keep some bits or read 0 are registers",
    *((write(port + STATUS, value), WRITTEN) for port in PORTS for value in (0, 0xFFFFFFFF)),
    (write(EXTENDED, 0xFFFFFFFF), WRITTEN),
    (read(EXTENDED), entry()),
    (read(CLEAR), entry()),
    (write(CONFIG, 0xFFFFFDFF), WRITTEN),
    (read(CONFIG), entry(value=0x144)),
)
example(
    "02: a timer goes on as if the access to the word behind it were not there",
    *TWO_COUNTS,
    (write(TIMER1 + 8, 0x0B), WRITTEN),
    (advance(8), entry(cycles=8)),
    (read(TIMER1 + 0x0C), entry(13)),
    (write(TIMER1 + 0x0C, 0xFFFFFFFF), entry(13)),
    (advance(1), entry(cycles=1, pulses=(1, 0, 0, 0))),
    (read(TIMER1 + 0x0C), entry(13)),
    (read(TIMER1), entry(value=2)),
)

# Running them.

Result = collections.namedtuple("Result", "out err status made")


def place(name):
    return os.path.join(FOLDER, name)


def contents(name):
    with open(place(name), "rb") as file:
        return file.read()


def feed(pipe, data, chunk):
    try:
        for at in range(0, len(data), chunk):
            os.write(pipe, data[at:at + chunk])
    except BrokenPipeError:
        pass
    finally:
        os.close(pipe)


def run(data, chunk=None, stdin=None, stdout=None, faults=None, room=None, words=()):
    """Runs the program on the script: from a file, or through a pipe by `chunk` bytes, or on what `stdin` names instead, with
    `room` for so many bytes of its log and `words` as arguments. Its status is None where it did not end."""
    with open(place("script"), "wb") as file:
        file.write(data)
    open(place("out"), "wb").close()
    open(place("made"), "wb").close()
    environment = dict(os.environ)
    if faults:
        environment |= {name: str(number) for name, number in faults.items()}
        environment |= {"LD_PRELOAD": place("faults.so"), "FAULTS_MADE": place("made")}
    limits = {}
    if room:  # signals are left as they are, so that a write behind the limit fails and does not end the program
        limits = {"restore_signals": False, "preexec_fn": lambda: resource.setrlimit(resource.RLIMIT_FSIZE, (room, room))}
    if chunk:
        source, pipe = os.pipe()
    else:
        source = os.open(stdin or place("script"), os.O_RDONLY)
    with open(stdout or place("out"), "wb") as out, open(place("err"), "wb") as err:
        process = subprocess.Popen([PROGRAM, *words], stdin=source, stdout=out, stderr=err, env=environment, **limits)
    os.close(source)
    if chunk:
        threading.Thread(target=feed, args=(pipe, data, chunk), daemon=True).start()
    watch = threading.Timer(SECONDS, process.kill)
    watch.start()
    status = process.wait()
    watch.cancel()
    made = set(contents("made").decode().split())
    return Result(contents("out"), contents("err"), None if status == -signal.SIGKILL else status, made)


def difference(want, got):
    at = len(os.path.commonprefix([want, got]))
    wanted, gotten = (f"{len(data)} bytes, from byte {at} on {data[at:at + 16].hex(' ') or 'none'}" for data in (want, got))
    return f"{wanted}, got {gotten}"


def complaint(want, result, faults):
    """What is wrong with a result, or None."""
    if result.status is None:
        return f"expected an end, got none in {SECONDS} s"
    if result.status < 0:
        return f"expected an end by itself, got signal {-result.status}"
    if result.made != set(faults or ()):
        return f"expected these faults made, got only {sorted(result.made)}"
    if not isinstance(want, Failure):
        if result.out != want:
            return f"expected {difference(want, result.out)}"
        return f"expected nothing on standard error, got {result.err!r}" if result.err else None
    if want.stream not in result.err:
        return f"expected a message that names {want.stream.decode()}, got {result.err!r}"
    if not want.log.startswith(result.out):
        return f"expected a beginning of {difference(want.log, result.out)}"
    if not want.least <= len(result.out) <= want.most:
        return f"expected {want.least} to {want.most} bytes, got {len(result.out)}"
    if want.whole and result.out and len(result.out) % 48 != 5:
        return f"expected whole records, got {len(result.out)} bytes"
    return None


passed = failed = unended = 0
for what, data, want, how in CASES:
    if unended == 3:
        rest = len(CASES) - passed - failed
        print(f"FAILED: the {rest} cases left, expected to be tried, got to none after {unended} runs without an end")
        failed += rest
        break
    try:
        result = run(data, **how)
        wrong = complaint(want, result, how.get("faults"))
        unended += result.status is None
    except OSError as error:
        wrong = f"expected a run, got {error}"
    if wrong:
        print(f"FAILED: {what}, {wrong}")
        failed += 1
    else:
        passed += 1
print(f"{passed} passed, {failed} failed")
sys.exit(passed == 0 or failed != 0)
