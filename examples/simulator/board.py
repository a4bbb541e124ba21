"""A small board: six serial ports, a timer unit and an interrupt controller, as in docs/MANUAL.md, sections 4 to 8.

Each rule is a method of its own, so that it can be read beside the manual, and so that `slips.py` can break it alone.
"""

from bridge import Answer

# Section 4: the windows. All are 0x100 long and begin at a multiple of that.
WINDOW = 0x100
PORT_BASES = (0x80000100, 0x80100100, 0x80100200, 0x80100300, 0x80100400, 0x80100500)
CONTROLLER_BASE = 0x80000200
TIMER_UNIT_BASE = 0x80000300

# The refusals: of an access, in the order in which they are judged, and of an offered byte.
BAD_SIZE, NO_WINDOW, PAST_END, MISALIGNED, NARROW, NO_REGISTER = 1, 2, 3, 4, 5, 13
NO_PORT, RECEIVER_OFF, QUEUE_FULL = 6, 7, 8

# Section 5: a port's registers, and the bits of its CONTROL.
DATA, STATUS, CONTROL, SCALER = 0x00, 0x04, 0x08, 0x0C
RE, TE, RI, TI = 1 << 0, 1 << 1, 1 << 2, 1 << 3
ALWAYS_SET = 1 << 31
STATUS_FIXED = 0x80000086
DATA_READY = 1 << 0

# Section 6: the timer unit's registers, where timers 1 to 4 begin, the registers of each, and the bits of its control.
UNIT_SCALER, UNIT_SRELOAD, UNIT_CONFIG = 0x00, 0x04, 0x08
TIMER_BASES = (0x10, 0x20, 0x30, 0x40)
TIMER_COUNTER, TIMER_RELOAD, TIMER_CONTROL = 0x0, 0x4, 0x8
EN, RS, LD, IE, IP, CH = 1 << 0, 1 << 1, 1 << 2, 1 << 3, 1 << 4, 1 << 5
CONFIG_FIXED = 0x144
DF = 1 << 9

# Section 7: the interrupt controller's registers, and its lines. In a word of lines, bit n stands for line n.
IRQMP_LEVEL, IRQMP_PENDING, IRQMP_FORCE, IRQMP_CLEAR, IRQMP_MASK, IRQMP_EXTENDED = 0x00, 0x04, 0x08, 0x0C, 0x40, 0xC0
PLAIN_LINES = 0x0000FFFE
EXTENDED_LINES = 0xFFFF0000
CARRIER = 12  # the line as which all extended lines reach the processor

NEVER = float("inf")  # the number of what does not happen; it compares and adds with whole numbers as one would expect


class SerialPort:
    REGISTERS = {DATA, STATUS, CONTROL, SCALER}
    ROOM = 8
    STATUS_COUNT = 1 << 26  # what one byte in the queue adds to STATUS

    def __init__(self, controller, line):
        self.controller = controller
        self.line = line  # the one that it sets pending there
        self.reset()

    def reset(self):
        self.control = ALWAYS_SET
        self.scaler = 0
        self.queue = []
        self.level = 0

    def read(self, offset):
        if offset == DATA:
            return self.read_data()
        return {STATUS: self.status(), CONTROL: self.control, SCALER: self.scaler}[offset]

    def write(self, offset, value):
        """Returns the byte emitted, or None. A write to STATUS is ignored."""
        if offset == DATA and self.control & TE:
            return value & 0xFF
        if offset == CONTROL:
            self.control = self.control_written(value)
            self.work_out_level()
        if offset == SCALER:
            self.scaler = value & 0xFF
        return None

    def read_data(self):
        return self.queue.pop(0) if self.control & RE and self.queue else 0

    def status(self):
        return STATUS_FIXED + (DATA_READY if self.queue else 0) + self.STATUS_COUNT * len(self.queue)

    def control_written(self, value):
        return value | ALWAYS_SET

    def offer(self, byte):
        """Returns the refusal's number, or 0."""
        if not self.control & RE:
            return RECEIVER_OFF
        if len(self.queue) >= self.ROOM:
            return QUEUE_FULL
        self.queue.append(byte)
        self.work_out_level()
        return 0

    def work_out_level(self):
        before = self.level
        self.level = int(bool(self.control & RI and self.queue or self.control & TI))
        if self.level > before:
            self.controller.set_pending(self.line)


def ends_in(steps, first, period):
    """How many of so many steps end a countdown that ends in step number `first`, and then in every `period`-th."""
    return 0 if steps < first else 1 + (steps - first) // period


class Timer:
    """How it stands after k counts depends on k alone, so nothing here goes from count to count."""

    REGISTERS = {TIMER_COUNTER, TIMER_RELOAD, TIMER_CONTROL}
    SPENT = 0xFFFFFFFF  # the counter after an underflow without RS

    def __init__(self, before=None, counter=0, reload=0, control=0):
        self.before = before  # the timer before it, which timer 1 has not
        self.counter = counter
        self.reload = reload
        self.control = control  # EN, RS, IE, IP and CH

    def read(self, register):
        return {TIMER_COUNTER: self.counter, TIMER_RELOAD: self.reload, TIMER_CONTROL: self.control}[register]

    def write(self, register, value):
        if register == TIMER_COUNTER:
            self.counter = value
        elif register == TIMER_RELOAD:
            self.reload = value
        elif register == TIMER_CONTROL:
            self.control = value & (EN | RS | IE | CH) | self.pending_written(value)
            if value & LD:
                self.counter = self.reload

    def pending_written(self, value):
        """IP after a write of control."""
        return 0 if value & IP else self.control & IP

    # Which ticks are its counts: how many of the next ticks, and the other way round, in which tick the k-th is.

    def is_enabled(self):
        return self.control & EN

    def is_chained(self):
        return self.before and self.control & CH

    def counts_in(self, ticks):
        if not self.is_enabled():
            return 0
        return self.before.underflows_in(ticks) if self.is_chained() else ticks

    def tick_of_count(self, k):
        if not self.is_enabled():
            return NEVER
        return self.before.tick_of_underflow(k) if self.is_chained() else k

    # Which counts are its underflows, in the same two ways.

    def first(self):
        """The counts to the first underflow: those in which the counter falls to 0, and the one that finds it 0."""
        return self.counter + 1

    def period(self):
        """The counts from an underflow to the next one: the same, from the reload."""
        return self.reload + 1

    def last_underflow(self):
        """The number of the last underflow: with RS it never comes; without, it is the first, which clears EN."""
        return NEVER if self.control & RS else 1

    def underflows(self, counts):
        return min(ends_in(counts, self.first(), self.period()), self.last_underflow())

    def count_of_underflow(self, k):
        return self.first() + (k - 1) * self.period() if k <= self.last_underflow() else NEVER

    def underflows_in(self, ticks):
        return self.underflows(self.counts_in(ticks))

    def tick_of_underflow(self, k):
        return self.tick_of_count(self.count_of_underflow(k))

    # What counts and underflows do.

    def pulses(self, underflows):
        """How many of the next underflows have a pulse."""
        return underflows if self.control & IE else 0

    def counter_after(self, counts, underflows):
        """Each count takes 1, and each underflow gives a period: it finds 0, and 0 - 1 + period is the reload."""
        if underflows and not self.control & RS:
            return self.SPENT
        return self.counter - counts + underflows * self.period()

    def count(self, counts):
        """Do so many counts, and return the number of pulses."""
        underflows = self.underflows(counts)
        pulses = self.pulses(underflows)
        self.counter = self.counter_after(counts, underflows)
        if underflows:
            self.control |= IP
            if not self.control & RS:
                self.control &= ~EN
        return pulses


class TimerUnit:
    REGISTERS = {UNIT_SCALER, UNIT_SRELOAD, UNIT_CONFIG} | {
        base + register for base in TIMER_BASES for register in Timer.REGISTERS
    }
    Timer = Timer  # a slip puts its own here

    def __init__(self, controller, lines):
        self.controller = controller
        self.lines = lines  # those that the four timers set pending there
        self.reset()

    def reset(self):
        self.scaler = self.sreload = 0xFFFF
        self.df = 0
        timer1 = self.Timer()
        timer2 = self.Timer(timer1)
        timer3 = self.Timer(timer2)
        timer4 = self.Timer(timer3, counter=0xFFFF, reload=0xFFFF, control=EN | IE)
        self.timers = (timer1, timer2, timer3, timer4)

    def read(self, offset):
        n, register = divmod(offset, 0x10)
        if n:
            return self.timers[n - 1].read(register)
        return {UNIT_SCALER: self.scaler, UNIT_SRELOAD: self.sreload, UNIT_CONFIG: CONFIG_FIXED + self.df}[offset]

    def write(self, offset, value):
        n, register = divmod(offset, 0x10)
        if n:
            self.timers[n - 1].write(register, value)
        elif offset == UNIT_SCALER:
            self.scaler = value & 0xFFFF
        elif offset == UNIT_SRELOAD:
            self.sreload = value & 0xFFFF
        elif offset == UNIT_CONFIG:
            self.df = value & DF

    # The prescaler, in the same two ways: how many of the next cycles are ticks, and in which cycle the k-th tick is.

    def first(self):
        return self.scaler + 1

    def period(self):
        return self.sreload + 1

    def ticks_in(self, cycles):
        return ends_in(cycles, self.first(), self.period())

    def cycle_of_tick(self, k):
        return self.first() + (k - 1) * self.period()

    # Section 8.

    def advance(self, cycles):
        """Do so many cycles, and return the pulses of the four timers."""
        ticks = self.ticks_in(cycles)
        self.scaler += ticks * self.period() - cycles  # each cycle takes 1, and each tick gives a period
        counts = [timer.counts_in(ticks) for timer in self.timers]  # of all of them, before any is changed
        pulses = tuple(timer.count(k) for timer, k in zip(self.timers, counts))
        self.set_lines(pulses)
        return pulses

    def set_lines(self, pulses):
        """Set the line of each timer that had a pulse: one or many is the same."""
        for line, count in zip(self.lines, pulses):
            if count:
                self.controller.set_pending(line)

    def skip(self, limit):
        """Do cycles up to the first pulse or the limit, and return how many, and the pulses of the four timers."""
        ends = [timer.tick_of_underflow(1) for timer in self.timers if self.ends_skip(timer)]
        cycles = min(limit, self.cycle_of_tick(min(ends, default=NEVER)))
        return cycles, self.advance(cycles)

    def ends_skip(self, timer):
        """Whether this timer's next underflow ends a skip: it does if it has a pulse."""
        return timer.pulses(1)


def highest(lines):
    """The number of the highest line in a word, or 0 if there is none: no line has the number 0."""
    return (lines >> 1).bit_length()


class InterruptController:
    REGISTERS = {IRQMP_LEVEL, IRQMP_PENDING, IRQMP_FORCE, IRQMP_CLEAR, IRQMP_MASK, IRQMP_EXTENDED}

    def __init__(self):
        self.reset()

    def reset(self):
        self.level = self.pending = self.force = self.mask = 0
        self.noted = 0  # the extended acknowledge

    def read(self, offset):
        return {
            IRQMP_LEVEL: self.level,
            IRQMP_PENDING: self.pending,
            IRQMP_FORCE: self.force,
            IRQMP_CLEAR: 0,
            IRQMP_MASK: self.mask,
            IRQMP_EXTENDED: self.noted,
        }[offset]

    def write(self, offset, value):
        """A write to the extended acknowledge is ignored."""
        if offset == IRQMP_LEVEL:
            self.level = value & PLAIN_LINES
        elif offset == IRQMP_PENDING:
            self.pending = value & (PLAIN_LINES | EXTENDED_LINES)
        elif offset == IRQMP_FORCE:
            self.force = value & PLAIN_LINES
        elif offset == IRQMP_CLEAR:
            self.clear(value)
        elif offset == IRQMP_MASK:
            self.mask = value & (PLAIN_LINES | EXTENDED_LINES)

    def clear(self, lines):
        self.pending &= ~lines

    def set_pending(self, line):
        """What the other devices call. The mask plays no part: it holds a line back, but does not lose it."""
        self.pending |= 1 << line

    # The steps of an acknowledge: which lines wait, which of 1 to 15 the processor sees, which it chooses and takes.

    def waiting(self):
        return (self.pending | self.force) & self.mask

    def candidates(self, waiting):
        return waiting & PLAIN_LINES | (1 << CARRIER if waiting & EXTENDED_LINES else 0)

    def choose(self, candidates):
        """The number of the highest with level 1, or if there is none the highest of all; 0 without a candidate."""
        return highest(candidates & self.level or candidates)

    def take(self, line):
        """Clear one bit. An extended line is never forced, so that it is the pending bit there."""
        if self.force >> line & 1:
            self.force &= ~(1 << line)
        else:
            self.pending &= ~(1 << line)

    def acknowledge(self):
        """Take a line, and return the number that the processor sees, or 0 if no line waits."""
        waiting = self.waiting()
        line = self.choose(self.candidates(waiting))
        if line == CARRIER:
            self.noted = highest(waiting & EXTENDED_LINES)  # 0 if it is line 12 itself
            self.take(self.noted or CARRIER)
        elif line:
            self.take(line)
        return line


class Board:
    Port = SerialPort  # a slip puts its own here
    Unit = TimerUnit
    Controller = InterruptController

    # Section 7: the lines that ports 0 to 5 and timers 1 to 4 set pending.
    PORT_LINES = (2, 17, 18, 19, 20, 21)
    TIMER_LINES = (8, 9, 10, 11)

    def __init__(self):
        self.controller = self.Controller()
        self.ports = [self.Port(self.controller, line) for line in self.PORT_LINES]
        self.unit = self.Unit(self.controller, self.TIMER_LINES)
        self.devices = dict(zip(PORT_BASES, self.ports))
        self.devices.update({CONTROLLER_BASE: self.controller, TIMER_UNIT_BASE: self.unit})

    @property
    def levels(self):
        return sum(port.level << p for p, port in enumerate(self.ports))

    def device(self, address):
        """The device in whose window the address lies, or None."""
        return self.devices.get(address - address % WINDOW)

    def has_register(self, address):
        """Whether one begins at this address, which lies in a window."""
        return address % WINDOW in self.device(address).REGISTERS

    def refusal(self, size, address):
        """The first of section 4's numbers whose condition holds, or 0."""
        if size not in (1, 2, 4):
            return BAD_SIZE
        if self.device(address) is None:
            return NO_WINDOW
        if address % WINDOW + size > WINDOW:
            return PAST_END
        if address % size:
            return MISALIGNED
        if size < 4:
            return NARROW
        return 0 if self.has_register(address) else NO_REGISTER

    def read(self, size, address):
        number = self.refusal(size, address)
        return Answer(number=number) if number else Answer(value=self.device(address).read(address % WINDOW))

    def write(self, size, address, value):
        number = self.refusal(size, address)
        return Answer(number=number) if number else Answer(emitted=self.device(address).write(address % WINDOW, value))

    def offer(self, port, byte):
        return Answer(number=self.ports[port].offer(byte) if port < len(self.ports) else NO_PORT)

    def advance(self, cycles):
        return Answer(cycles=cycles, pulses=self.unit.advance(cycles))

    def skip(self, limit):
        cycles, pulses = self.unit.skip(limit)
        return Answer(cycles=cycles, pulses=pulses)

    def reset(self):
        for device in self.devices.values():
            device.reset()
        return Answer()

    def acknowledge(self):
        return Answer(value=self.controller.acknowledge())
