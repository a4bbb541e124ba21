"""What the scripts that were judged met, by the scripts themselves and the reference's logs of them."""
from collections import Counter

import formats

EDGES = ["before", "first word", "last word", "across the end", "behind"]
# How long a wait was, by the least number of cycles that is too many.
LENGTHS = {"0 cycles": 1, "1 cycle": 2, "below 2^16": 2**16, "below 2^32": 2**32, "2^32 and more": 2**64}
OTHER_KIND, NO_LINE, BEHIND_TIMERS = "another kind", "none", "behind the timers"
# The interrupt controller's words, and the bits that each of them keeps.
KEPT = {"level": 0x0000FFFE, "pending": 0xFFFFFFFE, "force": 0x0000FFFE, "mask": 0xFFFFFFFE}
INTERRUPTS = [
    "pulse: line without its mask bit",
    "pulse: line pending already",
    "rise: line without its mask bit",
    "rise: line pending already",
    "level stays 1: line not pending",
    "level falls: line pending",
    "reset: a line pending",
    *(f"{word} written: a bit that is not kept" for word in KEPT),
    "pending written: a line set",
    "pending written: a line cleared",
    "force written: a line not forced any more",
    "clear written: a line pending",
    "clear written: a line forced",
    "extended written: another number than noted",
    "none taken: a line pending or forced",
    "taken: before a higher number, by level",
    "taken: forced and pending",
    "taken: not as 12, a number noted",
    "taken: not as 12, an extended line waiting",
    "12 itself taken: a number noted",
    "extended line taken: another one waiting",
    "extended line taken: 12 without its mask bit",
    "extended line taken: 12 waiting itself",
    "extended line taken: 13, 14 or 15 waiting",
]

# All that there is to meet, part by part.
TO_MEET = {
    "kinds of records": [*formats.RECORDS, formats.MALFORMED, formats.CUT_SHORT],
    "malformed records": [*formats.RECORDS, OTHER_KIND],
    "registers": [f"{way} {register}" for register in formats.REGISTERS for way in ("read", "write")],
    "offsets without a register": [f"{way} {device}" for device in (*formats.DEVICES, BEHIND_TIMERS) for way in ("read", "write")],
    "refusal numbers": [str(number) for number in formats.NUMBERS],
    "windows' edges": [f"{window}: {edge}" for window in formats.WINDOWS for edge in EDGES],
    "queue depths": [f"port{p}: {depth}" for p in range(formats.PORTS) for depth in range(formats.QUEUE_DEPTH + 1)],
    "lines and bytes": [f"port{p}: {what}" for p in range(formats.PORTS)
                        for what in ("line rises by a byte", "line rises by CONTROL", "line falls", "emits")],
    "waits": [f"{wait}: {length}" for wait in ("advance", "skip") for length in LENGTHS]
    + ["skip: ends with a pulse", "skip: ends at its limit"],
    "pulses": [f"timer{n}: {what}" for n in range(1, formats.TIMERS + 1) for what in ("one", "several")],
    "lines taken": [NO_LINE, *(f"line {line}" for line in formats.LINES)],
    "interrupts": INTERRUPTS,
}
EXPLAINED = {
    "kinds of records": "records of each kind, refused ones too",
    "malformed records": "by their first byte: a kind's with a byte that must be 0 and is not, and those of another kind",
    "registers": "accepted accesses",
    "offsets without a register": "accesses refused with 13: of the unit at 0x0C, of a timer at the word behind its control, behind "
                                  "the timers from the unit's 0x50 on",
    "refusal numbers": "log records with each number; 11 and 12: scripts with a bad header. 9 is for an ill-formed state, "
                       "which no script can make",
    "windows' edges": "accesses of any size that begin in the 4 bytes before the window, those of its first and last word that are "
                      "accepted or refused with 13, those refused with 3, and those that begin in the 4 bytes behind it",
    "queue depths": "how often an accepted byte, a read or a reset brought the port's receive queue to each depth",
    "lines and bytes": "records after which a port's line level is another than before, by a byte or a write of CONTROL where it "
                       "rises, and records by which it emits a byte",
    "waits": "advances and skips by the cycles that they passed, and how skips of one cycle or more ended",
    "pulses": "advances and skips with one pulse of a timer, and with several",
    "lines taken": "acknowledges by the line that they took. For an extended one the log has 12; which it was follows from the "
                   "records before",
    "interrupts": "records that meet a case of the interrupt controller's rules, with its registers as the records before left them: "
                  "lines set by pulses and rising levels, writes of its registers, and acknowledges",
}
# What cannot be seen in a script and its log is not counted: how a timer stood when it counted, as chained or with IP set.


class Coverage:
    """Counts of what was met."""

    def __init__(self):
        self.met = {part: Counter() for part in TO_MEET}
        self.records = 0

    def add(self, other):
        self.records += other.records
        for part, counts in other.met.items():
            self.met[part].update(counts)

    def never(self):
        return {part: [name for name in names if not self.met[part][name]] for part, names in TO_MEET.items()}

    def note(self, script, log):
        """Counts what a script and its log, a stream, show."""
        kinds, numbers = self.met["kinds of records"], self.met["refusal numbers"]
        refused = formats.script_refusal(script)
        if refused:
            numbers[str(refused)] += 1
            return
        queues, before = Queues(self.met["queue depths"]), 0
        controller = Controller(self.met["lines taken"], self.met["interrupts"])
        log.read(formats.HEADER_LENGTH)
        begin, length = formats.HEADER_LENGTH, formats.RECORD_LENGTH
        for place, entry in enumerate(formats.pieces(log, formats.ENTRY_LENGTH)):
            record = script[begin + length * place:begin + length * (place + 1)]
            name, values = formats.decode(record)
            number, flag, _, levels, value, cycles, *pulses = formats.ENTRY.unpack(entry)
            self.records += 1
            kinds[name] += 1
            numbers[str(number)] += 1
            if name == formats.MALFORMED:
                self.met["malformed records"][formats.KINDS.get(record[0], (OTHER_KIND,))[0]] += 1
            if levels != before:
                self.lines(name, before, levels)
            if name in ("read", "write"):
                self.access(name, values, number)
                if flag:
                    self.met["lines and bytes"][f"{formats.device_of(values[1])}: emits"] += 1
            elif name in ("advance", "skip"):
                self.wait(name, values[0], cycles, pulses)
            if number == 0:
                queues.step(name, values)
                controller.step(name, values, before, levels, value, pulses)
            before = levels

    def lines(self, name, before, levels):
        rises = "rises by a byte" if name == "offer" else "rises by CONTROL"
        for port in range(formats.PORTS):
            if (before ^ levels) >> port & 1:
                self.met["lines and bytes"][f"port{port}: line {rises if levels >> port & 1 else 'falls'}"] += 1

    def wait(self, name, span, cycles, pulses):
        waits = self.met["waits"]
        waits[f"{name}: {next(length for length, above in LENGTHS.items() if cycles < above)}"] += 1
        if name == "skip" and span:
            waits["skip: ends with a pulse" if any(pulses) else "skip: ends at its limit"] += 1
        for timer, count in enumerate(pulses, 1):
            if count:
                self.met["pulses"][f"timer{timer}: {'one' if count == 1 else 'several'}"] += 1

    def access(self, name, values, number):
        address = values[1]
        if number == 0 and address in formats.NAMES:
            self.met["registers"][f"{name} {formats.NAMES[address]}"] += 1
        elif number == formats.NO_REGISTER:
            self.met["offsets without a register"][f"{name} {formats.device_of(address) or BEHIND_TIMERS}"] += 1
        edges = self.met["windows' edges"]
        for edge, whole_words_only in AT_EDGES.get(address, ()):
            if number in (0, formats.NO_REGISTER) or not whole_words_only:
                edges[edge] += 1
        if number == 3:
            edges[f"{window_of(address)}: across the end"] += 1


def at_edges():
    """For each address at a window's edge, the edges that an access there meets, and whether only an aligned word does."""
    found = {}
    for window, (base, length) in formats.WINDOWS.items():
        for edge, addresses, whole_words_only in (
            ("before", range(base - 4, base), False),
            ("first word", [base], True),
            ("last word", [base + length - 4], True),
            ("behind", range(base + length, base + length + 4), False),
        ):
            for address in addresses:
                found.setdefault(address, []).append((f"{window}: {edge}", whole_words_only))
    return found


AT_EDGES = at_edges()


def window_of(address):
    return next(window for window, (base, length) in formats.WINDOWS.items() if base <= address < base + length)


DATA = {address: int(name[4]) for name, address in formats.REGISTERS.items() if name.endswith(".DATA")}
CONTROL = {address: int(name[4]) for name, address in formats.REGISTERS.items() if name.endswith(".CONTROL")}
IRQMP = {address: name.partition(".")[2] for name, address in formats.REGISTERS.items() if name.startswith("irqmp.")}
LINE_OF = {device: line for line, device in formats.SETS.items()}


class Queues:
    """How many bytes wait in each port, by the calls that were accepted."""

    def __init__(self, depths):
        self.depths = depths
        self.waiting, self.receiving = [0] * formats.PORTS, [False] * formats.PORTS

    def reach(self, port, depth):
        if self.waiting[port] != depth:
            self.waiting[port] = depth
            self.depths[f"port{port}: {depth}"] += 1

    def step(self, name, values):
        if name == "offer":
            self.reach(values[0], self.waiting[values[0]] + 1)
        elif name == "read" and values[1] in DATA:
            port = DATA[values[1]]
            if self.receiving[port] and self.waiting[port]:
                self.reach(port, self.waiting[port] - 1)
        elif name == "write" and values[1] in CONTROL:
            self.receiving[CONTROL[values[1]]] = values[2] & 1 == 1
        elif name == "reset":
            for port in range(formats.PORTS):
                self.reach(port, 0)
            self.receiving = [False] * formats.PORTS


class Controller:
    """The interrupt controller's registers, by the calls that were accepted and by the log's levels, pulses and lines taken."""

    def __init__(self, taken, met):
        self.taken, self.met = taken, met
        self.reset()

    def reset(self):
        self.level = self.pending = self.force = self.mask = self.noted = 0

    def count(self, name, holds):
        if holds:
            self.met[name] += 1

    def step(self, name, values, before, levels, value, pulses):
        if name == "write" and values[1] in IRQMP:
            self.write(IRQMP[values[1]], values[2])
        elif name == "write" and values[1] in CONTROL:
            self.worked_out(CONTROL[values[1]], before, levels)
        elif name == "offer":
            self.worked_out(values[0], before, levels)
        elif name in ("advance", "skip"):
            for timer, count in enumerate(pulses, 1):
                if count:
                    self.set(f"timer{timer}", "pulse")
        elif name == "acknowledge":
            self.acknowledge(value)
        elif name == "reset":
            self.count("reset: a line pending", self.pending)
            self.reset()

    def set(self, device, what):
        line = LINE_OF[device]
        self.count(f"{what}: line without its mask bit", not self.mask >> line & 1)
        self.count(f"{what}: line pending already", self.pending >> line & 1)
        self.pending |= 1 << line

    def worked_out(self, port, before, levels):
        """The level of a port was worked out."""
        pending = self.pending >> LINE_OF[f"port{port}"] & 1
        if levels & ~before & 1 << port:
            self.set(f"port{port}", "rise")
        self.count("level stays 1: line not pending", levels & before & 1 << port and not pending)
        self.count("level falls: line pending", before & ~levels & 1 << port and pending)

    def write(self, register, value):
        if register == "clear":
            self.count("clear written: a line pending", value & self.pending)
            self.count("clear written: a line forced", value & self.force)
            self.pending &= ~value
        elif register == "extended":
            self.count("extended written: another number than noted", value != self.noted)
        else:
            kept, old = value & KEPT[register], getattr(self, register)
            self.count(f"{register} written: a bit that is not kept", value != kept)
            if register == "pending":
                self.count("pending written: a line set", kept & ~old)
                self.count("pending written: a line cleared", old & ~kept)
            elif register == "force":
                self.count("force written: a line not forced any more", old & ~kept)
            setattr(self, register, kept)

    def acknowledge(self, seen):
        """Line `seen` was taken, or none if it is 0."""
        waiting = (self.pending | self.force) & self.mask
        if not seen:
            self.taken[NO_LINE] += 1
            self.count("none taken: a line pending or forced", self.pending | self.force)
            return
        extended = waiting >> 16
        line = waiting.bit_length() - 1 if seen == 12 and extended else seen
        self.taken[f"line {line}"] += 1
        candidates = waiting & 0xFFFF | (0x1000 if extended else 0)
        self.count("taken: before a higher number, by level", candidates >> seen + 1)
        self.count("taken: forced and pending", self.force & self.pending & 1 << line)
        if line > 15:
            self.count("extended line taken: another one waiting", extended & extended - 1)
            self.count("extended line taken: 12 without its mask bit", not self.mask >> 12 & 1)
            self.count("extended line taken: 12 waiting itself", waiting >> 12 & 1)
            self.count("extended line taken: 13, 14 or 15 waiting", waiting & 0xE000)
        elif seen == 12:
            self.count("12 itself taken: a number noted", self.noted)
        else:
            self.count("taken: not as 12, a number noted", self.noted)
            self.count("taken: not as 12, an extended line waiting", extended)
        if seen == 12:
            self.noted = line if line > 15 else 0
        if self.force >> line & 1:
            self.force &= ~(1 << line)
        else:
            self.pending &= ~(1 << line)
