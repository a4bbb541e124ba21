"""Scripts and logs, in bytes and as text: the one place where the tools know the formats, the registers' names and the
fields' names. tools/script says what the text looks like; docs/MANUAL.md what the bytes mean."""
import re
import struct

# What the board has.
PORTS, TIMERS, QUEUE_DEPTH = 6, 4, 8

# The files' first bytes: a mark of three, and a version.
SCRIPT_HEADER, LOG_HEADER = b"APS\x00\x01", b"APL\x00\x01"
HEADER_LENGTH = 5
BAD_MARK, BAD_VERSION = 11, 12

# Each record's kind, its 16 bytes as struct writes them (an x is a byte that is 0), and its arguments.
RECORDS = {
    "read": (1, ">BB2xI8x", ["size", "address"]),
    "write": (2, ">BB2xI4xI", ["size", "address", "value"]),
    "offer": (3, ">BBB13x", ["port", "byte"]),
    "advance": (4, ">B7xQ", ["cycles"]),
    "skip": (5, ">B7xQ", ["limit"]),
    "reset": (6, ">B15x", []),
    "acknowledge": (7, ">B15x", []),
}
BITS = {"size": 8, "address": 32, "value": 32, "port": 8, "byte": 8, "cycles": 64, "limit": 64}
RECORD_LENGTH = 16

# By kind: the record's name, its layout, and its blanks, a word with ones where its bytes must be 0.
KINDS = {
    kind: (name, layout, 2**128 - 1 - int.from_bytes(
        struct.pack(layout, 255, *(2 ** BITS[each] - 1 for each in arguments)), "big"))
    for name, (kind, layout, arguments) in RECORDS.items()
}

# What a record can be beside one of these kinds.
MALFORMED, CUT_SHORT = "malformed", "cut short"

# A log record: its numbers as struct reads them (refusal, flag and byte emitted, levels, value, cycles, pulses of each timer); and
# its fields in order, each named as aplcmp names it, with its bytes and how it is shown.
ENTRY = struct.Struct(f">BBBBIQ{TIMERS}Q")
ENTRY_LENGTH = ENTRY.size
FIELDS = {
    "number": (0, 1, lambda data: str(data[0])),
    "emitted": (1, 3, lambda data: emitted(*data)),
    "levels": (3, 4, lambda data: f"{data[0]:06b}"),
    "value": (4, 8, lambda data: data.hex()),
    "cycles": (8, 16, lambda data: str(int.from_bytes(data, "big"))),
    **{f"pulses {n}": (8 + 8 * n, 16 + 8 * n, lambda data: str(int.from_bytes(data, "big")))
       for n in range(1, TIMERS + 1)},
}

# The refusal numbers of log records, each with what it says. No script makes a machine ill formed, so 9 is none of them.
NO_REGISTER = 13
REFUSALS = {
    1: "no such size",
    2: "no window",
    3: "past the window's end",
    4: "misaligned",
    5: "not a word",
    6: "no such port",
    7: "RE is 0",
    8: "queue full",
    10: "malformed or cut short",
    NO_REGISTER: "no register",
}
# All numbers that a script can show, in a log or in the line in its place.
NUMBERS = sorted([0, *REFUSALS, BAD_MARK, BAD_VERSION])


def words(names):
    """Registers that stand one behind the other, each with its offset."""
    return {name: 4 * place for place, name in enumerate(names.split())}


# The windows, each with its base and length; and what lies in them: each device, where it begins, how far it reaches, and its
# registers with their offsets from there.
WINDOWS = {f"port{p}": (0x80100000 + 0x100 * p if p else 0x80000100, 0x100) for p in range(PORTS)}
WINDOWS["unit"] = (0x80000300, 0x100)
WINDOWS["irqmp"] = (0x80000200, 0x100)
DEVICES = {f"port{p}": (*WINDOWS[f"port{p}"], words("DATA STATUS CONTROL SCALER")) for p in range(PORTS)}
DEVICES["unit"] = (0x80000300, 0x10, words("SCALER SRELOAD CONFIG"))
DEVICES |= {f"timer{n}": (0x80000300 + 0x10 * n, 0x10, words("counter reload control")) for n in range(1, TIMERS + 1)}
DEVICES["irqmp"] = (*WINDOWS["irqmp"], words("level pending force clear") | {"mask": 0x40, "extended": 0xC0})
REGISTERS = {
    f"{device}.{register}": base + offset
    for device, (base, _, registers) in DEVICES.items()
    for register, offset in registers.items()
}
NAMES = {address: name for name, address in REGISTERS.items()}
ANY_CASE = {name.lower(): address for name, address in REGISTERS.items()}

# The interrupt lines, each named by its number and, where a device sets it, that device. Those from 16 on are extended lines, for
# which level and force have no bits.
SETS = {2: "port0"} | {7 + n: f"timer{n}" for n in range(1, TIMERS + 1)} | {16 + p: f"port{p}" for p in range(1, PORTS)}
LINES = {line: f"{line}/{SETS[line]}" if line in SETS else str(line) for line in range(1, 32)}
PLAIN_LINES = {line: name for line, name in LINES.items() if line < 16}

# The bits that have a name, by the register's own name.
REGISTER_BITS = {
    "STATUS": {0: "DR"},
    "CONTROL": {0: "RE", 1: "TE", 2: "RI", 3: "TI"},
    "CONFIG": {9: "DF"},
    "control": {0: "EN", 1: "RS", 2: "LD", 3: "IE", 4: "IP", 5: "CH"},
    "level": PLAIN_LINES,
    "pending": LINES,
    "force": PLAIN_LINES,
    "clear": LINES,
    "mask": LINES,
}


class NotALog(ValueError):
    """A file whose first bytes are no log's."""


# Records.


def decode(record):
    """A record's name and its arguments; a malformed one and one that is cut short have none."""
    if len(record) < RECORD_LENGTH:
        return CUT_SHORT, ()
    name, layout, blanks = KINDS.get(record[0], (None, None, None))
    if name is None or int.from_bytes(record, "big") & blanks:
        return MALFORMED, ()
    return name, struct.unpack(layout, record)[1:]


def encode(name, arguments):
    kind, layout, _ = RECORDS[name]
    return struct.pack(layout, kind, *arguments)


def device_of(address):
    """The device that an address lies in, or None."""
    return next((device for device, (base, length, _) in DEVICES.items() if base <= address < base + length), None)


def script_refusal(script):
    """The number by which a script's first bytes are refused, or 0."""
    if len(script) < HEADER_LENGTH or script[:3] != SCRIPT_HEADER[:3]:
        return BAD_MARK
    return 0 if script[:HEADER_LENGTH] == SCRIPT_HEADER else BAD_VERSION


def refusal_line(number):
    """What is written in the place of a log."""
    return b"refused %d\n" % number


def records_of(length):
    """How many records a script of so many bytes has, one that is cut short among them."""
    return -(-max(0, length - HEADER_LENGTH) // RECORD_LENGTH)


def output_length(header, length):
    """How many bytes are written for a script of so many bytes that begins with this header."""
    number = script_refusal(header)
    if number:
        return len(refusal_line(number))
    return HEADER_LENGTH + ENTRY_LENGTH * records_of(length)


# The text of a script.


def number(argument, word):
    """The number that a word of the text gives for an argument."""
    if argument == "address" and word.lower() in ANY_CASE:
        return ANY_CASE[word.lower()]
    if not re.fullmatch("[0-9]+|0x[0-9a-fA-F]+", word):
        raise ValueError(f"{argument} '{word}' is no number" + (" and no register" if argument == "address" else ""))
    base, digits = (16, word[2:]) if word.startswith("0x") else (10, word)
    digits = digits.lstrip("0") or "0"
    if len(digits) > 20 or int(digits, base) >= 2 ** BITS[argument]:
        raise ValueError(f"{argument} {word} is out of range, which is 0 to {2 ** BITS[argument] - 1:#x}")
    return int(digits, base)


def raw(words):
    for word in words:
        if not re.fullmatch("[0-9a-fA-F]{2}", word):
            raise ValueError(f"'{word}' is no byte of two hexadecimal digits")
    return bytes.fromhex("".join(words))


def line_bytes(name, words):
    """The bytes of one line."""
    if name == "header" or (name == "bytes" and words):
        return raw(words)
    if name == "bytes":
        raise ValueError("bytes takes one byte or more")
    if name not in RECORDS:
        raise ValueError(f"'{name}' is none of {', '.join(RECORDS)}, bytes, header")
    arguments = RECORDS[name][2]
    if len(words) != len(arguments):
        raise ValueError(f"{name} takes {' '.join(arguments) or 'nothing'}, not {len(words)} words")
    return encode(name, map(number, arguments, words))


def assemble(lines):
    """The script of a text, whose lines are given as bytes. Only a newline ends a line."""
    script = bytearray()
    begun = False
    for place, line in enumerate(lines, 1):
        text = line.decode("utf-8-sig" if place == 1 else "utf-8", "replace")
        words = text.split("#")[0].split()
        if not words:
            continue
        try:
            if words[0] == "header" and begun:
                raise ValueError("header comes before all records, and once")
            if words[0] != "header" and not begun:
                script += SCRIPT_HEADER
            script += line_bytes(words[0], words[1:])
            begun = True
        except ValueError as error:
            raise ValueError(f"line {place}: {error}") from None
    return bytes(script) if begun else SCRIPT_HEADER


def shown(argument, value, size):
    if argument == "address":
        return NAMES[value] if size == 4 and value in NAMES else f"{value:#010x}"
    return {"value": f"{value:#x}", "byte": f"{value:#04x}"}.get(argument, str(value))


def record_line(record):
    name, values = decode(record)
    if name in (MALFORMED, CUT_SHORT):
        return f"bytes {record.hex(' ')}  # " + (name if name == MALFORMED else f"a tail of {len(record)}")
    return " ".join([name, *(shown(each, value, record[1]) for each, value in zip(RECORDS[name][2], values))])


def pieces(stream, length):
    """What a stream holds, in pieces of this length but for the last."""
    while piece := stream.read(1024 * length):
        for at in range(0, len(piece), length):
            yield piece[at:at + length]


def script_lines(stream):
    """The lines of a script's text, of any bytes."""
    header = stream.read(HEADER_LENGTH)
    if header != SCRIPT_HEADER:
        yield " ".join(["header", *(f"{byte:02x}" for byte in header), f" # refused {script_refusal(header)}"])
    yield from map(record_line, pieces(stream, RECORD_LENGTH))


# The text of a log.


def emitted(flag, byte):
    shown = "-" if flag == 0 and byte == 0 else f"{byte:02x}"
    return shown if flag == 1 or shown == "-" else f"{shown} with flag {flag}"  # by no run


def entry_fields(entry):
    """The fields of a whole log record, as they are shown."""
    return {name: show(entry[begin:end]) for name, (begin, end, show) in FIELDS.items()}


def entry_line(entry):
    if len(entry) < ENTRY_LENGTH:
        return f"a partial record of {len(entry)} bytes: {entry.hex(' ')}"
    fields = entry_fields(entry)
    pulses = " ".join(fields.pop(f"pulses {n}") for n in range(1, TIMERS + 1))
    return ", ".join(f"{name} {value}" for name, value in (fields | {"pulses": pulses}).items())


def log_lines(stream):
    """The lines of a log's text. A file that is no log is a NotALog."""
    header = stream.read(HEADER_LENGTH)
    if header != LOG_HEADER:
        line = (header + stream.read(8)).rstrip(b"\n")
        if re.fullmatch(b"refused [0-9]+", line):
            raise NotALog(f"no log but the line '{line.decode()}', which is written for a script with a bad header")
        raise NotALog(f"no log: it begins with {header.hex(' ') or 'no byte'}, not with {LOG_HEADER.hex(' ')}")
    for place, entry in enumerate(pieces(stream, ENTRY_LENGTH), 1):
        yield f"{place}: {entry_line(entry)}"


def register_bits(name, value):
    """The named bits that are set in a value of a register, as 'EN RS', and nothing for a register without such bits."""
    bits = REGISTER_BITS.get(name.partition(".")[2])
    if bits is None:
        return ""
    none = "no line" if name.startswith("irqmp.") else "no named bit"
    return " ".join(label for bit, label in bits.items() if value >> bit & 1) or none


def value_note(kind, register, value):
    """What the value of a read of a register, or of an acknowledge, says: its named bits, or the line that it numbers."""
    if kind == "acknowledge" or register == "irqmp.extended":
        return f"line {LINES[value]}" if value in LINES else "no line"
    return register_bits(register, value)
