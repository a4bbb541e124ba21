"""The bridge: the front of a simulator. It reads a script, has a board do what each record says, and writes the log.

It knows the two file formats (docs/MANUAL.md, sections 2 and 3) and nothing of devices. To put your own board behind
it, give `run` an object with the methods and the attribute of section 10:

    run(Board(), sys.stdin.buffer, sys.stdout.buffer)
"""

from collections import namedtuple  # typing.NamedTuple would do, but importing typing takes longer than all the rest
from struct import Struct

VERSION = b"\x00\x01"
SCRIPT_MARK = b"APS"
LOG_MARK = b"APL"

RECORD_SIZE = 16

# What each kind of record asks of the board: the method, and where its arguments stand in bytes 1 to 15.
# Each `x` is a byte that must be 0, B a byte, I 4 bytes, Q 8 bytes. A further kind is a further line.
KINDS = {
    1: ("read", Struct(">B2xI8x")),  # size, address
    2: ("write", Struct(">B2xI4xI")),  # size, address, value
    3: ("offer", Struct(">BB13x")),  # port, byte
    4: ("advance", Struct(">7xQ")),  # cycles
    5: ("skip", Struct(">7xQ")),  # limit
    6: ("reset", Struct(">15x")),
    7: ("acknowledge", Struct(">15x")),
}

# number, emitted or not, the byte emitted, levels, value, cycles, pulses of timers 1 to 4
LOG_RECORD = Struct(">BBBBIQ4Q")

BAD_RECORD = 10
BAD_MARK = 11
BAD_VERSION = 12

# What a board's method returns. `emitted` is None or the byte, since a byte of 0 may well be emitted.
Answer = namedtuple("Answer", "number emitted value cycles pulses", defaults=(0, None, 0, 0, (0, 0, 0, 0)))


def run(board, script, log):
    """Play `script` on `board`, which is at reset, and write `log`. Both are binary files and are used as it goes."""
    refusal = refusal_of_header(read_fully(script, len(SCRIPT_MARK + VERSION)))
    if refusal:
        log.write(b"refused %d\n" % refusal)
    else:
        log.write(LOG_MARK + VERSION)
        while record := read_fully(script, RECORD_SIZE):
            answer = play(board, record)
            # The levels are those after the record, so they are asked for last, and also where it was refused.
            log.write(log_record(answer, board.levels))
    log.flush()


def refusal_of_header(header):
    if len(header) < len(SCRIPT_MARK + VERSION) or not header.startswith(SCRIPT_MARK):
        return BAD_MARK
    return 0 if header == SCRIPT_MARK + VERSION else BAD_VERSION


def play(board, record):
    """Have the board do what one record says. A bad record does not reach the board."""
    method, layout = KINDS.get(record[0], (None, None))
    if method is None or len(record) < RECORD_SIZE:
        return Answer(number=BAD_RECORD)
    arguments = layout.unpack(record[1:])
    # Unpacking passes over the bytes that must be 0, and packing makes them 0. So this finds those that are not.
    if layout.pack(*arguments) != record[1:]:
        return Answer(number=BAD_RECORD)
    return getattr(board, method)(*arguments)


def log_record(answer, levels):
    emitted = (0, 0) if answer.emitted is None else (1, answer.emitted)
    return LOG_RECORD.pack(answer.number, *emitted, levels, answer.value, answer.cycles, *answer.pulses)


def read_fully(file, size):
    """`size` bytes; fewer only at the file's end. One read may well return less before that, say from a pipe."""
    data = b""
    while len(data) < size:
        more = file.read(size - len(data))
        if not more:
            break
        data += more
    return data
