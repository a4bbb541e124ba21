"""The cases of tests/aplcmp, which says what is printed. Arguments: the program, the program compare-logs, and a folder with
faults.so in it."""
import collections
import fcntl
import functools
import itertools
import os
import random
import signal
import subprocess
import sys
import termios
import threading
import time

PROGRAM, COMPARE_LOGS, FOLDER = sys.argv[1:]
SECONDS = 10  # in which any run ends

# Logs, as 01 lays them out.

HEADER = b"APL\x00\x01"
RECORD = 48
FIELDS = {  # with the first byte of each and the one behind its last
    "number": (0, 1),
    "emitted": (1, 3),
    "levels": (3, 4),
    "value": (4, 8),
    "cycles": (8, 16),
    "pulses 1": (16, 24),
    "pulses 2": (24, 32),
    "pulses 3": (32, 40),
    "pulses 4": (40, 48),
}
FIELD_OF = [field for field, (start, end) in FIELDS.items() for _ in range(start, end)]
BYTES = random.Random(0).randbytes(110000 * RECORD)


def log(count, rest=0):
    """A log of `count` records and `rest` bytes of one more: of any two the shorter is a beginning of the longer. It has random
    bytes, so that a byte compared with any but its own shows."""
    return HEADER + BYTES[:count * RECORD + rest]


def alike(count, rest=0):
    """The same with nothing but zeros, so that bytes left over from records before show."""
    return HEADER + bytes(count * RECORD + rest)


def offset(record, byte=0):
    """Where in a log a byte of a record, counted from 1, lies."""
    return len(HEADER) + (record - 1) * RECORD + byte


def changed(data, *offsets, by=0x01):
    data = bytearray(data)
    for at in offsets:
        data[at] ^= by
    return bytes(data)


def line_of(at):
    """The line for two logs whose first difference is there."""
    record, byte = divmod(at - len(HEADER), RECORD)
    return f"record {record + 1} {FIELD_OF[byte]}"


# Running the program.


def place(name):
    return os.path.join(FOLDER, name)


OUT, ERR, MADE, SAID = (open(place(name), "w+b", buffering=0) for name in ("out", "err", "made", "said"))


def emptied(file):
    file.seek(0)
    file.truncate()
    return file


def contents(file):
    file.seek(0)
    return file.read()


written = {}  # what each file of a log holds


def put(name, data):
    """Writes the file of a log, unless it holds this already."""
    if written.get(name) != data:
        with open(place(name), "wb") as file:
            file.write(data)
        written[name] = data
    return place(name)


def altered(name):
    with open(place(name), "rb") as file:
        return file.read() != written[name]


# Ways to give the program a log, beside a file with its bytes: what goes by a name; a pipe, written by so many bytes at once;
# the same with a name in the file system. Where `stays` is set, the writer then keeps the pipe open as long as the program runs.
Name = collections.namedtuple("Name", "name")
Pipe = collections.namedtuple("Pipe", "data chunk stays", defaults=[1 << 16, False])
Fifo = collections.namedtuple("Fifo", "data chunk stays", defaults=[1 << 16, False])
NUMBERS = itertools.count()  # for names of pipes


def feed(pipe, source, ended):
    """Writes a log into a pipe, given by its descriptor or by its name. The program may end before, or not open it at all."""
    try:
        with open(pipe, "wb", buffering=0) as end:
            for at in range(0, len(source.data), source.chunk):
                end.write(source.data[at:at + source.chunk])
            if source.stays:
                ended.wait()
    except (BrokenPipeError, FileNotFoundError):
        pass


def watch(process):
    """Sees to it that the process ends in some seconds from now."""
    signal.signal(signal.SIGALRM, lambda *_: process.kill())
    signal.alarm(SECONDS)


def wait(process):
    """The status of a process, or None where it had to be ended."""
    watch(process)
    status = process.wait()
    signal.alarm(0)
    return None if status == -signal.SIGKILL else status


Result = collections.namedtuple("Result", "out err status made")


def run(logs, more=(), faults=None, unmet=(), stdout=None, closed=(), under=(), folder=None):
    """Runs the program on logs, with further arguments, with the faults of faults.c (those of `unmet` it need not meet), with standard
    output to another file, with these descriptors closed, under a command, or in a folder. Its status is None where it did not
    end."""
    names, pipes, fifos, feeds, ended = [], [], [], [], threading.Event()
    for file, given in zip(("first", "second"), logs):
        if isinstance(given, Name):
            names.append(given.name)
        elif isinstance(given, Pipe):
            pipe, end = os.pipe()
            names.append(f"/dev/fd/{pipe}")
            pipes.append(pipe)
            feeds.append((end, given, ended))
        elif isinstance(given, Fifo):
            names.append(place(f"fifo {next(NUMBERS)}"))
            os.mkfifo(names[-1])
            fifos.append(names[-1])
            feeds.append((names[-1], given, ended))
        else:
            names.append(put(file, given))
    environment = dict(os.environ)
    if faults:
        environment |= {name: str(number) for name, number in faults.items()}
        environment |= {"LD_PRELOAD": place("faults.so"), "FAULTS_MADE": emptied(MADE).name}
        environment |= dict(zip(("FIRST", "SECOND"), names))
    process = subprocess.Popen(
        [*under, PROGRAM, *names, *more],
        stdin=subprocess.DEVNULL,
        stdout=stdout or emptied(OUT),
        stderr=emptied(ERR),
        env=environment,
        cwd=folder,
        pass_fds=pipes,
        preexec_fn=(lambda: [os.close(descriptor) for descriptor in closed]) if closed else None,
    )
    for pipe in pipes:
        os.close(pipe)
    for arguments in feeds:
        threading.Thread(target=feed, args=arguments, daemon=True).start()
    status = wait(process)
    ended.set()
    for fifo in fifos:
        os.remove(fifo)
    made = set(contents(MADE).decode().split()) if faults else set()
    return Result(b"" if stdout else contents(OUT), contents(ERR), status, made)


@functools.lru_cache(maxsize=8)
def compare_logs(first, second):
    """What the program compare-logs of tests/model says of two logs."""
    command = [COMPARE_LOGS, put("first", first), put("second", second)]
    status = wait(subprocess.Popen(command, stdin=subprocess.DEVNULL, stdout=emptied(SAID)))
    return contents(SAID).decode().removesuffix("\n") if status == 0 else f"status {status}"


# Judging a run.

passed = failed = unended = 0


def finish():
    print(f"{passed} passed, {failed} failed")
    sys.exit(passed == 0 or failed != 0)


def count(what, wrong):
    """Counts a case, with what is wrong with it or None."""
    global passed, failed
    if wrong:
        print(f"FAILED: {what}, {wrong}")
        failed += 1
    else:
        passed += 1


def needed(faults):
    """The faults that any program meets. It may ask for less at once than the larger ones of .._MOST let pass."""
    most = {"FIRST_MOST": RECORD - 1, "SECOND_MOST": RECORD - 1, "WRITE_MOST": 2}
    return {name for name, number in faults.items() if number <= most.get(name, number)}


def complaint(want, message, result, faults, unmet=()):
    """What is wrong with a result, or None. `want` is a line, or where none can be written whole, the bytes of it that are. The
    program may or may not meet the faults of `unmet`."""
    if result.status is None:
        return f"expected an end, got none in {SECONDS} s"
    if result.status < 0:
        return f"expected an end by itself, got signal {-result.status}"
    if not needed(faults) - set(unmet) <= result.made <= set(faults):
        return f"expected these faults made, got only {sorted(result.made)}"
    if isinstance(want, str):
        want = f"{want}\n".encode()
    if result.out != want:
        return f"expected {want!r}, got {result.out[:100]!r}"
    if message and not result.err.startswith((b"aplcmp: ", b"usage: aplcmp ")):
        return f"expected a message of aplcmp on standard error, got {result.err[:100]!r}"
    if message is False and result.err:
        return f"expected nothing on standard error, got {result.err[:100]!r}"
    return None


def case(what, logs, want, message=False, **how):
    """A run of the program that must print this line; with a message on standard error or without one, or with either where
    `message` is None."""
    global failed, unended
    try:
        result = run(logs, **how)
        wrong = complaint(want, message, result, how.get("faults") or {}, how.get("unmet", ()))
        if not wrong and "closed" in how and (altered("first") or altered("second")):  # one of them may have that descriptor
            wrong = "expected both logs as they were, got another"
        unended += result.status is None
    except OSError as error:
        wrong = f"expected a run, got {error}"
    count(what, wrong)
    if unended == 3:
        print(f"FAILED: the cases left, expected to be tried, got to none after {unended} runs without an end")
        failed += 1
        finish()


def pair(what, first, second, want=None, **how):
    """Two logs that can be read: the program must print what compare-logs says of their bytes. Where it is plain what this must
    be, `want` says it too."""
    said = compare_logs(*(given if isinstance(given, bytes) else given.data for given in (first, second)))
    if want not in (None, said):
        count(f"compare-logs on {what}", f"expected {want!r}, got {said!r}")
    case(what, [first, second], said if want is None else want, **how)


def both_ways(what, first, second, want, exchanged):
    pair(what, first, second, want)
    pair(f"{what}, the other way round", second, first, exchanged)


# 1. 02's own lines.
THREE, FOUR = log(3), log(4)
both_ways("two logs alike", THREE, log(3), "equal", "equal")
both_ways("other cycles in record 3", THREE, changed(THREE, offset(3, 15)), "record 3 cycles", "record 3 cycles")
both_ways("other pulses in record 3", FOUR, changed(THREE, offset(3, 47)), "record 3 pulses 4", "record 3 pulses 4")
both_ways("3 records and 20 bytes, 3 records", log(3, 20), THREE, "partial 1", "partial 2")
both_ways("4 records, 3 records", FOUR, THREE, "beginning 2", "beginning 1")
both_ways("version 2, version 1", b"APL\x00\x02" + BYTES[:96], THREE, "refused 1 12", "refused 2 12")
both_ways("an empty log, 3 records", b"", THREE, "refused 1 11", "refused 2 11")

# 2. Fields: each byte of the first record, a middle one and the last, by each bit, in either log.
SEVEN = log(7)
for record, byte in itertools.product((1, 4, 7), range(RECORD)):
    other = changed(SEVEN, offset(record, byte), by=1 << (record + byte) % 8)
    logs = (SEVEN, other) if (record + byte) % 2 else (other, SEVEN)
    pair(f"7 records with byte {byte} of record {record} changed", *logs, f"record {record} {FIELD_OF[byte]}")
for field, (start, end) in FIELDS.items():
    line, other = f"record 1 {field}", changed(log(1), *(offset(1, byte) for byte in range(start, end)), by=0xFF)
    both_ways(f"1 record with each bit of {field} changed", log(1), other, line, line)
# Two at once: two fields of a record, and two records, the later one with the earlier field.
for (field, (_, end)), (later, (start, _)) in itertools.combinations(FIELDS.items(), 2):
    other = changed(SEVEN, offset(4, end - 1), offset(4, start))
    pair(f"7 records with {field} and {later} of record 4 changed", SEVEN, other, f"record 4 {field}")
for (record, later), (field, (start, _)) in itertools.product(((1, 2), (1, 7), (4, 5), (6, 7)), FIELDS.items()):
    other = changed(SEVEN, offset(record, start), offset(later))
    what = f"7 records with {field} of record {record} and number of record {later} changed"
    pair(what, other, SEVEN, f"record {record} {field}")
# The same bytes in another order: within a field, and in two records.
COUNTED = HEADER + bytes(range(RECORD))
for field, (start, end) in FIELDS.items():
    if end - start > 1:
        other = bytearray(COUNTED)
        other[offset(1, start)], other[offset(1, end - 1)] = end - 1, start
        pair(f"1 record with two bytes of {field} exchanged", COUNTED, bytes(other), f"record 1 {field}")
both_ways("2 records exchanged", log(2), HEADER + BYTES[48:96] + BYTES[:48], "record 1 number", "record 1 number")
# Bytes 1 and 2 are one field: no byte emitted, a byte 0, and another one.
EMITTED = [HEADER + bytes([0, *emitted]) + bytes(45) for emitted in ((0, 0), (1, 0), (1, 65))]
for one, other in itertools.permutations(EMITTED, 2):
    pair(f"bytes 1 and 2 of a record {one[6:8].hex(' ')} and {other[6:8].hex(' ')}", one, other, "record 1 emitted")

# 3. Headers.
MARKS = [b"APL", b"APS", *(changed(b"APL", at, by=by) for at in range(3) for by in (0x20, b"APL"[at]))]
HEADERS = [mark + version.to_bytes(2, "big") for mark in MARKS for version in (1, 0, 2, 0x0100, 0x0101, 0xFFFF)]
SHORT_HEADERS = sorted({whole[:length] for whole in (HEADER, b"APS\x00\x01", bytes(5)) for length in range(5)})


def number_of(log):
    """The number that a log is refused by, or None."""
    return 11 if len(log) < 5 or log[:3] != b"APL" else 12 if log[:5] != HEADER else None


for bad in filter(number_of, [*SHORT_HEADERS, *HEADERS]):
    for behind in (b"", BYTES[:2 * RECORD])[:1 if len(bad) < 5 else 2]:
        what = f"a log of {len(bad + behind)} bytes, first {bad.hex(' ') or 'none'}, and 2 records"
        both_ways(what, bad + behind, log(2), f"refused 1 {number_of(bad)}", f"refused 2 {number_of(bad)}")
# The first log is judged wholly before the second, and both before any record. A script is no log, nor is what apsrun writes in
# place of one.
REFUSED = [b"", b"APL\x00", b"apl\x00\x02", b"APL\x00\x00", b"APL\x00\x02" + BYTES[:48]]
REFUSED += [b"APS\x00\x01", b"APS\x00\x01\x06" + bytes(15), b"refused 11\n", b"refused 12\n"]
for one, other in itertools.product(REFUSED, REFUSED):
    pair(f"{one!r:.30} and {other!r:.30}", one, other, f"refused 1 {number_of(one)}")
for bad, good in itertools.product(REFUSED, (log(0), log(0, 1), log(3, 47), log(2000))):
    what = f"{bad!r:.30} and a log of {len(good)} bytes"
    both_ways(what, bad, good, f"refused 1 {number_of(bad)}", f"refused 2 {number_of(bad)}")
for bad in (b"APS\x00\x01", b"APL\x00\x02"):
    what = f"2000 records behind {bad.hex(' ')}, and behind a log's header"
    both_ways(what, bad + log(2000)[5:], log(2000), f"refused 1 {number_of(bad)}", f"refused 2 {number_of(bad)}")

# 4. Partial records.
for rest, whole in itertools.product((1, 2, 5, 24, 46, 47), (0, 1, 3)):
    what, partial = f"{whole} records and {rest} bytes", log(whole, rest)
    for other in sorted({0, whole, whole + 1, 5}):
        both_ways(f"{what}, {other} records", partial, log(other), "partial 1", "partial 2")
    both_ways(f"{what}, 3 records and 20 bytes", partial, log(3, 20), "partial 1", "partial 1")
    pair(f"{what}, twice", partial, partial, "partial 1")
    # Its bytes are compared with nothing: not with the other's partial record, and not with a whole one there.
    for at in sorted({offset(whole + 1), len(partial) - 1}):
        other = changed(partial, at)
        pair(f"{what}, with byte {at} changed and without", other, partial, "partial 1")
        both_ways(f"{what}, with byte {at} changed, {whole + 1} records", other, log(whole + 1), "partial 1", "partial 2")
        both_ways(f"{what}, 5 records with byte {at} changed", partial, changed(log(5), at), "partial 1", "partial 2")
    # A difference in the whole records that both have comes first.
    for record in sorted({1, whole}) if whole else ():
        other, line = changed(partial, offset(record, 47)), f"record {record} pulses 4"
        for long in (log(whole), log(whole, 47), log(5)):
            both_ways(f"{what}, record {record} changed, a log of {len(long)} bytes", other, long, line, line)
# A difference behind the whole records that both have is none.
for rest, at in itertools.product((1, 47), (offset(3), offset(3, 47), offset(4))):
    what = f"2 records and {rest} bytes, 4 records with byte {at} changed"
    both_ways(what, log(2, rest), changed(log(4), at), "partial 1", "partial 2")
# It is found far behind the other log's end too.
for short, long, rest in itertools.product((0, 1365), (1366, 30000), (1, 47)):
    what = f"{short} records, {long} records and {rest} bytes"
    both_ways(what, log(short), log(long, rest), "partial 2", "partial 1")
    both_ways(f"{what}, with a byte behind the first", log(short, 1), log(long, rest), "partial 1", "partial 1")
both_ways("zeros: 3 records and a byte, 4 records", alike(3, 1), alike(4), "partial 1", "partial 2")
both_ways("zeros: 3 records and 47 bytes, 3 records", alike(3, 47), alike(3), "partial 1", "partial 2")

# 5. Beginnings, and logs alike.
for make in (log, alike):
    name = make.__name__
    for short, long in ((0, 1), (0, 2), (1, 2), (6, 7), (9, 10), (0, 5000), (1, 5000), (4999, 5000), (2000, 5000)):
        both_ways(f"{name}: {short} records, {long} records", make(short), make(long), "beginning 1", "beginning 2")
    for whole in (0, 1, 2, 7, 100, 5000):
        pair(f"{name}: {whole} records, twice", make(whole), make(whole), "equal")
both_ways("3 records, 5 with the fourth changed", log(3), changed(log(5), offset(4)), "beginning 1", "beginning 2")
both_ways("3 records, 5 with the third changed", log(3), changed(log(5), offset(3)), "record 3 number", "record 3 number")
TWICE = (log(0), "equal"), (log(3), "equal"), (log(5000), "equal"), (log(3, 5), "partial 1"), (b"APL", "refused 1 11")
for data, line in TWICE:
    name = Name(put("first", data))
    case(f"the name of a log of {len(data)} bytes, twice", [name, name], line)

# 6. Where pieces may end, whatever their size: a difference in each of 1,400 records, some 66 KiB; then around multiples of
# 4,096 and 65,536 bytes and of the whole records in them, counted from a log's first byte and from its first record; then around
# multiples of 1 MiB.
DENSE, LONG, LONGEST = log(1400), log(8600), log(100002)
for record in range(1, 1401):
    at = offset(record, 47 * (record % 2))
    case(f"1400 records with byte {at} changed", [DENSE, changed(DENSE, at)], line_of(at))


def around(size, most):
    """The bytes on both sides of each multiple of a size up to the most, and the ends of the records that they are in."""
    for end in (start + multiple for start in (0, len(HEADER)) for multiple in range(size, most + 1, size)):
        record = (end - len(HEADER)) // RECORD + 1
        yield from (end - 1, end, offset(record) - 1, offset(record), offset(record, 47), offset(record + 1))


for at in sorted({*around(4096, 1 << 18), *around(4080, 1 << 15), *around(65536, 400 << 10), *around(65520, 400 << 10)}):
    case(f"8600 records with byte {at} changed", [changed(LONG, at), LONG], line_of(at))
for at in sorted({*around(1 << 20, 4 << 20)}):
    case(f"100002 records with byte {at} changed", [LONGEST, changed(LONGEST, at)], line_of(at))
# Record numbers of each length, and around 2^15 and 2^16.
for record in (9, 10, 11, 99, 100, 999, 1000, 9999, 10000, 32767, 32768, 65535, 65536, 99999, 100000, 100001, 100002):
    other = changed(LONGEST, offset(record, 20), len(LONGEST) - 1)
    pair(f"100002 records with record {record} changed", LONGEST, other, f"record {record} pulses 1")
both_ways("100002 records, 100001", LONGEST, log(100001), "beginning 2", "beginning 1")
both_ways("100001 records and 47 bytes, 100002", log(100001, 47), LONGEST, "partial 1", "partial 2")
# Logs that end there: with whole records around a piece's end, and by bytes.
for size, start in itertools.product((4096, 65520, 65536, 131072, 262144), (0, len(HEADER))):
    end = start + size
    record = (end - len(HEADER)) // RECORD + 1
    ends = sorted({end - 1, end, end + 1, end + RECORD, *(offset(record + n) for n in (-1, 0, 1, 2))})
    for make in (log, alike):
        logs = [make(0, end - len(HEADER)) for end in ends]
        for one in logs:
            pair(f"{make.__name__}: logs of {len(one)} bytes, twice", one, one)
        for one, other in zip(logs, logs[1:]):
            pair(f"{make.__name__}: logs of {len(one)} and {len(other)} bytes", one, other)
            pair(f"{make.__name__}: logs of {len(other)} and {len(one)} bytes", other, one)

# 7. Random pairs: a log, and the same after some edits.
ANY = random.Random(1)


def change(data):
    return changed(data, ANY.randrange(len(data)), by=ANY.randrange(1, 256))


def cut(data):
    return data[:ANY.randrange(len(data))]


def cut_whole(data):
    return data[:offset(any_record(data))]


def extend(data):
    return data + ANY.randbytes(ANY.choice((1, RECORD, ANY.randrange(100), ANY.randrange(200) * RECORD)))


def leave_out(data):
    record = any_record(data)
    return data[:offset(record)] + data[offset(record + 1):]


def repeat(data):
    record = any_record(data)
    return data[:offset(record + 1)] + data[offset(record):]


def any_record(data):
    return 1 + ANY.randrange(1 + len(data) // RECORD)


for n in range(800):
    make, most = ANY.choice((log, log, alike)), ANY.choice((3, 30, 300, 3000))
    one = other = make(ANY.randrange(most), ANY.choice((0, 0, 0, ANY.randrange(RECORD))))
    edits = ANY.choices((change, change, cut, cut_whole, extend, leave_out, repeat), k=ANY.choice((0, 1, 1, 1, 2, 3)))
    for edit in edits:
        other = edit(other or b"A")
    logs = (one, other) if ANY.randrange(2) else (other, one)
    names = " ".join(edit.__name__ for edit in edits) or "no edit"
    pair(f"random pair {n}, {len(logs[0])} and {len(logs[1])} bytes, {names}", *logs)

# 8. Pipes.
PAIRS = {
    "1500 records, twice": (log(1500), log(1500)),
    "1500 records, the last changed": (log(1500), changed(log(1500), offset(1500, 47))),
    "1500 records, record 1366 changed": (changed(log(1500), offset(1366)), log(1500)),
    "1500 records and a byte, 1500 records": (log(1500, 1), log(1500)),
    "1400 records, 1500 records and 47 bytes": (log(1400), log(1500, 47)),
    "1500 records, 1 record": (log(1500), log(1)),
    "a header, 1500 records": (log(0), log(1500)),
    "3 records, twice": (log(3), log(3)),
    "3 records, 4 bytes": (log(3), HEADER[:4]),
    "version 2, 1500 records": (b"APL\x00\x02", log(1500)),
    "1500 records, version 2": (log(1500), b"APL\x00\x02" + log(1500)[5:]),
}
for what, (one, other) in PAIRS.items():
    for chunk in (7, 47, 49, 4095, 65536):
        pair(f"{what}, both through pipes by {chunk} bytes", Pipe(one, chunk), Pipe(other, chunk))
    pair(f"{what}, both through pipes by 48 and by 4097 bytes", Pipe(one, 48), Pipe(other, 4097))
    pair(f"{what}, the first through a pipe byte by byte", Pipe(one, 1), other)
    pair(f"{what}, the second through a pipe byte by byte", one, Pipe(other, 1))
    pair(f"{what}, the first through a named pipe", Fifo(one, 4095), other)
    if number_of(one) is None:  # where the first is refused, the second need not be opened
        pair(f"{what}, the second through a named pipe", one, Fifo(other, 1000))
        pair(f"{what}, both through named pipes", Fifo(one, 4097), Fifo(other, 63))
# A difference is said at once, and so is a refusal: nothing behind it is waited for. Behind it come some 1.2 MB, in case that a
# buffer is filled first, and then nothing and no end.
MANY = log(30000)
for at in (offset(1, 47), offset(3), offset(5000, 9)):
    what, other = f"30000 records with byte {at} changed", changed(MANY, at)
    pair(f"{what}, both through pipes that stay open", Pipe(MANY, stays=True), Pipe(other, stays=True), line_of(at))
    pair(f"{what}, the first through a pipe that stays open", Pipe(MANY, stays=True), other, line_of(at))
    pair(f"{what}, the second through a pipe that stays open", MANY, Pipe(other, stays=True), line_of(at))
    pair(f"{what}, both through named pipes that stay open", Fifo(MANY, stays=True), Fifo(other, stays=True), line_of(at))
for bad in (b"APS\x00\x01", b"APL\x00\x02"):
    what, other = f"30000 records behind {bad.hex(' ')} through a pipe that stays open", bad + MANY[5:]
    pair(f"{what}, 3 records", Pipe(other, stays=True), log(3), f"refused 1 {number_of(bad)}")
    pair(f"3 records, {what}", log(3), Pipe(other, stays=True), f"refused 2 {number_of(bad)}")

# 9. Reads that fall short or are interrupted show in nothing.
FAULTS = [
    *({f"{which}_MOST": most} for which in ("FIRST", "SECOND") for most in (1, 3, 5, 47, 48, 49, 1000, 4095, 65519, 65535)),
    *({f"{which}_EINTR": n} for which in ("FIRST", "SECOND") for n in (2, 3, 7)),
    {"FIRST_MOST": 7, "SECOND_MOST": 4},
    {"FIRST_EINTR": 2, "SECOND_EINTR": 3},
    {"FIRST_MOST": 47, "FIRST_EINTR": 2, "SECOND_MOST": 1000, "SECOND_EINTR": 5},
]
FAULTY = {
    "1500 records, twice": (log(1500), log(1500)),
    "1500 records, the last changed": (log(1500), changed(log(1500), offset(1500, 47))),
    "1500 records and 47 bytes, 1400 records": (log(1500, 47), log(1400)),
    "zeros: 1365 records, 1366 records": (alike(1365), alike(1366)),
}


def with_faults(faults):
    return "with " + " ".join(f"{name}={number}" for name, number in faults.items())


for faults, (what, logs) in itertools.product(FAULTS, FAULTY.items()):
    pair(f"{what} {with_faults(faults)}", *logs, faults=faults)
SHORTEST = (log(0), log(0)), (log(0, 1), log(0)), (b"APL\x00\x02", log(0)), (log(1), b"APL\x00")
for logs, most in itertools.product(SHORTEST, (1, 4)):
    faults = {"FIRST_MOST": most, "FIRST_EINTR": 2}
    pair(f"logs of {len(logs[0])} and {len(logs[1])} bytes {with_faults(faults)}", *logs, faults=faults)


# 10. Logs that cannot be read: they count as empty, and a message says why.
def unreadable(what, number, *logs, **how):
    case(what, logs, f"refused {number} 11", message=True, **how)


# A read that fails on the way. The other log is alike, or it ends before that: then this one has still to be read to its end,
# where it may have a partial record.
DATA = log(3000)
for at in (0, 1, 4, 5, 6, 52, 53, 54, 4095, 4096, 4101, 65525, 65536, 100000, len(DATA) - 1, len(DATA)):
    for number, faults in (1, {"FIRST_EIO_AT": at}), (2, {"SECOND_EIO_AT": at}):
        unreadable(f"3000 records, twice, {with_faults(faults)}", number, DATA, DATA, faults=faults)
for at in (1000, 70000, 100000, len(DATA)):
    unreadable(f"3000 records, 10 records, with FIRST_EIO_AT={at}", 1, DATA, log(10), faults={"FIRST_EIO_AT": at})
    unreadable(f"3000 records, 10 and a byte, with FIRST_EIO_AT={at}", 1, DATA, log(10, 1), faults={"FIRST_EIO_AT": at})
    unreadable(f"10 records, 3000 records, with SECOND_EIO_AT={at}", 2, log(10), DATA, faults={"SECOND_EIO_AT": at})
    unreadable(f"10 and a byte, 3000 records, with SECOND_EIO_AT={at}", 2, log(10, 1), DATA, faults={"SECOND_EIO_AT": at})
# Reads of both logs fail: the one that does so first is named, wherever pieces end.
for one, other in itertools.permutations((6, 1000, 60000, 70000, 140000), 2):
    faults = {"FIRST_EIO_AT": one, "SECOND_EIO_AT": other}
    later = "SECOND_EIO_AT" if one < other else "FIRST_EIO_AT"
    what = f"3000 records, twice, {with_faults(faults)}"
    unreadable(what, 1 if one < other else 2, DATA, DATA, faults=faults, unmet=[later])
for at in (1000, 70000):
    faults = {"FIRST_EIO_AT": at, "SECOND_EIO_AT": at}
    unreadable(f"3000 records, twice, {with_faults(faults)}", 1, DATA, DATA, faults=faults)
# A difference before a read that fails is the verdict, whether the program comes to that read or not.
for at, which in itertools.product((1000, 70000, len(DATA)), ("FIRST", "SECOND")):
    faults, other = {f"{which}_EIO_AT": at}, changed(DATA, offset(10))
    what = f"3000 records, record 10 changed, {with_faults(faults)}"
    case(what, [DATA, other], "record 10 number", message=None, faults=faults, unmet=faults)
for n in (1, 2):  # later reads would not fail
    unreadable(f"3000 records, twice, with FIRST_EIO={n}", 1, DATA, DATA, faults={"FIRST_EIO": n})
    unreadable(f"3000 records, twice, with SECOND_EIO={n}", 2, DATA, DATA, faults={"SECOND_EIO": n})
for other, at in ({"FIRST_MOST": 100}, 9999), ({"FIRST_EINTR": 2}, 9999), ({"FIRST_MOST": 1}, 3):
    faults = {**other, "FIRST_EIO_AT": at}
    unreadable(f"3000 records, twice, {with_faults(faults)}", 1, DATA, DATA, faults=faults)
faults = {"FIRST_EIO_AT": 70000}
unreadable(f"3000 records, twice, the first through a pipe, {with_faults(faults)}", 1, Pipe(DATA), DATA, faults=faults)


# What cannot be opened, and what can be opened and cannot be read. The system takes no path of 4,096 bytes.
def path_of(length):
    """A path to the log `first`, of this length by many strokes."""
    return FOLDER + "first".rjust(length - len(FOLDER), "/")


put("first", log(3))
os.mkdir(place("folder"))
NAMES = {
    "a missing file": place("missing"),
    "a file in a missing folder": place("missing/log"),
    "a file in a file": place("first/log"),
    "a folder": place("folder"),
    "a name of 300 letters": place(300 * "a"),
    **{f"a path of {length} bytes": path_of(length) for length in (4096, 4097, 5000, 100000)},
}
for what, name in NAMES.items():
    unreadable(f"{what} and 3 records", 1, Name(name), log(3))
    unreadable(f"3 records and {what}", 2, log(3), Name(name))
    unreadable(f"{what}, twice", 1, Name(name), Name(name))
    unreadable(f"{what} and version 2", 1, Name(name), b"APL\x00\x02")
    case(f"version 2 and {what}", [b"APL\x00\x02", Name(name)], "refused 1 12", message=None)
    case(f"4 bytes and {what}", [b"APL\x00", Name(name)], "refused 1 11", message=None)
# A file without permission, for a user who may not read all the same.
UNDER = ["setpriv", "--bounding-set=-dac_override,-dac_read_search", "--"] if os.geteuid() == 0 else []


def readable(name):
    try:
        return subprocess.run([*UNDER, "head", "-c", "1", place(name)], capture_output=True).returncode == 0
    except FileNotFoundError:
        return False


put("forbidden", log(3))
os.chmod(place("forbidden"), 0)
if readable("first") and not readable("forbidden"):
    unreadable("a log without permission and 3 records", 1, Name(place("forbidden")), log(3), under=UNDER)
    unreadable("3 records and a log without permission", 2, log(3), Name(place("forbidden")), under=UNDER)
else:
    print("not tried: a log without permission, which takes another user than root, or setpriv")
# Arguments that are missing, and more than two.
case("no argument", [], "refused 1 11", message=None)
ALONE = (log(3), "refused 2 11"), (log(3, 1), "refused 2 11"), (b"APL", "refused 1 11"), (b"APL\x00\x02", "refused 1 12")
for data, line in ALONE:
    case(f"one argument, a log of {len(data)} bytes", [data], line, message=None)
case("one argument, a missing file", [Name(place("missing"))], "refused 1 11", message=None)
for more in ([place("first")], [""], [place("missing"), place("first")]):
    case(f"two logs alike and {len(more)} more arguments", [log(3), log(3)], b"", message=True, more=more)
# Names that are no others': without a folder, with a stroke or a blank, of letters of several bytes, and as long as may be.
case("an empty name and 3 records", [Name(""), log(3)], "refused 1 11", message=None)
case("3 records and an empty name", [log(3), Name("")], "refused 2 11", message=None)
case("/dev/null and 3 records", [Name("/dev/null"), log(3)], "refused 1 11")
case("3 records and /dev/null", [log(3), Name("/dev/null")], "refused 2 11")
put("first", log(3))
put("other", log(4))
case("names without a folder", [Name("first"), Name("other")], "beginning 1", folder=FOLDER)
case("a path of 4095 bytes and 4 records", [Name(path_of(4095)), log(4)], "beginning 1")
case("4 records and a path of 4095 bytes", [Name(place("other")), Name(path_of(4095))], "beginning 2")
for name in ("-", "--", "-v", "--help", "a b", " ", "a\nb", "'", "*", "%s%n", "1", "\u00e9\u20ac\U0001f50c", 255 * "a"):
    os.link(place("other"), os.path.join(os.fsencode(FOLDER), os.fsencode(name)))
    case(f"the log {name!r:.20} and 3 records", [Name(name), log(3)], "beginning 2", folder=FOLDER)
    case(f"3 records and the log {name!r:.20}", [log(3), Name(name)], "beginning 1", folder=FOLDER)
# The library by which the program opens files takes no name that is not UTF-8 text: such a log cannot be opened.
for name in (b"\xff\xfe\x80", b"a\x80", b"\xed\xa0\x80"):
    os.link(place("other"), os.path.join(os.fsencode(FOLDER), name))
    unreadable(f"the log {name!r} and 3 records", 1, Name(name), log(3), folder=FOLDER)
    unreadable(f"3 records and the log {name!r}", 2, log(3), Name(name), folder=FOLDER)

# 11. Writes that fall short or are interrupted show in nothing. Where one fails, a message says so, and what was written is a
# beginning of the line.
LINES = {
    "equal": (log(3), log(3)),
    "record 100001 pulses 4": (LONGEST, changed(LONGEST, offset(100001, 40))),
    "refused 2 12": (log(3), b"APL\x00\x02"),
}
for line, logs in LINES.items():
    for faults in (*({"WRITE_MOST": most} for most in (1, 2, 3, 5)), {"WRITE_EINTR": 2}, {"WRITE_EINTR": 2, "WRITE_MOST": 1}):
        case(f"{line} {with_faults(faults)}", logs, line, faults=faults)
    for at in (0, 1, 5, len(line)):
        faults = {"WRITE_ENOSPC_AT": at}
        case(f"{line} {with_faults(faults)}", logs, f"{line}\n".encode()[:at], message=True, faults=faults)
    with open("/dev/full", "wb") as full:
        case(f"{line} to /dev/full", logs, b"", message=True, stdout=full)
    case(f"{line} with standard output closed", logs, b"", message=True, closed=[1])
    case(f"{line} with standard input closed", logs, line, closed=[0])  # a log has descriptor 0 then
    case(f"{line} with standard error closed", logs, line, closed=[2])


# 12. Memory: two logs of 50 MB take no more of it than two of 5 bytes, but for 4 MiB of buffers.
def memory(records):
    """Two logs of so many records, the second through a pipe: the most memory in KiB that the program had before the pipe's
    end, or None where it ended before, and its result."""
    with open(place("large"), "wb") as file:
        file.write(HEADER)
        file.truncate(len(HEADER) + records * RECORD)
    pipe, end = os.pipe()
    command = [PROGRAM, place("large"), f"/dev/fd/{pipe}"]
    process = subprocess.Popen(command, stdin=subprocess.DEVNULL, stdout=emptied(OUT), stderr=emptied(ERR), pass_fds=[pipe])
    watch(process)
    os.close(pipe)
    most = None
    try:
        os.write(end, HEADER)
        for begin in range(0, records, 1000):
            os.write(end, bytes(min(1000, records - begin) * RECORD))
        while process.poll() is None and any(fcntl.ioctl(end, termios.FIONREAD, bytes(4))):  # the pipe is not empty
            time.sleep(0.01)
        time.sleep(0.1)
        with open(f"/proc/{process.pid}/status") as file:
            most = next((int(line.split()[1]) for line in file if line.startswith("VmHWM:")), None)
    except (BrokenPipeError, FileNotFoundError):
        pass
    os.close(end)
    status = wait(process)
    return most, Result(contents(OUT), contents(ERR), status, set())


try:
    (small, result), (large, other) = memory(0), memory(50000000 // RECORD)
    wrong = complaint("equal", False, result, {}) or complaint("equal", False, other, {})
    if not wrong and (small is None or large is None):
        wrong = "expected it to read the second log to its end, got an end before"
    elif not wrong and large > small + 4096:
        wrong = f"expected at most {small} + 4096 KiB of memory, got {large}"
except OSError as error:
    wrong = f"expected a run, got {error}"
count("two logs alike of 50 MB", wrong)
finish()
