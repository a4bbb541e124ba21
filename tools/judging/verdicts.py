"""One script judged: its log by the simulator, its log by the reference program, and what aplcmp says of the two."""
import os
import re
import subprocess
from typing import NamedTuple

import formats
from judging import runs
from judging.runs import NotJudged

PASSED, FAILED, NOT_JUDGED = "passed", "failed", "not judged"

# The reference program does millions of records a second: past this it hangs.
REFERENCE_SECONDS = 120


class Verdict(NamedTuple):
    state: str
    line: str  # what aplcmp says, or how the simulator failed, or why the script is not judged
    alike: tuple = ()  # what a smaller script's failure must have in common with this one
    place: int = 0  # of the first record that differs, counted from 1, or 0
    length: int = 0  # of the simulator's log
    status: int = 0
    errors: bytes = b""  # the simulator's standard error; of a pass its first byte, to tell that there was some


class Judge:
    """A reference and a simulator, and how a script is judged by them."""

    def __init__(self, apsrun, aplcmp, simulator, seconds):
        self.apsrun, self.aplcmp, self.simulator, self.seconds = apsrun, aplcmp, simulator, seconds

    def judge(self, script, folder):
        """The verdict on a script. The folder holds then `script.aps`, and as far as they came about `got.apl` and
        `expected.apl`."""
        given, got, expected = (os.path.join(folder, name) for name in ("script.aps", "got.apl", "expected.apl"))
        try:
            for log in (got, expected):
                if os.path.exists(log):
                    os.remove(log)
            with open(given, "wb") as file:
                file.write(script)
            length = formats.output_length(script[:formats.HEADER_LENGTH], len(script))
            # A record more is taken than is right, so that a log that is too long is seen to be. The reference's log is
            # made when the simulator has ended, which so can neither read nor change it.
            ended = runs.run(self.simulator, given, got, length + formats.ENTRY_LENGTH, self.seconds)
            with open(given, "wb") as file:
                file.write(script)
            self.refer(script, length, given, expected)
            return self.compare(script, length, ended, expected, got)
        except NotJudged as reason:
            return Verdict(NOT_JUDGED, str(reason))
        except OSError as error:
            return Verdict(NOT_JUDGED, f"{os.path.basename(error.filename or 'a log')} cannot be written or read: "
                           f"{error.strerror}")

    def refer(self, script, length, given, expected):
        """The reference's log, or why there is none by which a simulator can be judged."""
        ended = runs.run([self.apsrun], given, expected, length + 1, REFERENCE_SECONDS)
        if ended.errors:
            raise NotJudged(f"apsrun wrote to standard error: {first_line(ended.errors)}")
        if ended.problem:
            raise NotJudged(f"apsrun {ended.problem}")
        if ended.length != length:
            more = "or more " if ended.length > length else ""
            raise NotJudged(f"apsrun wrote {ended.length} {more}bytes, and by the script it is {length}")
        if ended.status:
            raise NotJudged(f"apsrun ended with status {ended.status}")
        number = formats.script_refusal(script)
        if number and contents(expected) != formats.refusal_line(number):
            raise NotJudged(f"apsrun wrote no line 'refused {number}' for a script with that header")

    def compare(self, script, length, ended, expected, got):
        known = dict(length=ended.length, status=ended.status, errors=ended.errors)
        if ended.problem:
            alike = ("signal", ended.status) if ended.kind == "signal" else (ended.kind,)
            return Verdict(FAILED, ended.problem, alike, **known)
        if formats.script_refusal(script):
            # What is written for a bad header is no log, which aplcmp would refuse.
            if contents(expected) != contents(got):
                return Verdict(FAILED, "another answer to a bad header", ("header",), **known)
            line = "equal"
        else:
            line = self.said(expected, got)
        if line == "equal":
            if os.path.getsize(got) != length:
                raise NotJudged("aplcmp says equal of two logs that are not equally long")
            return Verdict(PASSED, line, **known | {"errors": ended.errors[:1]})
        found = re.fullmatch(r"record (\d+) (.+)", line)
        place = int(found[1]) if found else 0
        return Verdict(FAILED, line, ("log", found[2] if found else line), place, **known)

    def said(self, expected, got):
        """The line of aplcmp, if it is one that speaks of the simulator."""
        try:
            ran = subprocess.run([self.aplcmp, expected, got], stdin=subprocess.DEVNULL, capture_output=True,
                                 timeout=REFERENCE_SECONDS)
        except OSError as error:
            raise NotJudged(f"aplcmp cannot be started: {error.strerror}") from None
        except subprocess.TimeoutExpired:
            raise NotJudged(f"aplcmp had not ended after {REFERENCE_SECONDS} s") from None
        if ran.stderr:
            raise NotJudged(f"aplcmp wrote to standard error: {first_line(ran.stderr)}")
        line = ran.stdout.decode("ascii", "replace")
        fields = "|".join(formats.FIELDS)
        if ran.returncode or not re.fullmatch(rf"(equal|record \d+ ({fields})|partial 2|beginning [12]|refused 2 1[12])\n", line):
            raise NotJudged(f"aplcmp ended with status {ran.returncode} and said {line!r}")
        return line.rstrip("\n")


def contents(path):
    with open(path, "rb") as file:
        return file.read()


def first_line(errors):
    return errors.decode("utf-8", "replace").strip().split("\n")[0][:200]
