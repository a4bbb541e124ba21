"""A failure explained: the smallest script found, what was expected and what came, side by side, in the text form."""
import os
from typing import NamedTuple

import formats
from judging.scripts import records
from judging.verdicts import FAILED, Verdict, contents
from judging.shrink import Shrinker

SHOWN = 40  # records of a script, the last ones before the difference


class Failure(NamedTuple):
    """A script that failed, and the smaller one that was made of it."""

    name: str
    form: str
    line: str  # the verdict on the script as it was given
    script: bytes
    verdict: Verdict  # on the smaller script
    small: bytes
    shrunk: str  # how that went, in words
    expected: bytes  # what is written for the smaller script, as far as it is shown
    got: bytes


def shrunk_failure(result, judge, folder, seconds):
    """Shrinks a script that failed."""
    script, verdict = result.script, result.verdict
    again = judge.judge(script, folder)
    if not alike(again, verdict):
        how = f"not shrunk: run again on the same script, the simulator came to another result ({again.line})"
        return failure(result, again, script, how, folder)
    if not seconds or verdict.alike == ("start",):
        return failure(result, again, script, "not shrunk", folder)
    shrinker = Shrinker(script, lambda candidate: alike(judge.judge(candidate, folder), verdict), seconds)
    # What comes behind the record that differs, or behind the last that was answered and the next, is left out first.
    small = shrinker.shrink(again.place or answered(again) + 1)
    last = judge.judge(small, folder)
    how = f"shrunk from {len(records(script))} records to {len(records(small))}, by {shrinker.tries} runs"
    if shrinker.stopped:
        how += f"; {shrinker.stopped}, so it may not be the smallest"
    if not alike(last, verdict):
        how += f"; run once more, the simulator came to another result ({last.line})"
    return failure(result, last, small, how, folder)


def alike(found, verdict):
    return found.state == FAILED and found.alike == verdict.alike


def answered(verdict):
    """How many whole log records came."""
    return max(0, verdict.length - formats.HEADER_LENGTH) // formats.ENTRY_LENGTH


def failure(result, found, small, how, folder):
    logs = [os.path.join(folder, name) for name in ("expected.apl", "got.apl")]
    expected, got = (contents(log) if os.path.exists(log) else b"" for log in logs)
    return Failure(result.name, result.source.form, result.verdict.line, result.script, found, small, how, expected, got)


def signature(script, verdict):
    """What tells failures apart that are shown beside each other: the field, and the kind of record and register."""
    place = verdict.place
    if not place:
        return verdict.alike
    name, values = formats.decode(records(script)[place - 1])
    register = formats.NAMES.get(values[1], "") if name in ("read", "write") else ""
    return (*verdict.alike, name, register.translate(str.maketrans("", "", "0123456789")))


def entry(log, place):
    begin = formats.HEADER_LENGTH + formats.ENTRY_LENGTH * (place - 1)
    return log[begin:begin + formats.ENTRY_LENGTH]


def explanation(failure):
    """The lines that explain a failure."""
    verdict = failure.verdict
    yield f"{failure.name} ({failure.form}): {failure.line}"
    if verdict.alike == ("start",):
        return
    if verdict.state != FAILED:  # it fails now and then
        yield f"  {failure.shrunk}"
        return
    yield f"  {failure.shrunk}:"
    yield ""
    yield from script_lines(failure)
    yield ""
    if verdict.alike[:1] == ("header",):
        yield f"  expected  {failure.expected!r}"
        yield f"  got       {shortened(failure.got)}"
    elif verdict.place:
        yield from side_by_side(failure)
    else:
        yield f"  {meaning(failure)}"
    if verdict.errors:
        yield "  the simulator's standard error:"
        lines = verdict.errors.decode("utf-8", "replace").splitlines()
        yield from (f"    {line}" for line in lines[:12])
        if len(lines) > 12:
            yield f"    .. and {len(lines) - 12} more lines"
    if verdict.status > 0:
        yield f"  the simulator's exit status: {verdict.status}"


def script_lines(failure):
    """The script, up to the record that differs, which is marked."""
    parts = records(failure.small)
    end = failure.verdict.place or len(parts)
    begin = max(0, end - SHOWN)
    if formats.script_refusal(failure.small):
        yield f"          header {failure.small[:formats.HEADER_LENGTH].hex(' ')}"
    elif not parts:
        yield "          (a header, and no record)"
    if begin:
        yield f"    .. {begin} records before these"
    for place in range(begin, end):
        mark = ">" if place + 1 == failure.verdict.place else " "
        yield f"  {mark} {place + 1:4}  {formats.record_line(parts[place])}{written_bits(parts[place])}"


def written_bits(record):
    """The named bits of what a record writes, as a comment."""
    name, values = formats.decode(record)
    register = formats.NAMES.get(values[1], "") if name == "write" and values[0] == 4 else ""
    bits = formats.register_bits(register, values[2]) if register else ""
    return f"  # {bits}" if bits else ""


def side_by_side(failure):
    """The fields of the first record that differ, the first of them marked."""
    place = failure.verdict.place
    record = records(failure.small)[place - 1]
    expected, got = (formats.entry_fields(entry(log, place)) for log in (failure.expected, failure.got))
    name, values = formats.decode(record)
    register = formats.NAMES.get(values[1], "") if name == "read" else ""
    for shown in (expected, got):
        note = formats.value_note(name, register, int(shown["value"], 16))
        shown["value"] += f" ({note})" if note else ""
        refusal = formats.REFUSALS.get(int(shown["number"]))
        shown["number"] += f" ({refusal})" if refusal else ""
        for field in [field for field in shown if field == "cycles" or field.startswith("pulses")]:
            shown[field] += f" ({int(shown[field]):#x})" if int(shown[field]) >= 2**16 else ""
    differ = [field for field in expected if expected[field] != got[field]]
    width = max(len("expected"), *(len(expected[field]) for field in differ))
    other = max(len("got"), *(len(got[field]) for field in differ))
    yield f"  record {place}   {'expected':{width}}   got"
    for field in differ:
        mark = "   the first field that differs" if field == differ[0] and len(differ) > 1 else ""
        found = got[field].ljust(other) + mark if mark else got[field]
        yield f"  {field:{len(f'record {place}')}}   {expected[field]:{width}}   {found}"


def meaning(failure):
    """What a verdict without a differing record says, in words."""
    verdict, written, right = failure.verdict, answered(failure.verdict), formats.records_of(len(failure.small))
    behind = failure.got[formats.HEADER_LENGTH + formats.ENTRY_LENGTH * right:]
    if behind and verdict.line in ("beginning 1", "partial 2"):
        return f"the log is too long: behind the {right} records that are right comes {shortened(behind)}"
    if verdict.line == "beginning 2":
        return f"the log is too short: it has {written} of {right} records, and none of them differs"
    if verdict.line == "partial 2":
        return f"the log is too short: behind {written} of {right} records it ends in a part of a record"
    if verdict.line.startswith("refused 2"):
        what = "has another version than 1" if verdict.line.endswith("12") else "has another mark, or fewer than 5 bytes"
        return f"what was written is no log: it {what}. It begins with {shortened(failure.got)}"
    return f"the simulator {verdict.line}; {written} of {right} log records had come by then"


def shortened(data):
    if not data:
        return "nothing"
    return f"{data[:24]!r}" + (f" .. ({len(data)} bytes)" if len(data) > 24 else "")
