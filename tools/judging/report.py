"""The report of a judgement, as text and as JSON, and the folders of its failures."""
import hashlib
import io
import json
import os
import shutil
import subprocess

import formats
from judging.coverage import EXPLAINED, TO_MEET
from judging.explain import explanation
from judging.runs import NotJudged
from judging.verdicts import FAILED, NOT_JUDGED, PASSED

MEANING = {
    PASSED: "The simulator's log of each of these scripts is the model's to the last byte. Of other scripts this says nothing.",
    FAILED: "On some script the simulator's log is not the model's, or the simulator could not be started, ended by a signal "
            "or did not end in its time.",
    NOT_JUDGED: "On some script the model gave no sound log, or there was none to judge by. Of the simulator this says nothing.",
}
LISTED = 50  # failures and scripts not judged that the text names; the JSON has all


def digest(path):
    """A file's SHA-256."""
    found = hashlib.sha256()
    try:
        with open(path, "rb") as file:
            while piece := file.read(1 << 20):
                found.update(piece)
    except OSError as error:  # a program that may be run and not read
        return f"unknown: {error.strerror}"
    return found.hexdigest()


def printed(root, *command):
    """What a command prints, or None."""
    try:
        ran = subprocess.run(command, cwd=root, stdin=subprocess.DEVNULL, capture_output=True)
    except OSError:
        return None
    return ran.stdout.decode("utf-8", "replace").strip() if ran.returncode == 0 else None


# What of the repository a judgement depends on.
JUDGES_BY = ("crates", "crates.txt", "tests/model", "tools")


def digests(paths):
    return {name: digest(path) for name, path in sorted(paths.items())}


def model(root, proved, programs):
    """What the judgement is made by."""
    commit = printed(root, "git", "rev-parse", "HEAD")
    return {
        "commit": commit or "unknown: no git repository",
        "changed since": bool(commit and printed(root, "git", "status", "--porcelain", "--", *JUDGES_BY)),
        "kit": printed(root, "rt", "version") or "unknown: no rt",
        "proved": proved,
        "sha256": digests(programs),
    }


def simulator(command, more):
    """The simulator's command, with the digest of each file that it names and of those that are named besides."""
    found = {word: word for word in command[1:] if os.path.isfile(word)}
    program = shutil.which(command[0])
    if program:
        found[command[0]] = program
    for path in more:
        found |= {path: path} if os.path.isfile(path) else {file: file for file in files_in(path)}
    return {"command": command, "sha256": digests(found)}


def files_in(folder):
    for here, folders, names in os.walk(folder):
        folders[:] = sorted(name for name in folders if name != "__pycache__")
        yield from (os.path.join(here, name) for name in names)


def figures(results):
    """Counts of scripts by what became of them."""
    count = {state: sum(result.verdict.state == state for result in results) for state in (PASSED, FAILED, NOT_JUDGED)}
    return {"judged": count[PASSED] + count[FAILED], **count}


def verdict_of(results):
    count = figures(results)
    if count[FAILED]:
        return FAILED
    return PASSED if count[PASSED] and not count[NOT_JUDGED] else NOT_JUDGED


def notes(results):
    """What does not count, and a lab may want to know."""
    for what, met in (
        ("ended with an exit status other than 0", lambda verdict: verdict.status > 0),
        ("wrote to standard error", lambda verdict: verdict.errors != b""),
    ):
        found = [result.name for result in results if result.verdict.state == PASSED and met(result.verdict)]
        if found:
            yield f"the simulator {what}, and passed, on {len(found)} of the scripts, the first of them {found[0]}"


def settings(options):
    """What was judged, and how: the options with their defaults."""
    return {
        "seeds": [f"{first}-{last}" for first, last in options.seeds],
        "families": options.families or ["all"],
        "files": options.scripts,
        "cuts": options.cuts,
        "most cycles": options.most_cycles if options.most_cycles is not None else "any",
        "timeout": options.timeout,
    }


def structure(judgement, date):
    """The whole report, as it is written to JSON."""
    results = judgement.results
    return {
        "format": 1,
        "verdict": verdict_of(results),
        "meaning": MEANING[verdict_of(results)],
        "date": date,
        "model": judgement.model,
        "simulator": judgement.simulator,
        "command line": judgement.options.command_line,
        "options": settings(judgement.options),
        "scripts": {
            "given": sum(not result.cut for result in results),
            "cut": sum(result.cut for result in results),
            **figures(results),
            "records": judgement.coverage.records,
            "sha256": hashlib.sha256("".join(result.sha256 for result in results).encode()).hexdigest(),
        },
        "stopped": judgement.stopped,
        "notes": list(notes(results)),
        "coverage": {
            "never met": {part: names for part, names in judgement.coverage.never().items() if names},
            **{part: {name: judgement.coverage.met[part][name] for name in names} for part, names in TO_MEET.items()},
        },
        "explained": [
            {"script": failure.name, "folder": folder(place), "verdict": failure.verdict.line, "shrunk": failure.shrunk}
            for place, failure in enumerate(judgement.failures, 1)
        ],
        "failures": [
            {"script": result.name, "verdict": result.verdict.line} for result in results if result.verdict.state == FAILED
        ],
        "not judged": [
            {"script": result.name, "reason": result.verdict.line}
            for result in results if result.verdict.state == NOT_JUDGED
        ],
        "all scripts": [
            {"script": result.name, "form": result.source.form, "sha256": result.sha256, "records": result.records,
             "verdict": result.verdict.line if result.verdict.state != NOT_JUDGED else NOT_JUDGED}
            for result in results
        ],
    }


def text(report, failures):
    """The report's lines."""
    scripts, made_by = report["scripts"], report["model"]
    yield "Judgement of a board simulator by the Corollacap reference model"
    yield ""
    yield f"Verdict        {report['verdict'].upper()}"
    yield f"Meaning        {report['meaning']}"
    yield f"Date           {report['date']}"
    yield f"Scripts        {scripts['given']}, and {scripts['cut']} of them again with advances cut"
    yield f"Judged         {scripts['judged']} scripts with {scripts['records']} records: {scripts['passed']} passed, " \
          f"{scripts['failed']} failed"
    yield f"Not judged     {scripts['not judged']} scripts"
    if report["stopped"]:
        yield f"Stopped        {report['stopped']}"
    for note in report["notes"]:
        yield f"Note           {note}"
    yield ""
    yield "Judged by"
    changed = ", with changes that are not committed" if made_by["changed since"] else ""
    yield f"  commit       {made_by['commit']}{changed}"
    yield f"  kit          {made_by['kit']}"
    yield "  programs     " + ("proved from these sources" if made_by["proved"] else
                               "NOT those of this repository: --reference names others, and whether they are proved is not known")
    yield from (f"  {name:12} sha256 {found}" for name, found in made_by["sha256"].items())
    yield ""
    yield "Simulator"
    yield f"  command      {' '.join(report['simulator']['command'])}"
    yield from (f"  sha256 {found}  {name}" for name, found in report["simulator"]["sha256"].items())
    yield "  Other files that these load are not covered; --file names them."
    yield ""
    yield "Command line"
    yield f"  {report['command line']}"
    for name, value in report["options"].items():
        value = ", ".join(value) or "none" if isinstance(value, list) else {True: "yes", False: "no"}.get(value, value)
        yield f"  {name:12} {value}"
    yield ""
    yield "Scripts (report.json has the digest and the verdict of each)"
    yield f"  sha256 {scripts['sha256']}  of the list of all their digests"
    files = [entry for entry in report["all scripts"] if entry["form"] in ("a file", "a text file")]
    yield from (f"  sha256 {entry['sha256']}  {entry['script']}: {entry['verdict']}" for entry in files)
    for place, failure in enumerate(failures, 1):
        yield ""
        yield from explanation(failure)
        yield f"  saved in {folder(place)}"
    for title, found, key in (("Failures", report["failures"], "verdict"), ("Not judged", report["not judged"], "reason")):
        if found:
            yield ""
            yield title
            yield from (f"  {entry['script']}: {entry[key]}" for entry in found[:LISTED])
            if len(found) > LISTED:
                yield f"  and {len(found) - LISTED} more, in report.json"
    yield ""
    yield from coverage_text(report["coverage"])


def coverage_text(coverage):
    yield "Coverage of the scripts that were judged"
    yield ""
    yield "  never met"
    never = coverage["never met"]
    yield from (f"    {part}: {', '.join(names)}" for part, names in never.items())
    if not never:
        yield "    nothing: all that is listed below was met"
    for part in TO_MEET:
        yield ""
        yield f"  {part} ({EXPLAINED[part]})"
        width = max(24, *map(len, coverage[part]))
        yield from (f"    {name:{width}} {count}" for name, count in coverage[part].items())


def folder(place):
    """Where the report has what is explained at this place."""
    return f"failures/{place}"


def make_folder(path):
    """The report's folder, in which nothing is overwritten."""
    try:
        os.makedirs(path, exist_ok=True)
        if os.listdir(path):
            raise NotJudged(f"the report's folder {path} is not empty: name a new one")
        write(path, "report.txt", "This judgement has not come to its end.\n")
    except OSError as error:
        raise NotJudged(f"the report cannot be written to {path}: {error.strerror}") from None


def save(path, judgement, date):
    """Writes the report."""
    report = structure(judgement, date)
    for place, failure in enumerate(judgement.failures, 1):
        save_failure(os.path.join(path, folder(place)), failure)
    write(path, "report.json", json.dumps(report, indent=1) + "\n")
    write(path, "report.txt", "".join(f"{line}\n" for line in text(report, judgement.failures)))


def save_failure(path, failure):
    os.makedirs(path)
    write(path, "explanation.txt", "".join(f"{line}\n" for line in explanation(failure)))
    write(path, "script.txt", "".join(f"{line}\n" for line in formats.script_lines(io.BytesIO(failure.small))))
    write(path, "original.aps", failure.script)
    write(path, "script.aps", failure.small)
    write(path, "expected.apl", failure.expected)
    write(path, "got.apl", failure.got)
    if failure.verdict.errors:
        write(path, "stderr.txt", failure.verdict.errors)


def write(path, name, data):
    with open(os.path.join(path, name), "wb") as file:
        file.write(data if isinstance(data, bytes) else data.encode("utf-8", "backslashreplace"))
