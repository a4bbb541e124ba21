"""The command tools/judge: its options, and what it says."""
import argparse
import datetime
import os
import shlex
import signal

from judging import report, scripts
from judging.explain import explanation
from judging.judgement import Judgement
from judging.runs import NotJudged
from judging.verdicts import FAILED, NOT_JUDGED, PASSED

ROOT = os.path.dirname(os.path.dirname(os.path.dirname(os.path.realpath(__file__))))
STATUS = {PASSED: 0, FAILED: 1, NOT_JUDGED: 2}
SEEDS = (0, 3999)
LISTED = 10  # failing scripts that are named on the screen; the report names all

USAGE = "tools/judge [OPTION ..] -- SIMULATOR [ARGUMENT ..]"
DESCRIPTION = """
Judges a board simulator by the proved model: each script is run by the model's program apsrun and by the simulator, and
the model's program aplcmp says whether the two logs are equal.
"""
HELP = """
The simulator is started once for each script, with the script as its standard input, and writes its log to standard
output: docs/MANUAL.md lays both down. Its exit status and its standard error do not count, but they are noted. It runs in
a process group of its own, which is ended behind each script.

A simulator FAILS a script if its log is not the model's to the last byte, if it cannot be started, ends by a signal or has
not ended in its time. A script is NOT JUDGED if the model gave no sound log of it.

Exit status: 0 every script was judged and passed; 1 a script failed; 2 a script could not be judged, or none was, or the
options are wrong.
"""


def seed_range(word):
    first, dash, last = word.partition("-")
    if not first.isdecimal() or (dash and not last.isdecimal()):
        raise argparse.ArgumentTypeError(f"'{word}' is neither a seed nor a range of seeds, as 0-999")
    found = int(first), int(last or first)
    if not found[0] <= found[1] < 2**64:
        raise argparse.ArgumentTypeError(f"'{word}' is no range of seeds from 0 to 2^64 - 1")
    return found


def number(convert, least, most):
    def parse(word):
        try:
            value = convert(word)
        except ValueError:
            raise argparse.ArgumentTypeError(f"'{word}' is no number") from None
        if not least <= value <= most:
            raise argparse.ArgumentTypeError(f"{word} is not from {least} to {most}")
        return value
    return parse


def name(word):
    if not word:
        raise argparse.ArgumentTypeError("a name is missing")
    return word


def make_parser():
    parser = argparse.ArgumentParser(
        prog="tools/judge", usage=USAGE, description=DESCRIPTION, epilog=HELP, allow_abbrev=False, add_help=False,
        formatter_class=argparse.RawDescriptionHelpFormatter)
    add = parser.add_argument
    add("-h", "--help", action="store_true", help="show this, and end")
    add("--seeds", metavar="A-B", type=seed_range, action="append", default=[],
        help="random scripts, each made from its seed (0-3999, where neither --seeds nor --scripts is given)")
    add("--family", metavar="NAME[,NAME..]", type=name, action="append", default=[],
        help="of these seeds only those of a family")
    add("--families", dest="list_families", action="store_true", help="list the families of random scripts, and end")
    add("--most-cycles", metavar="N", type=number(int, 0, 2**64), help="for a simulator that steps single cycles: of random "
        "scripts that ask for more cycles than this in all, make the advances and skips shorter")
    add("--scripts", metavar="PATH", type=name, action="append", default=[],
        help="a script, in bytes or, if it is named *.txt, as text; or a folder with files *.aps and *.txt")
    add("--cuts", action=argparse.BooleanOptionalAction, default=True,
        help="judge each script that has advances also with advances cut at random places")
    add("--timeout", metavar="SECONDS", type=number(float, 0.001, 10**6), default=10,
        help="the simulator's time for a script (10)")
    add("--stop", metavar="N", type=number(int, 1, 10**9), help="stop when so many scripts have failed")
    add("--explain", metavar="N", type=number(int, 0, 1000), default=5, help="explain so many failures of different kinds (5)")
    add("--shrink", metavar="SECONDS", type=number(float, 0, 10**6), default=30,
        help="the time to make a failing script small (30; 0: leave it as it is)")
    add("--report", metavar="DIR", type=name,
        help="write a report, as text and JSON, and the failures' scripts and logs to a new folder")
    add("--file", metavar="PATH", type=name, action="append", default=[],
        help="a further file of the simulator, or a folder, whose digest the report is to have")
    add("--jobs", metavar="N", type=number(int, 1, 1000), default=len(os.sched_getaffinity(0)),
        help="so many scripts at a time (as many as there are processors)")
    add("--reference", metavar="DIR", type=name, help="take apsrun and aplcmp from this folder, unproved, in place of target/bin")
    return parser


def parse(arguments):
    parser = make_parser()
    end = arguments.index("--") if "--" in arguments else len(arguments)
    options, extra = parser.parse_known_args(arguments[:end])
    if extra:
        hint = "" if end < len(arguments) else "; the simulator stands behind --"
        parser.error(f"unknown: {' '.join(extra)}{hint}")
    if options.help or options.list_families:
        return options
    options.simulator = arguments[end + 1:]
    if not options.simulator:
        parser.error("no simulator: its command stands behind --")
    options.families = [family.strip().lower() for families in options.family for family in families.split(",")]
    if options.scripts and not options.seeds and (options.families or options.most_cycles is not None):
        parser.error("--family and --most-cycles are for random scripts, and with --scripts there are none but by --seeds")
    for path in options.file:
        if not os.path.exists(path):
            parser.error(f"--file: there is no {path}")
    if not options.seeds and not options.scripts:
        options.seeds = [SEEDS]
    options.command_line = command_line(arguments[:end], arguments[end:])
    return options


def command_line(words, command):
    """The command, without what must not make a difference: two runs with the same input are to have the same report."""
    for option, stands_for in (("--report", "DIR"), ("--jobs", "N")):
        words = [stands_for if before == option else f"{option}={stands_for}" if word.startswith(f"{option}=") else word
                 for before, word in zip(["", *words], words)]
    return shlex.join(["tools/judge", *words, *command])


def list_families():
    generator = scripts.Generator(ROOT)
    generator.build()
    for family, description in generator.families().items():
        print(f"{family:10} {description}")


def counted(count, things):
    return f"{count} {things}" if count != 1 else f"1 {things[:-1]}"


def summary(judgement):
    """The lines for the screen, but for the verdict's."""
    results, count = judgement.results, report.figures(judgement.results)
    cut = sum(result.cut for result in results)
    yield f"{counted(len(results), 'scripts')}, {cut} with advances cut: {count['judged']} judged, with " \
          f"{counted(judgement.coverage.records, 'records')}"
    if judgement.stopped:
        yield judgement.stopped
    yield from report.notes(results)
    never = {part: len(names) for part, names in judgement.coverage.never().items() if names}
    if never and not judgement.stopped:
        yield f"never met, as --report lists: {', '.join(f'{missed} of the {part}' for part, missed in never.items())}"
    for state in (FAILED, NOT_JUDGED):
        found = [result for result in results if result.verdict.state == state]
        for result in found[:LISTED]:
            yield f"{state}: {result.name} ({result.source.form}): {result.verdict.line}"
        if len(found) > LISTED:
            yield f"{state}: and {counted(len(found) - LISTED, 'more scripts')}"
    for place, failure in enumerate(judgement.failures, 1):
        yield ""
        yield from explanation(failure)
        if judgement.options.report:
            yield f"  saved in {os.path.join(judgement.options.report, report.folder(place))}"
    if judgement.failures:
        yield ""


def verdict_line(results):
    verdict, count, all_scripts = report.verdict_of(results), report.figures(results), counted(len(results), "scripts")
    besides = f", and {count[NOT_JUDGED]} not judged" if count[NOT_JUDGED] else ""
    return {
        PASSED: f"PASSED: {all_scripts}",
        FAILED: f"FAILED: {count[FAILED]} of {all_scripts}{besides}",
        NOT_JUDGED: f"NOT JUDGED: {count[NOT_JUDGED]} of {all_scripts}",
    }[verdict]


def judge(options):
    judgement = Judgement(ROOT, options)
    judgement.prepare()
    if options.report:
        report.make_folder(options.report)
    judgement.run()
    trouble = None
    if options.report:
        date = datetime.datetime.now(datetime.timezone.utc).strftime("%Y-%m-%d %H:%M:%S UTC")
        try:
            report.save(options.report, judgement, date)
        except OSError as error:
            trouble = f"the report cannot be written to {options.report}: {error.strerror}"
    for line in summary(judgement):
        print(line)
    verdict = report.verdict_of(judgement.results)
    if trouble and verdict == PASSED:  # a pass without the report that was asked for is none; a failure stays one
        raise NotJudged(trouble)
    if trouble:
        print(trouble)
    print(verdict_line(judgement.results), flush=True)
    return STATUS[verdict]


def interrupt(*_):
    """The first of these signals ends all that runs, and what comes behind it is not to disturb that."""
    for each in (signal.SIGINT, signal.SIGTERM, signal.SIGHUP):
        signal.signal(each, signal.SIG_IGN)
    raise KeyboardInterrupt


def main(arguments):
    for each in (signal.SIGINT, signal.SIGTERM, signal.SIGHUP):
        if signal.getsignal(each) != signal.SIG_IGN:  # as under nohup
            signal.signal(each, interrupt)
    signal.signal(signal.SIGCHLD, signal.SIG_DFL)  # else nobody could wait for a simulator
    try:
        options = parse(arguments)
        if options.help:
            print(make_parser().format_help(), end="", flush=True)
            return 0
        if options.list_families:
            list_families()
            return 0
        return judge(options)
    except NotJudged as reason:
        print(f"NOT JUDGED: {reason}", flush=True)
    except KeyboardInterrupt:
        print("NOT JUDGED: interrupted", flush=True)
    except OSError as error:  # as of a full disk
        print(f"NOT JUDGED: {error}", flush=True)
    return 2
