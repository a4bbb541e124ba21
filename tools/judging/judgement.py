"""A whole judgement: the programs made ready, the scripts judged, several at a time, and failures explained."""
import contextlib
import fcntl
import hashlib
import os
import subprocess
import sys
import tempfile
import threading
import time
from concurrent.futures import ThreadPoolExecutor, wait
from typing import NamedTuple

from judging import report, runs, scripts
from judging.coverage import Coverage
from judging.explain import shrunk_failure, signature
from judging.runs import NotJudged
from judging.verdicts import FAILED, NOT_JUDGED, Judge, Verdict

PROGRAMS = ("apsrun", "aplcmp")
# So many scripts on which the simulator exceeds its time, or that cannot be judged, and the others are not tried.
MOST_OVER_TIME = MOST_NOT_JUDGED = 10


def outcome(work):
    """The result of some work, waited for in short turns: a signal that comes as a wait begins, or that another thread gets, is
    seen only when this thread runs again."""
    while not work.done():
        wait([work], timeout=0.2)
    return work.result()


class Result(NamedTuple):
    """What became of a script."""

    source: scripts.Source
    cut: bool
    sha256: str
    records: int
    verdict: Verdict
    signature: tuple = ()
    script: bytes = b""  # of a failure that is to be explained

    @property
    def name(self):
        return f"{self.source.name}, cut" if self.cut else self.source.name


class Judgement:
    def __init__(self, root, options):
        self.root, self.options = root, options
        self.generator = scripts.Generator(root, options.most_cycles) if options.seeds else None
        self.results, self.coverage = [], Coverage()
        self.chosen, self.failures = {}, []  # failures of different kinds, and their explanations
        self.stopped = None  # why not all scripts were tried
        self.lock = threading.Lock()
        self.waiting, self.next = {}, 0
        self.counts = {"time": 0, FAILED: 0, NOT_JUDGED: 0}
        self.last_shown = 0.0

    # Before the scripts.

    def prepare(self):
        """Sees to it that all is there, and that the programs are those that are proved."""
        self.reference = os.path.realpath(self.options.reference or os.path.join(self.root, "target/bin"))
        with one_at_a_time(self.root) if not self.options.reference or self.generator else contextlib.nullcontext():
            if not self.options.reference:
                prove(self.root)
            if self.generator:
                self.generator.build()
        self.programs = {program: os.path.join(self.reference, program) for program in PROGRAMS}
        for path in self.programs.values():
            if not os.path.isfile(path):
                raise NotJudged(f"there is no program {path}")
        if self.generator:
            self.programs["generate"] = self.generator.program
        if self.generator:
            unknown = sorted(set(self.options.families) - set(self.generator.families()))
            if unknown:
                raise NotJudged(f"there is no family {', '.join(unknown)}; --families lists them")
        self.files = scripts.files(self.options.scripts)
        self.model = report.model(self.root, not self.options.reference, self.programs)
        self.simulator = report.simulator(self.options.simulator, self.options.file)

    def sources(self):
        for first, last in self.options.seeds:
            yield from self.generator.sources(first, last, self.options.families)
        yield from self.files

    # The scripts. They are judged in any order, and what is found is taken in theirs, so that two runs come to the same.

    def run(self):
        turns = enumerate(self.sources())
        with tempfile.TemporaryDirectory(prefix="judge-") as folder:
            self.judge = Judge(self.programs["apsrun"], self.programs["aplcmp"], self.options.simulator, self.options.timeout)
            with ThreadPoolExecutor(self.options.jobs) as workers:
                try:
                    work = [workers.submit(self.work, turns, folder, number) for number in range(self.options.jobs)]
                    for each in work:
                        outcome(each)
                    self.progress(end=True)
                    self.explain(workers, folder)
                except BaseException:  # an interrupt among them: nothing is to run on
                    runs.end_all()
                    raise
        if not self.results:
            raise NotJudged("there is no script: no seed is of the family")
        # The report has the digests from before, and nobody knows by which program a script was run.
        if self.model["sha256"] != report.digests(self.programs):
            raise NotJudged("the reference programs were changed while they were used")
        if self.simulator != report.simulator(self.options.simulator, self.options.file):
            raise NotJudged("the simulator's files were changed while it was judged")

    def work(self, turns, folder, number):
        """Judges scripts until none is left."""
        folder = os.path.join(folder, str(number))
        os.mkdir(folder)
        while self.stopped is None:
            with self.lock:
                place, source = next(turns, (0, None))
            if source is None:
                break
            found = list(self.judged(source, folder))
            with self.lock:
                self.waiting[place] = found
                self.take()

    def judged(self, source, folder):
        """The result of a script, and that of the same with its advances cut, each with what it met."""
        try:
            script = source.load()
        except NotJudged as reason:
            yield Result(source, False, "", 0, Verdict(NOT_JUDGED, str(reason))), Coverage()
            return
        yield self.judged_once(source, script, False, folder)
        if self.options.cuts and scripts.has_advances(script):
            yield self.judged_once(source, scripts.cut(script), True, folder)

    def judged_once(self, source, script, cut, folder):
        verdict, coverage, digest = self.judge.judge(script, folder), Coverage(), hashlib.sha256(script).hexdigest()
        if verdict.state != NOT_JUDGED:
            with open(os.path.join(folder, "expected.apl"), "rb") as log:
                coverage.note(script, log)
        if verdict.state != FAILED:
            return Result(source, cut, digest, coverage.records, verdict), coverage
        return Result(source, cut, digest, coverage.records, verdict, signature(script, verdict), script), coverage

    def take(self):
        """Takes what has been found so far, in the scripts' order, up to where the run is given up."""
        while self.stopped is None and self.next in self.waiting:
            for result, coverage in self.waiting.pop(self.next):
                if result.verdict.state == FAILED and len(self.chosen) < self.options.explain:
                    self.chosen.setdefault(result.signature, result)
                self.results.append(result._replace(script=b""))
                self.coverage.add(coverage)
                self.give_up(result.verdict)
                if self.stopped:
                    break
            self.next += 1
        self.progress()

    def give_up(self, verdict):
        if verdict.state in self.counts:
            self.counts[verdict.state] += 1
        if verdict.alike == ("time",):
            self.counts["time"] += 1
        if verdict.alike == ("start",):
            self.stopped = "the others were not tried, since the simulator cannot be started"
        elif self.counts[FAILED] == self.options.stop:
            self.stopped = "the others were not tried, as --stop says"
        elif self.counts["time"] == MOST_OVER_TIME:
            self.stopped = f"the others were not tried, since the simulator exceeded its time on {MOST_OVER_TIME} scripts"
        elif self.counts[NOT_JUDGED] == MOST_NOT_JUDGED:
            self.stopped = f"the others were not tried, since {MOST_NOT_JUDGED} scripts could not be judged"

    def progress(self, end=False):
        if sys.stderr.isatty() and (end or time.monotonic() - self.last_shown > 0.1):
            self.last_shown = time.monotonic()
            line = "" if end else f"{len(self.results)} scripts, {self.counts[FAILED]} failed"
            sys.stderr.write(f"\r{line}\x1b[K")
            sys.stderr.flush()

    # The failures.

    def explain(self, workers, folder):
        """Shrinks the first failures of different kinds."""
        if self.chosen and sys.stderr.isatty():
            sys.stderr.write("making the failing scripts small ..\r")
        work = []
        for number, result in enumerate(self.chosen.values()):
            here = os.path.join(folder, f"failure-{number}")
            os.mkdir(here)
            work.append(workers.submit(shrunk_failure, result, self.judge, here, self.options.shrink))
        # The shortest first; of those that came to the same script, one.
        found = {}
        for each in work:
            found.setdefault(outcome(each).small, outcome(each))
        self.failures = sorted(found.values(), key=lambda failure: len(failure.small))
        self.progress(end=True)


@contextlib.contextmanager
def one_at_a_time(root):
    """Two judgements that begin together do not build the programs at once."""
    os.makedirs(os.path.join(root, "target"), exist_ok=True)
    with open(os.path.join(root, "target/judge.lock"), "w") as lock:
        fcntl.flock(lock, fcntl.LOCK_EX)
        yield


def prove(root):
    """Has the programs proved and built (tools/build). Where they are and nothing has changed since, that takes a moment."""
    late = threading.Timer(10, print, ["tools/judge: proving the reference programs, which takes some minutes .."],
                           {"file": sys.stderr, "flush": True})
    late.daemon = True
    prover = subprocess.Popen([sys.executable, os.path.join(root, "tools/build"), *PROGRAMS], stdin=subprocess.DEVNULL,
                              stdout=subprocess.PIPE, stderr=subprocess.STDOUT, start_new_session=True)
    late.start()
    try:
        said = prover.communicate()[0].decode("utf-8", "replace").strip().split("\n")
    finally:
        late.cancel()
        if prover.poll() is None:
            runs.end_group(prover)
    if prover.returncode == 1:
        raise NotJudged("the reference programs are not proved; tools/build says:\n" + "\n".join(said[-10:]))
    if prover.returncode:
        raise NotJudged("the reference programs cannot be proved: " + "\n".join(said[-10:]))
