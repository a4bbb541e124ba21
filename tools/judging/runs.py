"""Programs that are run on a file, each in a process group of its own, with limits on its time and on what it writes."""
import errno
import os
import selectors
import signal
import subprocess
import threading
import time
from typing import NamedTuple, Optional

ERRORS_KEPT = 65536  # bytes of standard error; the rest is read and dropped
PIECE = 65536
# What is wrong with a command that cannot be started, and not with the machine that it is started on.
NO_COMMAND = {errno.ENOENT, errno.EACCES, errno.ENOEXEC, errno.ENOTDIR, errno.EISDIR, errno.EPERM, errno.ELOOP, errno.ENAMETOOLONG}
SECONDS_TO_END = 5  # for a process that was killed


class NotJudged(Exception):
    """Why a script, or all of them, cannot be judged."""


class Ended(NamedTuple):
    """How a run ended: `problem` is None where the program came to its own end, by whatever exit status."""

    problem: Optional[str]
    kind: str  # of the problem: 'start', 'time', 'signal' or ''
    status: int
    length: int  # of what it wrote, as far as it was taken
    errors: bytes


class Interrupted(Exception):
    """All runs are being ended."""


# The processes that are running, so that all can be ended at once.
running = set()
lock = threading.Lock()
ending = threading.Event()


def end_all():
    """Ends every process group, and lets no further one begin."""
    ending.set()
    with lock:
        for process in running:
            end_group(process)


def end_group(process):
    # Before the process is waited for, so that its number cannot be another's by now.
    try:
        os.killpg(process.pid, signal.SIGKILL)
    except (ProcessLookupError, PermissionError):
        pass


def has_ended(process):
    return os.waitid(os.P_PID, process.pid, os.WEXITED | os.WNOWAIT | os.WNOHANG) is not None


def signal_name(number):
    try:
        return f"signal {number} ({signal.Signals(number).name})"
    except ValueError:
        return f"signal {number}"


def start(command, stdin):
    with lock:
        if ending.is_set():
            raise Interrupted
        process = subprocess.Popen(
            command, stdin=stdin, stdout=subprocess.PIPE, stderr=subprocess.PIPE, start_new_session=True)
        running.add(process)
        return process


def finish(process):
    """Ends a process and all that is left of its group, and answers its status."""
    end_group(process)
    with lock:
        running.discard(process)
    process.stdout.close()
    process.stderr.close()
    try:
        return process.wait(SECONDS_TO_END)
    except subprocess.TimeoutExpired:
        raise NotJudged(f"the process {process.args[0]} cannot be ended") from None


def run(command, given, out, most, seconds):
    """Runs a command with the file `given` as its standard input. Of what it writes, the first `most` bytes go to the file
    `out`; when it writes more it is ended, as it is when its time is over. Whatever it started in its group is ended with it."""
    with open(given, "rb") as stdin, open(out, "wb") as log:
        try:
            process = start(command, stdin)
        except OSError as error:
            if error.errno not in NO_COMMAND:
                raise NotJudged(f"{command[0]} cannot be started on this machine: {error.strerror}") from None
            return Ended(f"cannot be started: {command[0]}: {error.strerror}", "start", 0, 0, b"")
        taken = Taken()
        try:
            taken.take(process, log, most, time.monotonic() + seconds)
        finally:
            status = finish(process)
    if ending.is_set():
        raise Interrupted
    problem, kind = None, ""
    if taken.over == "time":
        problem, kind = f"had not ended after {seconds:g} s", "time"
    elif taken.over == "held":
        problem, kind = f"had ended, but after {seconds:g} s its output was still held open by another process", "time"
    elif status < 0 and taken.over is None:
        problem, kind = f"ended by {signal_name(-status)}", "signal"
    return Ended(problem, kind, status, taken.length, bytes(taken.errors))


class Taken:
    """What is taken of a process's output, and why no more was: `time`, `held` or `room`, or None at its own end."""

    def __init__(self):
        self.length, self.errors, self.over = 0, bytearray(), None

    def take(self, process, log, most, deadline):
        """Takes what it writes until it has ended and its output too, or until its time or the room is over."""
        pause = 0.0002
        with selectors.DefaultSelector() as selector:
            open_files = {process.stdout, process.stderr}
            for file in open_files:
                selector.register(file, selectors.EVENT_READ)
            # Standard error alone is not waited for: a process that was left behind may hold it.
            while process.stdout in open_files or not has_ended(process):
                left = deadline - time.monotonic()
                if left <= 0:
                    self.over = "held" if has_ended(process) else "time"
                    break
                if process.stdout not in open_files:
                    left = min(left, pause)
                    pause = min(2 * pause, 0.05)
                for key, _ in selector.select(left):
                    data = os.read(key.fd, PIECE)
                    if not data:
                        selector.unregister(key.fileobj)
                        open_files.discard(key.fileobj)
                    elif key.fileobj is process.stderr:
                        self.keep(data)
                    else:
                        log.write(data[:most - self.length])
                        self.length = min(most, self.length + len(data))
                if self.length == most:
                    self.over = "room"
                    break
            if process.stderr in open_files:
                self.keep_rest(process.stderr)

    def keep(self, errors):
        self.errors += errors[:ERRORS_KEPT - len(self.errors)]

    def keep_rest(self, stderr):
        """What of standard error has been written by now."""
        os.set_blocking(stderr.fileno(), False)
        try:
            while len(self.errors) < ERRORS_KEPT and (data := os.read(stderr.fileno(), PIECE)):
                self.keep(data)
        except BlockingIOError:
            pass
