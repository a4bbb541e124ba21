"""Where scripts come from: the seeds of the generator, files and folders; and a script with its advances cut."""
import hashlib
import os
import stat
import subprocess
from typing import Callable, NamedTuple

import formats
from judging.runs import NotJudged


LISTED = 10000  # seeds whose families are asked for at once


class Source(NamedTuple):
    """A script that is to be judged: its name, what it is (a family or a form), and how its bytes are had."""

    name: str
    form: str
    load: Callable[[], bytes]


class Generator:
    """The generator of tests/model, which makes the script of a seed."""

    def __init__(self, root, most_cycles=None):
        self.root, self.most_cycles = root, most_cycles
        self.program = os.path.join(root, "target/model/release/generate")

    def build(self):
        command = ["cargo", "build", "--quiet", "--release", "--offline", "--manifest-path", "tests/model/Cargo.toml",
                   "--target-dir", "target/model"]
        try:
            built = subprocess.run(command, cwd=self.root, stdin=subprocess.DEVNULL, capture_output=True)
        except OSError as error:
            raise NotJudged(f"the generator of scripts cannot be built: cargo: {error.strerror}") from None
        if built.returncode:
            raise NotJudged(f"the generator of scripts cannot be built:\n{built.stderr.decode('utf-8', 'replace').strip()}")

    def asked(self, *arguments):
        try:
            made = subprocess.run([self.program, *arguments], stdin=subprocess.DEVNULL, capture_output=True)
        except OSError as error:
            raise NotJudged(f"the generator cannot be run: {error.strerror}") from None
        if made.returncode or made.stderr:
            said = made.stderr.decode("utf-8", "replace").strip()
            raise NotJudged(f"the generator ended with status {made.returncode}: {said or 'no message'}")
        return made.stdout

    def families(self):
        """The families' names, each with its description."""
        return dict(line.split("\t", 1) for line in self.asked("--families").decode().splitlines())

    def sources(self, first, last, families):
        """The scripts of these seeds, of these families only, where some are named."""
        for begin in range(first, last + 1, LISTED):
            for line in self.asked("--list", str(begin), str(min(last, begin + LISTED - 1))).decode().splitlines():
                seed, family = line.split()
                if not families or family in families:
                    yield Source(f"seed {seed}", family, lambda seed=seed: self.script(seed))

    def script(self, seed):
        script = self.asked(seed)
        return script if self.most_cycles is None else shortened(script, self.most_cycles)


def files(paths):
    """The script files of these paths. In a folder, and the folders in it, these are the files *.aps and *.txt."""
    found = []
    for path in paths:
        if os.path.isdir(path):
            here = list(in_folder(path, set()))
            if not here:
                raise NotJudged(f"{path}: a folder with no file *.aps or *.txt")
            found += here
        else:
            found.append(path)
    return [Source(path if path.isprintable() else ascii(path), "a text file" if is_text(path) else "a file",
                   lambda path=path: load(path)) for path in found]


def in_folder(folder, seen):
    seen.add(os.path.realpath(folder))
    try:
        names = sorted(os.listdir(folder))
    except OSError as error:
        raise NotJudged(f"the folder {folder} cannot be read: {error.strerror}") from None
    for path in (os.path.join(folder, name) for name in names):
        if os.path.isdir(path):
            if os.path.realpath(path) not in seen:  # by links a folder may be in itself
                yield from in_folder(path, seen)
        elif path.lower().endswith((".aps", ".txt")):
            yield path


def is_text(path):
    return path.lower().endswith(".txt")


def load(path):
    """The bytes of a script file: of *.txt those of its text, of others as they are if the file says that it is a script."""
    try:
        if not stat.S_ISREG(os.stat(path).st_mode):  # a pipe could be read once only, and keep us waiting
            raise NotJudged(f"{path} is no regular file")
        with open(path, "rb") as file:
            if is_text(path):
                return formats.assemble(file)
            data = file.read()
    except OSError as error:
        raise NotJudged(f"{path} cannot be read: {error.strerror}") from None
    except ValueError as error:
        raise NotJudged(f"{path} is no text of a script: {error}") from None
    if not path.lower().endswith(".aps") and not data.startswith(formats.SCRIPT_HEADER[:3]):
        raise NotJudged(f"{path}: neither named *.aps nor *.txt, nor a file that begins with APS")
    return data


def has_advances(script):
    return formats.script_refusal(script) == 0 and any(name == "advance" for name, _ in map(formats.decode, records(script)))


def records(script):
    """A script's records, the last of them perhaps cut short."""
    length = formats.RECORD_LENGTH
    return [script[at:at + length] for at in range(formats.HEADER_LENGTH, len(script), length)]


def shortened(script, most):
    """The script, with shorter advances and skips if they ask for more cycles in all."""
    if formats.script_refusal(script):
        return script
    parts = records(script)
    waits = {place: formats.decode(record) for place, record in enumerate(parts)}
    waits = {place: (name, *values) for place, (name, values) in waits.items() if name in ("advance", "skip")}
    if sum(span for _, span in waits.values()) > most:
        share = most // len(waits)
        for place, (name, span) in waits.items():
            parts[place] = formats.encode(name, [span % (share + 1)])
    return script[:formats.HEADER_LENGTH] + b"".join(parts)


class Draw:
    """Numbers that look random and are the same for the same bytes, whatever the version of Python."""

    def __init__(self, seed):
        self.seed, self.count = seed, 0

    def below(self, bound):
        self.count += 1
        drawn = hashlib.sha256(self.seed + self.count.to_bytes(8, "big")).digest()
        return int.from_bytes(drawn, "big") % bound

    def place(self, span):
        """Where a span is cut: anywhere, or close to an end, where a slip shows first."""
        near = self.below(4)
        place = [self.below(span + 1), near, span - near, self.below(min(span, 70000) + 1)][self.below(4)]
        return min(max(place, 0), span)


def cut(script):
    """The script with three in four of its advances, and one at least, cut into spans that add up to them."""
    draw = Draw(hashlib.sha256(script).digest())
    parts = records(script)
    advances = [place for place, record in enumerate(parts) if formats.decode(record)[0] == "advance"]
    chosen = {place for place in advances if draw.below(4)} or {advances[draw.below(len(advances))]}
    for place in sorted(chosen):
        (span,) = formats.decode(parts[place])[1]
        places = [draw.place(span) for _ in range(1 + draw.below(3))]
        if span > 1 and not any(0 < each < span for each in places):  # only spans of 0 were cut off
            places.append(1 + draw.below(span - 1))
        cuts = sorted([0, span, *places])
        parts[place] = b"".join(formats.encode("advance", [end - begin]) for begin, end in zip(cuts, cuts[1:]))
    return script[:formats.HEADER_LENGTH] + b"".join(parts)
