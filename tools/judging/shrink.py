"""A failing script made small: records removed and numbers made simple for as long as it fails in the same way."""
import time

import formats
from judging.scripts import records

TRIES = 3000  # at most, so that a simulator that fails by chance does not keep the search going


class Stopped(Exception):
    """Why no more is tried."""


class Shrinker:
    """`fails` says of a script whether it still fails in the same way."""

    def __init__(self, script, fails, seconds):
        self.header, self.records = script[:formats.HEADER_LENGTH], records(script)
        self.fails, self.seconds = fails, seconds
        self.deadline = time.monotonic() + seconds
        self.tries, self.stopped = 0, None

    @property
    def script(self):
        return self.header + b"".join(self.records)

    def shrink(self, place):
        """Shrinks the script, whose record `place`, counted from 1, is the first that differs, where one does."""
        try:
            if place:
                self.attempt(self.records[:place])
            changed = True
            while changed:
                changed = self.remove()
                changed = self.rename() or changed
                changed = self.simplify() or changed
        except Stopped as reason:
            self.stopped = str(reason)
        return self.script

    def attempt(self, smaller):
        if smaller == self.records:
            return False
        if self.tries == TRIES:
            raise Stopped(f"after {TRIES} runs it was given up")
        if time.monotonic() > self.deadline:
            raise Stopped(f"after {self.seconds:g} s its time was over (--shrink)")
        self.tries += 1
        if not self.fails(self.header + b"".join(smaller)):
            return False
        self.records = smaller
        return True

    def remove(self):
        """Leaves out records, many at once first, from the end on."""
        before = len(self.records)
        size = max(1, before // 2)
        while True:
            at = len(self.records) - size
            while at > -size:
                begin = max(at, 0)
                self.attempt(self.records[:begin] + self.records[begin + size:])
                at -= size
            if size == 1:
                return len(self.records) < before
            size = max(1, size // 2)

    def rename(self):
        """Takes port 0 for another port, and a lower timer for a higher one."""
        changed = False
        for device in used(self.records):
            kind, number = device[:-1], int(device[-1])
            for other in range(0 if kind == "port" else 1, number):
                if self.attempt([renamed(record, device, f"{kind}{other}") for record in self.records]):
                    changed = True
                    break
        return changed

    def simplify(self):
        changed = False
        for place in range(len(self.records)):
            name, _ = formats.decode(self.records[place])
            if name in (formats.MALFORMED, formats.CUT_SHORT):
                changed = self.blank(place) or changed
                continue
            for at, argument in enumerate(formats.RECORDS[name][2]):
                if argument in SIMPLER:
                    for value in SIMPLER[argument](lambda: formats.decode(self.records[place])[1][at]):
                        changed = self.put(place, name, at, value) or changed
        return changed

    def put(self, place, name, at, value):
        values = list(formats.decode(self.records[place])[1])
        values[at] = value
        return self.replace(place, formats.encode(name, values))

    def replace(self, place, record):
        return self.attempt([*self.records[:place], record, *self.records[place + 1:]])

    def blank(self, place):
        """Sets bytes of a malformed record to 0, and takes them from one that is cut short."""
        changed = False
        while len(self.records[place]) < formats.RECORD_LENGTH and len(self.records[place]) > 1:
            if not self.replace(place, self.records[place][:-1]):
                break
            changed = True
        for at, byte in enumerate(self.records[place]):
            if byte:
                record = self.records[place]
                changed = self.replace(place, record[:at] + b"\0" + record[at + 1:]) or changed
        return changed


def lower(value):
    """Smaller numbers in place of a value, which is asked anew since each that is accepted takes its place."""
    yield from (small for small in (0, 1, 2) if small < value())
    step = value() // 2
    while step:
        if step < value():
            yield value() - step
        step //= 2


def fewer_bits(value):
    yield from (small for small in (0, 1) if small < value())
    for bit in reversed(range(32)):
        if value() >> bit & 1:
            yield value() & ~(1 << bit)


SIMPLER = {
    "size": lambda value: [4] if value() != 4 else [],
    "value": fewer_bits,
    "byte": fewer_bits,
    "cycles": lower,
    "limit": lower,
}


def device_of(record):
    """The port or timer that a record goes to, or None."""
    name, values = formats.decode(record)
    if name == "offer":
        return f"port{values[0]}" if values[0] < formats.PORTS else None
    return formats.device_of(values[1]) if name in ("read", "write") else None


def used(parts):
    """The ports and timers that records go to, from the highest number down."""
    found = {device for device in map(device_of, parts) if device and device[-1].isdigit()}
    return sorted(found, key=lambda device: (device[:-1], -int(device[-1])))


def renamed(record, device, other):
    """A record that goes to another device in the place of this one."""
    if device_of(record) != device:
        return record
    name, values = formats.decode(record)
    if name == "offer":
        return formats.encode(name, [int(other[-1]), values[1]])
    address = values[1] - formats.DEVICES[device][0] + formats.DEVICES[other][0]
    return formats.encode(name, [values[0], address, *values[2:]])
