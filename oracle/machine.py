"""The machine: texts with their revisions, what is pending and handed out, and how many calls were recorded.

Each call gives its answer or raises Refused. Nothing is kept of values: an answer is computed from the texts when it is asked for."""
from typing import NamedTuple, Optional

import networks
import oracle
import plans

KINDS = ["faults", "net", "deploy"]
MOST_CHANGES = 16
LARGEST_NUMBER = 2**64 - 1


class Refused(Exception):
    def __init__(self, name, **more):
        self.reply = {"refused": name, **more}


class Change(NamedTuple):
    """A text of None removes the unit."""
    unit: str
    base: int
    text: Optional[str]


class Job(NamedTuple):
    """A key with the names that its value depends on: the revision and the text of each, None for an absent one."""
    kind: str
    unit: str
    reads: dict


def value(lib, kind, unit):
    """The value of an entry as a reply has it."""
    if kind == "net":
        return networks.shown(lib, unit)
    if kind == "deploy":
        return plans.shown(lib, unit)
    return [[oracle.CODES[code], start, end] for code, start, end in lib.faults(unit)]


class Machine:
    def __init__(self, units=1024, history=100_000):
        self.most, self.history = units, history
        self.put, self.commits, self.pending, self.out = {}, 0, set(), set()
        self.earlier, self.calls = 0, 0
        self.lib = oracle.Library({})

    def record(self):
        """Counts a call; a full history refuses it first of all."""
        if self.calls == self.history:
            raise Refused("HistoryFull")
        self.calls += 1

    # -- commits
    def commit(self, changes):
        self.record()
        if not changes:
            raise Refused("NoChange")
        if len(changes) > MOST_CHANGES:
            raise Refused("TooManyChanges")
        self.no_unit_twice(changes)
        for change in changes:
            self.is_present(change)
        after = self.with_changes(changes)
        if len(after) > self.most:
            raise Refused("TooManyUnits")
        self.commits += 1
        self.move_to(after, {change.unit for change in changes})
        return self.commits

    def no_unit_twice(self, changes):
        units = [change.unit for change in changes]
        for at, unit in enumerate(units):
            if unit in units[:at]:
                raise Refused("SameUnitTwice", unit=unit)

    def is_present(self, change):
        """A change names the present revision of its unit."""
        current = self.put[change.unit][0] if change.unit in self.put else 0
        if change.text is None and current == 0:
            raise Refused("NoSuchUnit", unit=change.unit)
        if change.base != current:
            raise Refused("StaleBase", unit=change.unit, current=current)

    def with_changes(self, changes):
        removed = {change.unit for change in changes if change.text is None}
        new = {change.unit: (self.commits + 1, change.text) for change in changes if change.text is not None}
        return {name: it for name, it in {**self.put, **new}.items() if name not in removed}

    def move_to(self, after, changed):
        """Takes these texts; new keys and those that the change of these names reaches are pending, and not handed out."""
        before, self.put = self.lib, after
        self.lib = oracle.Library({name: text for name, (_, text) in after.items()})
        keys = self.lib.keys()
        waiting = (before.reached_by(changed) | self.lib.reached_by(changed) | (keys - before.keys())) & keys
        self.pending = (self.pending & keys) | waiting
        self.out = (self.out & keys) - waiting

    # -- jobs and results
    def take(self):
        """The least key that is pending and not handed out; None if there is nothing to take."""
        self.record()
        free = sorted(self.pending - self.out, key=lambda key: (KINDS.index(key[0]), key[1]))
        if not free:
            return None
        kind, unit = free[0]
        self.out.add(free[0])
        needed = self.lib.near(unit) if kind == "faults" else self.lib.far(unit)
        return Job(kind, unit, {name: self.put.get(name) for name in needed})

    def deliver(self, job):
        self.record()
        key = (job.kind, job.unit)
        if key not in self.lib.keys():
            raise Refused("NoSuchKey")
        if key not in self.pending:
            raise Refused("NotPending")
        for name in sorted(job.reads):
            if self.put.get(name) != job.reads[name]:
                raise Refused("Stale", unit=name)
        self.pending.discard(key)
        self.out.discard(key)

    def give_back(self, kind, unit):
        """Whether the key was handed out."""
        self.record()
        was_out = (kind, unit) in self.out
        self.out.discard((kind, unit))
        return was_out

    def ask(self, kind, unit):
        """The value of an entry, None if it is pending."""
        self.record()
        if (kind, unit) not in self.lib.keys():
            raise Refused("NoSuchKey")
        return None if (kind, unit) in self.pending else value(self.lib, kind, unit)

    # -- checkpoints
    def checkpoint(self, units, history):
        """The number of all calls so far. It is no recorded call."""
        if len(self.put) > units:
            raise Refused("UnitsOver")
        if self.earlier + self.calls + history > LARGEST_NUMBER:
            raise Refused("NumbersOver")
        self.earlier, self.calls = self.earlier + self.calls, 0
        self.most, self.history = units, history
        return self.earlier
