"""Keeps the board up to date: with the files of a folder, or with what others commit to a workbench that serves."""
from __future__ import annotations

import time
from collections.abc import Callable, Iterable, Mapping
from dataclasses import replace
from typing import Protocol

from bench61499 import (
    CHANGES_LIMIT, Blocked, Change, Fault, Flat, HistoryFull, NoSuchKey, OutOfMemory, Put, Recursive, Refused, Remove, Session, Stopped, TooManyParts,
    WorkbenchError, batches, pauses,
)
from bench61499.board.state import Board, Key, NoEntry, NotAnswered, Revised, Row, Source, Value
from bench61499.language.folder import Folder
from bench61499.language.mentions import Mentions
from bench61499.language.units import Misuse, Unit

TURNS = 20
"""Jobs between two looks at what browsers ask for."""
LOOK_AT_FILES = 1.0
"""Seconds between two looks at the files, and more where a look takes long."""
CALLS_A_SECOND = 2.0
"""Recorded calls that a board makes in the mean, at most, of a workbench that serves."""
SAVED = 4.0
"""Recorded calls, at most, that come at once since there were fewer before."""
OWED = 30.0
"""Recorded calls, at most, that are made up for by fewer later ones: all units have to be asked about once."""
IDLE_AFTER = 60.0
"""Seconds without a change after which looks are half as frequent."""
ASKED_AT_ONCE = 200
"""Units whose faults are asked for between two looks at what browsers ask for."""
SHORT_PAUSE, LONGEST_PAUSE = 0.05, 1.0
"""Seconds between two questions for what somebody else is computing; each further pause is twice as long."""
HEARTBEAT = 3.0
"""Seconds between two questions whether the workbench is there; they are no recorded calls."""
FULL_PAUSE = 60.0
"""Seconds between two questions whether a history is full yet."""


class Watch(Protocol):
    """One of the two ways to keep a board up to date."""

    def start(self) -> None:
        """What comes before the first step."""

    def step(self) -> float:
        """Does what there is to do, and gives how many seconds there is nothing more."""


def keep(board: Board, watch: Watch) -> None:
    """Keeps the board up to date until the workbench ends, and tells the board why it did."""
    try:
        watch.start()
        while True:
            board.wait_for_wish(watch.step())
    except (Misuse, WorkbenchError) as error:
        board.end(str(error))


def keep_connected(board: Board, watch: SharedWatch, connect: Callable[[], Session], say: Callable[[str], object]) -> None:
    """Keeps the board up to date, and connects again when a connection has ended. Says so once, until the workbench answers again.

    Raises `Misuse` where the files that are named can't be read.
    """
    watch.start()
    waits = pauses()
    while True:
        try:
            pause = watch.step()
            if board.why_ended():
                board.end("")
                say("the workbench answers again")
            waits = pauses()
            board.wait_for_wish(pause)
        except WorkbenchError as error:
            _fail(board, watch, error, say)
            time.sleep(FULL_PAUSE if isinstance(error, HistoryFull) else next(waits))
            _connect(watch, connect)


def _fail(board: Board, watch: SharedWatch, error: WorkbenchError, say: Callable[[str], object]) -> None:
    is_full = isinstance(error, HistoryFull)
    words = f"{error}; {'it is asked again once a minute' if is_full else 'trying again'}"
    if not board.why_ended():
        say(words)
    board.end(words)
    if not is_full:
        watch.lose()


def _connect(watch: SharedWatch, connect: Callable[[], Session]) -> None:
    """Continues with another session if there was none. If that can't be had, the next step fails."""
    if watch.is_lost():
        try:
            watch.resume(connect())
        except WorkbenchError as error:
            watch.fail_with(error)


class Asking:
    """What both ways do: they ask for faults, nets and plans, and count the calls."""

    def __init__(self, board: Board, session: Session):
        self.board, self.session = board, session
        self.mentions = Mentions()
        self._plans: set[str] = set()

    def is_there(self) -> None:
        """Makes sure that the workbench is there. Raises `WorkbenchError` where it is not."""
        try:
            self.session.request({})
        except Refused:
            return

    def ask_wishes(self) -> bool:
        """Asks for the nets and plans that browsers look at, where they are not known, and tells whether all are there."""
        values = [self._ask_wish(key) if self._may_ask() else None for key in self.board.open_wishes()]
        return None not in values

    def _ask_wish(self, key: Key) -> Value | None:
        value = self._value(key)
        self._answered(key, value)
        return value

    def _may_ask(self) -> bool:
        """Whether a net or a plan may be asked for now."""
        return True

    def reach_plans(self, changed: Iterable[str], rows: Mapping[str, Row]) -> None:
        """Has the plans asked for that a change can have changed."""
        above = self.mentions.above(changed, texts_of(rows))
        reached = {unit for unit in above if (row := rows.get(unit)) and row.is_system and row.revision}
        self.board.planned(dict.fromkeys(reached))
        self._plans |= reached

    def ask_plans(self) -> bool:
        """Asks for the plans of systems, up to one that is pending, and tells whether all are there."""
        for unit in sorted(self._plans):
            value = self._value(("deploy", unit))
            if value is None:
                return False
            self._plans.discard(unit)
            self.board.planned({unit: value})
        return True

    def _answered(self, key: Key, value: Value | None) -> None:
        self.board.answered(key, value)

    def _value(self, key: Key) -> Value | None:
        self._count(1)
        try:
            return self.session.ask(*key)
        except NoSuchKey:
            return NoEntry()
        except HistoryFull:
            raise
        except (Refused, TooManyParts) as error:
            return NotAnswered(str(error))

    def _count(self, calls: int) -> None:
        self.board.count_calls(calls)


class FolderWatch(Asking):
    """A workbench of the board's own. It holds the units of a folder, and changes as the files do.

    Networks and plans are computed only if somebody looks at one, or at the page, whose list has the plans of systems. If the memory of the workbench does not suffice for
    them, another one that `open_again` starts has the faults alone, until a file changes; `say` tells the user.
    """

    def __init__(self, board: Board, session: Session, folder: Folder, open_again: Callable[[], Session], say: Callable[[str], object]):
        super().__init__(board, session)
        self._folder, self._open_again, self._say = folder, open_again, say
        self._held: dict[str, Unit] = {}
        self._waiting: list[str] = []
        self._next_look = self._next_beat = 0.0
        self._jobs_left = False
        self._lack = ""

    def start(self) -> None:
        self._folder.look()
        self._bring(told=False)
        self._next_look = time.monotonic() + LOOK_AT_FILES

    def step(self) -> float:
        try:
            return self._step()
        except OutOfMemory as error:
            if self._lack:
                raise  # It does not suffice for the faults either.
            self._begin_again(error)
            return 0

    def _step(self) -> float:
        now = time.monotonic()
        if now >= self._next_look:
            if self._folder.look():
                self._bring(told=True)
            self._next_look = time.monotonic() + max(LOOK_AT_FILES, 10 * (time.monotonic() - now))
        if self._waiting:
            self._find_faults()
        elif self._has_work():
            done = self.session.work(TURNS)
            self._count(2 * done + 1)
            self._jobs_left = done == TURNS
        elif now >= self._next_beat:
            self._next_beat = now + HEARTBEAT
            self.is_there()
        all_there = self.ask_wishes()
        if self._waiting or self._has_work():
            return 0
        if self.board.has_viewers():
            all_there = self.ask_plans() and all_there
        return max(0, self._next_look - time.monotonic()) if all_there else SHORT_PAUSE

    def _has_work(self) -> bool:
        """Whether there are networks and plans to compute at which somebody looks."""
        return self._jobs_left and bool(self.board.open_wishes() or self._plans and self.board.has_viewers())

    def _begin_again(self, error: OutOfMemory) -> None:
        """Continues with the faults alone, of another workbench."""
        self.session = self._open_again()
        self._held = {}
        self._bring(told=False)
        self._jobs_left, self._lack = False, f"networks and plans are not known until a file changes: {error}"
        self.board.tell_problems((*self._folder.problems, self._lack))
        self._say(self._lack)

    def _value(self, key: Key) -> Value | None:
        value = super()._value(key)
        return NotAnswered(self._lack) if value is None and self._lack else value

    def _bring(self, told: bool) -> None:
        """Commits what has changed of the files."""
        self._lack = ""
        self.board.tell_problems(self._folder.problems)
        units = self._folder.units
        changed = {name: unit for name, unit in units.items() if self._held.get(name) != unit}
        gone = [name for name in self._held if name not in units]
        bases = self.session.revisions
        changes: list[Change] = [Remove(name, bases[name]) for name in gone]
        changes += [Put(name, bases.get(name, 0), unit.text) for name, unit in changed.items()]
        for batch in batches(changes):
            number = self.session.commit(batch)
            self._count(1)
            self.board.changed({it.unit: self._revised(it, number) for it in batch}, self._author(batch), number, told)
        self.board.forget_answers()
        self._held = dict(units)
        rows = self.board.rows()
        reached = self.mentions.reached([*changed, *gone], texts_of(rows)) & rows.keys()
        self.board.found(dict.fromkeys(reached - set(gone)))
        self.reach_plans([*changed, *gone], rows)
        self._waiting = sorted({*self._waiting, *reached} & set(units))
        self._jobs_left = True

    def _revised(self, change: Change, number: int) -> Revised:
        if isinstance(change, Remove):
            return Revised(0)
        return Revised(number, replace(source_of(self._folder.units[change.unit]), revision=number))

    def _author(self, batch: list[Change]) -> str:
        """The files that a commit is of."""
        units = {**self._held, **self._folder.units}
        return str(units[batch[0].unit].file) if len(batch) == 1 else f"{len(batch)} files"

    def _find_faults(self) -> None:
        """Asks for some faults, and has as many jobs done as are pending: the workbench finds faults before it computes networks, and this session alone has it work."""
        asked, rest = self._waiting[: 2 * TURNS], self._waiting[2 * TURNS :]
        found = self.session.ask_all(("faults", unit) for unit in asked)
        pending = [unit for (_, unit), faults in found.items() if faults is None]
        self.board.found({unit: faults for (_, unit), faults in found.items() if faults is not None})
        self._waiting = [*pending, *rest]
        done = self.session.work(min(TURNS, len(pending))) if pending else 0
        self._count(len(asked) + 2 * done + 1)


class Allowance:
    """Recorded calls that may be made now: so many a second in the mean, by a clock in seconds."""

    def __init__(self, rate: float):
        self.rate = rate
        self._left, self._time = SAVED, time.monotonic()

    def is_there(self) -> bool:
        return self.wait() <= 0

    def wait(self) -> float:
        """Seconds until there is one."""
        now = time.monotonic()
        self._left = min(SAVED, self._left + self.rate * (now - self._time))
        self._time = now
        return max(0.0, 1 - self._left) / self.rate

    def spend(self, calls: int) -> None:
        self._left = max(self._left - calls, -OWED)


class SharedWatch(Asking):
    """A workbench that many use. The board only asks, and changes nothing; `folder` has the texts, if any."""

    def __init__(self, board: Board, session: Session, folder: Folder | None, units: list[str], rate: float = CALLS_A_SECOND):
        super().__init__(board, session)
        self._folder, self._units = folder, units
        self._known: dict[str, int] = {}
        self._waiting: set[str] = set()
        self._found: dict[str, tuple[Fault, ...] | None] = {}
        self._ring: list[str] = []
        self._round: list[str] = []
        self._wishes_again: list[Key] = []
        self._pause, self._next_question = SHORT_PAUSE, 0.0
        self._turn = 0
        self._all_there = True
        self._last_change = time.monotonic()
        self._rate, self._allowance, self._wish_allowance = rate, Allowance(rate), Allowance(rate)
        self._error: WorkbenchError | None = None

    def start(self) -> None:
        self.board.add(self._units)
        if self._folder:
            self._folder.look()
            self._take_files(self._folder)

    def step(self) -> float:
        if self._error:
            raise self._error
        if not self.board.has_viewers():
            self.is_there()
            return HEARTBEAT
        if self._folder and self._folder.look():
            self._take_files(self._folder)
        self._look_at_new()
        if time.monotonic() >= self._next_question:
            self._ask_all()
        if self._allowance.is_there():
            self._look_or_ask_again()
        is_idle = time.monotonic() - self._last_change > IDLE_AFTER
        self._allowance.rate = self._rate / 2 if is_idle else self._rate
        waits = [LOOK_AT_FILES, self._allowance.wait()]
        return min(waits if self._all_there else [*waits, max(0.0, self._next_question - time.monotonic())])

    # A connection that ends

    def lose(self) -> None:
        self.session.close()
        self._error = self._error or NoSession("there is no connection")

    def is_lost(self) -> bool:
        return self._error is not None

    def fail_with(self, error: WorkbenchError) -> None:
        self._error = error

    def resume(self, session: Session) -> None:
        """Continues with another session: all is asked for again."""
        self.session, self._error = session, None
        self._next_question, self._pause = 0.0, SHORT_PAUSE
        changed = self.session.changed(self._known)
        self._count(-(-len(self._known) // CHANGES_LIMIT) + len(changed))
        self._see(changed, {unit for unit, revision in (self._known | changed).items() if revision})

    # Looks

    def _count(self, calls: int) -> None:
        super()._count(calls)
        self._allowance.spend(calls)

    def _may_ask(self) -> bool:
        """Nets and plans have an allowance of their own, so that who opens one needs not wait for the looks at all units."""
        is_there = self._wish_allowance.is_there()
        if is_there:
            self._wish_allowance.spend(1)
        return is_there

    def _answered(self, key: Key, value: Value | None) -> None:
        """Takes a net or a plan, and looks at the units that it names from now on."""
        super()._answered(key, value)
        match value.net if isinstance(value, Stopped) else value:
            case Flat(blocks):
                self.board.add({block.type for block in blocks})
            case Blocked(units) | Recursive(units):
                self.board.add(units)

    def _take_files(self, folder: Folder) -> None:
        rows = self.board.rows()
        sources = {name: source_of(unit) for name, unit in folder.units.items()}
        known = {name for name, row in rows.items() if row.source}
        read = {name: it for name, it in sources.items() if name not in rows or not same(rows[name].source, it)}
        self.board.read({**read, **dict.fromkeys(known - sources.keys())})
        self.board.tell_problems(folder.problems)

    def _look_at_new(self) -> None:
        """Finds out which of the units that came to the board the workbench has."""
        new = self.board.rows().keys() - self._known.keys()
        if new:
            found = self.session.present(sorted(new))
            self._count(-(-len(new) // CHANGES_LIMIT) + len(set(found.values()) - {0}))
            self._see(found, new)

    def _look_or_ask_again(self) -> None:
        """One recorded call, and more where it finds a change: looks at units in turn, and asks in between for the faults of one again.

        A change of a unit that the board does not know can have reached any.
        """
        self._turn += 1
        if self._turn % 2 == 0 and self._all_there:
            return self._ask_again()
        self._ring = self._ring or sorted(self._known)
        units, self._ring = self._ring[:CHANGES_LIMIT], self._ring[CHANGES_LIMIT:]
        if units:
            changed = self.session.changed({unit: self._known[unit] for unit in units})
            self._count(1 + len(changed))
            self._see(changed, ())

    def _see(self, changed: Mapping[str, int], roots: Iterable[str]) -> None:
        """Takes revisions, and has asked for what they can have changed."""
        self._known.update(changed)
        roots = {*roots, *changed}
        if not roots:
            return
        self._pause, self._next_question = SHORT_PAUSE, time.monotonic() + (SHORT_PAUSE if changed else 0)
        self._last_change, self._all_there = time.monotonic(), False
        self.board.seen(changed)
        self.board.forget_answers()
        rows = self.board.rows()
        present = {unit for unit, revision in self._known.items() if revision}
        self._waiting = (self._waiting | self.mentions.reached(roots, texts_of(rows))) & present
        self.reach_plans(roots, rows)
        without_text = [unit for unit in sorted(present - self._waiting) if not rows[unit].source]
        self._round = [*without_text, *(unit for unit in self._round if unit not in without_text)]

    # Answers

    def _ask_all(self) -> None:
        """Asks for what can have changed, until something is pending."""
        self._all_there = self._ask_faults() and self.ask_wishes() and self.ask_plans()
        if not self._all_there:
            self._next_question = time.monotonic() + self._pause
            self._pause = min(2 * self._pause, LONGEST_PAUSE)

    def _ask_faults(self) -> bool:
        """Asks for faults up to some that are pending, and tells whether all are there. Workers find those of a name that is less first."""
        for unit in sorted(self._waiting, reverse=True)[:ASKED_AT_ONCE]:
            if not self._ask(unit):
                break
            self._waiting.discard(unit)
        self._tell_found()
        return not self._waiting

    def _ask(self, unit: str) -> bool:
        """Asks for the faults of a unit, and tells whether they are there."""
        self._count(1)
        try:
            self._found[unit] = self.session.faults(unit)
        except NoSuchKey:
            self._see({unit: 0}, ())  # It was removed since the last look.
        return self._found.get(unit, ()) is not None

    def _tell_found(self) -> None:
        found, self._found = self._found, {}
        self.board.found(found)

    def _ask_again(self) -> None:
        """Asks for the faults of a unit in turn, and after all of them for what browsers look at."""
        if not self._round and not self._wishes_again:
            self._round = sorted(unit for unit, revision in self._known.items() if revision)
            self._wishes_again = self.board.wishes()
            self._plans |= {unit for unit, row in self.board.rows().items() if row.is_system and row.revision}
            self._all_there = not self._plans
        if self._wishes_again:
            self._all_there = self._ask_wish(self._wishes_again.pop()) is not None and self._all_there
        elif self._round:
            self._ask(self._round.pop(0))
            self._tell_found()


class NoSession(WorkbenchError):
    """There is no session at present."""


def source_of(unit: Unit) -> Source:
    return Source(unit.file, unit.text)


def texts_of(rows: Mapping[str, Row]) -> dict[str, str]:
    """The texts that are known."""
    return {unit: row.source.text for unit, row in rows.items() if row.source}


def same(one: Source | None, other: Source) -> bool:
    """Whether two sources are one file with one text."""
    return one is not None and (one.file, one.text) == (other.file, other.text)
