"""A copy of a workbench that many use, kept up to date by what its host tells: nothing of it is a recorded call.

    def told(news):
        match news:
            case Connected(is_other=True):      # the first connection, or a host that was started again: nothing known before holds
                print(mirror.workbench, mirror.revisions())
            case Changed(commit, units):        # commit is None if the units had to be listed again
                for it in units:
                    print(commit and commit.caller, it.unit, it.before.revision, it.after.revision, it.after.text)
            case Came("faults", unit, faults):  # None: being computed
                print(unit, faults)
            case Disconnected(error):           # told once; it connects again by itself
                print(error)

    with Mirror(lambda: Session.connect("127.0.0.1", 6149), told) as mirror:
        mirror.revisions()                      # {'A': 3, ..}: all units at once
        mirror.text("A").text                   # read now, and kept up to date from now on; `all_texts=True` has all of them
        mirror.value("faults", "A")             # of all units; of nets and plans those that are wanted
        mirror.want("deploy", "PLANT")
        with mirror.session(mirror.workbench) as session:
            session.commit([Put("A", mirror.version("A").revision, text)])

It takes two sessions of the host: one watches, over the other one it reads what has changed. Its user's commits may go over that one too, so that a client needs no third.

`told` is called on the mirror's own thread, one piece of news after the other; the mirror shows a change from the moment at which it is told, or earlier. All readers may be
called from any thread at any time, also while there is no connection: they show what was known last.

A change is told from what was told last of a unit, so that who follows all changes has what the mirror has. A commit is told with the texts that its units have now: if a later
commit has overtaken it, `after.revision` is that of the later one, which is told too, with the same text before and after. The values of a unit that was put are pending then.
Those that the commit reached elsewhere stay until the new ones are there, as no host tells which they are.
"""
from __future__ import annotations

import threading
import time
from collections.abc import Callable, Iterable, Iterator, Mapping
from contextlib import ExitStack, contextmanager
from dataclasses import dataclass
from itertools import islice
from typing import Any, NamedTuple, Self

from bench61499.session import (
    LONGEST_WATCH, BadReply, Commit, ConnectionEnded, Event, Key, Kind, NoAnswer, NoSuchUnit, Result, Revisions, Session, Status, Text,
    TooManyParts, WorkbenchError, pauses,
)

WATCH = LONGEST_WATCH - 5
"""Seconds that one watch waits for an event."""
AT_ONCE = 128
"""Texts and values that are read between two looks at what has happened."""
END = 5.0
"""Seconds in which the thread ends, at most, if it is connecting."""


class Version(NamedTuple):
    """A unit at one moment: its revision, 0 if it is absent, and its text, None if it is absent or was not read."""

    revision: int
    text: str | None = None


ABSENT = Version(0)


class UnitChange(NamedTuple):
    """A unit before and after a commit."""

    unit: str
    before: Version
    after: Version


@dataclass(frozen=True)
class NoKey:
    """The value of a key that is not there: of a unit that is absent, or is no subapplication or system."""


@dataclass(frozen=True)
class Connected:
    """The host answers, and all units are known with their revisions. If it `is_other`, it is not the one that was known before, of which all is forgotten."""

    status: Status
    is_other: bool


@dataclass(frozen=True)
class Loaded:
    """All texts and values that are to be known were read once since the host became known."""


@dataclass(frozen=True)
class Changed:
    """Units were put or removed: by a commit, or by any since the last news if they had to be listed again; then `commit` is None."""

    commit: Commit | None
    units: tuple[UnitChange, ...]


@dataclass(frozen=True)
class Came:
    """The value of a key is another one: `NoKey` if there is none, None if it is being computed, `TooManyParts` if it is not read. `before` is the one that was known."""

    kind: Kind
    unit: str
    value: Any
    before: Any = None


@dataclass(frozen=True)
class Disconnected:
    """There is no connection; it is tried again. It is told once, and again only if the reason is another one."""

    error: WorkbenchError


News = Connected | Loaded | Changed | Came | Disconnected


class OtherWorkbench(WorkbenchError):
    """The host was started again since: revisions that were known are those of another workbench."""

    def __init__(self) -> None:
        super().__init__("the host was started again: it has another workbench now")


def _ignore(_: News) -> None:
    pass


class Mirror:
    """A copy of a workbench; see the module. `connect` gives a new session and may raise `WorkbenchError`. Of each key of these `kinds` the value is known."""

    def __init__(
        self, connect: Callable[[], Session], told: Callable[[News], object] = _ignore, *, all_texts: bool = False, kinds: Iterable[Kind] = ("faults",)
    ):
        self._connect_session, self._tell = connect, told
        self._all_texts, self._kinds = all_texts, tuple(kinds)
        self._lock = threading.Lock()  # Of all that readers see; never held while something is asked or told.
        self._asking = threading.RLock()  # Of the session for reads and commits, and of what is read over it: what is read later is taken later.
        self._closing = threading.Event()
        self._thread: threading.Thread | None = None
        self._watching: Session | None = None
        self._session: Session | None = None
        self._why: WorkbenchError | None = None
        self._workbench, self._caller, self._at = "", 0, 0
        self._is_loaded = False
        self._next_sign = 0.0  # A host ends a session that is silent for long.
        self._versions: dict[str, Version] = {}
        self._overtaken: dict[str, Version] = {}  # What was told last of units of which something later was read since.
        self._values: dict[Key, Any] = {}
        self._wanted: frozenset[Key] = frozenset()
        self._unread: dict[str, None] = {}
        self._unasked: dict[Key, None] = {}

    # Its life

    def __enter__(self) -> Self:
        self.start()
        return self

    def __exit__(self, *_: object) -> None:
        self.close()

    def start(self) -> None:
        """Begins, on a thread of its own."""
        self._thread = threading.Thread(target=self.run, name="mirror", daemon=True)
        self._thread.start()

    def run(self) -> None:
        """Keeps the copy up to date until `close`, on the present thread."""
        waits = pauses()
        while not self._closing.is_set():
            try:
                self._connect()
                waits = pauses()
                while not self._closing.is_set():
                    self._step()
            except WorkbenchError as error:
                self._drop()
                with self._asking:
                    self._session = None
                if not self._closing.is_set():
                    self._disconnected(error)
                    self._closing.wait(next(waits))
        self._drop()

    def close(self) -> None:
        """Ends it, at once but for a connection that is being made. Its readers go on to show what was known last."""
        self._closing.set()
        self._drop()
        if self._thread and self._thread is not threading.current_thread():
            self._thread.join(END)

    def is_running(self) -> bool:
        """Whether its thread has not ended yet."""
        return bool(self._thread and self._thread.is_alive())

    def _drop(self) -> None:
        for session in (self._watching, self._session):
            if session:
                session.close()

    def _disconnected(self, error: WorkbenchError) -> None:
        is_news = str(error) != str(self._why or "")
        self._why = error
        if is_news:
            self._tell(Disconnected(error))

    # What is known, for any thread

    @property
    def error(self) -> WorkbenchError | None:
        """Why there is no connection; None if there is one, or none was tried yet."""
        return self._why

    @property
    def workbench(self) -> str:
        """The identity of the workbench; empty before the first connection."""
        return self._workbench

    @property
    def caller(self) -> int:
        """The caller as whom the session for reads and commits is known now; another one after each new connection."""
        return self._caller

    @property
    def is_loaded(self) -> bool:
        return self._is_loaded

    def revisions(self) -> dict[str, int]:
        """The revisions of all units that are there."""
        with self._lock:
            return {unit: it.revision for unit, it in self._versions.items()}

    def versions(self) -> dict[str, Version]:
        """All units that are there, with the texts that were read."""
        with self._lock:
            return dict(self._versions)

    def version(self, unit: str) -> Version:
        """A unit, with its text if that was read."""
        with self._lock:
            return self._versions.get(unit.upper(), ABSENT)

    def value(self, kind: Kind, unit: str) -> Any:
        """The value of a key: None if it is being computed or not known yet, `NoKey` if there is none."""
        with self._lock:
            is_absent = self._workbench and unit.upper() not in self._versions
            return self._values.get((kind, unit.upper()), NoKey() if is_absent else None)

    def values(self, kind: Kind) -> dict[str, Any]:
        """The values of this kind that are known, by unit."""
        with self._lock:
            return {unit: value for (its, unit), value in self._values.items() if its == kind}

    # What is asked, from any thread

    @contextmanager
    def session(self, workbench: str = "") -> Iterator[Session]:
        """The session for reads and commits, for the present thread alone as long as the block lasts; so that has to be short.

        Raises `WorkbenchError` if there is no connection, and `OtherWorkbench` if the host has another workbench than this one, or than the one known here.
        """
        with self._asking:
            if workbench not in ("", self._workbench):
                raise OtherWorkbench
            if not self._session:
                self._session, self._caller = self._session_of(self._workbench)
            its = self._session
            try:
                yield its
            except (ConnectionEnded, NoAnswer, BadReply):
                its.close()
                self._session = None
                raise

    def text(self, unit: str) -> Version:
        """A unit with its text, which is asked for if it was not read yet, and kept up to date from then on."""
        version = self.version(unit)
        if not version.revision or version.text is not None:
            return version
        with self.session() as session:
            try:
                text = session.text(unit)
            except NoSuchUnit:
                return ABSENT
            return self._keep(unit.upper(), text)

    def want(self, kind: Kind, unit: str) -> Any:
        """Has the value of a key known from now on, and gives it as far as it is known now. What it gives is not told by `Came`."""
        key = kind, unit.upper()
        with self._lock:
            self._wanted |= {key}
            is_known = key in self._values
        if not is_known:
            self._ask(key)
        return self.value(kind, unit)

    def _ask(self, key: Key) -> None:
        """Asks for a value now, or as soon as that can be done."""
        try:
            with self.session() as session:
                self._take(key, _peeked(session, [key])[key])
        except WorkbenchError:
            with self._lock:
                self._unasked[key] = None

    def unwant(self, kind: Kind, unit: str) -> None:
        """Takes back a `want`."""
        key = kind, unit.upper()
        with self._lock:
            self._wanted -= {key}
            if kind not in self._kinds:
                self._values.pop(key, None)

    # The connection

    def _connect(self) -> None:
        """Opens both sessions."""
        self._watching = self._new_session()
        status = self._watching.status()
        is_other = status.workbench != self._workbench
        with self._asking:
            if self._session:
                self._session.close()
                self._session = None
            self._session, self._caller = self._session_of(status.workbench)
        self._why = None
        self._tell(Connected(status, is_other))

    def _new_session(self) -> Session:
        session = self._connect_session()
        if self._closing.is_set():
            session.close()
        return session

    def _session_of(self, workbench: str) -> tuple[Session, int]:
        """A new session for reads and commits, of this workbench and no other, and its caller. If it is not the one that is known, all begins again with its units."""
        with ExitStack() as opened:
            session = opened.enter_context(self._new_session())
            status = session.status()
            if status.workbench != workbench:
                raise OtherWorkbench
            if workbench != self._workbench:
                self._begin(workbench, session.units())
            opened.pop_all()
        return session, status.session

    def _begin(self, workbench: str, listed: Revisions) -> None:
        """Forgets all that was known, and begins with the units of another workbench."""
        with self._lock:
            self._workbench, self._at, self._is_loaded = workbench, listed.at, False
            self._versions = {it.unit: Version(it.number) for it in listed.units}
            self._overtaken, self._values, self._unread, self._unasked = {}, {}, {}, {}
        self._ask_again(self._versions)

    # What has happened

    def _step(self) -> None:
        """Reads some of what is still to be read, then looks at what has happened; waits for that if all is read."""
        assert self._watching
        if self._unread or self._unasked:
            self._read_some()
        is_all = not self._unread and not self._unasked
        if is_all and not self._is_loaded:
            self._is_loaded = True
            self._tell(Loaded())
        watched = self._watching.watch(self._at, WATCH if is_all else 0)
        if watched.missed:
            self._list_again()
        else:
            self._follow(watched.events)
            self._at = watched.at
        if time.monotonic() >= self._next_sign:
            with self.session() as session:
                session.status()
            self._next_sign = time.monotonic() + WATCH

    def _ask_again(self, units: Iterable[str]) -> None:
        """Has the values of units asked for, those that are wanted, and all texts that were not read."""
        names = list(units)
        with self._lock:
            if self._all_texts:
                self._unread |= {unit: None for unit in names if self._versions.get(unit, ABSENT).text is None}
            self._unasked |= dict.fromkeys([(kind, unit) for kind in self._kinds for unit in names])
            self._unasked |= dict.fromkeys(sorted(self._wanted))

    def _read_some(self) -> None:
        """Reads some texts and values."""
        with self._lock:
            units, keys = list(islice(self._unread, AT_ONCE)), list(islice(self._unasked, AT_ONCE))
        with self.session() as session:
            for unit, text in session.texts(units).items():
                self._keep(unit, text)
            came = [news for key, value in _peeked(session, keys).items() for news in self._take(key, value)]
        with self._lock:
            for unit in units:
                self._unread.pop(unit, None)
            for key in keys:
                self._unasked.pop(key, None)
        self._tell_all(came)

    def _follow(self, events: Iterable[Event]) -> None:
        """Reads what is new, takes all of it, and then tells what has happened, in its order."""
        put = dict.fromkeys(unit for it in events if isinstance(it, Commit) for unit in it.put)
        keys = [(it.kind, it.unit) for it in events if isinstance(it, Result)]
        with self.session() as session:
            held = [unit for unit in put if self._all_texts or self.version(unit).text is not None]
            texts = dict.fromkeys(held) | session.texts(held)
            values = _peeked(session, [*filter(self._is_kept, keys), *self._keys_of(put)])
            news = [it for event in events for it in self._taken(event, texts, values)]
        self._tell_all(news)

    def _list_again(self) -> None:
        """Takes what differs from what was known, after changes of which nothing is known."""
        with self.session() as session:
            listed = session.units()
            now, before = dict(listed.units), self.versions() | self._overtaken
            other = [unit for unit in sorted(now.keys() | before.keys()) if now.get(unit, 0) != before.get(unit, ABSENT).revision]
            held = [unit for unit in other if unit in now and (self._all_texts or before.get(unit, ABSENT).text is not None)]
            texts = dict.fromkeys(held) | session.texts(held)
            changes = tuple(self._put(unit, now[unit], texts) if unit in now else self._remove(unit, listed.at) for unit in other)
        self._ask_again(now)
        self._at = listed.at
        if changes:
            self._tell(Changed(None, changes))

    def _tell_all(self, news: Iterable[News]) -> None:
        for it in news:
            self._tell(it)

    # What was read is taken, as long as nobody else asks

    def _taken(self, event: Event, texts: Mapping[str, Text | None], values: Mapping[Key, Any]) -> list[News]:
        """Takes an event with what was read after it; gives the news."""
        if isinstance(event, Result):
            key = event.kind, event.unit
            return [*self._take(key, values[key])] if key in values else []
        changes = [self._put(unit, event.number, texts) for unit in event.put]
        changes += [self._remove(unit, event.number) for unit in event.removed]
        came = [it for key in self._keys_of(event.put) if key in values for it in self._take(key, values[key])]
        return [Changed(event, tuple(changes)), *came]

    def _put(self, unit: str, number: int, texts: Mapping[str, Text | None]) -> UnitChange:
        """Takes a unit that was put, unless a later state of it is known. The texts are those of units whose texts are to be known, None for one that is gone."""
        with self._lock:
            known = self._versions.get(unit, ABSENT)
            after = known if known.revision >= number else Version(number)
            if unit in texts:
                text = texts[unit]
                after = Version(text.revision, text.text) if text else ABSENT
            return self._set(unit, after)

    def _remove(self, unit: str, number: int) -> UnitChange:
        with self._lock:
            known = self._versions.get(unit, ABSENT)
            return self._set(unit, known if known.revision > number else ABSENT)

    def _set(self, unit: str, after: Version) -> UnitChange:
        """Takes a unit as it is after a change, and gives that as one of what was told last."""
        before = self._overtaken.pop(unit, self._versions.get(unit, ABSENT))
        for key in self._keys_of([unit]):
            self._values.pop(key, None)
        if after.revision:
            self._versions[unit] = after
        else:
            self._versions.pop(unit, None)
        return UnitChange(unit, before, after)

    def _keep(self, unit: str, text: Text) -> Version:
        """Takes a text that was read, unless the unit is gone; gives what is known then."""
        with self._lock:
            if known := self._versions.get(unit):
                if known.revision != text.revision:
                    self._overtaken.setdefault(unit, known)
                self._versions[unit] = Version(text.revision, text.text)
            return Version(text.revision, text.text)

    def _take(self, key: Key, value: Any) -> list[Came]:
        """Takes a value that was read; gives the news, if it is any."""
        with self._lock:
            before = self._values.pop(key, None)
            if not self._is_kept(key) or isinstance(value, NoKey) and key not in self._wanted:
                return []
            if value is not None:
                self._values[key] = value
        return [Came(*key, value, before)] if value != before else []

    def _is_kept(self, key: Key) -> bool:
        return key[0] in self._kinds or key in self._wanted

    def _keys_of(self, units: Iterable[str]) -> list[Key]:
        """The keys of units whose values are to be known."""
        its = set(units)
        return [(kind, unit) for kind in self._kinds for unit in its] + [key for key in self._wanted if key[1] in its]


def _peeked(session: Session, keys: Iterable[Key]) -> dict[Key, Any]:
    """The values of keys, None for one that is pending, and the error for one that has too many parts."""
    its = list(keys)
    try:
        return dict.fromkeys(its, NoKey()) | session.peek_all(its)
    except TooManyParts as error:
        return {its[0]: error} if len(its) == 1 else {key: value for it in its for key, value in _peeked(session, [it]).items()}
