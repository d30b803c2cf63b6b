"""Sessions of a workbench over TCP or over a child process, what is sent and answered, and what can go wrong."""
from __future__ import annotations

import json
import os
import re
import socket
import subprocess
import threading
import time
from collections.abc import Callable, Container, Iterable, Iterator, Mapping
from contextlib import suppress
from dataclasses import dataclass
from os import PathLike, fspath
from random import uniform
from shlex import quote
from typing import Any, BinaryIO, Literal, NamedTuple, Self, TypeVar, cast

from bench61499.memory import MEMORY_LIMIT, amount, limit_data
from bench61499.secret import UnfitSecret, exchange_for, secret_at, secret_file

CHANGES_LIMIT = 16
"""Changes in one commit."""
LINE_LIMIT = 1_048_576
"""Bytes of one request line, without its line feed."""
NAME_LIMIT = 64
"""Bytes of a name."""
TEXT_LIMIT = 65_536
"""Bytes of the text of a unit."""
UNITS_LIMIT = 16_384
"""Units that a workbench can be started for."""
HISTORY_LIMIT = 10_000_000
"""Recorded calls that a workbench can be started for, or that a checkpoint makes room for."""

REPLY_LIMIT = 268_435_456
"""Bytes of one reply line: more than any plant of sense has, and the most that a false server can have a client keep."""
PARTS_LIMIT = 200_000
"""Blocks and links of a network, or commands of a plan, that a client reads: a million would take 1 GB."""

PATIENCE = 90.0
"""Seconds that whoever waits for values waits without a further one, by default: longer than a session can keep a key of a host, which gives it back after 60."""
LONGEST_WATCH = 30.0
"""Seconds that a watch waits, at most."""

Kind = Literal["faults", "net", "deploy"]
Key = tuple[Kind, str]
"""What a value is of: its kind and the name of the unit, in upper case."""
Sort = Literal["event", "data", "adapter"]
Value = TypeVar("Value")

_PATH = re.compile(r"\w+(\.\w+)*", re.ASCII)
# No revision is as high: a change written against it is always refused.
_NO_REVISION = 2**64 - 1
_HIGHEST = 2**63 - 1
_TURNS = 100
_THERE: dict[str, Any] = {}
_NET, _PLAN = b'{"net":{"blocks":', b'{"deploy":{"cuts":'
_MOST_REFUSALS = 1_000
_GREETING_REQUEST = {"op": "deliver", "job": 1}
_FIRST_PAUSE, _LONGEST_PAUSE = 0.01, 0.25
_GREETING = 5.0
# A host sends the second of two short replies only once the first is acknowledged, which a system delays by 40 ms unless it is told not to.
_ACKNOWLEDGE: int = getattr(socket, "TCP_QUICKACK", 0)
# Reads that are sent before the first of them is answered: far fewer bytes than a connection takes up.
_AT_ONCE = 128 if _ACKNOWLEDGE else 1
_FIRST_TRY, _LAST_TRY = 1.0, 15.0
_PIECE = 65_536
# Bytes a second at which a reply may come at least, behind those of the time in which the first of them is waited for.
_SLOWEST = 65_536
# What a workbench prints when it ends for lack of memory.
_NO_MEMORY = b"bench61499: out of memory\n"
_USED_UP = "a `serve` ends once its sessions are used up"


# What can go wrong


class WorkbenchError(Exception):
    """Anything that goes wrong between a client and a workbench. Its text can be shown to a user as it is."""


class NoWorkbench(WorkbenchError):
    """The program can't be started, or nobody listens at the address."""


class ConnectionEnded(WorkbenchError):
    """The workbench ended, or hung up, before its reply was there. The session can't be used any more."""


class OutOfMemory(ConnectionEnded):
    """A workbench that was started has ended, as it had no memory left. `limit` is what it was allowed in bytes, None for no limit."""

    def __init__(self, limit: int | None):
        within = f" within its limit of {amount(limit)}, and has ended; --memory-limit raises it" if limit else ", and has ended"
        super().__init__(f"the workbench has no memory left{within}")
        self.limit = limit


def why_ended(status: int, limit: int | None) -> str:
    """The message for a workbench that was started and has ended with this status: it prints none itself if its limit of memory is too low for that."""
    needs = f"; perhaps it needs more memory than its limit of {amount(limit)}: --memory-limit raises it" if limit and status else ""
    return f"the workbench ended before it answered (status {status}){needs}"


class NoSecret(NoWorkbench):
    """A `host` has a secret, and the client has none, or none that may be used."""


class NotYourHost(NoWorkbench):
    """Who listens at the address has not proved that it has the secret. No request was sent to it."""


class NotLetIn(ConnectionEnded):
    """The connection was closed before the first reply. A `host` does that if the secret is wrong, or if too many others are connecting."""


class NoAnswer(WorkbenchError):
    """No reply came in time. The session can't be used any more."""


class NoResult(WorkbenchError):
    """A value that is being computed did not come, or others changed the workbench again and again."""


class BadReply(WorkbenchError):
    """A reply that is no JSON object, or not of the form that the request asks for. `line` is the reply."""

    def __init__(self, line: bytes):
        super().__init__(f"the workbench sent a reply that makes no sense: {_shortened(line)}")
        self.line = line


class TooManyParts(WorkbenchError):
    """A network or a plan has more than `PARTS_LIMIT` parts, and was not read. The session can be used further."""

    def __init__(self, what: str, parts: str):
        super().__init__(f"the {what} has more than {PARTS_LIMIT:,} {parts}, which clients do not read")


class RequestTooLong(WorkbenchError):
    """A request of more than `LINE_LIMIT` bytes, which was not sent. `size` is in bytes."""

    def __init__(self, size: int):
        super().__init__(f"a request of {size:,} bytes is too long: the workbench takes lines of {LINE_LIMIT:,} bytes")
        self.size = size


class Refused(WorkbenchError):
    """The workbench refused a request, which changed nothing. `refusal` is the refusal's name, `reply` the whole reply."""

    def __init__(self, reply: dict[str, Any], explanation: str = ""):
        self.refusal = str(reply.get("refused"))
        self.reply = reply
        super().__init__(explanation or _REFUSALS.get(self.refusal) or f"the workbench refused the request: {self.refusal}")


class NoSeat(Refused):
    """All sessions of a `host` are in use. The session can't be used; one that is opened later may find a place."""


class HistoryFull(Refused):
    """The history of a `serve` or of a script is full, so each further recorded call is refused too. That of a `host` is never full."""


class StaleBase(Refused):
    """A change was written against another revision than the present one.

    `unit` is the first such unit, `current` its present revision: 0 where there is no such unit.
    """

    def __init__(self, reply: dict[str, Any]):
        self.unit = str(reply["unit"])
        self.current = _number(reply["current"])
        there = f"is at revision {self.current} now" if self.current else "is not there"
        super().__init__(reply, f"{self.unit} {there}: the change was written against another revision")


class NoReads(Refused):
    """The server answers no reads, as a `serve`, a script and an older `host` do: it tells what it has by recorded calls only."""


class NoSuchKey(Refused):
    """There is no such unit, or it has no answers of this kind."""


class NoSuchUnit(Refused):
    """A unit that is not there was to be removed or read. `unit` is its name."""

    def __init__(self, reply: dict[str, Any]):
        self.unit = str(reply["unit"])
        super().__init__(reply, f"there is no unit {self.unit}")


_REFUSALS = {
    "NoChange": "a commit needs at least one change",
    "TooManyChanges": f"a commit takes at most {CHANGES_LIMIT} changes",
    "SameUnitTwice": "a commit can't change one unit twice",
    "TooManyUnits": "the workbench has no room for more units; start it with a higher --units",
    "HistoryFull": "the history of the workbench is full: start it again with a higher --history, or run a host, whose history never fills",
    "NoSeat": "all sessions of the workbench are in use",
    "BadName": f"a name is a letter or _, then letters, digits and _, at most {NAME_LIMIT} of them",
    "TextTooLong": f"the text of a unit has at most {TEXT_LIMIT:,} bytes",
    "NoSuchKey": "there is no such unit, or it has no answers of this kind",
    "Behind": "the workbench is not the one that this session has seen before",
    "NoSuchJob": "no job of that number was taken in this session",
    "TooManyJobs": "this session holds as many jobs as it can",
}
_REFUSAL_TYPES: dict[str, type[Refused]] = {it.__name__: it for it in (StaleBase, NoSuchKey, NoSuchUnit, NoSeat, HistoryFull)}


def _refusal(reply: dict[str, Any], request: dict[str, Any] | None) -> Refused:
    if reply["refused"] == "BadRequest" and request is not None:
        if wrong := _wrong_in(request):
            return Refused(reply, f"the workbench refused the request: {wrong}")
        if request["op"] in _READS:
            return NoReads(reply, "the workbench answers no reads: it is no host, or an older one")
    return _REFUSAL_TYPES.get(str(reply["refused"]), Refused)(reply)


def _shortened(line: bytes) -> str:
    shown = line.decode(errors="replace").strip()
    return shown if len(shown) <= 120 else f"{shown[:120]}…"


# What is sent and answered


@dataclass(frozen=True)
class Put:
    """Gives `unit` a text. `base` is the revision that it was written against, 0 for a new unit."""

    unit: str
    base: int
    text: str

    def request(self) -> dict[str, Any]:
        return {"put": self.unit, "base": self.base, "text": self.text}


@dataclass(frozen=True)
class Remove:
    """Takes `unit` away. `base` is the revision that is to be removed."""

    unit: str
    base: int

    def request(self) -> dict[str, Any]:
        return {"remove": self.unit, "base": self.base}


Change = Put | Remove
SomeChange = TypeVar("SomeChange", bound=Change)


@dataclass(frozen=True)
class Fault:
    """One fault of a unit: its code and its place in the text, in bytes of UTF-8, `end` exclusive."""

    code: str
    start: int
    end: int


@dataclass(frozen=True)
class Block:
    path: str
    type: str


@dataclass(frozen=True)
class Link:
    """From a port of a block to a port of a block, each as the block's path, `.` and the port."""

    sort: Sort
    source: str
    destination: str


@dataclass(frozen=True)
class Border:
    """An own port of a subapplication, and the port of a block inside that it leads to."""

    sort: Sort
    port: str
    place: str


@dataclass(frozen=True)
class Flat:
    """A network in which each subapplication instance is replaced by what it holds."""

    blocks: tuple[Block, ...]
    links: tuple[Link, ...]
    borders: tuple[Border, ...]


@dataclass(frozen=True)
class Blocked:
    """No network: these units, which it rests on, are absent or have faults."""

    units: tuple[str, ...]


@dataclass(frozen=True)
class Recursive:
    """No network: these units hold themselves."""

    units: tuple[str, ...]


@dataclass(frozen=True)
class TooLarge:
    """No network: it would have too many instances."""


Net = Flat | Blocked | Recursive | TooLarge


@dataclass(frozen=True)
class Resource:
    """`DEVICE.RESOURCE` and the commands for it, in order."""

    name: str
    commands: tuple[str, ...]


@dataclass(frozen=True)
class Plan:
    """What each resource of a system is told, and the links that lead from one resource to another."""

    cuts: tuple[Link, ...]
    resources: tuple[Resource, ...]


@dataclass(frozen=True)
class Stopped:
    """No plan, as there is no flat network."""

    net: Blocked | Recursive | TooLarge


@dataclass(frozen=True)
class Misplaced:
    """`UNMAPPED`: the block at `path` has no resource; `NO_SUCH_BLOCK`: a mapping names a `path` that is not there."""

    reason: Literal["UNMAPPED", "NO_SUCH_BLOCK"]
    path: str


@dataclass(frozen=True)
class Faulty:
    """No plan, as mappings are missing or wrong."""

    misplaced: tuple[Misplaced, ...]


Deploy = Plan | Stopped | Faulty


@dataclass(frozen=True)
class There:
    """A network or a plan that is there, of which nothing else was read."""


@dataclass(frozen=True)
class Job:
    """A job that was taken: its number in this session, and the key that it is for."""

    number: int
    kind: Kind
    unit: str


@dataclass(frozen=True)
class Status:
    """A host at one moment.

    `workbench` is its identity, made at its start: revisions and numbers begin again with each. `session` is the caller of this session; `calls` the number of the last
    recorded call, `commits` that of the last commit; `units`, `keys` and `pending` are how many units, keys and pending keys there are.
    """

    workbench: str
    session: int
    calls: int
    commits: int
    units: int
    keys: int
    pending: int


class Revision(NamedTuple):
    """A unit that is there, by its name in upper case, and the number of the commit that last put it."""

    unit: str
    number: int


@dataclass(frozen=True)
class Revisions:
    """Units in the byte order of their names, as they were after `at` recorded calls or later: whoever watches from `at` misses no change of them."""

    at: int
    units: tuple[Revision, ...]


@dataclass(frozen=True)
class Text:
    """The text of a unit as it was after `at` recorded calls, and its revision then."""

    unit: str
    revision: int
    text: str
    at: int


@dataclass(frozen=True)
class Commit:
    """A commit that was made: its number, the caller who made it, and the units that it put and removed."""

    number: int
    caller: int
    put: tuple[str, ...]
    removed: tuple[str, ...]


@dataclass(frozen=True)
class Result:
    """A new value of a key has come."""

    kind: Kind
    unit: str


Event = Commit | Result


@dataclass(frozen=True)
class Watched:
    """What has happened up to the recorded call `at`, in order; a watch continues from there.

    If it is `missed`, the host no longer has all that was asked for, or never had as many calls: what is there has to be listed again.
    """

    at: int
    events: tuple[Event, ...] = ()
    missed: bool = False


def _read_status(reply: dict[str, Any]) -> Status:
    its = reply["status"]
    return Status(_words(its["workbench"]), **{it: _number(its[it]) for it in ("session", "calls", "commits", "units", "keys", "pending")})


def _read_revisions(reply: dict[str, Any]) -> Revisions:
    return Revisions(_number(reply["at"]), tuple(Revision(_named(unit), _number(number)) for unit, number in _list(reply["units"])))


def _watch_reader(after: int) -> Callable[[dict[str, Any]], Watched]:
    return lambda reply: _read_watched(reply, after)


def _read_watched(reply: dict[str, Any], after: int) -> Watched:
    missed = bool(reply.get("missed"))
    watched = Watched(_number(reply["at"]), () if missed else tuple(map(_read_event, _list(reply["events"]))), missed)
    if not missed and watched.at < after:  # A watch from there would never end.
        raise ValueError(watched.at)
    return watched


def _read_event(event: list[Any]) -> Event:
    match event:
        case ["commit", number, caller, put, removed]:
            return Commit(_number(number), _number(caller), _names(put), _names(removed))
        case ["value", kind, unit] if kind in _READERS:
            return Result(kind, _named(unit))
    raise ValueError(event)


def _named(words: str) -> Any:
    """A name, or a path of names. Raises `ValueError` for other words: what draws or writes by names need not expect them from a server that is none."""
    if not _PATH.fullmatch(words):
        raise ValueError(words)
    return words


def _names(value: Any) -> tuple[Any, ...]:
    return tuple(map(_named, _list(value)))


def _list(value: Any) -> list[Any]:
    """A list. Raises `ValueError` for what else could be gone through: an empty object would pass for no faults."""
    if not isinstance(value, list):
        raise ValueError(value)
    return value


def _words(value: Any, most: int = REPLY_LIMIT) -> str:
    """Words of up to `most` bytes. Raises `ValueError` for another value, and for halves of characters, which are no UTF-8."""
    if not isinstance(value, str) or len(value.encode()) > most:
        raise ValueError(value)
    return value


def _number(value: Any) -> int:
    """A number of a call, a commit or a byte. Raises `ValueError` for one that no workbench reaches: files of clients have no room for it."""
    if type(value) is not int or not 0 <= value <= _HIGHEST:
        raise ValueError(value)
    return value


def _read_faults(reply: dict[str, Any]) -> tuple[Fault, ...]:
    return tuple(Fault(_named(code), _number(start), _number(end)) for code, start, end in _list(reply["faults"]))


def _read_links(links: list[Any]) -> tuple[Link, ...]:
    return tuple(Link(*_names(it)) for it in _list(links))


def _read_net(reply: dict[str, Any]) -> Net:
    match reply["net"]:
        case "too_large":
            return TooLarge()
        case {"blocked": units}:
            return Blocked(_names(units))
        case {"recursive": units}:
            return Recursive(_names(units))
        case {"blocks": blocks, "links": links, "borders": borders}:
            return Flat(tuple(Block(*_names(it)) for it in _list(blocks)), _read_links(links), tuple(Border(*_names(it)) for it in _list(borders)))
    raise ValueError(reply)


def _read_deploy(reply: dict[str, Any]) -> Deploy:
    match reply["deploy"]:
        case {"stopped": stopped} if not isinstance(net := _read_net({"net": stopped}), Flat):
            return Stopped(net)
        case {"faulty": misplaced}:
            return Faulty(tuple(Misplaced(*_names(it)) for it in _list(misplaced)))
        case {"cuts": cuts, "resources": resources}:
            return Plan(_read_links(cuts), tuple(Resource(_named(name), tuple(map(_words, _list(commands)))) for name, commands in _list(resources)))
    raise ValueError(reply)


def _read_job(reply: dict[str, Any]) -> Job | None:
    return Job(reply["job"], reply["kind"], reply["unit"]) if reply["job"] else None


_READERS: dict[str, Callable[[dict[str, Any]], Any]] = {"faults": _read_faults, "net": _read_net, "deploy": _read_deploy}


def _value_reader(kind: Kind) -> Callable[[dict[str, Any]], Any]:
    """How to read a value, None if it is pending."""
    read = _READERS[kind]
    return lambda reply: None if reply.get("answer") == "pending" else read(reply)


def _brief_reader(kind: Kind) -> Callable[[dict[str, Any]], Any]:
    read = _value_reader(kind)
    return lambda reply: There() if reply is _THERE else read(reply)


def _decode(answer: bytes) -> Any:
    """A reply. Raises `TooManyParts` for a network or a plan that would take too much memory, before it is read."""
    if answer.startswith(_NET) and answer.count(b"[") > PARTS_LIMIT:
        raise TooManyParts("network", "blocks and links")
    if answer.startswith(_PLAN) and answer.count(b'","') > PARTS_LIMIT:
        raise TooManyParts("plan", "commands")
    return json.loads(answer)


def _decode_briefly(answer: bytes) -> Any:
    """A reply, decoded if it is no network or plan that is there. Replies are compact, and their members are in order."""
    return _THERE if answer.startswith((_NET, _PLAN)) else _decode(answer)


def _present(read: Callable[[dict[str, Any]], Value]) -> Callable[[dict[str, Any]], tuple[Value]]:
    """How to read what may be None where it is there."""
    return lambda reply: (read(reply),)


def _text_reader(unit: str) -> Callable[[dict[str, Any]], Text]:
    return lambda reply: Text(unit.upper(), _number(reply["base"]), _words(reply["text"], TEXT_LIMIT), _number(reply["at"]))


@dataclass(frozen=True)
class _Form:
    """What a member of a request has to be, in words, and whether a value is."""

    words: str
    fits: Callable[[Any], bool]


def _whole(least: int, most: int) -> _Form:
    return _Form(f"a whole number from {least:,} to {most:,}", lambda it: type(it) is int and least <= it <= most)


_TEXT = _Form("a text", lambda it: isinstance(it, str))
_LIST = _Form("a list of objects", lambda it: isinstance(it, list) and all(isinstance(its, dict) for its in it))
_KEY = {"kind": _Form("faults, net or deploy", lambda it: isinstance(it, str) and it in _READERS), "unit": _TEXT}
_BASE = {"base": _whole(0, 2**64 - 1)}
_MEMBERS: dict[str, dict[str, _Form]] = {
    "commit": {"changes": _LIST},
    "ask": _KEY,
    "work": {"turns": _whole(1, 1_000)},
    "take": {},
    "deliver": {"job": _whole(0, 2**64 - 1)},
    "give_back": _KEY,
    "checkpoint": {"units": _whole(1, UNITS_LIMIT), "history": _whole(1, HISTORY_LIMIT)},
}
_READS: dict[str, dict[str, _Form]] = {
    "status": {},
    "units": {},
    "text": {"unit": _TEXT},
    "peek": _KEY,
    "watch": {"after": _whole(0, 2**64 - 1), "wait": _whole(0, round(1_000 * LONGEST_WATCH))},
}
_CHANGES = {"put": {"put": _TEXT, **_BASE, "text": _TEXT}, "remove": {"remove": _TEXT, **_BASE}}


def _wrong_in(request: dict[str, Any]) -> str:
    """What is wrong with a request that is no request of the protocol; empty if nothing is found."""
    forms = (_MEMBERS | _READS).get(request["op"]) if isinstance(request.get("op"), str) else None
    if forms is None:
        return f"`op` has to be one of {', '.join(_MEMBERS)}"
    if wrong := _wrong_member(request, forms):
        return wrong
    for number, change in enumerate(request["changes"] if "changes" in forms else (), 1):
        sorts = [it for it in _CHANGES if it in change]
        wrong = _wrong_member(change, _CHANGES[sorts[0]]) if len(sorts) == 1 else "it needs one of `put` and `remove`"
        if wrong:
            return f"change {number}: {wrong}"
    return ""


def _wrong_member(sent: dict[str, Any], forms: dict[str, _Form]) -> str:
    """The first member that is missing or has another form."""
    return next((f"`{name}` has to be {form.words}" for name, form in forms.items() if name not in sent or not form.fits(sent[name])), "")


def batches(changes: Iterable[SomeChange]) -> Iterator[list[SomeChange]]:
    """Splits changes, in their order, into lists that each fit one commit: its number of changes and its line.

    Raises `RequestTooLong` where one change alone is too long; with texts of at most `TEXT_LIMIT` bytes none is.
    """
    around = len(_line({"op": "commit", "changes": []}))
    batch: list[SomeChange] = []
    size = around
    for change in changes:
        added = len(_line(change.request())) + 1
        if around + added > LINE_LIMIT:
            raise RequestTooLong(around + added)
        if batch and (len(batch) == CHANGES_LIMIT or size + added > LINE_LIMIT):
            yield batch
            batch, size = [], around
        batch.append(change)
        size += added
    if batch:
        yield batch


def pauses() -> Iterator[float]:
    """Seconds before each further try to connect: one at first, and then twice as long each time, up to 15, or by chance down to half of that.

    So many clients that have lost one server do not all come back at once.
    """
    pause = _FIRST_TRY
    while True:
        yield pause * uniform(0.5, 1)
        pause = min(2 * pause, _LAST_TRY)


def _of_this_machine(host: str) -> str:
    """The host; 127.0.0.1 for none and for `localhost`, which leads to ::1 first on many machines, where any of their users may listen beside a workbench."""
    return "127.0.0.1" if host.rstrip(".").lower() in ("", "localhost") else host


_ENCODER = json.JSONEncoder(ensure_ascii=False, separators=(",", ":"))


def _line(request: dict[str, Any]) -> bytes:
    return _ENCODER.encode(request).encode()


def _found_secret(port: int) -> str | None:
    try:
        return secret_at(port)
    except UnfitSecret as error:
        raise NoSecret(str(error)) from error


# Sessions


class _Said:
    """What a child process prints on standard error: it is shown as it comes, but for the line that memory is lacking, which an exception has in other words."""

    def __init__(self) -> None:
        self._from, self.to = os.pipe()
        self.lacks_memory = False
        self._thread = threading.Thread(target=self._pass_on, daemon=True)

    def start(self) -> None:
        """Shows what comes from now on. The child process has its end."""
        os.close(self.to)
        self._thread.start()

    def drop(self) -> None:
        """There is no child process."""
        os.close(self.to)
        os.close(self._from)

    def _pass_on(self) -> None:
        held = b""
        with open(self._from, "rb", buffering=0) as said:
            while piece := said.read(_PIECE):
                held += piece
                begin = held.rfind(b"\n", 0, -1) + 1
                shown = begin if _NO_MEMORY.startswith(held[begin:]) else len(held)
                _show(held[:shown])
                held = held[shown:]
        self.lacks_memory = held == _NO_MEMORY
        if not self.lacks_memory:
            _show(held)

    def end(self) -> None:
        """The process has ended. Others that it has started may still hold the pipe."""
        self._thread.join(1)


def _show(said: bytes) -> None:
    with suppress(OSError):
        os.write(2, said)


class _Pipes:
    """A child process that reads requests from its standard input, and has a limit of memory if one is given."""

    def __init__(self, words: list[str], limit: int | None = None):
        self._said, self._limit = _Said(), limit
        try:
            self._process = subprocess.Popen(words, stdin=subprocess.PIPE, stdout=subprocess.PIPE, stderr=self._said.to)
        except OSError as error:
            self._said.drop()
            raise NoWorkbench(f"can't start the workbench {words[0]}: {error.strerror}") from error
        self._said.start()
        self._input, self._output = cast(BinaryIO, self._process.stdin), cast(BinaryIO, self._process.stdout)
        try:
            if limit is not None:
                self._limit = limit_data(self._process.pid, limit)
        except OSError as error:
            self.close()
            raise NoWorkbench(f"the memory of the workbench can't be limited: {error.strerror}; --memory-limit none starts it without a limit") from error

    def send(self, line: bytes) -> None:
        try:
            self._input.write(line)
            self._input.flush()
        except (OSError, ValueError) as error:  # A `ValueError` where the session was ended before.
            raise self._ended() from error

    def receive(self, _longer: float = 0) -> bytes:
        line = self._output.readline()
        if not line.endswith(b"\n"):
            raise self._ended()
        return line

    def _ended(self) -> ConnectionEnded:
        self.close()
        if self._said.lacks_memory:
            return OutOfMemory(self._limit)
        return ConnectionEnded(why_ended(self._process.returncode, self._limit))

    def close(self) -> None:
        try:
            self._input.close()
        except OSError:
            pass  # What could not be sent is lost: nobody reads it any more.
        try:
            self._process.wait(timeout=5)
        except subprocess.TimeoutExpired:
            self._process.kill()
            self._process.wait()
        self._output.close()
        self._said.end()


class _Connection:
    """A connection to a server."""

    def __init__(self, host: str, port: int, timeout: float):
        self.address = f"{host}:{port}"
        self._timeout = self._patience = timeout
        try:
            self._socket = socket.create_connection((_of_this_machine(host), port), timeout)
        except ConnectionRefusedError as error:
            raise NoWorkbench(f"no workbench at {self.address}: connection refused, no server runs there ({_USED_UP})") from error
        except OSError as error:
            raise NoWorkbench(f"no workbench at {self.address}: {error.strerror or error}") from error
        except ValueError as error:
            raise NoWorkbench(f"no workbench at {self.address}: there is no such host") from error
        self._socket.setsockopt(socket.IPPROTO_TCP, socket.TCP_NODELAY, 1)
        self._received = bytearray()
        self._using = threading.Lock()

    def wait_at_most(self, timeout: float) -> None:
        self._timeout = timeout

    def send(self, line: bytes) -> None:
        self._patience = self._timeout
        self._try(lambda: self._send_all(line))

    def _send_all(self, line: bytes) -> None:
        with self._using:
            self._socket.settimeout(self._patience)
            self._socket.sendall(line)

    def receive(self, longer: float = 0) -> bytes:
        """The next line, for which it may wait so much longer than for others."""
        self._patience = self._timeout + longer
        return self._try(self._read_line)

    def _read_line(self) -> bytes:
        begin, searched = time.monotonic(), 0
        while (end := self._received.find(b"\n", searched)) < 0:
            searched = len(self._received)
            if searched > REPLY_LIMIT:
                raise ConnectionEnded(f"the workbench at {self.address} sent a reply of more than {REPLY_LIMIT:,} bytes")
            self._receive_some(begin + self._patience + searched / _SLOWEST)
        line = bytes(self._received[: end + 1])
        del self._received[: end + 1]
        return line

    def _receive_some(self, latest: float) -> None:
        left = latest - time.monotonic()
        if left <= 0:
            raise TimeoutError
        with self._using:
            self._socket.settimeout(left)
            if _ACKNOWLEDGE:
                self._socket.setsockopt(socket.IPPROTO_TCP, _ACKNOWLEDGE, 1)
            piece = self._socket.recv(_PIECE)
        if not piece:
            raise ConnectionEnded(f"the workbench at {self.address} closed the connection before it answered")
        self._received += piece

    def _try(self, act: Callable[[], Value]) -> Value:
        try:
            return act()
        except TimeoutError as error:
            raise NoAnswer(f"no answer from {self.address} within {self._patience:g} seconds: it is busy, or all sessions of a `serve` are used up") from error
        except (OSError, ValueError) as error:  # A `ValueError` where another thread has ended the session.
            raise ConnectionEnded(f"the connection to {self.address} ended: {getattr(error, 'strerror', None) or error}") from error

    def close(self) -> None:
        try:
            self._socket.shutdown(socket.SHUT_RDWR)  # It wakes a thread that waits for a reply.
        except OSError:
            pass  # The other side has hung up.
        with self._using:  # Before that its number could be given to another connection, of which the other thread would read.
            self._socket.close()


def _left_secret(port: int) -> str:
    """Advice about a secret that a host has left. Nobody but its user can know whether to trust who listens there now."""
    file = secret_file(port)
    return f"; {file} is from a host that was at this port: if that was killed and the server there now is yours, `rm {quote(str(file))}`"


def _prove(connection: _Connection, secret: str, advice: str) -> None:
    """Proves to a host that the client has the secret, and makes sure that the host has it too. `advice` is for a secret that may be of no use any more."""
    silent, why = f"the program at {connection.address} sends no challenge: ", f"it is not your host, or it was started without a secret{advice}"
    try:
        exchange = exchange_for(secret, connection.receive())
    except NoAnswer as error:
        raise NotYourHost(f"{silent}it is busy, {why}") from error
    except ConnectionEnded as error:
        raise NotYourHost(f"the program at {connection.address} closes the connection without a challenge: it is a tunnel to a host that does not run, {why}") from error
    if not exchange:
        raise NotYourHost(silent + why)
    try:
        connection.send(exchange.answer)
        is_proved = exchange.is_proof(connection.receive())
    except ConnectionEnded as error:
        raise NotLetIn(f"{error}: the secret may be wrong{advice}") from error
    if not is_proved:
        raise NotYourHost(f"the program at {connection.address} does not have the secret: it is not your host{advice}")


class Session:
    """One talk with a workbench, ended by `close` or by the end of its `with` block.

    All calls may raise `ConnectionEnded`, `NoAnswer` and `BadReply`, after which the session is of no more use, and `Refused`, after which
    it goes on; `HistoryFull` is a refusal that each later call meets too.

    `revisions` has the revisions of the units that this session has put, by their names in upper case. Of what others put
    it knows nothing: see `revision`. `patience` is how many seconds whoever waits for values waits without a further one: another session
    may have taken the jobs for them, and keep them.
    """

    def __init__(self, channel: _Pipes | _Connection):
        self._channel = channel
        self.revisions: dict[str, int] = {}
        self.patience = PATIENCE

    @classmethod
    def script(cls, program: str | PathLike[str], units: int = UNITS_LIMIT, history: int = HISTORY_LIMIT, memory: int | None = MEMORY_LIMIT) -> Session:
        """Starts a workbench as a child process, with these limits of units, recorded calls and bytes of memory, None for no limit of memory. It ends with the session.

        Raises `NoWorkbench` where the program can't be started. A call for which its memory does not suffice raises `OutOfMemory`.
        """
        return cls(_Pipes([fspath(program), "script", "--units", str(units), "--history", str(history)], memory))

    @classmethod
    def connect(cls, host: str, port: int, timeout: float = 60, secret: str | None = None) -> Self:
        """Connects to a workbench that serves. No reply may take longer than `timeout` seconds, and one more for each 64 KiB of it.

        `secret` is that of a `host`: None for the one that a host of this user has made for the port, if there is one, and empty for none. `localhost` and an empty `host`
        are 127.0.0.1. Raises `NoWorkbench` if nobody listens, `NoSecret` if the host has a secret and there is none here, `NotYourHost` if who listens does not prove within
        five seconds that it has the secret, `NoAnswer` if nobody answers in that time, `NoSeat` if all sessions are in use, `NotLetIn` if the secret is wrong or the connection
        is closed before the first reply, and `BadReply` if it is no workbench that answers.
        """
        is_here = _of_this_machine(host) == "127.0.0.1"
        found = _found_secret(port) if secret is None and is_here else None
        connection = _Connection(host, port, min(timeout, _GREETING))
        session = cls(connection)
        try:
            if secret or found:
                _prove(connection, secret or found or "", _left_secret(port) if found else "")
            session._greet(f"there is none in {secret_file(port)}" if is_here else "none was named")
        except WorkbenchError:
            session.close()
            raise
        connection.wait_at_most(timeout)
        return session

    def _greet(self, lack: str) -> None:
        """Makes sure that a workbench is there, by the delivery of a job that was not taken: it is refused, and is no recorded call.

        A host with a secret sends a challenge in the place of the reply, if it has not sent it before. `lack` says that the client has no secret.
        """
        try:
            self._channel.send(_line(_GREETING_REQUEST) + b"\n")
        except ConnectionEnded:
            pass  # There may be a reply that says why.
        try:
            reply = self._reply(lambda reply: reply)
        except NoSeat:
            raise
        except Refused:
            return
        except ConnectionEnded as error:
            raise NotLetIn(str(error)) from error
        if "challenge" in reply:
            raise NoSecret(f"the host lets in only who has its secret, and {lack}: name its file with --secret")

    def close(self) -> None:
        """Ends the session; it can be ended again."""
        self._channel.close()

    def __enter__(self) -> Session:
        return self

    def __exit__(self, *_: object) -> None:
        self.close()

    def request(self, request: dict[str, Any]) -> dict[str, Any]:
        """Sends one request as it is, and gives its reply. Raises `Refused`, and `RequestTooLong` before anything is sent."""
        return self._exchange(request, lambda reply: reply)

    def _exchange(self, request: dict[str, Any], read: Callable[[dict[str, Any]], Value]) -> Value:
        self._send(request)
        return self._reply(read, request)

    def _send(self, request: dict[str, Any]) -> None:
        line = _line(request)
        if len(line) > LINE_LIMIT:
            raise RequestTooLong(len(line))
        self._channel.send(line + b"\n")

    def _reply(
        self, read: Callable[[dict[str, Any]], Value], request: dict[str, Any] | None = None, longer: float = 0, decode: Callable[[bytes], Any] = _decode
    ) -> Value:
        answer = self._channel.receive(longer)
        try:
            reply = decode(answer)
            if "refused" not in reply:
                return read(reply)
            refusal = _refusal(reply, request)
        except (ValueError, TypeError, KeyError, AttributeError, OverflowError, RecursionError) as error:
            raise BadReply(answer) from error
        raise refusal

    def commit(self, changes: Iterable[Change]) -> int:
        """Makes all the changes in one commit, or none, and gives the commit's number: the revision of each unit that was put.

        Raises `StaleBase`, `NoSuchUnit` and other refusals, and `RequestTooLong`. See `batches` for longer lists.
        """
        changes = list(changes)
        request = {"op": "commit", "changes": [change.request() for change in changes]}
        number = self._exchange(request, lambda reply: _number(reply["commit"]))
        for change in changes:
            self.revisions.pop(change.unit.upper(), None)
            if isinstance(change, Put):
                self.revisions[change.unit.upper()] = number
        return number

    def revision(self, unit: str) -> int:
        """The present revision of a unit, whoever put it; 0 where there is none.

        The protocol has no such question. This is a removal written against a revision that no unit has, which is always refused and
        whose refusal has the answer. It changes nothing, and it is a recorded call as all are.
        """
        try:
            self.commit([Remove(unit, _NO_REVISION)])
        except StaleBase as refusal:
            return refusal.current
        except NoSuchUnit:
            return 0
        raise AssertionError("a removal of a revision that no unit has was not refused")

    def changed(self, known: Mapping[str, int]) -> dict[str, int]:
        """The present revisions of those of these units that are not as `known` says; 0 is for a unit that is not there.

        As `revision`, for many units at once: one recorded call for each 16 of them, and one more for each that has changed. The names that
        it gives are in upper case.
        """
        asked = {unit.upper(): revision for unit, revision in known.items()}
        found = self._present(asked, ())
        return {unit: revision for unit, revision in found.items() if revision != asked[unit]}

    def present(self, units: Iterable[str]) -> dict[str, int]:
        """The present revisions of units of which nothing is known; 0 is for a unit that is not there. The names that it gives are in upper case.

        One recorded call for each 16 of them, and one more for each that is there with another revision than the one before it: units that came
        by one commit cost one.
        """
        asked = dict.fromkeys((unit.upper() for unit in units), 0)
        return self._present(asked, asked)

    def _present(self, asked: dict[str, int], guessed: Container[str]) -> dict[str, int]:
        """The present revisions. That of a unit that is `guessed` may be the one of the unit before it."""
        units = list(asked.items())
        found: dict[str, int] = {}
        for at in range(0, len(units), CHANGES_LIMIT):
            found |= self._correct(dict(units[at : at + CHANGES_LIMIT]), guessed)
        return found

    def _correct(self, known: dict[str, int], guessed: Container[str]) -> dict[str, int]:
        """Of at most 16 units. The last change of the commit is refused whatever is there, so that none is ever made.

        Each refusal tells of one unit, and of a further one only if others change them meanwhile.
        """
        *front, last = known
        for _ in range(_MOST_REFUSALS):
            changes: list[Change] = [Remove(unit, known[unit]) if known[unit] else Put(unit, 0, "") for unit in front]
            try:
                self.commit([*changes, Remove(last, _NO_REVISION)])
            except (StaleBase, NoSuchUnit) as refusal:
                unit, current = refusal.unit, refusal.current if isinstance(refusal, StaleBase) else 0
                behind = front[front.index(unit) + 1 :] if unit in front else []
                known |= {unit: current, **{it: current for it in behind if it in guessed}}
                if unit == last:
                    return known
        raise NoResult(f"others have changed {', '.join(known)} again and again")

    def ask(self, kind: Kind, unit: str) -> Any:
        """What `faults`, `net` or `deploy` give. Raises `NoSuchKey`."""
        return self._exchange({"op": "ask", "kind": kind, "unit": unit}, _value_reader(kind))

    def ask_all(self, keys: Iterable[Key], is_brief: bool = False) -> dict[Key, Any]:
        """As `peek_all` gives them, by one recorded call for each."""
        return self._all("ask", keys, is_brief)

    def faults(self, unit: str) -> tuple[Fault, ...] | None:
        """The faults of a unit, in the order of their places; None while they are pending. Raises `NoSuchKey`."""
        return self.ask("faults", unit)

    def net(self, unit: str) -> Net | None:
        """The flat network of a subapplication or a system; None while it is pending. Raises `NoSuchKey`."""
        return self.ask("net", unit)

    def deploy(self, unit: str) -> Deploy | None:
        """The commands for the resources of a system; None while they are pending. Raises `NoSuchKey`."""
        return self.ask("deploy", unit)

    # Reads: they are no recorded calls and change nothing. All raise `NoReads` where the server answers none.

    def answers_reads(self) -> bool:
        """Whether the server answers reads. It is no recorded call at any server."""
        try:
            self.status()
        except NoReads:
            return False
        return True

    def status(self) -> Status:
        """What the workbench is, and how much is there."""
        return self._exchange({"op": "status"}, _read_status)

    def units_after(self, unit: str = "") -> Revisions:
        """A page of units that are there: up to 1,000 behind a name, or from the first one."""
        return self._exchange({"op": "units", **({"after": unit} if unit else {})}, _read_revisions)

    def units(self) -> Revisions:
        """All units that are there. Others may commit meanwhile: a watch from its `at` tells what they did."""
        found: list[Revision] = []
        page = first = self.units_after()
        while page.units:
            if len(found) > UNITS_LIMIT or found and page.units[0].unit <= found[-1].unit:
                raise BadReply(f"units after {found[-1].unit}: {page.units[0].unit}".encode())  # Such a list might never end.
            found += page.units
            page = self.units_after(page.units[-1].unit)
        return Revisions(first.at, tuple(found))

    def text(self, unit: str) -> Text:
        """The text of a unit. Raises `NoSuchUnit`."""
        return self._exchange({"op": "text", "unit": unit}, _text_reader(unit))

    def texts(self, units: Iterable[str]) -> dict[str, Text]:
        """The texts of those of these units that are there, by their names in upper case: one after the other, but faster than by `text`."""
        found = self._exchange_all([({"op": "text", "unit": unit}, _text_reader(unit)) for unit in units], NoSuchUnit)
        return {it.unit: it for it in found if it}

    def peek(self, kind: Kind, unit: str) -> Any:
        """What `ask` gives, without a recorded call; None while it is pending. Raises `NoSuchKey`."""
        return self._exchange({"op": "peek", "kind": kind, "unit": unit}, _value_reader(kind))

    def peek_all(self, keys: Iterable[Key], is_brief: bool = False) -> dict[Key, Any]:
        """The values of those of these keys that are there, None for one that is pending: one after the other, but faster than by `peek`.

        If it `is_brief`, a network or a plan that is there is `There`, which takes less time and memory.
        """
        return self._all("peek", keys, is_brief)

    def _all(self, op: str, keys: Iterable[Key], is_brief: bool) -> dict[Key, Any]:
        its, reader = list(dict.fromkeys(keys)), _brief_reader if is_brief else _value_reader
        requests = [({"op": op, "kind": kind, "unit": unit}, _present(reader(kind))) for kind, unit in its]
        found = self._exchange_all(requests, NoSuchKey, _decode_briefly if is_brief else _decode)
        return {key: it[0] for key, it in zip(its, found, strict=True) if it}

    def watch(self, after: int, wait: float = 0) -> Watched:
        """What has happened after the recorded call of this number, some 200 calls at most; without an event it waits for one up to so many seconds, at most `LONGEST_WATCH`."""
        request = {"op": "watch", "after": after, "wait": round(1_000 * wait)}
        self._send(request)
        return self._reply(_watch_reader(after), request, longer=wait)

    def _exchange_all(
        self, requests: list[tuple[dict[str, Any], Callable[[dict[str, Any]], Value]]], absent: type[Refused], decode: Callable[[bytes], Any] = _decode
    ) -> list[Value | None]:
        """Sends short requests, many before the first of them is answered; gives None for those refused as `absent`."""
        found: list[Value | None] = []
        for at in range(0, len(requests), _AT_ONCE):
            some = requests[at : at + _AT_ONCE]
            self._channel.send(b"".join(_line(request) + b"\n" for request, _ in some))
            replies = [self._refused_or(request, read, decode) for request, read in some]  # All are taken before one of them raises.
            for it in replies:
                if isinstance(it, (Refused, TooManyParts)) and not isinstance(it, absent):
                    raise it
                found.append(None if isinstance(it, (Refused, TooManyParts)) else it)
        return found

    def _refused_or(self, request: dict[str, Any], read: Callable[[dict[str, Any]], Value], decode: Callable[[bytes], Any]) -> Value | Refused | TooManyParts:
        try:
            return self._reply(read, request, decode=decode)
        except (Refused, TooManyParts) as refusal:
            return refusal

    def work(self, turns: int) -> int:
        """Does up to `turns` jobs, 1 to 1,000, and gives how many results were accepted: fewer where there are no more to take."""
        return self._exchange({"op": "work", "turns": turns}, lambda reply: int(reply["accepted"]))

    def take(self) -> Job | None:
        """Takes a job, to be delivered later; None where there is none to take."""
        return self._exchange({"op": "take"}, _read_job)

    def deliver(self, job: Job) -> None:
        """Has a job run on the texts that were there when it was taken, and delivers its result.

        Raises `Refused` where the result is not wanted any more: `Stale`, `NotPending` or `NoSuchKey`.
        """
        self.request({"op": "deliver", "job": job.number})

    def give_back(self, kind: Kind, unit: str) -> bool:
        """Makes a job that was taken one to take again; False where nobody had taken it."""
        return self._exchange({"op": "give_back", "kind": kind, "unit": unit}, lambda reply: bool(reply["returned"]))

    def checkpoint(self, units: int, history: int) -> int:
        """Makes the present state what the history begins from, with room for so many units and recorded calls, and gives the number of all calls so far.

        Nothing else changes. Raises `Refused`: `UnitsOver` where more units are there, `NotAlone` for a session of a workbench that serves.
        """
        return self._exchange({"op": "checkpoint", "units": units, "history": history}, lambda reply: int(reply["checkpoint"]))

    def wait(self, kind: Kind, unit: str, progress: Callable[[int], object] | None = None) -> Any:
        """Works until one answer is there, and gives it. Raises `NoSuchKey`, and `NoResult` if it waits in vain. `progress` as in `settle`."""
        return self._work_until(lambda: self.ask(kind, unit), progress, lambda: [(kind, unit)])

    def settle(self, progress: Callable[[int], object] | None = None) -> dict[str, tuple[Fault, ...]]:
        """Works until nothing is pending, and gives the faults of each unit that this session has put, by its name in upper case.

        Calls `progress` now and then with the number of results so far. Units that others have removed since are left out. Where others
        work too, it waits for the results that are in their hands, and raises `NoResult` if it waits in vain.
        """
        return self._settle(progress, is_all=True)

    def find_faults(self, progress: Callable[[int], object] | None = None) -> dict[str, tuple[Fault, ...]]:
        """As `settle`, but it works only until these faults are known. They come before networks and plans, which can be large, so a workbench of its own computes none of those."""
        return self._settle(progress, is_all=False)

    def _settle(self, progress: Callable[[int], object] | None, is_all: bool) -> dict[str, tuple[Fault, ...]]:
        settled: dict[str, tuple[Fault, ...]] = {}
        waiting = set(self.revisions)

        def ask_all() -> bool | None:
            found = self.ask_all(("faults", unit) for unit in sorted(waiting))
            settled.update((unit, faults) for (_, unit), faults in found.items() if faults is not None)
            waiting.intersection_update(unit for (_, unit), faults in found.items() if faults is None)
            return None if waiting else True

        self._work_until(ask_all, progress, lambda: [("faults", unit) for unit in sorted(waiting)], is_all)
        return settled

    def _work_until(
        self, answer: Callable[[], Value | None], progress: Callable[[int], object] | None, waiting: Callable[[], list[Key]], is_all: bool = True
    ) -> Value:
        accepted, pause = 0, _FIRST_PAUSE
        waits = Waits(self.patience)
        while True:
            accepted += self.work_off(HISTORY_LIMIT if is_all else len(waiting()), progress, accepted)
            value = answer()
            if value is not None:
                return value
            keys = waiting()
            waits.go_on(keys, accepted - len(keys))
            time.sleep(pause)
            pause = min(2 * pause, _LONGEST_PAUSE)

    def work_off(self, most: int = HISTORY_LIMIT, progress: Callable[[int], object] | None = None, before: int = 0) -> int:
        """Does jobs until there is none to take, or `most` were done, and gives how many results were accepted. `progress` as in `settle`, which counts from `before`."""
        accepted = 0
        while accepted < most:
            turns = min(most - accepted, _TURNS)
            done = self.work(turns)
            accepted += done
            if done and progress:
                progress(before + accepted)
            if done < turns:
                break
        return accepted


class Waits:
    """Waits for values as long as further ones come, and then for these seconds."""

    def __init__(self, patience: float):
        self._patience = patience
        self._most: int | None = None
        self._end = 0.0

    def go_on(self, pending: list[Key], known: int) -> None:
        """Takes note of how many values are known. Raises `NoResult` if no further one has come for too long, with the keys that are pending."""
        if self._most is None or known > self._most:
            self._most, self._end = known, time.monotonic() + self._patience
        elif time.monotonic() > self._end:
            raise NoResult(_why_none(pending, self._patience))


def _why_none(pending: list[Key], seconds: float) -> str:
    if not pending:
        return f"others have changed the workbench again and again for {seconds:g} seconds"
    keys = ", ".join(f"{kind} of {unit}" for kind, unit in pending[:5]) + (" and others" if len(pending) > 5 else "")
    return f"no result for {seconds:g} seconds: {keys}; another session may have taken them and not delivered them, or the server has no memory for them"
