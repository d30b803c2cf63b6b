"""Why units have no network and systems no plan, each reason with the place where it is mended: a mapping, an instance, a declared name."""
from __future__ import annotations

from collections import deque
from collections.abc import Iterator, Mapping, Sequence
from dataclasses import dataclass
from functools import cache

from bench61499 import UNITS_LIMIT, Blocked, Deploy, Faulty, Flat, Misplaced, Net, Plan, Recursive, Stopped, There, TooLarge
from bench61499.language.as_declared import AsDeclared, declared
from bench61499.language.declarations import INSTANCE, LOCAL, TYPE, Declaration, Key, Unit, type_of_data
from bench61499.language.surroundings import Surroundings
from bench61499.language.texts import Texts
from bench61499.language.wording import listed

CODES = {
    "BLOCKED": "A unit has no network, as units that it rests on are absent or have faults.",
    "RECURSIVE": "A type contains itself, or a unit has no network, as types that it rests on contain themselves.",
    "TOO_LARGE": "A unit has no network, as it would have more than 4,096 instances.",
    "UNMAPPED": "No mapping gives a block of a system a resource.",
    "NO_SUCH_BLOCK": "The path of a mapping is that of no application, block or subapplication instance.",
}
"""The reasons, by their codes."""
_MOST_NAMED = 5
"""Units in the way that are named."""
_MOST_ROUND = 500
"""Units that are looked at for the way by which a type contains itself."""
_MOST_STEPS = 20
"""Steps of such a way that are named."""
Place = tuple[int, int]


@dataclass(frozen=True)
class Reason:
    """What keeps a unit from having a network or a plan, with its place in the text of `unit`, in bytes."""

    unit: str
    code: str
    start: int
    end: int
    explanation: str


class Reasons:
    """Finds the reasons in the texts. That a type contains itself is told once, in its own text."""

    def __init__(self, texts: Texts):
        self._texts = texts
        self._mentioned = cache(lambda unit: mentioned_units(texts.unit(unit)))
        self._goals: tuple[str, ...] = ()
        self._before: set[str] = set()  # The goals, and units that are known to lead to one.
        self._apart: set[str] = set()
        self._told: set[str] = set()

    def of(self, unit: str, text: str, answer: Net | Deploy | There) -> Iterator[Reason]:
        """Why a unit has no network or no plan. Where its own faults are the only reason there is none to tell but these."""
        match answer:
            case Flat() | Plan() | There():
                return
            case Faulty(misplaced):
                places = _mappings(text)
                names = AsDeclared(self._texts, unit)
                yield from (Reason(unit, it.reason, *self._place(unit, it, places), why_misplaced(it, names)) for it in misplaced)
            case Stopped(net):
                yield from self._of_net(unit, "plan", net)
            case net:
                yield from self._of_net(unit, "network", net)

    def _of_net(self, unit: str, what: str, net: Blocked | Recursive | TooLarge) -> Iterator[Reason]:
        without = f"{declared(self._texts, unit)} has no {what}"
        match net:
            case Blocked(units) if units != (unit,):
                absent = [it for it in units if not self._texts.unit(it)]
                why = why_blocked(absent, self._declared([it for it in units if self._texts.unit(it)]))
                yield Reason(unit, "BLOCKED", *self._way(unit, units), f"{without}: {why}")
            case Recursive(units):
                yield from (self._loop(it) for it in units if it not in self._told and self._texts.unit(it))
                self._told.update(units)
                if unit not in units:
                    yield Reason(unit, "RECURSIVE", *self._way(unit, units), f"{without}: {_contain(self._declared(units))}")
            case TooLarge():
                yield Reason(unit, "TOO_LARGE", *self._name(unit), f"{without}: it has more than 4,096 instances")

    def _declared(self, units: Sequence[str]) -> list[str]:
        """Units as they are declared, as far as they are named."""
        return [*(declared(self._texts, it) for it in units[:_MOST_NAMED]), *units[_MOST_NAMED:]]

    def _loop(self, unit: str) -> Reason:
        """A type that contains itself, at the instance that leads back to it."""
        steps = ", ".join(self._steps(unit))
        return Reason(unit, "RECURSIVE", *self._way(unit, (unit,)), f"{declared(self._texts, unit)} contains itself{steps and f': {steps}'}")

    def _steps(self, unit: str) -> list[str]:
        """The instances that lead from a type back to it by the shortest way; none if there is no short one."""
        front: dict[str, tuple[str, Declaration]] = {}
        waiting = deque([unit])
        while waiting and unit not in front and len(front) < _MOST_ROUND:
            at = waiting.popleft()
            for it in self._typed(at):
                of = type_of_data(it.type)
                if of not in front:
                    front[of] = at, it
                    waiting.append(of)
        return self._way_to(unit, front) if unit in front else []

    def _way_to(self, unit: str, front: Mapping[str, tuple[str, Declaration]]) -> list[str]:
        """A way from a type back to it in words; `front` has what each type is found by."""
        steps: list[str] = []
        of = unit
        while not steps or of != unit:
            at, it = front[of]
            steps.append(f"{declared(self._texts, at)}.{it.words} is {declared(self._texts, of)}")
            of = at
        if len(steps) > _MOST_STEPS:
            return []
        return steps[::-1]

    # Places

    def _place(self, unit: str, it: Misplaced, mappings: dict[str, Place]) -> Place:
        """The mapping; or the instance in the system, as deep as its own text goes, that has no mapping."""
        application, *path = it.path.split(".")
        known = self._texts.unit(unit)
        its = known.first.get(Key(unit, INSTANCE, application, path[0])) if known and path else None
        if it.reason == "UNMAPPED" and its:
            return its.start, its.end
        return mappings.get(it.path) or self._name(unit)

    def _name(self, unit: str) -> Place:
        """The declared name of a unit."""
        its = self._texts.unit(unit)
        return (its.declared[0].start, its.declared[0].end) if its and its.declared else (0, 0)

    def _way(self, unit: str, goals: Sequence[str]) -> Place:
        its = self._leading(unit, goals)
        return (its.start, its.end) if its else self._name(unit)

    def _leading(self, unit: str, goals: Sequence[str]) -> Declaration | None:
        """The first instance or variable of a unit whose type is one of the goals; else the first that leads to one."""
        its, ends = self._typed(unit), set(goals)
        most = _MOST_ROUND if ends == {unit} else UNITS_LIMIT
        direct = (it for it in its if type_of_data(it.type) in ends)
        return next(direct, None) or next((it for it in its if self._leads(type_of_data(it.type), tuple(goals), most)), None)

    def _typed(self, unit: str) -> list[Declaration]:
        """The instances and variables of a unit, not those of algorithms that the workbench skips."""
        known = self._texts.unit(unit)
        return [it for it in known.declared[1:] if it.type and it.key.space != LOCAL] if known else []

    def _leads(self, unit: str, goals: tuple[str, ...], most: int) -> bool:
        """Whether a unit is one of the goals, or leads to one through this number of units at most."""
        if goals != self._goals:
            self._goals, self._before, self._apart = goals, set(goals), set()
        found, waiting = {unit}, [unit]
        while waiting and len(found) <= most:
            name = waiting.pop()
            if name in self._before:
                self._before.add(unit)
                return True
            new = self._mentioned(name) - found - self._apart
            found |= new
            waiting += new
        self._apart |= set() if waiting else found
        return False


def why_blocked(absent: Sequence[str], faulty: Sequence[str]) -> str:
    """Which units are in the way of a network."""
    parts = [(absent, "is absent", "are absent"), (faulty, "has faults", "have faults")]
    return ", ".join(f"{_some(its)} {one if len(its) == 1 else many}" for its, one, many in parts if its)


def why_misplaced(it: Misplaced, names: AsDeclared) -> str:
    return f"no mapping gives {names.path(it.path)} a resource" if it.reason == "UNMAPPED" else f"a mapping is of {names.path(it.path)}, which is not there"


def mentioned_units(unit: Unit | None) -> set[str]:
    """The units that a unit mentions."""
    return {use.key.name for use in unit.uses if use.key.space == TYPE and not unit.is_skipped(use.start)} if unit else set()


def _contain(units: Sequence[str]) -> str:
    return f"{_some(units)} contain{'s itself' if len(units) == 1 else ' themselves'}"


def _some(units: Sequence[str]) -> str:
    """Their names; of many the first ones and the number of the others."""
    if len(units) <= _MOST_NAMED:
        return listed(units, "and")
    return listed([*units[: _MOST_NAMED - 1], f"{len(units) - _MOST_NAMED + 1:,} more"], "and")


def resources(text: str) -> dict[str, str]:
    """The resources of a system's mappings as they are spelled, `DEVICE.RESOURCE`, by the paths in upper case."""
    its = Surroundings(text)
    found: dict[str, str] = {}
    for begin, end in _paths(its):
        if its.words(end + 1).upper() == "ON" and its.words(end + 3) == ".":
            found.setdefault(its.spelled(begin, end + 1).upper(), its.spelled(end + 2, end + 5))
    return found


def _mappings(text: str) -> dict[str, Place]:
    """Where the paths of mappings stand, by the paths in upper case."""
    its = Surroundings(text)
    found: dict[str, Place] = {}
    for begin, end in _paths(its):
        found.setdefault(its.spelled(begin, end + 1).upper(), (its.tokens[begin].start, its.tokens[end].end))
    return found


def _paths(its: Surroundings) -> Iterator[tuple[int, int]]:
    """The paths of mappings: the numbers of their first and last tokens."""
    begins = [at for at in range(1, len(its.tokens)) if its.section(at) == "MAPPINGS" and its.before(at) in ("MAPPINGS", ";")]
    for begin in begins:
        end = begin
        while its.words(end + 1) == ".":
            end += 2
        if end < len(its.tokens):
            yield begin, end
