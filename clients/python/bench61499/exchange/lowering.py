"""Parameters of instances of subapplications, which the language does not have: each set of them becomes a type of its own, and back.

Such a type is a copy in which the inputs of blocks that a port leads to have the constant as their parameter. Records behind it say what it was made from.
"""
from __future__ import annotations

from collections.abc import Callable, Iterable, Iterator, Mapping
from dataclasses import replace
from itertools import count

from bench61499.exchange import names
from bench61499.exchange.exchanged import SUBAPPS, Connection, Instance, Network, Parameter, Unit, lines_of, record, record_attributes, recorded, written
from bench61499.exchange.report import LEFT_OUT, NOTE, REPLACED, cut
from bench61499.language.tokens import tokens

MADE_FROM, GIVEN = "MadeFrom", "Given"
_MOST, _MOST_LINES = 4_096, 200_000
"""How many copies there are in a run, and how many lines they have together: instances, connections, ports and so on."""
_LINE = 100
"""How many letters make a further line of a long one."""

Key = tuple[str, tuple[tuple[str, str, str], ...]]
"""A set of parameters: the name of the type in upper case, then the names in upper case, values and comments."""
Tell = Callable[[Unit, int, str, str], object]
"""What gets a unit, a line of its file, the kind of a message, and its words."""


def made_from(unit: Unit) -> str:
    """The name of the type that a unit is a copy of; empty if it is none."""
    return unit.record(MADE_FROM, "type")


def given(unit: Unit) -> list[Parameter]:
    """The parameters that a copy was made for."""
    return [Parameter(it.get("name", ""), it.get("value", ""), it.get("comment", "")) for it in recorded(unit, GIVEN)]


def networks(unit: Unit) -> Iterator[Network]:
    if unit.network:
        yield unit.network
    yield from (it.network for it in unit.applications)


def subapplications(unit: Unit) -> Iterator[tuple[Network, Instance]]:
    return ((network, it) for network in networks(unit) for it in network.instances if it.section == SUBAPPS)


def _key(type_: str, parameters: Iterable[Parameter]) -> Key:
    return type_.upper(), tuple(sorted((it.name.upper(), it.value, it.comment) for it in parameters))


class Owner:
    """A unit with instances that have parameters, and the names of files that it keeps."""

    def __init__(self, unit: Unit):
        self.unit = unit
        self._files: dict[str, str] = {}
        self._records: dict[str, list[tuple[int, str]]] = {}
        for at, words in enumerate(unit.records):
            kind, its = record_attributes(words)
            if kind == "Name":
                self._files[its.get("text", "")] = its.get("file", "")
                self._records.setdefault(its.get("text", ""), []).append((at, words))

    def as_in_files(self, parameters: Iterable[Parameter]) -> list[str]:
        """Parameters with the values that files have."""
        return [f"{it.name} := {self._files.get(it.value, it.value)}" for it in parameters]

    def names_in(self, parameters: Iterable[Parameter]) -> list[str]:
        """The records for names that values have."""
        words = {it.words for each in parameters for it in tokens(each.value)}
        return [it for _, it in sorted(each for word in words for each in self._records.get(word, ()))]


class _Type:
    """What each copy of a type needs to know of it."""

    def __init__(self, unit: Unit):
        self.lines = sum(map(_lines, lines_of(unit)))
        self._led: dict[str, dict[str, None]] = {}
        self._sources: dict[str, set[str]] = {}
        self._ports: dict[str, str] = {}
        for it in unit.network.connections["DATA_CONNECTIONS"] if unit.network else ():
            end, source = it.destination.upper(), it.source.upper()
            self._led.setdefault(source, {})[end] = None
            self._sources.setdefault(end, set()).add(source)
            self._ports.setdefault(end, it.destination.partition(".")[2])

    def led(self, name: str) -> Iterable[str]:
        """The ends that a port leads to, in upper case."""
        return self._led.get(name.upper(), ())

    def has_another_source(self, end: str, name: str) -> bool:
        return self._sources[end] != {name.upper()}

    def port(self, end: str) -> str:
        """The port of an end as the connections spell it."""
        return self._ports[end]

    def lines_with(self, parameters: Iterable[Parameter]) -> int:
        """How many lines a copy has at most. Each parameter is in a comment, in a record and at each end."""
        return self.lines + sum((2 + len(list(self.led(it.name)))) * _lines(f"{it.name}{it.value}{it.comment}") for it in parameters)


def _lines(words: str) -> int:
    """How many lines words count as."""
    return 1 + len(words) // _LINE


class Lowering:
    """Makes units in which no subapplication has parameters. `units` are all by their names in upper case, as files have them; `known` are names of copies
    that are to be used again."""

    def __init__(self, units: Mapping[str, Unit], tell: Tell, known: Mapping[Key, str] | None = None):
        self._units, self._tell = units, tell
        self._names = dict(known or {})
        self._taken = units.keys() | {it.upper() for it in self._names.values()}
        self._numbers: dict[str, Iterator[int]] = {}
        self._types: dict[str, _Type] = {}
        self._inputs: dict[str, frozenset[str]] = {}
        self._lines = 0
        self.made: dict[str, Unit] = {}

    def lowered(self, unit: Unit) -> Unit:
        """A unit in which each subapplication with parameters has a type that was made for them."""
        return self._lowered(_copied(unit)) if any(it.parameters for _, it in subapplications(unit)) else unit

    def _lowered(self, unit: Unit) -> Unit:
        """The unit itself, once it is lowered, and so are all copies that it needs, in the order in which they are named."""
        left = [_with_parameters(unit)]
        while left:
            found = next(left[-1], None)
            if found is None:
                left.pop()
            elif made := self._lower(*found):
                left.append(_with_parameters(made))
        return unit

    def _lower(self, owner: Owner, network: Network, it: Instance) -> Unit | None:
        """Gives an instance another type; the copy, which may need further ones, if it is a new one."""
        own, made = self._units.get(it.type.upper()), None
        why = self._why_not(own, it)
        if own is None or why:
            network.connections["DATA_CONNECTIONS"] += [without_source(it.name, each.name, each.value, each.comment) for each in it.parameters]
            self._tell(owner.unit, it.line, REPLACED, f"the parameters of {it.name} by connections from {names.NO_SOURCE}: {why}")
        else:
            key = _key(own.name, it.parameters)
            if key not in self._names:
                self._names[key] = name = self._free_name(own)
                self.made[name.upper()] = made = self._copy(own, name, it.parameters, owner, it)
            it.type = self._names[key]
            if not made_from(owner.unit):
                self._tell(owner.unit, it.line, NOTE, f"{it.name} has the type {it.type}, which is {own.name} with {cut(', '.join(owner.as_in_files(it.parameters)))}")
        it.parameters = []
        return made

    def _why_not(self, own: Unit | None, it: Instance) -> str:
        """Why there can't be a type for the parameters of an instance; empty if there can."""
        if own is None or own.kind != "SUBAPPLICATION" or len(self.made) >= _MOST and _key(own.name, it.parameters) not in self._names:
            return f"there are more than {_MOST:,} copies of types"
        is_known = _key(own.name, it.parameters) in self._names
        has_room = is_known or self._lines + self._type(own).lines_with(it.parameters) <= _MOST_LINES
        return "" if has_room else f"the copies of types have more than {_MOST_LINES:,} lines"

    def _type(self, own: Unit) -> _Type:
        name = own.name.upper()
        if name not in self._types:
            self._types[name] = _Type(own)
        return self._types[name]

    def _free_name(self, own: Unit) -> str:
        numbers = self._numbers.setdefault(own.name, count(1))
        name = next(it for it in (names.spelled(f"{own.name}__{number}") for number in numbers) if it.upper() not in self._taken)
        self._taken.add(name.upper())
        return name

    def copy(self, own: Unit, name: str, parameters: list[Parameter], owner: Owner, at: Instance) -> Unit:
        """The copy of a type for parameters. What can't be said in it is told at an instance, `at`, of its owner."""
        return self._lowered(self._copy(own, name, parameters, owner, at))

    def _copy(self, own: Unit, name: str, parameters: list[Parameter], owner: Owner, at: Instance) -> Unit:
        self._lines += self._type(own).lines_with(parameters)
        made, shown = _copied(own), owner.as_in_files(parameters)
        made.name = name
        made.comments = [*own.comments, f"{own.name} with {', '.join(shown).replace('*)', '* )')}"]
        instances = {it.name.upper(): it for it in reversed(made.network.instances)} if made.network else {}
        for it, words in zip(parameters, shown):
            self._lead(instances, own, it, f"{at.name}.{cut(words)}", lambda kind, words: self._tell(owner.unit, at.line, kind, words))
        made.records = [
            *dict.fromkeys([*own.records, *owner.names_in(parameters)]),
            record(MADE_FROM, {"type": own.name}),
            *(record(GIVEN, {"name": it.name, "value": it.value, "comment": it.comment}) for it in parameters),
        ]
        return made

    def _lead(self, instances: Mapping[str, Instance], own: Unit, it: Parameter, words: str, tell: Callable[[str, str], object]) -> None:
        """Gives a parameter to the instances, by their names in upper case, that a port leads to."""
        type_ = self._type(own)
        for end in type_.led(it.name):
            head, _, port = end.partition(".")
            to = instances.get(head) if port else None
            if to is None:
                tell(LEFT_OUT, f"{words} at {end} of {own.name}, which leads out of it")
            elif any(each.name.upper() == port for each in to.parameters):
                tell(LEFT_OUT, f"{words} at {to.name}.{port} of {own.name}, which has a parameter")
            elif type_.has_another_source(end, it.name):
                tell(LEFT_OUT, f"{words} at {to.name}.{port} of {own.name}, which has another source")
            elif self._may_have(to, port):
                to.parameters.append(Parameter(type_.port(end), it.value))
        if not type_.led(it.name):
            tell(NOTE, f"{words} leads to no block in {own.name}")

    def _may_have(self, it: Instance, port: str) -> bool:
        """Whether the type of an instance has a data input; one that is not known may. Of another end the connection is a fault."""
        name = it.type.upper()
        of = self._units.get(name)
        if of and name not in self._inputs:
            self._inputs[name] = frozenset(each.name.upper() for each in of.variables["VAR_INPUT"])
        return of is None or port in self._inputs[name]


def _copied(unit: Unit) -> Unit:
    """A unit of which other instances and connections can be made; all else is that of the unit."""
    applications = [replace(it, network=_copied_network(it.network)) for it in unit.applications]
    return replace(unit, network=unit.network and _copied_network(unit.network), applications=applications)


def _copied_network(network: Network) -> Network:
    instances = [replace(it, parameters=list(it.parameters)) for it in network.instances]
    return Network(instances, {section: list(its) for section, its in network.connections.items()})


def _with_parameters(unit: Unit) -> Iterator[tuple[Owner, Network, Instance]]:
    """The subapplications of a unit that have parameters."""
    owner = Owner(unit)
    return ((owner, network, it) for network, it in subapplications(unit) if it.parameters)


def without_source(instance: str, name: str, value: str, comment: str) -> Connection:
    """A connection in the place of a parameter for which there is no copy."""
    words = "\n".join(filter(None, [comment, f"{name} := {value}"]))
    return Connection(names.NO_SOURCE, f"{instance}.{names.spelled(name)}", words)


# back


class Raising:
    """Gives instances whose types are copies their parameters again. `units` are all by their names in upper case."""

    def __init__(self, units: Mapping[str, Unit]):
        self._units = units
        self._copies = {name: it for name, it in units.items() if made_from(it)}
        whole = {name: self._raised(it) for name, it in units.items() if name not in self._copies}
        lowering = Lowering(whole, lambda *_: None, {_key(made_from(it), given(it)): it.name for it in self._copies.values()})
        self.changed = {it.name for it in self._copies.values() if not self._is_current(it, whole, lowering)}
        for name in self.changed:
            del self._copies[name.upper()]
        self.units = {name: self._raised(it) for name, it in units.items() if name not in self._copies}

    def _is_current(self, it: Unit, whole: Mapping[str, Unit], lowering: Lowering) -> bool:
        """Whether a copy is what would be made now."""
        own = whole.get(made_from(it).upper())
        if own is None:
            return False
        expected = lowering.copy(own, it.name, given(it), Owner(it), Instance(SUBAPPS, it.name, own.name))
        return _spelling(expected) == _spelling(it)

    def _raised(self, unit: Unit) -> Unit:
        if not any(it.type.upper() in self._copies for _, it in subapplications(unit)):
            return unit
        raised = _copied(unit)
        for _, it in subapplications(raised):
            copy = self._copies.get(it.type.upper())
            if copy:
                it.type, it.parameters = made_from(copy), given(copy)
        return raised


def _spelling(unit: Unit) -> list[str]:
    return [it.words for it in tokens(written(unit))]
