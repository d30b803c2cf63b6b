"""A unit as records that both directions of the exchange share, and its text in the one layout that `import` writes."""
from __future__ import annotations

import re
from collections.abc import Iterable, Iterator
from dataclasses import dataclass, field
from textwrap import dedent

from bench61499 import TEXT_LIMIT
from bench61499.language.layout import applied, formatted

EVENT_SECTIONS = ("EVENT_INPUT", "EVENT_OUTPUT")
DATA_SECTIONS = ("VAR_INPUT", "VAR_OUTPUT", "VAR")
ADAPTER_SECTIONS = ("PLUGS", "SOCKETS")
CONNECTION_SECTIONS = ("EVENT_CONNECTIONS", "DATA_CONNECTIONS", "ADAPTER_CONNECTIONS")

SUBAPPS = "SUBAPPS"
"""The section of instances of subapplications."""
FULL = "ST_FULL"
"""The language of an algorithm in Structured Text that this language does not have: its body is kept and skipped."""


@dataclass
class Event:
    name: str
    type: str = ""
    withs: list[str] = field(default_factory=list)
    comment: str = ""
    line: int = 0


@dataclass
class Variable:
    name: str
    type: str
    value: str = ""
    comment: str = ""
    line: int = 0


@dataclass
class Parameter:
    name: str
    value: str
    comment: str = ""


@dataclass
class Instance:
    """A block, a subapplication, a plug or a socket; a device or a resource too."""

    section: str
    name: str
    type: str
    parameters: list[Parameter] = field(default_factory=list)
    comment: str = ""
    line: int = 0


@dataclass
class Connection:
    source: str
    destination: str
    comment: str = ""
    line: int = 0


@dataclass
class Network:
    """The instances in their order, and the connections by their sections."""

    instances: list[Instance] = field(default_factory=list)
    connections: dict[str, list[Connection]] = field(default_factory=lambda: {it: [] for it in CONNECTION_SECTIONS})

    @property
    def is_empty(self) -> bool:
        return not self.instances and not any(self.connections.values())


@dataclass
class State:
    """A state; each action is an algorithm and an output, of which one may be empty."""

    name: str
    actions: list[tuple[str, str]] = field(default_factory=list)
    comment: str = ""
    line: int = 0


@dataclass
class Transition:
    source: str
    destination: str
    condition: str
    comment: str = ""
    line: int = 0


@dataclass
class Algorithm:
    name: str
    language: str
    body: str
    comment: str = ""
    line: int = 0
    body_line: int = 0
    """The line of the file at which the body begins; a negative one if all of it is in that line, in an attribute."""


@dataclass
class Sequence:
    """A sequence of a service; each transaction is written `Left.A(X) -> Right.B()`."""

    name: str
    transactions: list[str] = field(default_factory=list)
    comment: str = ""


@dataclass
class Service:
    left: str = ""
    right: str = ""
    sequences: list[Sequence] = field(default_factory=list)
    comment: str = ""
    line: int = 0


@dataclass
class Application:
    name: str
    network: Network = field(default_factory=Network)
    comment: str = ""
    line: int = 0


@dataclass
class Device:
    itself: Instance
    resources: list[Instance] = field(default_factory=list)


@dataclass
class Mapping:
    path: str
    device: str
    resource: str
    comment: str = ""
    line: int = 0

    @property
    def home(self) -> str:
        return f"{self.device}.{self.resource}"


@dataclass
class Unit:
    """A unit. `network` and `states` are None if it has none; `comments` are those before it, `records` those behind it."""

    kind: str
    name: str
    line: int = 0
    comments: list[str] = field(default_factory=list)
    events: dict[str, list[Event]] = field(default_factory=lambda: {it: [] for it in EVENT_SECTIONS})
    variables: dict[str, list[Variable]] = field(default_factory=lambda: {it: [] for it in (*DATA_SECTIONS, "STRUCT")})
    adapters: dict[str, list[Instance]] = field(default_factory=lambda: {it: [] for it in ADAPTER_SECTIONS})
    network: Network | None = None
    states: list[State] | None = None
    transitions: list[Transition] = field(default_factory=list)
    algorithms: list[Algorithm] = field(default_factory=list)
    services: list[Service] = field(default_factory=list)
    applications: list[Application] = field(default_factory=list)
    devices: list[Device] = field(default_factory=list)
    mappings: list[Mapping] = field(default_factory=list)
    records: list[str] = field(default_factory=list)

    @property
    def is_composite(self) -> bool:
        return self.kind == "FUNCTION_BLOCK" and self.network is not None

    def ports(self) -> Iterator[str]:
        """The names of its events, variables, plugs and sockets."""
        yield from (it.name for its in self.events.values() for it in its)
        yield from (it.name for its in self.variables.values() for it in its)
        yield from (it.name for its in self.adapters.values() for it in its)

    def record(self, kind: str, attribute: str) -> str:
        """An attribute of the first record of a kind; empty if there is none."""
        its = (record_attributes(it)[1] for it in self.records if it.startswith(f"{kind}:"))
        return next((words for found in its if (words := found.get(attribute, ""))), "")


_BLANKS = " \t"
ELEMENT_RECORDS = ("Identification", "VersionInfo", "CompilerInfo", "Compiler", "Import", "ASN1Tag")
RECORDS = (*ELEMENT_RECORDS, "Name", "MadeFrom", "Given", "Generic", "InOut", "Internal", "Constant", "Guard", "Simple", "Untyped", "Type", "Package", "Elsewhere", "File", "Missing")
"""What comments behind a unit keep: these elements, the spelling of a renamed name, what a copy of a type was made from, the structure of a generic one, in-out variables, internal blocks, constants and guards, that a block was
a simple one and a subapplication had no type, a type of variables with its size, the package of a type that no file has, a data type or a name in an algorithm that the project has and no unit, the file in its project, and how many things of it are not kept."""
_ESCAPES = {"&": "&amp;", '"': "&quot;", "<": "&lt;", "\n": "&#10;", "\r": "&#13;", "\t": "&#9;"}
_RECORD = re.compile(rf"""({'|'.join(RECORDS)}):((?: [^\s=]+="[^"]*")+)""")
_ATTRIBUTE = re.compile(r''' ([^\s=]+)="([^"]*)"''')


def record(kind: str, attributes: dict[str, str]) -> str:
    """A record as the words of its comment; empty if no attribute has a value."""
    words = " ".join(f'{name}="{_escaped(value)}"' for name, value in attributes.items() if value)
    return f"{kind}: {words}" if words else ""


def _escaped(value: str) -> str:
    for sign, words in _ESCAPES.items():
        value = value.replace(sign, words)
    return value.replace("*)", "*&#41;")


def is_record(words: str) -> bool:
    return bool(_RECORD.fullmatch(words))


def recorded(unit: Unit, kind: str) -> list[dict[str, str]]:
    """The attributes of all records of a kind."""
    return [its for of, its in map(record_attributes, unit.records) if of == kind]


def record_attributes(words: str) -> tuple[str, dict[str, str]]:
    """The kind and the attributes of a record."""
    found = _RECORD.fullmatch(words)
    if not found:
        return "", {}
    return found[1], {name: _unescaped(value) for name, value in _ATTRIBUTE.findall(found[2])}


def _unescaped(value: str) -> str:
    value = value.replace("*&#41;", "*)")
    for sign, words in reversed(_ESCAPES.items()):
        value = value.replace(words, sign)
    return value


def written(unit: Unit) -> str:
    """The text of a unit. One that is far too long for a unit is not laid out."""
    text = "\n".join(lines_of(unit)) + "\n"
    return text if len(text) > 4 * TEXT_LIMIT else applied(text, formatted(text))


def comment(words: str) -> str:
    return f"(* {words} *)"


def lines_of(unit: Unit) -> Iterator[str]:
    """The text of a unit before it is laid out."""
    yield from map(comment, unit.comments)
    if unit.kind == "TYPE":
        yield f"TYPE {unit.name} : STRUCT"
        yield from (f"  {_variable(it)}" for it in unit.variables["STRUCT"])
        yield "END_STRUCT; END_TYPE"
    else:
        yield f"{unit.kind} {unit.name}"
        yield from (f"  {line}" for line in _parts(unit))
        yield f"END_{unit.kind}"
    yield from map(comment, unit.records)


def _parts(unit: Unit) -> Iterator[str]:
    for section, events in unit.events.items():
        yield from _section(section, map(_event, events), "END_EVENT")
    for section in DATA_SECTIONS:
        yield from _section(section, map(_variable, unit.variables[section]), "END_VAR")
    for section, adapters in unit.adapters.items():
        yield from _section(section, map(_instance, adapters), f"END_{section}")
    if unit.network:
        yield from _network(unit.network)
        yield from ("FBS", "END_FBS") if unit.is_composite and unit.network.is_empty else ()
    yield from _chart(unit)
    yield from (line for it in unit.algorithms for line in _algorithm(it))
    yield from (line for it in unit.services for line in _service(it))
    yield from (line for it in unit.applications for line in _application(it))
    yield from (line for it in unit.devices for line in _device(it))
    yield from _section("MAPPINGS", map(_mapping, unit.mappings), "END_MAPPINGS")


def _section(begin: str, items: Iterable[str], end: str) -> Iterator[str]:
    lines = [f"  {it}" for it in items]
    if lines:
        yield from (begin, *lines, end)


def _behind(words: str) -> str:
    return f" {comment(words)}" if words else ""


def _before(words: str) -> Iterator[str]:
    if words:
        yield comment(words)


def _event(it: Event) -> str:
    type_ = f" : {it.type}" if it.type else ""
    withs = f" WITH {', '.join(it.withs)}" if it.withs else ""
    return f"{it.name}{type_}{withs};{_behind(it.comment)}"


def _variable(it: Variable) -> str:
    value = f" := {it.value}" if it.value else ""
    return f"{it.name} : {it.type}{value};{_behind(it.comment)}"


def _typed(it: Instance) -> str:
    parameters = ", ".join(f"{its.name} := {its.value}{_behind(its.comment)}" for its in it.parameters)
    return f"{it.name} : {it.type}" + (f"({parameters})" if parameters else "")


def _instance(it: Instance) -> str:
    return f"{_typed(it)};{_behind(it.comment)}"


def _network(network: Network) -> Iterator[str]:
    section = ""
    for it in network.instances:
        if it.section != section:
            yield from (f"END_{section}", it.section) if section else (it.section,)
            section = it.section
        yield f"  {_instance(it)}"
    if section:
        yield f"END_{section}"
    for name, connections in network.connections.items():
        ends = (f"{it.source} TO {it.destination};{_behind(it.comment)}" for it in connections)
        yield from _section(name, ends, "END_CONNECTIONS")


def _chart(unit: Unit) -> Iterator[str]:
    yield from _section("EC_STATES", map(_state, unit.states or ()), "END_STATES")
    if unit.states == [] and not unit.transitions:
        yield from ("EC_STATES", "END_STATES")
    yield from _section("EC_TRANSITIONS", map(_transition, unit.transitions), "END_TRANSITIONS")


def _state(it: State) -> str:
    actions = ", ".join(" ".join(filter(None, [algorithm, output and f"-> {output}"])) for algorithm, output in it.actions)
    return f"{it.name}{actions and ' : '}{actions};{_behind(it.comment)}"


def _transition(it: Transition) -> str:
    return f"{it.source} TO {it.destination} := {it.condition};{_behind(it.comment)}"


def _algorithm(it: Algorithm) -> Iterator[str]:
    yield from _before(it.comment)
    yield f"ALGORITHM {it.name} IN {it.language}{':' * (it.language == 'ST')}"
    yield from (f"  {line}".rstrip(_BLANKS) for line in dedent(it.body).strip("\n").split("\n") if it.body.strip(f"{_BLANKS}\n"))
    yield "END_ALGORITHM"


def _service(it: Service) -> Iterator[str]:
    yield from _before(it.comment)
    yield f"SERVICE {it.left}/{it.right}" if it.left else "SERVICE"
    for sequence in it.sequences:
        yield from (f"  {line}" for line in _before(sequence.comment))
        yield f"  SEQUENCE {sequence.name}"
        yield from (f"    {line};" for line in sequence.transactions)
        yield "  END_SEQUENCE"
    yield "END_SERVICE"


def _application(it: Application) -> Iterator[str]:
    yield from _before(it.comment)
    yield f"APPLICATION {it.name}"
    yield from (f"  {line}" for line in _network(it.network))
    yield "END_APPLICATION"


def _device(it: Device) -> Iterator[str]:
    yield from _before(it.itself.comment)
    yield f"DEVICE {_typed(it.itself)}"
    for resource in it.resources:
        yield from (f"  {line}" for line in _before(resource.comment))
        yield f"  RESOURCE {_typed(resource)} END_RESOURCE"
    yield "END_DEVICE"


def _mapping(it: Mapping) -> str:
    return f"{it.path} ON {it.home};{_behind(it.comment)}"
