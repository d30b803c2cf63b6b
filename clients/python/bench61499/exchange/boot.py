"""Boot files of FORTE from the plan of a system: a file for each device, with its requests."""
from __future__ import annotations

import re
from collections.abc import Iterator
from dataclasses import dataclass, field

from bench61499 import Flat, Link, Net, Plan, Resource
from bench61499.exchange.exchanged import Device, Instance
from bench61499.exchange.names import spelled
from bench61499.exchange.report import counted
from bench61499.exchange.spellings import Place, Spellings, find

_ESCAPES = {"&": "&amp;", "<": "&lt;", ">": "&gt;", '"': "&quot;", "'": "&apos;", "\n": "&#10;"}
_START = "START"
KINDS_OF_START = ("COLD", "WARM")


class Refused(Exception):
    """No boot files are made; the text tells why."""


def another_text(system: str) -> Refused:
    return Refused(f"the workbench has another text of {system} than these files, or of a subapplication there")


@dataclass(frozen=True)
class Start:
    """An event input that a resource begins with, COLD or WARM: `end` as the user names it, its instance in upper case, that one's type, and its port."""

    kind: str
    end: str
    path: str
    type: str
    port: str


def find_start(kind: str, end: str, spellings: Spellings) -> Start:
    """What `--cold END` or `--warm END` asks for; END is spelled as in the texts, or as in the files that these came from. Raises `Refused`."""
    for words in (end, ".".join(map(spelled, end.split(".")))):
        path, _, port = words.upper().rpartition(".")
        found = spellings.instance(path) if "." in path else None
        if found and found.unit and find(found.unit.events["EVENT_INPUT"], port):
            return Start(kind, end, path, found.unit.name.upper(), port)
    raise Refused(f"--{kind.lower()} {end}: {spellings.system.name} has no such event input; it begins with the application, as in LINE.FIRST.START")


@dataclass
class _File:
    """The lines of a boot file."""

    lines: list[str] = field(default_factory=list)

    def add(self, resource: str, action: str, words: str) -> None:
        self.lines.append(f'{resource};<Request ID="{len(self.lines) + 1}" Action="{action}"{f">{words}</Request>" if words else "/>"}')


class Boot:
    """The boot files of a system, and what is told of them. `nets` are those of the types of subapplications that a start is for."""

    def __init__(self, plan: Plan, spellings: Spellings, starts: list[Start], nets: dict[str, Net], applications: bool):
        self._plan, self._spellings, self._starts, self._nets, self._applications = plan, spellings, starts, nets, applications
        self._homes = {path: it.name for it in plan.resources for path, _ in _blocks(it)}
        self._check_texts()
        self._led = {it: self._places_of(it) for it in starts}
        self.files: dict[str, str] = {}
        for device in spellings.system.devices:
            if device.resources:
                self.files[self._file_name(device)] = "".join(f"{line}\n" for line in self._device(device).lines)

    def _check_texts(self) -> None:
        """Raises `Refused` if the plan is of another text of the system, which a workbench that others use may have."""
        devices = self._spellings.system.devices
        resources = {f"{device.itself.name}.{its.name}".upper() for device in devices for its in device.resources}
        types = {path: found.unit.name.upper() for path in self._homes if (found := self._spellings.instance(path)) and found.unit}
        if resources != {it.name for it in self._plan.resources} or types != dict(block for it in self._plan.resources for block in _blocks(it)):
            raise another_text(self._spellings.system.name)

    def _file_name(self, device: Device) -> str:
        system = self._spellings.system
        names = (system.name, device.itself.name)
        return "_".join(it if re.fullmatch(r"\w+", it := self._spellings.name(system, own)) else own for own in names) + ".fboot"

    def _device(self, device: Device) -> _File:
        file, plans = _File(), {it.name: it for it in self._plan.resources}
        for its in device.resources:
            self._resource(file, its, plans[f"{device.itself.name}.{its.name}".upper()])
        return file

    def _resource(self, file: _File, its: Instance, plan: Resource) -> None:
        name = self._spellings.name(self._spellings.system, its.name)
        file.add("", "CREATE", _fb(name, self._spellings.type(its.type)))
        for parameter, value in self._spellings.parameters(its):
            file.add("", "WRITE", _connection(value, f"{name}.{parameter}"))
        self._check_names(plan)
        requests = [self._request(words) for words in map(_words, plan.commands[:-1])]
        starts = [(it.kind, place) for it in self._starts for place in self._led[it] if self._homes.get(place.block) == plan.name]
        requests += [("CREATE", _connection(f"{_START}.{kind}", self._place(place))) for kind, place in starts]
        for action, request in dict.fromkeys(requests):
            file.add(name, action, request)
        file.add(name, _START, "")

    def _request(self, words: list[str]) -> tuple[str, str]:
        """A command of the plan as a request. All links between a plug and a socket are one."""
        if words[0] == "WRITE":
            place = self.place(words[1])
            value = self._spellings.value(self._spellings.owner(place.block), words[2])
            return "WRITE", _connection(value, self._place(place))
        if words[1] == "FB":
            return "CREATE", _fb(self._block(words[2]), self._spellings.type(words[3]))
        source, destination = self.place(words[2]), self.place(words[3])
        if len(source.ports) == 1:
            return "CREATE", _connection(self._place(source), self._place(destination))
        ends = (source, destination) if self._spellings.is_plug(source) else (destination, source)
        return "CREATE", _connection(*(self._place(Place(it.block, it.ports[:1])) for it in ends))

    def place(self, place: str) -> Place:
        """A port of a block: what is behind the path of the block are its names."""
        block, _, port = place.rpartition(".")
        if block in self._homes:
            return Place(block, (port,))
        block, _, adapter = block.rpartition(".")
        return Place(block, (adapter, port))

    def _block(self, path: str) -> str:
        found = self._spellings.instance(path)
        names = found.names if found else tuple(path.split("."))
        return ".".join(names if self._applications else names[1:])

    def _place(self, place: Place) -> str:
        return ".".join([self._block(place.block), *self._spellings.ports(place)])

    def _places_of(self, it: Start) -> list[Place]:
        """The event inputs of blocks that an event input leads to. Raises `Refused` if there is none."""
        if it.path in self._homes:
            return [Place(it.path, (it.port,))]
        net = self._nets.get(it.type)
        borders = net.borders if isinstance(net, Flat) else ()
        found = [self.place(f"{it.path}.{its.place}") for its in borders if (its.sort, its.port) == ("event", it.port)]
        if not found:
            raise Refused(f"--{it.kind.lower()} {it.end}: leads to no event input of a block")
        return found

    def _check_names(self, plan: Resource) -> None:
        """Raises `Refused` if two blocks of a resource would have one name, or one that of what holds another one."""
        owners: dict[str, str] = {}
        is_started = any(self._homes.get(place.block) == plan.name for its in self._led.values() for place in its)
        containers = {_START: "the block START of the resource"} if is_started else {}
        for path, _ in _blocks(plan):
            name = self._block(path)
            if name in owners:
                raise Refused(f"{plan.name} would have two blocks {name}: {owners[name]} and {path}{self._advice()}")
            owners[name] = path
            parts = name.split(".")
            containers = {**{".".join(parts[:size]): path for size in range(1, len(parts))}, **containers}
        for name in owners.keys() & containers.keys():
            raise Refused(f"{plan.name} would have a block {name} of {owners[name]}, a name that is needed for {containers[name]}{self._advice()}")

    def _advice(self) -> str:
        return "" if self._applications else "; --applications keeps the names of the applications"

    # what is told

    def lines(self) -> Iterator[str]:
        for device in self._spellings.system.devices:
            for parameter, _ in self._spellings.parameters(device.itself):
                yield f"device {self._spellings.name(self._spellings.system, device.itself.name)}: its parameter {parameter} is not written"
        yield from map(self._to_be_joined, self._cuts())

    @property
    def outcome(self) -> str:
        cuts = len(self._plan.cuts)
        return f"{counted(cuts, 'link')} still to be joined" if cuts else "complete"

    @property
    def is_complete(self) -> bool:
        return not self._plan.cuts

    def _cuts(self) -> Iterator[list[Link]]:
        """The cut links: each event with its data, then the other data."""
        data = [it for it in self._plan.cuts if it.sort == "data"]
        left = list(data)
        for it in self._plan.cuts:
            if it.sort == "event":
                its = [each for each in data if self._goes_along(each, it)]
                left = [each for each in left if each not in its]
                yield [it, *its]
        yield from ([it] for it in left)

    def _goes_along(self, data: Link, event: Link) -> bool:
        """Whether data go with an event, from its block to the same resource."""
        one, other = self.place(data.source), self.place(event.source)
        is_same_way = one.block == other.block and self._home(data.destination) == self._home(event.destination)
        return is_same_way and one.ports in self._spellings.withs(other)

    def _home(self, place: str) -> str:
        """The resource of a port, as the text spells it."""
        device, _, resource = self._homes[self.place(place).block].partition(".")
        system = self._spellings.system
        its = find((it.itself for it in system.devices), device)
        inner = find((each for it in system.devices if it.itself is its for each in it.resources), resource)
        return ".".join(self._spellings.name(system, it.name) for it in (its, inner) if it)

    def _to_be_joined(self, links: list[Link]) -> str:
        first, *more = links
        way = f"still to be joined: {self._home(first.source)} -> {self._home(first.destination)}: {self._link(first)}"
        if first.sort == "data":
            return f"{way}, with which no event goes"
        data = f" with data {', '.join(map(self._ends, more))}" if more else ""
        return f"{way}{data}: PUBLISH_{len(more)} and SUBSCRIBE_{len(more)}"

    def _link(self, it: Link) -> str:
        return f"{it.sort} {self._ends(it)}"

    def _ends(self, it: Link) -> str:
        return f"{self._place(self.place(it.source))} -> {self._place(self.place(it.destination))}"


def _blocks(plan: Resource) -> Iterator[tuple[str, str]]:
    """The paths and the types of the blocks of a resource."""
    yield from ((words[2], words[3]) for words in map(_words, plan.commands) if words[:2] == ["CREATE", "FB"])


def _words(command: str) -> list[str]:
    """A command by its words; the constant of a WRITE is one, whatever is in it."""
    return command.split(" ", 2) if command.startswith("WRITE ") else command.split(" ")


def _fb(name: str, type_: str) -> str:
    return f'<FB Name="{_escaped(name)}" Type="{_escaped(type_)}" />'


def _connection(source: str, destination: str) -> str:
    return f'<Connection Source="{_escaped(source)}" Destination="{_escaped(destination)}" />'


def _escaped(words: str) -> str:
    for sign, its in _ESCAPES.items():
        words = words.replace(sign, its)
    return words
