"""A text as a unit with its comments, by the grammar of docs/LANGUAGE.md."""
from __future__ import annotations

from collections.abc import Callable

from bench61499.exchange.commented import CommentedCursor
from bench61499.exchange.exchanged import (
    ADAPTER_SECTIONS, CONNECTION_SECTIONS, EVENT_SECTIONS, Algorithm, Application, Connection, Device, Event, Instance, Mapping, Network, Parameter, Sequence,
    Service, State, Transition, Unit, Variable, is_record,
)
from bench61499.exchange.forms import Broken
from bench61499.exchange.kept import is_kept
from bench61499.language.tokens import spelled

_KINDS = ("FUNCTION_BLOCK", "ADAPTER", "SUBAPPLICATION", "SYSTEM", "TYPE")


class NoUnit(Exception):
    """A text spells no unit: the line, and what is wrong there."""

    def __init__(self, line: int, words: str):
        super().__init__(words)
        self.line = line


class Read:
    """A unit, and what its records have no place for: lines and words."""

    def __init__(self, unit: Unit, left_out: list[tuple[int, str]]):
        self.unit, self.left_out = unit, left_out


def read_unit(text: str) -> Read:
    """The unit of a text. Raises `NoUnit`."""
    reader = _Reader(text)
    try:
        unit = reader.unit()
    except Broken as error:
        token = reader.tokens[error.at] if error.at < len(reader.tokens) else None
        raise NoUnit(reader.line(error.at), f"{token.words[:40]} is not expected here" if token else "the text ends too early") from None
    return Read(unit, sorted([*reader.left_out, *reader.unclaimed()]))


def read_or_none(text: str) -> Unit | None:
    """The unit of a text; None if it spells none."""
    try:
        return read_unit(text).unit
    except NoUnit:
        return None


class _Reader(CommentedCursor):
    def __init__(self, text: str):
        super().__init__(text)
        self.left_out: list[tuple[int, str]] = []

    def unit(self) -> Unit:
        self.check_comments()
        kind = self.need(*_KINDS).upper()
        before = self.comments_at_front()
        unit = Unit(kind, self.name(), self.line(0))
        head = "\n".join(filter(None, self.comments_behind()))
        unit.comments = [it for it in (*before, head) if it]
        _PARTS[kind](self, unit)
        self.need(f"END_{kind}")
        if self.at < len(self.tokens):
            raise self.fail()
        unit.records = self.comments_at_end(lambda words: is_record(words) or is_kept(words))
        return unit

    def _block(self, unit: Unit) -> None:
        while self._interface(unit) or self._variables(unit, "VAR") or self._network_of(unit) or self._service(unit) or self._chart(unit):
            pass

    def _adapter(self, unit: Unit) -> None:
        while self._events(unit) or self._variables(unit, "VAR_INPUT", "VAR_OUTPUT") or self._service(unit):
            pass

    def _subapplication(self, unit: Unit) -> None:
        unit.network = Network()
        while self._interface(unit) or self._network(unit.network, True) or self._service(unit):
            pass

    def _structure(self, unit: Unit) -> None:
        self.need(":")
        self.need("STRUCT")
        self._declarations(unit, "STRUCT")
        self.need("END_STRUCT")
        self.takes(";")

    def _system(self, unit: Unit) -> None:
        while self._application(unit) or self._device(unit) or self._mappings(unit):
            pass

    # sections

    def _items(self, item: Callable[[], object], end: str) -> bool:
        while self.sees_name():
            item()
        self.need(end)
        return True

    def _interface(self, unit: Unit) -> bool:
        if self._events(unit) or self._variables(unit, "VAR_INPUT", "VAR_OUTPUT"):
            return True
        section = self.takes(*ADAPTER_SECTIONS).upper()
        return bool(section) and self._items(lambda: unit.adapters[section].append(self._instance(section)), f"END_{section}")

    def _events(self, unit: Unit) -> bool:
        section = self.takes(*EVENT_SECTIONS).upper()
        return bool(section) and self._items(lambda: unit.events[section].append(self._event()), "END_EVENT")

    def _event(self) -> Event:
        begin = self.at
        event = Event(self.name(), line=self.line(begin))
        event.type = self.name() if self.takes(":") else ""
        if self.takes("WITH"):
            self.list_of(lambda: event.withs.append(self.name()))
        self.need(";")
        event.comment = self.comment(begin)
        return event

    def _variables(self, unit: Unit, *sections: str) -> bool:
        section = self.takes(*sections).upper()
        if section:
            self._declarations(unit, section)
            self.need("END_VAR")
        return bool(section)

    def _declarations(self, unit: Unit, section: str) -> None:
        while self.sees_name():
            begin, names_ = self.at, list[str]()
            self.list_of(lambda: names_.append(self.name()))
            self.need(":")
            type_ = self._type()
            value = self._spelled(self.constant) if self.takes(":=") else ""
            self.need(";")
            comments = [self.comment(begin), *[""] * len(names_)]
            unit.variables[section] += [Variable(name, type_, value, its, self.line(begin)) for name, its in zip(names_, comments)]

    def _type(self) -> str:
        begin = self.at
        self.type_use()
        its = self.tokens[begin : self.at]
        return spelled(its) if its[0].upper != "ARRAY" else f"ARRAY {spelled(its[1:-2])} OF {its[-1].words}"

    def _spelled(self, form: Callable[[], object]) -> str:
        begin = self.at
        form()
        return self.spelled_from(begin)

    def _instance(self, section: str) -> Instance:
        begin = self.at
        found = self._typed(section)
        if section != "SUBAPPS":
            found.parameters = self._parameters()
        self.need(";")
        found.comment = self.comment(begin)
        return found

    def _typed(self, section: str) -> Instance:
        line, name = self.line(self.at), self.name()
        self.need(":")
        return Instance(section, name, self.name(), line=line)

    def _parameters(self) -> list[Parameter]:
        found: list[Parameter] = []
        if self.takes("("):
            if not self.sees(")"):
                self.list_of(lambda: found.append(self._parameter()))
            self.need(")")
        return found

    def _parameter(self) -> Parameter:
        name = self.name()
        self.need(":=")
        value = self._spelled(self.constant)
        return Parameter(name, value, "\n".join(self.comments_behind()))

    def _network_of(self, unit: Unit) -> bool:
        network = unit.network or Network()
        if not self._network(network, False):
            return False
        unit.network = network
        return True

    def _network(self, network: Network, has_subapplications: bool) -> bool:
        section = self.takes("FBS", *(["SUBAPPS"] if has_subapplications else [])).upper()
        if section:
            return self._items(lambda: network.instances.append(self._instance(section)), f"END_{section}")
        section = self.takes(*CONNECTION_SECTIONS).upper()
        return bool(section) and self._items(lambda: network.connections[section].append(self._connection()), "END_CONNECTIONS")

    def _connection(self) -> Connection:
        begin = self.at
        source = self.end()
        self.need("TO")
        found = Connection(source, self.end(), line=self.line(begin))
        self.need(";")
        found.comment = self.comment(begin)
        return found

    def _chart(self, unit: Unit) -> bool:
        if self.takes("EC_STATES"):
            unit.states = states = unit.states or []
            return self._items(lambda: states.append(self._state()), "END_STATES")
        if self.takes("EC_TRANSITIONS"):
            return self._items(lambda: unit.transitions.append(self._transition()), "END_TRANSITIONS")
        if self.sees("ALGORITHM"):
            unit.algorithms.append(self._algorithm())
            return True
        return False

    def _state(self) -> State:
        begin = self.at
        state = State(self.name(), line=self.line(begin))
        if self.takes(":"):
            self.list_of(lambda: state.actions.append(self._action()))
        self.need(";")
        state.comment = self.comment(begin)
        return state

    def _action(self) -> tuple[str, str]:
        if self.takes("->"):
            return "", self.end()
        return self.name(), self.end() if self.takes("->") else ""

    def _transition(self) -> Transition:
        begin, source = self.at, self.name()
        self.need("TO")
        destination = self.name()
        self.need(":=")
        found = Transition(source, destination, self._spelled(self.condition), line=self.line(begin))
        self.need(";")
        found.comment = self.comment(begin)
        return found

    def _algorithm(self) -> Algorithm:
        begin = self.at
        self.take()
        name = self.name()
        self._need_name("IN")
        language = self.name()
        first = self.at
        if language.upper() == "ST":
            first += bool(self.takes(":"))
            self.statements()
        else:
            self._skip("END_ALGORITHM")
        self.need("END_ALGORITHM")
        body = self.between(first - 1, self.at - 1)
        return Algorithm(name, "ST" if language.upper() == "ST" else language, body, "\n".join(self.comments_before(begin)), self.line(begin))

    def _need_name(self, word: str) -> None:
        if not self.sees_name() or self.tokens[self.at].upper != word:
            raise self.fail()
        self.take()

    def _skip(self, end: str) -> None:
        while self.at < len(self.tokens) and not self.sees(end):
            self.at += 1

    def _service(self, unit: Unit) -> bool:
        if not self.takes("SERVICE"):
            return False
        begin = self.at
        self._skip("END_SERVICE")
        self.need("END_SERVICE")
        end, self.at = self.at, begin
        try:
            service = self._service_body(begin - 1)
            self.need("END_SERVICE")
            unit.services.append(service)
        except Broken:
            self.left_out.append((self.line(begin - 1), "a service that is spelled in another form"))
        self.at = end
        return True

    def _service_body(self, begin: int) -> Service:
        service = Service(comment="\n".join(self.comments_before(begin)), line=self.line(begin))
        if not self.sees("END_SERVICE", "SEQUENCE"):
            service.left = self.need_kind("word")
            self.need("/")
            service.right = self.need_kind("word")
        while not self.sees("END_SERVICE"):
            service.sequences.append(self._sequence())
        return service

    def _sequence(self) -> Sequence:
        comment = "\n".join(self.comments_before(self.at))
        self.need("SEQUENCE")
        sequence = Sequence(self.need_kind("word"), comment=comment)
        while not self.takes("END_SEQUENCE"):
            sequence.transactions.append(self._spelled(self._transaction))
            self.need(";")
        return sequence

    def _transaction(self) -> None:
        if not self.sees(";", "->"):
            self._primitive()
        while self.takes("->"):
            self._primitive()

    def _primitive(self) -> None:
        """`Interface.Event(Parameters)`."""
        self.need_kind("word")
        self.need(".")
        self.need_kind("word")
        while self.takes("."):
            self.need_kind("word")
        self.takes("+", "-")
        self.need("(")
        depth = 1
        while depth:
            if self.sees(";", "END_SERVICE") or self.at >= len(self.tokens):
                raise self.fail()
            depth += self.sees("(") - self.sees(")")
            self.at += 1

    def _application(self, unit: Unit) -> bool:
        begin = self.at
        if not self.takes("APPLICATION"):
            return False
        found = Application(self.name(), line=self.line(begin))
        found.comment = self.comment(begin)
        while self._network(found.network, True):
            pass
        self.need("END_APPLICATION")
        unit.applications.append(found)
        return True

    def _device(self, unit: Unit) -> bool:
        if not self.sees("DEVICE"):
            return False
        found = Device(self._part("DEVICE"))
        while self.sees("RESOURCE"):
            found.resources.append(self._part("RESOURCE"))
            self.need("END_RESOURCE")
        self.need("END_DEVICE")
        unit.devices.append(found)
        return True

    def _part(self, section: str) -> Instance:
        begin = self.at
        self.take()
        found = self._typed(section)
        found.parameters = self._parameters()
        self.takes(";")
        found.comment = self.comment(begin)
        return found

    def _mappings(self, unit: Unit) -> bool:
        return bool(self.takes("MAPPINGS")) and self._items(lambda: unit.mappings.append(self._mapping()), "END_MAPPINGS")

    def _mapping(self) -> Mapping:
        begin, path = self.at, self.name()
        while self.takes("."):
            path += f".{self.name()}"
        self._need_name("ON")
        device = self.name()
        self.need(".")
        found = Mapping(path, device, self.name(), line=self.line(begin))
        self.need(";")
        found.comment = self.comment(begin)
        return found


_PARTS: dict[str, Callable[[_Reader, Unit], None]] = {
    "FUNCTION_BLOCK": _Reader._block,
    "ADAPTER": _Reader._adapter,
    "SUBAPPLICATION": _Reader._subapplication,
    "SYSTEM": _Reader._system,
    "TYPE": _Reader._structure,
}
