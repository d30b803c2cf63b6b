"""Units as XML of IEC 61499-2: what `from_xml` does, from right to left."""
from __future__ import annotations

import re
from collections.abc import Iterable, Iterator

from bench61499.exchange import names, places
from bench61499.exchange.bodies import algorithm, condition_words, primitives
from bench61499.exchange.exchanged import (
    ELEMENT_RECORDS, SUBAPPS, Application, Connection, Device, Event, Instance, Mapping, Network, Parameter, Service, State, Unit, Variable, record_attributes, recorded,
)
from bench61499.exchange.generic import generic_type, structure_attribute
from bench61499.exchange.guards import guards_of
from bench61499.exchange.inouts import end_of_file, inputs_of
from bench61499.exchange.kept import put_back
from bench61499.exchange.outgoing import FBDK, Outgoing
from bench61499.exchange.report import CLASH, LEFT_OUT, NOTE, cut
from bench61499.exchange.xmltext import Tag

ROOTS = {
    "FUNCTION_BLOCK": ("FBType", "fbt"),
    "ADAPTER": ("AdapterType", "adp"),
    "SUBAPPLICATION": ("SubAppType", "sub"),
    "SYSTEM": ("System", "sys"),
    "TYPE": ("DataType", "dtp"),
}
_DEFAULT_VERSION = {"Version": "0.0", "Date": "1970-01-01"}
_CONNECTIONS = {"EVENT_CONNECTIONS": "EventConnections", "DATA_CONNECTIONS": "DataConnections", "ADAPTER_CONNECTIONS": "AdapterConnections"}
_PARAMETER = re.compile(r"(?:(.*)\n)?(\S+) := (.+)", re.DOTALL)


_LONGEST_NAME = 200


def file_name(unit: Unit, name: str) -> str:
    """The name of the file of a unit, by its name in files if that has nothing that could lead elsewhere."""
    is_fit = re.fullmatch(r"\w+", name) and len(name.encode()) <= _LONGEST_NAME
    return f"{name if is_fit else unit.name}.{ROOTS[unit.kind][1]}"


class NotWritten(Exception):
    """A unit has no form in XML; the text tells why."""


def tree(unit: Unit, out: Outgoing) -> Tag:
    """The element of a unit. Raises `NotWritten`."""
    if unit.is_composite and (unit.states is not None or unit.transitions):
        raise NotWritten("has states and a network, and XML has one of the two")
    root = Tag(ROOTS[unit.kind][0], {"Name": out.name(unit.name), "Comment": unit.comments[-1] if unit.comments else ""})
    root.add(*_records(unit), *_parts(unit, out))
    _put_back(root, out)
    return root


def _put_back(root: Tag, out: Outgoing) -> None:
    """Adds what the comments of a unit keep."""
    put_back(root, out.unit.records, lambda path: out.tell(LEFT_OUT, out.unit.line, f"what is kept of {cut(path)}: that is no longer there"))


def _parts(unit: Unit, out: Outgoing) -> Iterator[Tag]:
    if unit.kind == "SYSTEM":
        yield from _System(unit, out).parts()
    elif unit.kind == "TYPE":
        yield Tag("StructuredType", {}, [_variable(out, it) for it in unit.variables["STRUCT"]])
    else:
        yield _interface(unit, out)
        yield from _body(unit, out)
        yield from map(_service, unit.services)


def _records(unit: Unit) -> Iterator[Tag]:
    """What is kept behind a unit as elements, in the order of the DTD."""
    tags: list[Tag] = []
    infos: list[Tag] = []
    for kind, its in map(record_attributes, unit.records):
        if kind in ("Compiler", "Import"):
            infos = infos or [Tag("CompilerInfo")]
            infos[-1].add(Tag(kind, its, needed=()))
        elif kind == "CompilerInfo":
            infos.append(Tag(kind, its, needed=()))
        elif kind in ELEMENT_RECORDS:
            tags.append(Tag(kind, its, needed=()))
    if not any(it.name == "VersionInfo" for it in tags):
        tags.append(Tag("VersionInfo", _DEFAULT_VERSION))
    yield from sorted([*tags, *infos], key=lambda it: ELEMENT_RECORDS.index(it.name))


def _interface(unit: Unit, out: Outgoing) -> Tag:
    prefix = "SubApp" if unit.kind == "SUBAPPLICATION" else ""
    its = Tag(f"{prefix}InterfaceList")
    for section, name in (("EVENT_INPUT", "EventInputs"), ("EVENT_OUTPUT", "EventOutputs")):
        its.add(_group(f"{prefix}{name}", (_event(out, unit, f"{prefix}Event", it) for it in unit.events[section])))
    inouts = inputs_of(unit)
    inner = {it.upper() for it in inouts.values()}
    for section, name, taken in (("VAR_INPUT", "InputVars", inner), ("VAR_OUTPUT", "OutputVars", inouts)):
        its.add(_group(name, (_variable(out, it) for it in unit.variables[section] if it.name.upper() not in taken)))
    its.add(_group("InOutVars", (_variable(out, it) for it in unit.variables["VAR_INPUT"] if it.name.upper() in inner)))
    for section, name in (("PLUGS", "Plugs"), ("SOCKETS", "Sockets")):
        its.add(_group(name, (_typed(out, "AdapterDeclaration", it) for it in unit.adapters[section])))
    return its


def _group(name: str, children: Iterable[Tag]) -> Tag | None:
    its = list(children)
    return Tag(name, {}, its) if its else None


def _event(out: Outgoing, unit: Unit, name: str, it: Event) -> Tag:
    attributes = {"Name": out.name(it.name), "Type": out.type(it.type) if it.type else "Event", "Comment": it.comment}
    return Tag(name, attributes, [Tag("With", {"Var": out.name(inputs_of(unit).get(each.upper(), each))}) for each in it.withs])


def _variable(out: Outgoing, it: Variable) -> Tag:
    typed = out.typed(it)
    attributes = {"Name": out.name(it.name), "Type": typed.type, "ArraySize": typed.ranges or "", "InitialValue": typed.value, "Comment": it.comment}
    # An array of no size is one as well: `original` knows it by its name.
    return Tag("VarDeclaration", attributes, needed=("Name", "Type"))


def _typed(out: Outgoing, name: str, it: Instance) -> Tag:
    attributes = {"Name": out.name(it.name), "Type": out.type(it.type), "Comment": it.comment}
    unit = out.types.get(it.type.upper())
    structure = [structure_attribute(unit)] if unit and generic_type(unit) else []
    return Tag(name, attributes, [*(_parameter(out, each, it.line) for each in it.parameters), *structure])


def _parameter(out: Outgoing, it: Parameter, line: int) -> Tag:
    return Tag("Parameter", {"Name": out.name(it.name), "Value": out.value(it.value, False, line), "Comment": it.comment})


def _body(unit: Unit, out: Outgoing) -> Iterator[Tag]:
    """The chart or the network of a type."""
    if unit.network and (unit.is_composite or not unit.network.is_empty or unit.kind == "SUBAPPLICATION"):
        yield _network(out, "FBNetwork" if unit.is_composite else "SubAppNetwork", unit.network)
        for variable in unit.variables["VAR"]:
            out.tell(LEFT_OUT, variable.line, f"the internal variable {variable.name} of a composite block")
        for its in unit.algorithms:
            out.tell(LEFT_OUT, its.line, f"the algorithm {its.name} of a composite block")
    elif unit.variables["VAR"] or unit.states is not None or unit.transitions or unit.algorithms:
        constants, blocks = ({it.get("name", "") for it in recorded(unit, kind)} for kind in ("Constant", "Internal"))
        guards = guards_of(unit)
        internal = {False: "InternalVars", True: "InternalConstVars"}
        own = [it for it in unit.variables["VAR"] if it.name not in blocks and it.name not in guards]
        variables = [_group(name, (_variable(out, it) for it in own if (it.name in constants) == of)) for of, name in internal.items()]
        is_simple = _is_simple(unit)
        chart: list[Tag | None] = [_state(out, it) for it in (unit.states or [])[1:]] if is_simple else [_chart(unit, out)]
        yield Tag("SimpleFB" if is_simple else "BasicFB").add(*variables, *chart, *(algorithm(out, it) for it in unit.algorithms if it.name not in guards))


def _chart(unit: Unit, out: Outgoing) -> Tag | None:
    if unit.states is None and not unit.transitions:
        return None
    chart, states = Tag("ECC"), unit.states or []
    corners = places.of_states(states, unit.transitions)
    for it, corner in zip(states, corners):
        state = _state(out, it)
        state.attributes |= _at(corner)
        chart.add(state)
    for way, corner in zip(unit.transitions, places.of_transitions(states, corners, unit.transitions)):
        ends = {"Source": out.name(way.source), "Destination": out.name(way.destination)}
        words, comment = condition_words(out, unit, way)
        chart.add(Tag("ECTransition", {**ends, "Condition": words, "Comment": comment, **_at(corner)}))
    return chart


def _state(out: Outgoing, it: State) -> Tag:
    actions = [Tag("ECAction", {"Algorithm": out.name(its), "Output": out.path(to)}) for its, to in it.actions]
    return Tag("ECState", {"Name": out.name(it.name), "Comment": it.comment}, actions)


def _is_simple(unit: Unit) -> bool:
    """Whether a block has the chart that import makes of a simple one."""
    if not unit.states:
        return False
    first, *others = unit.states
    ways = [(it.source, it.destination, it.condition) for it in unit.transitions]
    expected = [way for it in others for way in ((first.name, it.name, it.name), (it.name, first.name, "1"))]
    return unit.record("Simple", "first") == first.name and not first.actions and ways == expected


def _at(place: places.Place) -> dict[str, str]:
    return {"x": f"{place[0]}", "y": f"{place[1]}"}


def _subapplication(out: Outgoing, it: Instance, is_copy: bool) -> Tag:
    """An instance of a subapplication. One without a type has its interface, and its network unless it is the copy in a resource."""
    inner = out.within(it.type)
    if not inner:
        return _typed(out, "SubApp", it)
    network = None if is_copy else _network(inner, "SubAppNetwork", inner.unit.network or Network())
    tag = Tag("SubApp", {"Name": out.name(it.name), "Comment": it.comment}, [_interface(inner.unit, inner)])
    own = {each.name.upper(): each.value for each in inner.unit.variables["VAR_INPUT"]}
    tag.add(network, *(_parameter(out, each, it.line) for each in it.parameters if own.get(each.name.upper()) != each.value))
    if not is_copy:
        _put_back(tag, inner)
    return tag


def _network(out: Outgoing, name: str, network: Network, is_copy: bool = False) -> Tag:
    """A network with its instances placed. Parameters in the place of which a text has connections are put back."""
    given = _parameters(network)
    tags = []
    for it, corner in zip(network.instances, places.of_instances(network, out.types)):
        tag = _subapplication(out, it, is_copy) if it.section == SUBAPPS else _typed(out, "FB", it)
        tag.attributes |= _at(corner)
        tag.add(*(_parameter(out, each, it.line) for to, each in given if to == it.name))
        tags.append(tag)
    ordered = sorted(tags, key=lambda it: it.name == "FB") if out.tool == FBDK else tags
    if ordered != tags:
        out.tell(NOTE, network.instances[0].line, "the subapplications of a network come before its blocks, as fbdk wants them")
    return Tag(name, {}, [*ordered, *_connections(out, network, len(given))])


def _connections(out: Outgoing, network: Network, first: int) -> Iterator[Tag]:
    for section, name in _CONNECTIONS.items():
        its = network.connections[section][first if section == "DATA_CONNECTIONS" else 0 :]
        group = _group(name, (_connection(out, network, it) for it in its))
        if group:
            yield group


def _connection(out: Outgoing, network: Network, it: Connection) -> Tag:
    source, destination = (out.path(end_of_file(end, out.unit, network.instances, out.types)) for end in (it.source, it.destination))
    return Tag("Connection", {"Source": source, "Destination": destination, "Comment": it.comment})


def _parameters(network: Network) -> list[tuple[str, Parameter]]:
    """The parameters of subapplications that the first data connections are in the place of, each with its instance."""
    order = {it.name: at for at, it in enumerate(network.instances) if it.section == SUBAPPS}
    found: list[tuple[str, Parameter]] = []
    for it in network.connections["DATA_CONNECTIONS"]:
        instance, _, port = it.destination.partition(".")
        given = _PARAMETER.fullmatch(it.comment)
        if it.source != names.NO_SOURCE or instance not in order or not given or names.spelled(given[2]) != port:
            break
        if found and order[found[-1][0]] > order[instance]:
            break
        found.append((instance, Parameter(port, given[3], given[1] or "")))
    return found


def _service(it: Service) -> Tag:
    service = Tag("Service", {"LeftInterface": it.left, "RightInterface": it.right, "Comment": it.comment})
    for sequence in it.sequences:
        tag = Tag("ServiceSequence", {"Name": sequence.name, "Comment": sequence.comment})
        service.add(tag.add(*(Tag("ServiceTransaction", {}, list(primitives(each))) for each in sequence.transactions)))
    return service


class _System:
    """The parts of a system. A mapped instance of an application is also in the network of its resource, where 4diac looks it up."""

    def __init__(self, unit: Unit, out: Outgoing):
        self._unit, self._out = unit, out
        self._networks = {it.name.upper(): it.network for it in reversed(unit.applications)}

    def parts(self) -> Iterator[Tag]:
        yield from map(self._application, self._unit.applications)
        yield from map(self._device, self._unit.devices)
        yield from map(self._mapping, self._unit.mappings)

    def _application(self, it: Application) -> Tag:
        attributes = {"Name": self._out.name(it.name), "Comment": it.comment}
        return Tag("Application", attributes, [_network(self._out, "SubAppNetwork", it.network)])

    def _device(self, it: Device) -> Tag:
        device = _typed(self._out, "Device", it.itself)
        for resource in it.resources:
            tag = _typed(self._out, "Resource", resource)
            device.add(tag.add(self._mapped(f"{it.itself.name}.{resource.name}".upper())))
        return device

    def _mapped(self, home: str) -> Tag | None:
        """The network of a resource: what is mapped to it, and the connections that stay there."""
        network, owners = Network(), dict[str, str]()
        for it in self._unit.mappings:
            application, _, name = it.path.upper().partition(".")
            its = [each for each in self._instances(application) if each.name.upper() == name] if it.home.upper() == home else []
            if its and owners.setdefault(name, application) != application:
                self._out.tell(CLASH, it.line, f"the blocks {owners[name]}.{name} and {application}.{name} have one name in the resource {home}")
            elif its:
                network.instances += its[:1]
        for application in dict.fromkeys(owners.values()):
            for section, connections in self._networks[application].connections.items():
                network.connections[section] += [it for it in connections if _stays(it, application, owners)]
        return _network(self._out, "FBNetwork", network, is_copy=True) if network.instances else None

    def _instances(self, application: str) -> list[Instance]:
        return self._networks[application].instances if application in self._networks else []

    def _mapping(self, it: Mapping) -> Tag:
        out, path = self._out, it.path.split(".")
        if len(path) != 2:
            what = "no whole application" if len(path) == 1 else "nothing inside a subapplication that has a type"
            out.tell(LEFT_OUT, it.line, f"for 4diac the mapping of {cut(it.path)}, which is written: it maps {what}")
        to = [it.device, it.resource, path[-1]]
        return Tag("Mapping", {"From": out.path(it.path), "To": out.path(".".join(to)), "Comment": it.comment})


def _stays(it: Connection, application: str, owners: dict[str, str]) -> bool:
    """Whether both ends of a connection are blocks of one resource."""
    return all(owners.get(end.upper().partition(".")[0]) == application for end in (it.source, it.destination))
