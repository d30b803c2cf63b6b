"""Networks and systems of files as those of a text."""
from __future__ import annotations

from collections.abc import Callable, Container, Iterator
from functools import lru_cache

from bench61499.exchange import names
from bench61499.exchange.context import Context
from bench61499.exchange.exchanged import SUBAPPS, Application, Connection, Device, Instance, Mapping, Network, Unit
from bench61499.exchange.generic import find_generic
from bench61499.exchange.inouts import inouts_of, output_of
from bench61499.exchange.interfaces import network_instances, own_values, parameters
from bench61499.exchange.report import NOTE, cut
from bench61499.exchange.xmlfile import Element

NETWORKS = ("FBNetwork", "SubAppNetwork")
INTERFACES = ("InterfaceList", "SubAppInterfaceList")
_CONNECTIONS = {"EventConnections": "EVENT_CONNECTIONS", "DataConnections": "DATA_CONNECTIONS", "AdapterConnections": "ADAPTER_CONNECTIONS"}

_DEEPEST = 100
"""How deep a mapping leads at most whose block is compared with that of its resource."""

Make = Callable[[Element, str], object]
"""What makes a unit of a subapplication without a type, under a name."""


class Networks:
    """The networks of one unit. `path` is the name that those of inner units begin with, `inouts` are its own in-out variables."""

    def __init__(self, context: Context, path: str, subapplications: str, make: Make, inouts: frozenset[str] = frozenset()):
        self._context, self._path, self._section, self._make, self._own_inouts = context, path, subapplications, make, inouts

    def read(self, network: Network, at: Element, ports: Container[str]) -> None:
        """Adds the parts of an element to a network. `ports` are the names in texts that its ends may begin with, beside its instances."""
        context = self._context
        context.known(at, "", f"FB SubApp Group {' '.join(_CONNECTIONS)}")
        fed = frozenset(it.get("Destination") for group in at.named("DataConnections") for it in group.named("Connection"))
        network.instances += self._instances(network, at, fed)
        known = {names.spelled(name) for name, _ in network_instances(at) if name}
        for group in at.named(*_CONNECTIONS):
            context.known(group, "", "Connection")
            inouts = self._inouts(at) if group.name == "DataConnections" else {}
            network.connections[_CONNECTIONS[group.name]] += [self._connection(it, inouts, known, ports) for it in group.named("Connection")]

    def _inouts(self, network: Element) -> dict[str, frozenset[str]]:
        """The in-out variables of the instances of a network by their names; the own ones have the name that is empty."""
        roots = self._context.library.roots
        its = {names.spelled(name): roots.get(_type_name(it)) if it.get("Type") else it for name, it in network_instances(network) if name}
        return {"": self._own_inouts, **{name: inouts_of(root) for name, root in its.items()}}

    def _connection(self, at: Element, inouts: dict[str, frozenset[str]], *known: Container[str]) -> Connection:
        self._context.known(at, "Source Destination Comment")
        source, destination = (self._context.end(at, at.get(it), *known) for it in ("Source", "Destination"))
        head, point, port = source.partition(".")
        if point and port in inouts.get(head, ()):
            source = f"{head}.{output_of(port)}"
        if destination in inouts.get("", ()):
            destination = output_of(destination)
        return Connection(source, destination, self._context.comment(at), at.line)

    def _instances(self, network: Network, at: Element, fed: Container[str]) -> Iterator[Instance]:
        """The instances of a network or a group; `fed` are the ends that data connections lead to."""
        for it in at.named("FB", "SubApp", "Group"):
            if it.name == "Group":
                self._context.known(it, "Name Comment", "FB SubApp Group", keeps=False)
                remark = f" ({cut(it.get('Comment'))})" if it.get("Comment") else ""
                self._context.left_to_comments(it, f"the group {cut(it.get('Name'))}{remark}; what it holds is kept")
                if at.name != "Group":
                    self._context.keep(at, _outline(it))
                yield from self._instances(network, it, fed)
            else:
                yield self._block(it) if it.name == "FB" else self._subapplication(network, it, fed)

    def _block(self, at: Element) -> Instance:
        context, generic = self._context, find_generic(self._context, at)
        context.known(at, "Name Type Comment", "Parameter" if not generic else "Parameter Attribute")
        name = context.own_name(at)
        type_ = context.instance_type(at)
        if generic:
            for it in at.named("Attribute"):
                if it is not generic.attribute:
                    context.left_to_comments(it, f"attribute {cut(it.get('Name'))} = {cut(it.get('Value') or it.text)} of FB {name}")
                    context.keep(at, it)
            context.report.tell(NOTE, at.line, f"{name} has the type {generic.name}, a {generic.type} for its structure")
            type_ = generic.name
            context.generics[type_] = generic
        return Instance("FBS", name, type_, parameters(context, at), context.comment(at), at.line)

    def _subapplication(self, network: Network, at: Element, fed: Container[str]) -> Instance:
        context = self._context
        is_untyped = not at.get("Type") and bool(at.named(*INTERFACES, *NETWORKS))
        context.known(at, "Name Type Comment", " ".join(["Parameter", *(INTERFACES + NETWORKS if is_untyped else ())]))
        name = context.own_name(at)
        if is_untyped:
            type_ = context.name(at, f"{self._path}__{name}")
            self._make(at, type_)
        else:
            type_ = context.instance_type(at)
        found = Instance(self._section, name, type_, comment=context.comment(at), line=at.line)
        interface = at if is_untyped else context.library.roots.get(type_.upper())
        found.parameters = parameters(context, at, lambda it: self._is_lowered(interface, it))
        if is_untyped and self._section == SUBAPPS:
            found.parameters += own_values(context, at, fed)
        for it in at.named("Parameter"):
            if self._is_lowered(interface, it):
                continue
            context.known(it, "Name Value Comment")
            if it.get("Value"):
                network.connections["DATA_CONNECTIONS"].append(self._parameter(at, name, it))
        return found

    def _is_lowered(self, interface: Element | None, parameter: Element) -> bool:
        """Whether a parameter of a subapplication can be one of blocks in it: it is a data input of a type that is among the files."""
        if self._section != SUBAPPS or interface is None or interface.name not in ("SubApp", "SubAppType"):
            return False
        groups = (group for each in interface.named(*INTERFACES) for group in each.named("InputVars", "InOutVars"))
        return names.spelled(parameter.get("Name")).upper() in {names.spelled(it.get("Name")).upper() for group in groups for it in group.children}

    def _parameter(self, at: Element, instance: str, parameter: Element) -> Connection:
        """A connection in the place of a parameter of a subapplication."""
        given = f"{parameter.get('Name')} := {parameter.get('Value')}"
        words = f"{cut(at.get('Name'))}.{cut(given)} by a connection from {names.NO_SOURCE}: instances of subapplications have no parameters"
        self._context.replaced(at, words)
        port = self._context.own_name(parameter)
        return Connection(names.NO_SOURCE, f"{instance}.{port}", self._context.comment(parameter, given), parameter.line)


class Systems:
    """The applications, devices and mappings of a system."""

    def __init__(self, context: Context, root: Element, make: Make):
        self._context, self._root, self._make = context, root, make
        self._connections = lru_cache(None)(self._connections_of)
        self._instances = lru_cache(None)(self._instances_of)
        self._mapped = {it.get("To"): it.get("From") for it in root.named("Mapping")}

    def read(self, unit: Unit) -> None:
        context, root = self._context, self._root
        unit.applications = [self._application(unit, it) for it in root.named("Application")]
        unit.devices = [self._device(it) for it in root.named("Device")]
        unit.mappings = [self._mapping(it) for it in root.named("Mapping")]
        for it in root.named("Segment", "Link"):
            name = f"the segment {cut(it.get('Name'))}" if it.name == "Segment" else _link(it)
            context.part_left_out(it, name, root)
        for kind in ("Application", "Device"):
            context.clashes(f"{kind.lower()}s", [(it.get("Name"), it) for it in root.named(kind)])

    def _application(self, unit: Unit, at: Element) -> Application:
        context = self._context
        context.known(at, "Name Comment", " ".join(NETWORKS))
        found = Application(context.own_name(at), comment=context.comment(at), line=at.line)
        networks = Networks(context, f"{unit.name}__{found.name}", SUBAPPS, self._make)
        for it in at.named(*NETWORKS):
            networks.read(found.network, it, ())
        context.clashes("instances", [its for it in at.named(*NETWORKS) for its in network_instances(it)])
        return found

    def _device(self, at: Element) -> Device:
        self._context.known(at, "Name Type Comment", "Parameter Resource FBNetwork SubAppNetwork")
        found = Device(self._part("DEVICE", at))
        for it in at.named(*NETWORKS):
            self._left_out(it, f"the device {cut(at.get('Name'))}", "")
        found.resources = [self._resource(at, it) for it in at.named("Resource")]
        self._context.clashes("resources", [(it.get("Name"), it) for it in at.named("Resource")])
        return found

    def _part(self, section: str, at: Element) -> Instance:
        context = self._context
        name = context.own_name(at)
        return Instance(section, name, context.instance_type(at), parameters(context, at), context.comment(at), at.line)

    def _resource(self, device: Element, at: Element) -> Instance:
        self._context.known(at, "Name Type Comment", "Parameter FBNetwork SubAppNetwork")
        found = self._part("RESOURCE", at)
        home = f"{device.get('Name')}.{at.get('Name')}"
        for it in at.named(*NETWORKS):
            self._left_out(it, f"the resource {cut(home)}", home)
        return found

    def _left_out(self, network: Element, where: str, home: str) -> None:
        """Tells what the network of a resource or a device has beside what mappings say."""
        context = self._context
        context.known(network, "", f"FB SubApp {' '.join(_CONNECTIONS)}")
        for it in network.named("FB", "SubApp"):
            path = self._mapped.get(f"{home}.{it.get('Name')}") if home else None
            if path is None:
                context.part_left_out(it, f"the {'block' if it.name == 'FB' else 'subapplication'} {cut(it.get('Name'))} of {where}", network)
            else:
                self._compared(network, it, path, where)
        for group in network.named(*_CONNECTIONS):
            context.known(group, "", "Connection")
            for it in group.named("Connection"):
                self._connection(group, it, where, home)

    def _compared(self, network: Element, at: Element, path: str, where: str) -> None:
        """Tells where a block of a resource differs from the one that is mapped to it."""
        context, own = self._context, self._instance(path)
        is_untyped = not at.get("Type")
        context.known(at, "Name Type Comment", " ".join(["Parameter", *(INTERFACES + NETWORKS if is_untyped else ())]))
        name = cut(at.get("Name"))
        if own is None:
            context.part_left_out(at, f"{name} of {where}, which is mapped from {cut(path)}", network)
            return
        for attribute, words in (("Type", "has the type"), ("Comment", "has the comment")):
            if at.get(attribute) and at.get(attribute) != own.get(attribute):
                context.left_out(at, f"that {name} {words} {cut(at.get(attribute))} in {where}")
        given = {it.get("Name"): it.get("Value") for it in own.named("Parameter")}
        for it in at.named("Parameter"):
            context.known(it, "Name Value Comment")
            if it.get("Value") and given.get(it.get("Name")) != it.get("Value"):
                context.left_out(it, f"that {name}.{cut(it.get('Name'))} is {cut(it.get('Value'))} in {where}")

    def _connection(self, group: Element, at: Element, where: str, home: str) -> None:
        """Tells a connection of a resource, unless the application has it."""
        context = self._context
        (source, out), (destination, into) = (it.get(end).rpartition(".")[::2] for end in ("Source", "Destination") for it in (at,))
        context.known(at, "Source Destination Comment")
        paths = [self._mapped.get(f"{home}.{it}") for it in (source, destination)]
        words = f"the connection {cut(at.get('Source'))} -> {cut(at.get('Destination'))} of {where}"
        start = {"START.COLD": "--cold", "START.WARM": "--warm"}.get(at.get("Source").upper())
        if start and paths[1]:
            words += f"; boot takes it as {start} {cut(paths[1], 200)}.{cut(into)}"
        elif paths[0] and paths[1] and self._has(group.name, (paths[0], out), (paths[1], into)):
            return
        context.left_to_comments(at, words)
        context.keep(group, at)

    def _has(self, group: str, source: tuple[str, str], destination: tuple[str, str]) -> bool:
        """Whether the application has a connection of two blocks in one of its networks."""
        (parent, _, first), (other, _, second) = source[0].rpartition("."), destination[0].rpartition(".")
        return parent == other and (f"{first}.{source[1]}", f"{second}.{destination[1]}") in self._connections(parent, group)

    def _connections_of(self, path: str, group: str) -> set[tuple[str, str]]:
        """The connections of the network of an application, or of an instance in it."""
        its = (it for network in self._networks(path) for each in network.named(group) for it in each.named("Connection"))
        return {(it.get("Source"), it.get("Destination")) for it in its}

    def _networks(self, path: str) -> list[Element]:
        """The networks of an application, or of an instance in it."""
        application, _, inner = path.partition(".")
        if inner:
            owner = self._instance(path)
            roots = self._context.library.roots
            typed = roots.get(names.spelled(names.without_package(owner.get("Type"))[1]).upper()) if owner and owner.get("Type") else owner
            return typed.named(*NETWORKS) if typed else []
        return [it for each in self._root.named("Application") if each.get("Name") == application for it in each.named(*NETWORKS)]

    def _instance(self, path: str) -> Element | None:
        """The block or the subapplication at a path of an application."""
        parent, _, name = path.rpartition(".")
        return self._instances(parent).get(name) if parent and path.count(".") <= _DEEPEST else None

    def _instances_of(self, path: str) -> dict[str, Element]:
        """The instances of the network of an application, or of an instance in it, by their names."""
        its = [it for network in self._networks(path) for it in network_instances(network)]
        return dict(reversed(its))

    def _mapping(self, at: Element) -> Mapping:
        context = self._context
        context.known(at, "From To Comment")
        path = context.path(at, at.get("From").split("."))
        home = at.get("To").split(".")
        device, resource = context.path(at, (*home, "")[:2]).split(".")
        own, there = at.get("From").partition(".")[2], ".".join(home[2:])
        if there and there not in (own, at.get("From").rpartition(".")[2]):
            context.left_out(at, f"that {cut(at.get('From'))} is called {cut(there)} in its resource")
        return Mapping(path, device, resource, context.comment(at), at.line)


def _type_name(at: Element) -> str:
    """The type of an instance, as the files of a run are found by."""
    return names.spelled(names.without_package(at.get("Type"))[1]).upper()


def _outline(group: Element) -> Element:
    """A group with the names alone of the instances that it holds."""
    children = [_outline(it) if it.name == "Group" else _named(it) if it.name in ("FB", "SubApp") else it for it in group.children]
    return Element("Group", group.line, group.attributes, children, group.text, group.asides)


def _named(at: Element) -> Element:
    return Element(at.name, at.line, {"Name": at.get("Name")})


def _link(at: Element) -> str:
    return f"the link {cut(at.get('SegmentName'))} - {cut(at.get('CommResource'))}"
