"""Units from XML files of IEC 61499-2."""
from __future__ import annotations

from collections.abc import Iterator

from bench61499.exchange import names
from bench61499.exchange.context import KINDS, Context, has_unit
from bench61499.exchange.exchanged import SUBAPPS, Network, Unit, record
from bench61499.exchange.generic import Generic, unit_of
from bench61499.exchange.inouts import inouts_of
from bench61499.exchange.interfaces import RECORD_ELEMENTS, basic, interface, interface_clashes, records, service, variables
from bench61499.exchange.networks import INTERFACES, NETWORKS, Networks, Systems
from bench61499.exchange.report import NOTE, cut
from bench61499.exchange.untyped import RECORD
from bench61499.exchange.values import type_records
from bench61499.exchange.xmlfile import Document, Element, Unreadable

_WITHOUT_UNIT = {
    "DeviceType": "device type",
    "ResourceType": "resource type",
    "SegmentType": "segment type",
    "FunctionType": "function",
    "Function": "function",
    "FCType": "function",
    "GlobalConstants": "list of global constants",
    "AttributeDeclaration": "attribute type",
    "AttributeType": "attribute type",
}
"""The roots of files that have no unit: the workbench looks none of these up."""
_BY_ENDING = {".dev": "DeviceType", ".res": "ResourceType", ".seg": "SegmentType", ".fct": "FunctionType", ".gcf": "GlobalConstants", ".atp": "AttributeType"}
"""What a file is whose root is not known: versions of 4diac differ in these."""
_DATA = "InterfaceList SubAppInterfaceList Service"
_CHILDREN = {
    "FUNCTION_BLOCK": f"{_DATA} BasicFB SimpleFB FBNetwork SubAppNetwork",
    "ADAPTER": _DATA,
    "SUBAPPLICATION": f"{_DATA} FBNetwork SubAppNetwork",
    "SYSTEM": "Application Device Mapping Segment Link",
    "TYPE": "StructuredType",
}


def check_root(document: Document) -> None:
    """Raises `Unreadable` for a file that is no type or system."""
    root = document.root
    if root.name not in KINDS and not _without_unit(document):
        raise Unreadable(f"{document.file}:{root.line}: is no type or system of IEC 61499: its root is {cut(root.name)}")


def _without_unit(document: Document) -> str:
    """What a file is that has no unit; empty if it is none of these."""
    root = document.root
    name = "FunctionType" if root.name == "FBType" and root.named("FunctionBody") else root.name
    ending = _BY_ENDING.get(document.file.suffix.lower(), "") if name not in KINDS else ""
    return _WITHOUT_UNIT.get(name, "") or _WITHOUT_UNIT.get(ending, "")


def units(document: Document, context: Context) -> list[Unit]:
    """The unit of a file, and those of its subapplications without types."""
    return _Making(context).made(document)


class _Making:
    """Makes the units of a file: its own, and then one for each subapplication without a type, which are known by their elements and names."""

    def __init__(self, context: Context):
        self._context = context
        self._untyped: list[tuple[Element, str, dict[str, str]]] = []

    def made(self, document: Document) -> list[Unit]:
        root, context = document.root, self._context
        if not has_unit(root):
            what = _without_unit(document)
            context.part_left_out(root, f"the {what} {cut(root.get('Name'))}: the workbench looks none up" if what else _data_type_without_unit(root))
            return []
        made = [self._own_unit(KINDS[root.name], document), *self._other_units()]
        return [*made, *(unit_of(context.library, Generic(*it)) for it in context.generics.values())]

    def _own_unit(self, kind: str, document: Document) -> Unit:
        root, context = document.root, self._context
        context.begin(root)
        lines = [(line, "\n".join(it.strip() for it in words.splitlines())) for line, words in document.comments]
        structures = [context.comment(it) for it in root.named("StructuredType")]
        own = "\n".join(filter(None, [context.comment(root), *structures]))
        unit = Unit(kind, context.own_name(root), root.line, [it for it in (*(context.comment_of(*each) for each in lines), own) if it])
        self._read(unit, root)
        context.known(root, "Name Comment", f"{RECORD_ELEMENTS} {_CHILDREN[kind]}")
        unit.services = [service(context, it) for it in root.named("Service")] if kind not in ("SYSTEM", "TYPE") else []
        unit.records = [*records(context, root), *unit.records]
        self._keep(unit)
        return unit

    def _keep(self, unit: Unit) -> None:
        """Adds what comments keep of a unit that was read."""
        unit.records += [record("Package", {"type": name, "package": package}) for name, package in self._context.packages.items()]
        unit.records += type_records(self._context.types)
        unit.records += self._context.kept.records()

    def _other_units(self) -> Iterator[Unit]:
        """Those of subapplications without types; what is made may have further ones in it."""
        context = self._context
        for at, name, recorded in self._untyped:
            own, context.records = at.get("Name"), recorded
            context.begin(at)
            context.report.tell(NOTE, at.line, f"the subapplication {cut(own)} has no type and became the unit {name}")
            unit = Unit("SUBAPPLICATION", name, at.line, [context.comment_of(at.line, f"The subapplication {own} without a type.")])
            self._read(unit, at)
            self._keep(unit)
            unit.records.append(record(RECORD, {"name": own}))
            yield unit

    def _read(self, unit: Unit, root: Element) -> None:
        self._read_parts(unit, root)
        unit.records += [record("Name", {"text": text, "file": file}) for text, file in self._context.records.items()]

    def _read_parts(self, unit: Unit, root: Element) -> None:
        context = self._context
        for it in root.named("StructuredType") if unit.kind == "TYPE" else ():
            unit.variables["STRUCT"] += variables(context, it)
            context.clashes("fields", [(each.get("Name"), each) for each in it.children])
        if unit.kind == "SYSTEM":
            Systems(context, root, self._make).read(unit)
        if unit.kind in ("SYSTEM", "TYPE"):
            return
        for it in root.named(*INTERFACES):
            interface(context, unit, it)
        for it in root.named("BasicFB", "SimpleFB") if unit.kind == "FUNCTION_BLOCK" else ():
            basic(context, unit, it)
        networks = root.named(*NETWORKS) if unit.kind != "ADAPTER" else []
        self._networks(unit, root, networks)
        interface_clashes(context, root, root.named(*INTERFACES), networks)

    def _networks(self, unit: Unit, root: Element, networks: list[Element]) -> None:
        section = "FBS" if unit.kind == "FUNCTION_BLOCK" else SUBAPPS
        reading = Networks(self._context, unit.name, section, self._make, inouts_of(root))
        ports = {names.spelled(it) for it in _ports(root) if it}
        for it in networks:
            unit.network = unit.network or Network()
            reading.read(unit.network, it, ports)

    def _make(self, at: Element, name: str) -> None:
        """Has a unit made of a subapplication without a type."""
        recorded = self._context.records
        self._untyped.append((at, name, {name: recorded[name]} if name in recorded else {}))


def _data_type_without_unit(root: Element) -> str:
    """What is told of a data type that is no structure, with what it is."""
    kinds = ", ".join(dict.fromkeys(it.name for it in root.children if it.name not in RECORD_ELEMENTS.split()))
    return f"the data type {cut(root.get('Name'))}: it is no structure, and no other has a unit" + (f" ({cut(kinds)})" if kinds else "")


def _ports(root: Element) -> Iterator[str]:
    """The names of events, variables, plugs and sockets of a type, as the file has them."""
    groups = (group for it in root.named(*INTERFACES) for group in it.children)
    return (it.get("Name") for group in groups for it in group.children)
