"""Draws the flat network of a subapplication or a system as Graphviz text or as an SVG picture."""
from __future__ import annotations

import argparse
import subprocess
from collections.abc import Iterator
from itertools import zip_longest
from pathlib import Path

from bench61499 import (
    Blocked, Border, Deploy, Faulty, Flat, Key, Net, Plan, Recursive, TooLarge, WorkbenchError,
)
from bench61499.cli.asking import Asked, Texts, asking
from bench61499.cli.command import fail, program, read_with_units, tell
from bench61499.cli.version import add_version
from bench61499.language.as_declared import AsDeclared, shown_units
from bench61499.language.explain import KIND_NAMES
from bench61499.language.network import Box, End, Network, Port, Tag, Wire, homes
from bench61499.language.plans import why_blocked
from bench61499.language.texts import Texts as Known
from bench61499.language.tokens import declared_kind
from bench61499.language.units import Misuse

RED, BLUE, GREY = "#c62828", "#1565c0", "#616161"
COLOURS = {"event": RED, "data": BLUE, "adapter": GREY}
LARGE = 200
"""Blocks of a network that Graphviz lays out in limited time; else 512 blocks take it most of a minute."""
LIMITS = ", nslimit=0.5, mclimit=0.3, splines=line"
WITHOUT_NETWORK = ("FUNCTION_BLOCK", "ADAPTER", "TYPE")


class NoPicture(Exception):
    """The unit has no network; the text tells why."""


@program
def main() -> int:
    options = read_options()
    try:
        texts, net, deploy = ask(options)
        picture = "\n".join(Picture(options.unit, texts, net, deploy).lines()) + "\n"
        if options.svg:
            write_svg(picture, options.svg)
        else:
            print(picture, end="")
    except NoPicture as error:
        tell(*f"draw: {error}".split("\n"))
        return 1
    except (Misuse, WorkbenchError) as error:
        return fail("draw", error)
    return 0


def read_options() -> argparse.Namespace:
    reader = argparse.ArgumentParser(
        prog="draw",
        description="Draws the flat network of a subapplication or a system: event links red, data links blue; the blocks of a system "
        "by their resources, and links from one resource to another dashed.",
        epilog="The status is 0 if it has drawn, 1 if the unit has no network, 2 if it could not ask or draw, the network has more than 200,000 blocks and links, or with --connect and --files the network rests on another text "
        "than that of a file.",
    )
    add_version(reader)
    reader.add_argument("unit", type=str.upper, metavar="UNIT", help="a subapplication or a system")
    reader.add_argument("--svg", type=Path, metavar="FILE", help="write an SVG picture, with Graphviz, instead of printing the text for Graphviz")
    return read_with_units(reader)


def ask(options: argparse.Namespace) -> tuple[Texts, Flat, Deploy | None]:
    """The texts that are known, the network, and of a system the plan. Raises `NoPicture`."""
    net_key: Key = "net", options.unit
    deploy_key: Key = "deploy", options.unit
    with asking(options, options.replace) as asked:
        values = asked.values([net_key, deploy_key])
        net = values.get(net_key)
        if not net:
            raise NoPicture(why_no_key(asked, options.unit))
        if not isinstance(net, Flat):
            raise NoPicture(why_no_net(asked, options.unit, net))
        return asked.texts, net, values.get(deploy_key)


def why_no_key(asked: Asked, unit: str) -> str:
    kind = declared_kind(asked.texts.get(unit, ""))
    if kind in WITHOUT_NETWORK:
        return f"{asked.shown(unit)} is {KIND_NAMES[kind]}; only subapplications and systems have networks"
    if asked.is_broken(unit):
        return f"{asked.shown(unit)} has no network, as its text has a SYNTAX fault; check shows it"
    return f"the workbench has no subapplication or system {unit}"


def why_no_net(asked: Asked, unit: str, net: Net) -> str:
    match net:
        case Blocked(units):
            absent = [it for it in units if not asked.is_there(it)]
            faulty = shown_units(asked.texts, (it for it in units if it not in absent))
            return f"{asked.shown(unit)} has no network: {why_blocked(absent, faulty)}"
        case Recursive(units):
            return f"{asked.shown(unit)} has no network: these types contain themselves: {asked.shown(*units)}"
        case TooLarge():
            return f"{asked.shown(unit)} has no network: it has more than 4,096 instances"
    raise AssertionError(net)


def write_svg(picture: str, file: Path) -> None:
    try:
        subprocess.run(["dot", "-Tsvg", "-o", str(file)], input=picture, text=True, check=True)
    except FileNotFoundError:
        raise Misuse("there is no program dot here; install Graphviz, or leave out --svg") from None
    except subprocess.CalledProcessError:
        raise Misuse(f"dot could not write {file}") from None


class Picture:
    """A network as Graphviz text."""

    def __init__(self, unit: str, texts: Texts, net: Flat, deploy: Deploy | None):
        self._unit = unit
        self._network, self._names = Network(unit, texts, net), AsDeclared(Known.of(texts), unit)
        self._plan = deploy if isinstance(deploy, Plan) else None
        self._faulty = deploy if isinstance(deploy, Faulty) else None
        self._cuts = frozenset(self._plan.cuts) if self._plan else frozenset()

    def lines(self) -> Iterator[str]:
        yield f'digraph "{self._unit}" {{'
        limits = LIMITS if len(self._network.boxes) > LARGE else ""
        yield f"  graph [rankdir=LR, nodesep=0.35, ranksep=1.1, fontname=Helvetica, fontsize=12, label={self._title()}, labelloc=t{limits}];"
        yield "  node [shape=plain, fontname=Helvetica, fontsize=11];"
        yield "  edge [fontname=Helvetica, fontsize=9, arrowsize=0.7];"
        yield from self._places()
        yield from self._borders()
        yield from map(self._wire, self._network.wires)
        yield "}"

    def _title(self) -> str:
        if not self._faulty:
            return f"<<B>{self._names.type(self._unit)}</B>>"
        unmapped = sum(it.reason == "UNMAPPED" for it in self._faulty.misplaced)
        wrong = len(self._faulty.misplaced) - unmapped
        blocks = counted(unmapped, "block is not mapped", "blocks are not mapped")
        mappings = counted(wrong, "mapping names no block", "mappings name no block")
        return f"<<B>{self._names.type(self._unit)}</B><BR/>not deployed: {blocks}, {mappings}>"

    def _wire(self, wire: Wire) -> str:
        source, destination = wire.source, wire.destination
        style = {"color": f'"{COLOURS[wire.link.sort]}"'}
        if wire.inner:
            place = wire.link.source if wire.source.inner else wire.link.destination
            style |= {"label": f'"{self._names.place(wire.link.sort, place).rpartition(".")[2]}"', "fontcolor": style["color"]}
        if wire.link in self._cuts:
            style["style"] = "dashed"
        if wire.is_backward:
            source, destination = destination, source
            style["dir"] = "back"
        return edge(graphviz(source), graphviz(destination), style)

    def _places(self) -> Iterator[str]:
        """The blocks, those of a system by their resources."""
        boxes, placed = self._network.boxes, homes(self._plan)
        for resource in self._plan.resources if self._plan else ():
            yield f'  subgraph "cluster {resource.name}" {{'
            yield f'    label="{self._names.resource(resource.name)}"; style="rounded,filled"; color="#b0bec5"; fillcolor="#f5f7f8";'
            yield from (f"    {self._node(boxes[path])}" for path, home in placed.items() if home == resource.name)
            yield "  }"
        yield from (f"  {self._node(box)}" for path, box in boxes.items() if path not in placed)

    def _node(self, box: Box) -> str:
        """A block as a table: its path and type, then its ports."""
        names, block = self._names, box.block
        head = f'<TR><TD COLSPAN="2" BGCOLOR="#eceff1"><B>{names.path(block.path)}</B><BR/><I>{names.type(block.type)}</I></TD></TR>'
        sides = ((cell("LEFT", left, names, block.type), cell("RIGHT", right, names, block.type)) for sort in COLOURS for left, right in zip_longest(of(box.left, sort), of(box.right, sort)))
        rows = "".join(f"<TR>{left}{right}</TR>" for left, right in sides)
        table = f'<TABLE BORDER="1" CELLBORDER="0" CELLSPACING="0" CELLPADDING="4" BGCOLOR="white">{head}{rows}</TABLE>'
        return f'"{block.path}" [label=<{table}>];'

    def _borders(self) -> Iterator[str]:
        """The own ports of a subapplication: on the left what comes in, on the right what goes out."""
        for left, rank in ((True, "source"), (False, "sink")):
            side = [border_node(tag.border, self._names) for tag in self._network.tags if tag.left == left]
            if side:
                yield f"  {{ rank={rank}; {' '.join(dict.fromkeys(side))} }}"
        yield from map(self._border_edge, self._network.tags)

    def _border_edge(self, tag: Tag) -> str:
        inside, outside = graphviz(tag.inside), f'"{tag.border.sort} {tag.border.port}"'
        style = {"color": f'"{COLOURS[tag.border.sort]}"'}
        if tag.border.sort == "adapter" or not self._network.own:
            style["dir"] = "none"
        return edge(outside, inside, style) if tag.left else edge(inside, outside, style)


def graphviz(end: End) -> str:
    """The end of an edge at a port."""
    return f'"{end.box.block.path}":"{end.port.sort} {end.port.name}":{"w" if end.is_left else "e"}'


def counted(number: int, one: str, many: str) -> str:
    return f"{number} {one if number == 1 else many}"


def edge(source: str, destination: str, style: dict[str, str]) -> str:
    return f"  {source} -> {destination} [{', '.join(f'{name}={value}' for name, value in style.items())}];"


def of(side: list[Port], sort: str) -> list[Port]:
    return [port for port in side if port.sort == sort]


def cell(side: str, port: Port | None, names: AsDeclared, type_: str) -> str:
    """A port of a block of a type."""
    if not port:
        return "<TD></TD>"
    shown = names.port_of(type_, port.sort, port.name)
    if port.sort == "adapter":
        shown = f"<B>&raquo; {shown}</B>" if side == "LEFT" else f"<B>{shown} &raquo;</B>"
    return f'<TD PORT="{port.sort} {port.name}" ALIGN="{side}"><FONT COLOR="{COLOURS[port.sort]}">{shown}</FONT></TD>'


def border_node(border: Border, names: AsDeclared) -> str:
    colour = COLOURS[border.sort]
    return f'"{border.sort} {border.port}" [shape=cds, label="{names.own_port(border.sort, border.port)}", color="{colour}", fontcolor="{colour}"];'
