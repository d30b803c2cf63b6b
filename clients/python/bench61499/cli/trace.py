"""Prints what feeds an input, or where an output leads, through all subapplications and adapters, with the resource of each block and the cut links."""
from __future__ import annotations

import argparse
import json
from collections.abc import Iterator
from dataclasses import asdict

from bench61499 import Faulty, Flat, Key, Net, Stopped, WorkbenchError
from bench61499.cli.asking import Asked, asking
from bench61499.cli.command import fail, program, read_with_units, tell
from bench61499.cli.draw import NoPicture, why_no_key, why_no_net
from bench61499.cli.version import add_version
from bench61499.language.as_declared import AsDeclared
from bench61499.language.names import shown
from bench61499.language.texts import Texts
from bench61499.language.units import Misuse
from bench61499.language.wording import counted
from bench61499.tracing import End, Hop, NoSuchEnd, Step, Tracing, Way

BACK, FORTH = "is fed by", "leads to"


@program
def main() -> int:
    options = read_options()
    try:
        with asking(options, options.replace) as asked:
            tracing, names = traced(asked, options.unit), asked.names(options.unit)
            end = tracing.end(options.end)
        ways = ways_of(tracing, end, options.steps)
        for line in [as_json(options.unit, tracing, end, ways)] if options.json else lines(tracing, end, ways, names):
            print(line if options.json else shown(line))
    except (NoPicture, NoSuchEnd) as error:
        tell(f"trace: {error}")
        return 1
    except (Misuse, WorkbenchError) as error:
        return fail("trace", error)
    return 0


def read_options() -> argparse.Namespace:
    reader = argparse.ArgumentParser(
        prog="trace",
        description="Prints what feeds an input, and what feeds that, or where an output leads, through all subapplications and adapters: each block with its resource, and the "
        "links, those between resources as cut, with names as they are declared. The network and the plan are those of the workbench; a block counts as fed by all its inputs. In "
        "JSON names are in capitals, as the workbench tells them.",
        epilog="The status is 0 if it has printed the ways, even if there is nothing on them; 1 if the unit has no network or no such end; 2 if it could not ask, the network has more than 200,000 blocks and links, or with --connect "
        "and --files the network rests on another text than that of a file.",
    )
    add_version(reader)
    reader.add_argument("unit", type=str.upper, metavar="SYSTEM", help="a system or a subapplication")
    reader.add_argument("end", metavar="A.B.IN", help="an input or an output of a block, a plug, a socket or a subapplication, by its path; a plug, a socket or a block for all its ports")
    reader.add_argument("--steps", type=read_steps, default=0, metavar="N", help="only the blocks that are N links away, at most")
    reader.add_argument("--json", action="store_true", help="print one JSON object: unit, end, block, type, resource, constant, and of fed_by and leads_to the steps (number, path, type, resource, again, links) and whole")
    return read_with_units(reader)


def read_steps(words: str) -> int:
    if not words.isdecimal() or not int(words):
        raise argparse.ArgumentTypeError(f"{words!r} is no number of steps")
    return int(words)


def traced(asked: Asked, unit: str) -> Tracing:
    """The network of a unit, with what is known of its plan. Raises `NoPicture` if it has none."""
    net_key: Key = "net", unit
    deploy_key: Key = "deploy", unit
    values = asked.values([net_key, deploy_key])
    net, deploy = values.get(net_key), values.get(deploy_key)
    if not net:
        raise NoPicture(why_no_key(asked, unit))
    if not isinstance(net, Flat):
        raise NoPicture(why_no_net(asked, unit, net))
    if isinstance(deploy, (Faulty, Stopped)):
        tell(f"trace: {asked.shown(unit)} has no plan, so resources and cuts are not known")

    def net_of(inner: str) -> Net | None:
        key: Key = "net", inner
        its: Net | None = asked.values([key]).get(key)
        return its

    return Tracing(unit, net, deploy, Texts.of(asked.texts).unit, net_of)


def ways_of(tracing: Tracing, end: End, steps: int) -> dict[str, Way]:
    """The ways that an end has: an input one back, an output one forth, and what has both sorts of ports both."""
    both = not end.into and not end.out
    ways = {BACK: tracing.back(end, steps)} if end.into or both else {}
    return ways | ({FORTH: tracing.forth(end, steps)} if end.out or both else {})


def lines(tracing: Tracing, end: End, ways: dict[str, Way], names: AsDeclared) -> Iterator[str]:
    """The ways, with names as they are declared."""
    if not end.block and (inner := [names.place(sort, place) for sort, place in (*end.into, *end.out) if place != end.path]):
        yield f"{names.end(end.path)} stands for {', '.join(dict.fromkeys(inner))}"
    for verb, way in ways.items():
        yield f"{named(tracing, end, names)} {verb}{'' if way.steps else ' nothing'}{f'; its parameter is {end.constant}' if end.constant else ''}"
        yield from (line for step in way.steps for line in step_lines(step, names))
        yield from summary(way) if way.steps else ()


def named(tracing: Tracing, end: End, names: AsDeclared) -> str:
    of = f" of {names.type(tracing.type(end.block))}" if end.block and end.path != end.block else ""
    return f"{names.end(end.path)}{of}{on(tracing.resource(end.block), names)}"


def on(resource: str, names: AsDeclared) -> str:
    return f" on {names.resource(resource)}" if resource else ""


def step_lines(step: Step, names: AsDeclared) -> Iterator[str]:
    what = f" : {names.type(step.type)}{on(step.resource, names)}" if step.type else ", an own port"
    yield f"{step.number:>3} {names.end(step.path)}{what}{', as above' if step.is_again else ''}"
    for link, cut in ((names.link(it.link), ", cut" if it.is_cut else "") for it in step.hops):
        yield f"      {link.sort} {link.source} -> {link.destination}{cut}"


def summary(way: Way) -> Iterator[str]:
    its = {it.path: it.resource for it in way.steps if it.type}
    resources = {it for it in its.values() if it}
    cuts = sum(hop.is_cut for hop in way.hops)
    told = [counted(len(its), "block"), *([f"{counted(len(resources), 'resource')}, {counted(cuts, 'cut link')}"] if resources else [])]
    yield f"{' on '.join(told)}{'' if way.is_whole else '; there are more: give more --steps'}"


def as_json(unit: str, tracing: Tracing, end: End, ways: dict[str, Way]) -> str:
    names = {BACK: "fed_by", FORTH: "leads_to"}
    whole = {"unit": unit, "end": end.path, "block": end.block, "type": tracing.type(end.block), "resource": tracing.resource(end.block), "constant": end.constant}
    return json.dumps({**whole, **{names[verb]: {"whole": way.is_whole, "steps": [step_json(it) for it in way.steps]} for verb, way in ways.items()}}, indent=2)


def step_json(it: Step) -> dict[str, object]:
    front = {"number": it.number, "path": it.path, "type": it.type, "resource": it.resource, "again": it.is_again}
    return {**front, "links": [link_json(hop) for hop in it.hops]}


def link_json(it: Hop) -> dict[str, object]:
    return {**asdict(it.link), "cut": it.is_cut, "border": it.is_border}
