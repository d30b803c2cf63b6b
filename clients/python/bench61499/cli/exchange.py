"""Exchanges units with other tools: XML of IEC 61499-2 becomes texts, texts become XML, and plans become boot files of FORTE."""
from __future__ import annotations

import argparse
from collections.abc import Callable
from functools import partial

from bench61499 import Deploy, Net, WorkbenchError
from bench61499.cli.asking import Asked, asking
from bench61499.cli.command import add_patience, add_workbench, program, read_path, tell
from bench61499.cli.plan import NoPlan, deploy_of, plan_in
from bench61499.cli.version import add_version
from bench61499.exchange.boot import KINDS_OF_START, Boot, Refused, another_text, find_start
from bench61499.exchange.exports import Export
from bench61499.exchange.folders import Target, Unwritable
from bench61499.exchange.from_text import read_or_none
from bench61499.exchange.imports import Import
from bench61499.exchange.outgoing import TOOLS
from bench61499.exchange.report import Run, counted
from bench61499.exchange.spellings import Spellings
from bench61499.language.names import shown
from bench61499.language.units import Misuse, read_units

NOT_WRITTEN = "2 if a file could not be read or a unit not be written: standard error names it, and all others are written."


@program
def main() -> int:
    options = read_options()
    work: Callable[[argparse.Namespace], int] = options.work
    return work(options)


def read_options() -> argparse.Namespace:
    reader = argparse.ArgumentParser(prog="exchange", description="Exchanges units with other tools for IEC 61499.")
    add_version(reader)
    works = reader.add_subparsers(metavar="WORK", required=True)
    _add_import(works)
    _add_export(works)
    _add_boot(works)
    return reader.parse_args()


def _add_import(works: argparse._SubParsersAction[argparse.ArgumentParser]) -> None:
    reader = works.add_parser(
        "import",
        help="make texts of units of XML files",
        description="Makes texts of units of XML files of IEC 61499-2, one for each type and system.",
        epilog=f"The status is 0 if nothing is lost, 1 if something is left out, replaced, not checked or has one name with another thing, {NOT_WRITTEN}",
    )
    _add_paths(reader, "XML files, or folders, which are searched with their inner ones for .fbt .adp .sub .sys .dtp and the other endings of IEC 61499-2")
    reader.set_defaults(work=import_)


def _add_export(works: argparse._SubParsersAction[argparse.ArgumentParser]) -> None:
    reader = works.add_parser(
        "export",
        help="make XML files of texts",
        description="Makes an XML file of IEC 61499-2 of each unit.",
        epilog=f"The status is 0 if nothing is lost, 1 if something is left out or replaced, {NOT_WRITTEN}",
    )
    _add_paths(reader, "texts of units, or folders, which are searched with their inner ones for *.fb")
    tool = "for 4diac 2 and 3 (the default), for 4diac 1, or for FBDK, with its DOCTYPE, and subapplications before blocks"
    reader.add_argument("--for", dest="tool", choices=TOOLS, default=TOOLS[0], help=tool)
    reader.set_defaults(work=export)


def _add_boot(works: argparse._SubParsersAction[argparse.ArgumentParser]) -> None:
    reader = works.add_parser(
        "boot",
        help="make boot files of FORTE of a system",
        description="Makes a boot file of FORTE for each device of a system, from its plan.",
        epilog="The status is 0 if no link is cut, 1 if links are left to be joined or the system has no plan, 2 if it could not ask or write, the plan rests on another text "
        "than that of a file, or two blocks would have one name.",
    )
    reader.add_argument("unit", type=str.upper, metavar="SYSTEM", help="a system")
    reader.add_argument("--files", required=True, nargs="+", type=read_path, metavar="FOLDER|FILE", help="the units; without --connect a workbench of its own gets them, with it they are compared with the texts of the server")
    _add_target(reader)
    for kind in KINDS_OF_START:
        words = f"connect START.{kind} of the resource with this event input, such as LINE.FIRST.START; may be repeated"
        reader.add_argument(f"--{kind.lower()}", dest="starts", action="append", default=[], type=partial(_start, kind), metavar="END", help=words)
    reader.add_argument("--applications", action="store_true", help="keep the application's name before that of a block; without it, as in 4diac, two blocks of a resource with one name are refused")
    reader.add_argument("--plain-types", action="store_true", help="write types without packages, for a FORTE before 3.0")
    add_workbench(reader)
    add_patience(reader)
    reader.set_defaults(work=boot)


def _start(kind: str, end: str) -> tuple[str, str]:
    return kind, end


def _add_paths(reader: argparse.ArgumentParser, what: str) -> None:
    reader.add_argument("paths", nargs="+", type=read_path, metavar="FILE|FOLDER", help=what)
    _add_target(reader)


def _add_target(reader: argparse.ArgumentParser) -> None:
    reader.add_argument("--to", required=True, type=read_path, metavar="FOLDER", help="the folder for all files that are made")
    reader.add_argument("--replace", action="store_true", help="write over files with another content, which are otherwise named and kept; a text with the same tokens stays as it is")
    reader.add_argument("--quiet", action="store_true", help="print neither notes nor the last line")


def import_(options: argparse.Namespace) -> int:
    return told(Import(options.paths, Target(options.to, options.replace), complain), options.quiet)


def export(options: argparse.Namespace) -> int:
    return told(Export(options.paths, Target(options.to, options.replace), options.tool, complain), options.quiet)


def told(work: Run, quiet: bool) -> int:
    for line in work.lines(quiet):
        print(shown(line))
    return work.status


def boot(options: argparse.Namespace) -> int:
    try:
        made = boot_of(options)
        target = Target(options.to, options.replace)
        for name, text in made.files.items():
            target.write(name, text)
    except NoPlan as error:
        tell(*f"exchange: {error}".split("\n"))
        return 1
    except (Misuse, Refused, Unwritable, WorkbenchError) as error:
        complain(str(error))
        return 2
    for line in made.lines():
        print(shown(line))
    if not options.quiet:
        print(shown(f"{counted(len(made.files), 'boot file')} in {options.to}: {made.outcome}"))
    return 0 if made.is_complete else 1


def boot_of(options: argparse.Namespace) -> Boot:
    """The boot files of the plan. Raises `NoPlan`, `Misuse` and `Refused`."""
    types = {it.name.upper(): it for unit in read_units(options.files) if (it := read_or_none(unit.text))}
    system = types.get(options.unit)
    spellings = Spellings(system, types, options.plain_types) if system and system.kind == "SYSTEM" else None
    with asking(options, False) as asked:
        starts = [find_start(kind, end, spellings) for kind, end in dict.fromkeys(options.starts) if spellings]
        subapplications = sorted({it.type for it in starts if types[it.type].kind == "SUBAPPLICATION"})  # Where these starts lead is in their networks.
        nets, deploy = values_for(asked, options.unit, subapplications)
    if not spellings or options.connect and (nets, deploy) != values_of_files(options, subapplications):  # The file's text has a SYNTAX fault, or is another one.
        raise another_text(options.unit)
    return Boot(plan_in(asked, options.unit, deploy), spellings, starts, nets, options.applications)


def values_for(asked: Asked, unit: str, subapplications: list[str]) -> tuple[dict[str, Net], Deploy]:
    """The networks of subapplications, and what is known of the plan of a system."""
    nets = {its: net for (_, its), net in asked.values([("net", its) for its in subapplications]).items()}
    return nets, deploy_of(asked, unit)


def values_of_files(options: argparse.Namespace, subapplications: list[str]) -> tuple[dict[str, Net], Deploy]:
    """The same of a workbench of its own. A false server may have these texts and another plan."""
    with asking(argparse.Namespace(unit=options.unit, files=options.files, connect=None, program=None, memory_limit=options.memory_limit), False) as asked:
        return values_for(asked, options.unit, subapplications)


def complain(words: str) -> None:
    tell(f"exchange: {words}")


