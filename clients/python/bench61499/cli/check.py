"""Checks texts of IEC 61499 units and prints their faults as compilers do."""
from __future__ import annotations

import argparse
from collections.abc import Container, Iterable, Iterator, Mapping
from dataclasses import dataclass, field
from pathlib import Path

from bench61499 import Fault, Key, Session, WorkbenchError
from bench61499.cli.command import Progress, add_patience, add_workbench, fail, open_session, persistently, program, read_path, tell
from bench61499.cli.comparing import AGAIN, Difference, Judged, compare, lent, mentioned, not_compared, only_there, remarks, replace
from bench61499.cli.findings import Answers, Found, answers_of, find, keys_of, try_plans
from bench61499.cli.formats import MACHINE_FORMATS, lines, summary
from bench61499.cli.looking import ONLY_ASKED, look
from bench61499.cli.version import add_version
from bench61499.language.units import Misuse, Unit, commit_units, read_units, refuse_marked
from bench61499.snapshot import Snapshot
from bench61499.sync.store import last_common

PLANS = """also compute all networks and plans. Each reason why one is missing is printed and gives status 1: UNMAPPED at the instance, NO_SUCH_BLOCK at the mapping, RECURSIVE at the
instance by which a type contains itself or leads to such a type, BLOCKED at the instance that leads to units that are absent or have faults, TOO_LARGE at the declared name.
A unit that only its own faults block gets no further line"""
REPLACE = """with --connect: put the files first that differ; they replace the server's texts, even what a colleague has not saved yet. None is put if one
has the marked lines of a merge"""

STRICT = """warnings of this client give status 1 too: types of values that are nowhere, and names in algorithms IN ST_FULL, which the workbench does not read"""


@dataclass
class Checked:
    """The faults of units by their names, networks and plans if they are asked for, and whose texts were judged: `around` has all of a workbench.

    `lent` are the units on which replaced ones rest and that no file has. `replaced` counts the units that a workbench had before; `failed` tells why there are no networks and plans although they were asked for.
    """

    units: list[Unit]
    faults: Mapping[str, tuple[Fault, ...]]
    answers: Answers | None = None
    judged: Judged = Judged.FILES
    differences: list[Difference] = field(default_factory=list)
    around: dict[str, str] | None = None
    lent: list[str] = field(default_factory=list)
    replaced: int = 0
    failed: str = ""

    def found(self) -> Found:
        found = find(self.units, self.faults, self.answers, self.around)
        found.judged = Judged.FILES_AND_WORKBENCH if self.judged == Judged.FILES and self.lent else self.judged
        found.differences, found.lent, found.failed = self.differences, self.lent, self.failed
        return found


XML = "check a project of XML, as Eclipse 4diac and FBDK have it, in place: PATH are its files or folders, and places are lines and elements of these"


@program
def main() -> int:
    options = read_options()
    try:
        if options.xml:
            return print_project(options)
        units = read_units(options.path)
        if not units and options.path:
            raise Misuse(f"no *.fb files in {', '.join(map(str, options.path))}")
        if options.replace:
            refuse_marked(units)
        checked = persistently(options, lambda: check(options, units))
    except (Misuse, WorkbenchError) as error:
        return fail("check", error)
    found = checked.found()
    found.is_strict = options.strict
    for line in output(found, options, checked.replaced):
        print(line)
    is_told = options.format == "human" and not options.quiet
    asked = [ONLY_ASKED] if found.judged == Judged.NOT_COMPARED and not is_told else []
    for remark in [*remarks(found.differences, bool(options.path)), *asked, *filter(None, [found.lending, found.failed])]:
        tell(f"check: {remark}")
    return 2 if found.unchecked or found.failed else int(found.is_faulty)


def print_project(options: argparse.Namespace) -> int:
    """Checks files of XML. Only then what reads them is loaded, which takes as long as all else."""
    from bench61499.cli.check_xml import check_project

    found, failed = check_project(options)
    found.is_strict = options.strict
    for line in output(found, options, 0):
        print(line)
    if found.failed:
        tell(f"check: {found.failed}")
    return 2 if failed or found.failed else int(found.is_faulty)


def read_options() -> argparse.Namespace:
    reader = argparse.ArgumentParser(
        prog="check",
        description="Checks texts of IEC 61499 units. Each *.fb file is one unit, named by its declaration. With --connect it compares the files with the texts of the server, "
        "checks those that are the same, names the others, and changes nothing; without PATH it checks all units of the server, as files NAME.fb.",
        epilog="The status is 0 if there are no faults; 1 if there are, or warnings with --strict; 2 if a path is absent or unreadable, there is no *.fb file or more than 16,384, two files "
        "declare one unit, a file has more than 65,536 bytes, is not UTF-8, or has marked lines of a merge with --replace, the server lacks a unit, has another text of it or gives none back, somebody changed one meanwhile, "
        "no workbench answers, a result does not come within the patience, the memory of the workbench does not suffice, or the output can't be written.",
    )
    add_version(reader)
    reader.add_argument("path", nargs="*", type=read_path, metavar="FOLDER|FILE", help="*.fb files, or folders of them; with --xml files of XML, or folders")
    reader.add_argument("--plans", action="store_true", help=PLANS)
    reader.add_argument("--xml", action="store_true", help=XML)
    add_workbench(reader)
    add_patience(reader)
    reader.add_argument("--replace", action="store_true", help=REPLACE)
    reader.add_argument("--trust-server", action="store_true", help="with --connect to a `serve`, which gives no texts back: take its texts for those of the files")
    reader.add_argument("--mirror", action="store_true", help="with --replace and folders: remove the server's units that no file has")
    reader.add_argument("--list-unchecked", action="store_true", help="print the algorithms that the workbench does not read, such as those IN ST_FULL, as notes; other forms than human always have them")
    reader.add_argument("--strict", action="store_true", help=STRICT)
    form = reader.add_mutually_exclusive_group()
    form.add_argument("--format", choices=["human", *MACHINE_FORMATS], default="human", help="human (the default), or a form for programs")
    form.add_argument("--json", dest="format", action="store_const", const="json", help="the same as --format json")
    form.add_argument("--quiet", action="store_true", help="print one line for each fault, no source lines and no summary")
    options = reader.parse_args()
    if options.xml and options.connect:
        reader.error("--xml goes without --connect")
    if not options.path and (options.replace or not options.connect):
        reader.error("name files or folders; --connect alone checks the units of a server")
    if options.replace and not options.connect:
        reader.error("--replace goes with --connect")
    if options.mirror and not (options.replace and all(map(Path.is_dir, options.path))):
        reader.error("--mirror goes with --replace and folders")
    return options


def check(options: argparse.Namespace, units: list[Unit]) -> Checked:
    """What is known of the units; of all of a server if there are none."""
    with open_session(options) as session, Progress() as progress:
        if options.connect and session.answers_reads():
            return check_shared(session, options, units, progress)
        if not units or options.mirror:
            raise Misuse("the server does not tell which units it has, as it is no host or an older one")
        if options.connect and not options.replace:
            looked = look(session, units, lambda known: progress.show(f"asking about {len(units):,} units: {known:,} are known"))
            unsure = [] if options.trust_server else not_compared(units, looked.differences)
            checked = Checked(units, looked.faults, judged=Judged.NOT_COMPARED, differences=[*looked.differences, *unsure])
        else:
            checked = put_and_check(session, units, bool(options.connect), progress)
        if options.plans:
            checked.answers, checked.failed = try_plans(session, units, progress)
    return checked


def check_shared(session: Session, options: argparse.Namespace, units: list[Unit], progress: Progress) -> Checked:
    """Compares the units with a workbench that others use, after it has put them if that is asked for, and reads the faults of those that are the same."""
    snapshot = Snapshot(session)
    replaced = replace(session, snapshot, units, options.mirror, progress) if options.replace else 0
    units = units or [Unit(name, Path(f"{name}.fb"), it.text) for name, it in snapshot.texts.items()]
    faults: list[Key] = [("faults", unit.name) for unit in units]
    plans = keys_of(units) if options.plans else []
    values = snapshot.values([*faults, *plans], lambda known: progress.show(f"checking {len(units):,} units: {known:,} results"), is_brief=True)
    there = {name: it.text for name, it in snapshot.texts.items()}
    common = last_common(options.path, snapshot.workbench)
    differences = compare(units, there, common)
    if options.replace and differences:
        raise Misuse(AGAIN.format(differences[0].unit))
    others = {it.unit for it in differences}
    if any(map(Path.is_dir, options.path)):
        differences += only_there(units, there, common)
    judged = Judged.FILES if options.replace else Judged.WORKBENCH
    answers = answers_of(values, [key for key in plans if key[1] not in others]) if options.plans else None
    its = {unit: values[kind, unit] for kind, unit in faults if unit not in others and (kind, unit) in values}
    refuse_gone([unit for unit in units if unit.name not in others], its)
    return Checked(units, its, answers, judged, differences, there, lent(units, there) if options.replace else [], replaced)


def put_and_check(session: Session, units: list[Unit], is_shared: bool, progress: Progress) -> Checked:
    """Puts the units into a workbench that answers no reads, or an own one, and has it check them."""
    replaced = commit_units(session, units, lambda put: progress.show(f"putting units: {put:,} of {len(units):,}"))
    faults = session.find_faults(lambda results: progress.show(f"checking {len(units):,} units: {results:,} results"))
    if changed := session.changed(session.revisions):
        raise Misuse(AGAIN.format(min(changed)))
    refuse_gone(units, faults)
    there = session.present(sorted(mentioned(units).difference(it.name for it in units))) if is_shared else {}
    return Checked(units, faults, lent=[it for it, revision in there.items() if revision], replaced=replaced)


def refuse_gone(units: Iterable[Unit], faults: Container[str]) -> None:
    """Raises `Misuse` for a unit of which the workbench knows no faults: it is not there any more."""
    for unit in units:
        if unit.name not in faults:
            raise Misuse(AGAIN.format(unit.name))


def output(found: Found, options: argparse.Namespace, replaced: int) -> Iterator[str]:
    """The lines to print."""
    if options.format != "human":
        yield from filter(None, [MACHINE_FORMATS[options.format](found)])
        return
    yield from lines(found, options.quiet, options.list_unchecked)
    if options.quiet:
        return
    yield from summary(found)
    if replaced:
        yield f"The workbench had {replaced:,} of them before, and has these texts now."
    if found.judged == Judged.NOT_COMPARED:
        yield ONLY_ASKED
    elif found.judged == Judged.WORKBENCH and options.path:
        yield "The faults are those of the workbench's texts." if found.differences else "The workbench has the same texts."
