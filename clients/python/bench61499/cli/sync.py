"""Keeps a folder of units and a workbench that others use the same."""
from __future__ import annotations

import argparse
import shutil
import sqlite3
import time
from collections.abc import Iterator
from contextlib import contextmanager
from pathlib import Path
from tempfile import TemporaryDirectory

from bench61499 import WorkbenchError
from bench61499.cli.command import add_server, fail, open_once, open_reading, program, read_path
from bench61499.cli.version import add_version
from bench61499.language.units import Misuse
from bench61499.sync.deciding import Step
from bench61499.sync.editors import opened_in, sessions_in
from bench61499.sync.keeper import FEW, Keeper, Ways
from bench61499.sync.report import Report
from bench61499.sync.saved import Saved
from bench61499.sync.store import NAME, STATE, Store, refuse_links
from bench61499.sync.team import Team

LOOK, LONGEST_LOOK = 0.25, 2.0
"""Seconds between two looks at the files, at least and at most."""
REST = 30
"""A look is followed by a pause of so many times the seconds that the processor needed for it."""


@program
def main() -> int:
    options = read_options()
    try:
        return sync(options)
    except (Misuse, WorkbenchError, sqlite3.Error) as error:
        return fail("sync", error)


def read_options() -> argparse.Namespace:
    reader = argparse.ArgumentParser(
        prog="sync",
        description="Keeps a folder of units and the workbench of a team the same: what is saved is committed, what a colleague commits is written. Goes on until "
        "Ctrl-C, but for --pull, --push and --dry-run.",
        epilog="The status of a run that ends by itself is 0 if nothing is in question, 1 if there is a conflict or something else that is named on standard error, 2 if "
        "the folder can't be used, another sync keeps it, or no host answers.",
    )
    add_version(reader)
    reader.add_argument("folder", type=read_path, metavar="FOLDER", help="the folder of the *.fb files; it is made if it is absent")
    add_server(reader)
    reader.add_argument("--pull", action="store_true", help="only write what the workbench has, and end; with --push do both, and end")
    reader.add_argument("--push", action="store_true", help="only commit what the folder has, and end")
    reader.add_argument("--dry-run", action="store_true", help="only print what would be done, and end")
    reader.add_argument("--remove", action="store_true", help=f"remove units from the workbench also where more than {FEW} files were deleted at once")
    return reader.parse_args()


def sync(options: argparse.Namespace) -> int:
    """Raises `Misuse` and `WorkbenchError`."""
    with open_reading(options):
        pass  # Who is not let in, or asks a server without reads, learns it before the folder is touched.
    both = options.pull == options.push
    is_once = options.pull or options.push or options.dry_run
    ways = Ways(both or options.pull, both or options.push, options.dry_run, options.remove, is_once)
    address = "{}:{}".format(*options.connect)
    report = Report(options.dry_run, address)
    with opened(options.folder, options.dry_run) as (saved, store), Team(lambda: open_once(options), lambda: sessions_in(store.folder)) as team:
        keeper = Keeper(saved, store, team, ways, report, dict if is_once else lambda: opened_in(store.folder))
        if is_once:
            keep_once(keeper, team)
            return int(report.has_troubles() or bool(store.conflicts) or report.counts[Step.CONFLICT] > 0)
        keep(keeper, saved, store, team, report, address)
    raise Misuse(f"{options.folder}: is not there any more")


@contextmanager
def opened(folder: Path, is_dry: bool) -> Iterator[tuple[Saved, Store]]:
    """The files of a folder, and what is known of it: where nothing is to be changed a copy of that. Raises `Misuse`."""
    with TemporaryDirectory() as copy:
        known = Path(copy) if is_dry else folder
        try:
            if is_dry:
                folder = folder if folder.exists() else known / "empty"
                _copy_state(folder, known)
            folder.mkdir(parents=True, exist_ok=True)
        except OSError as error:
            raise Misuse(f"{folder}: can't be used: {error.strerror}") from error
        store = Store(known)
        try:
            yield Saved(folder), store
        finally:
            store.close()


def _copy_state(folder: Path, copy: Path) -> None:
    refuse_links(folder / NAME)
    state = folder / NAME / STATE
    if state.is_file():
        (copy / NAME).mkdir()
        shutil.copy(state, copy / NAME / STATE)


def keep_once(keeper: Keeper, team: Team) -> None:
    """Raises `WorkbenchError` if the workbench is lost."""
    is_done = False
    while not is_done:
        keeper.look(at_once=True)
        is_done = keeper.step()
        if team.error:
            raise team.error
        team.wait(0 if is_done else LOOK)


def keep(keeper: Keeper, saved: Saved, store: Store, team: Team, report: Report, address: str) -> None:
    """Runs as long as the folder is there."""
    is_begun = False
    keeper.look(at_once=True)
    next_look = time.monotonic() + LOOK
    while store.is_there():
        if time.monotonic() >= next_look:
            begun = time.thread_time()
            keeper.look()
            rest = REST * (time.thread_time() - begun) if saved.is_settled() else 0.0
            next_look = time.monotonic() + min(max(LOOK, rest), LONGEST_LOOK)
        team.take()
        if team.error:
            report.lost(team.error)
        else:
            report.found()
        if keeper.step() and not is_begun:
            is_begun = True
            report.say(f"{saved.root} is kept the same as {address} from now on: {keeper.count():,} units")
        team.wait(max(0.0, next_look - time.monotonic()))
