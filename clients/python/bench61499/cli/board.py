"""Shows a plant live, as a page in a browser on this machine: its units with their faults, its networks, its plans, and what changes."""
from __future__ import annotations

import argparse
import gc
import threading
from pathlib import Path

from bench61499 import WorkbenchError
from bench61499.board.mirrored import MirroredWatch
from bench61499.board.server import NO_NAME, BoardServer, is_name
from bench61499.board.state import Board
from bench61499.board.watch import CALLS_A_SECOND, FolderWatch, SharedWatch, keep, keep_connected
from bench61499.cli.command import add_workbench, fail, open_once, open_session, program, read_path, tell
from bench61499.cli.version import add_version
from bench61499.language.folder import Folder
from bench61499.language.names import shown
from bench61499.language.units import Misuse

NO_READS = "this server gives neither units nor texts, as a host does: the board shows those of --files and --unit, and asks for changes by recorded calls"
NOT_NEEDED = "this host gives all its units and texts, without recorded calls: --files, --unit and --calls have no effect"
FILES = "with --connect to a `serve`: show the units of these files, with their texts"
UNITS = "with --connect to a `serve`: show these units too; the page can name more, and adds the block types of a network that it shows"
CALLS = f"with --connect to a `serve`: recorded calls in a second, at most, on average (default {CALLS_A_SECOND:g}); more show changes in large plants sooner"
PORT = "the port of the page (default: any free one). A browser remembers the plans that you saw by this address, and a tunnel needs the same port at both ends"

GARBAGE = 50_000
"""Objects between two looks for garbage: those of a large plant stay, and looks at all of them take a fifth of the time in which it is read."""


@program
def main() -> int:
    options = read_options()
    gc.set_threshold(GARBAGE)
    try:
        folder = open_folder(options.files if options.connect else options.path)
        with open_session(options) as session:
            reads = bool(options.connect) and session.answers_reads()
            board = Board(title(options), bool(options.connect), reads)
            serve(board, options.port)
            if reads:
                if options.files or options.unit or options.calls:
                    say(NOT_NEEDED)
                opened = [session]
                MirroredWatch(board, lambda: opened.pop() if opened else open_once(options), say).run()
            elif options.connect:
                say(NO_READS)
                watch = SharedWatch(board, session, folder, options.unit, options.calls or CALLS_A_SECOND)
                keep_connected(board, watch, lambda: open_once(options), say)
            elif folder:
                keep(board, FolderWatch(board, session, folder, lambda: open_once(options), say))
    except (Misuse, WorkbenchError) as error:
        return fail("board", error)
    say(f"{board.why_ended()}; the page shows what was there before, until Ctrl-C")
    threading.Event().wait()
    return 0


def say(words: str) -> None:
    tell(f"board: {words}")


def read_options() -> argparse.Namespace:
    reader = argparse.ArgumentParser(
        prog="board",
        description="Shows a plant live, as a page in a browser on this machine.",
        epilog="Give a folder, whose files are watched, or --connect for a server, which the board only asks.",
    )
    add_version(reader)
    reader.add_argument("path", nargs="*", type=read_path, metavar="FOLDER|FILE", help="*.fb files, or folders of them")
    reader.add_argument("--files", nargs="+", type=read_path, metavar="FOLDER|FILE", help=FILES)
    reader.add_argument("--unit", nargs="+", type=read_name, default=[], metavar="NAME", help=UNITS)
    reader.add_argument("--calls", type=read_rate, metavar="N", help=CALLS)
    reader.add_argument("--port", type=int, default=0, help=PORT)
    add_workbench(reader)
    options = reader.parse_args()
    if options.path and options.connect:
        reader.error("give either a folder or --connect; with --connect, --files names the folder")
    if not options.path and not options.connect:
        reader.error("name what to show: a folder, or --connect for a server")
    if not options.connect and (options.files or options.unit or options.calls):
        reader.error("--files, --unit and --calls go with --connect")
    if not 0 <= options.port < 65_536:
        reader.error(f"there is no port {options.port}")
    return options


def read_name(words: str) -> str:
    if not is_name(words):
        raise argparse.ArgumentTypeError(f"{words!r} is no name: {NO_NAME}")
    return words.upper()


def read_rate(words: str) -> float:
    try:
        rate = float(words)
    except ValueError:
        rate = 0
    if not 0 < rate <= 1000:
        raise argparse.ArgumentTypeError(f"{words!r} is no number of calls, more than 0 and at most 1000")
    return rate


def open_folder(paths: list[Path] | None) -> Folder | None:
    """The folder that is watched, once it was read. Raises `Misuse` where it is not there."""
    if not paths:
        return None
    folder = Folder(paths)
    folder.look()
    return folder


def title(options: argparse.Namespace) -> str:
    words = "{}:{}".format(*options.connect) if options.connect else " ".join(map(str, options.path))
    return words.encode(errors="replace").decode()


def serve(board: Board, port: int) -> BoardServer:
    """Serves the page from now on, and tells the user where. Raises `Misuse` where the port is taken."""
    try:
        server = BoardServer(board, port)
    except OSError as error:
        raise Misuse(f"the page can't be served at port {port}: {error.strerror}") from error
    threading.Thread(target=server.serve_forever, daemon=True).start()
    print(f"the board of {shown(board.title)} is at {server.address}", flush=True)
    return server
