"""What the command line programs share: the workbench that they talk to, progress, errors."""
from __future__ import annotations

import argparse
import codecs
import os
import sys
import time
from collections.abc import Callable, Iterator
from contextlib import contextmanager
from functools import wraps
from io import TextIOWrapper
from itertools import islice
from pathlib import Path
from typing import TextIO, TypeVar

from bench61499 import ConnectionEnded, NoAnswer, NoSeat, NoSecret, NotLetIn, Session, find_program, pauses
from bench61499.language.names import shown
from bench61499.language.units import Misuse
from bench61499.memory import MEMORY_LIMIT, amount, amount_in
from bench61499.secret import UnfitSecret, read_secret
from bench61499.session import PATIENCE

SEAT_PATIENCE = 60.0
"""Seconds in which a program that runs once waits for a session that ends."""
NOT_LET_IN = 2
"""Times that it tries again after it was not let in."""
AGAIN = 3
"""Times that it connects again after a connection has ended."""
Result = TypeVar("Result")


def add_workbench(reader: argparse.ArgumentParser) -> None:
    """Adds the words that say which workbench is meant."""
    which = reader.add_mutually_exclusive_group()
    program = "start this workbench (default: BENCH61499_PROGRAM, else the one built here or part of this release, else bench61499 on the path)"
    which.add_argument("--program", help=program)
    _add_connect(which)
    _add_secret(reader)
    memory = f"without --connect: the memory that the workbench may take, such as 512M or 4G, or none for no limit (default {amount(MEMORY_LIMIT)})"
    reader.add_argument("--memory-limit", type=read_memory, default=MEMORY_LIMIT, metavar="SIZE", help=memory)


def add_server(reader: argparse.ArgumentParser) -> None:
    """Adds the words that say which server is meant."""
    _add_connect(reader, required=True)
    _add_secret(reader)


def _add_connect(reader: argparse._ActionsContainer, required: bool = False) -> None:
    reader.add_argument("--connect", type=read_address, required=required, metavar="HOST:PORT", help="use this server; :PORT is one on this machine")


def _add_secret(reader: argparse.ArgumentParser) -> None:
    secret = os.environ.get("BENCH61499_SECRET_FILE")
    reader.add_argument("--secret", default=secret, metavar="FILE", help="with --connect: the file whose first line is the secret of the host (default: BENCH61499_SECRET_FILE, else that of your own host)")


def add_patience(reader: argparse.ArgumentParser) -> None:
    """Adds the words that say how long a program that runs once waits for results that another session may keep."""
    words = f"with --connect: give up if no further result comes for so many seconds, as another session keeps it (default {PATIENCE:g})"
    reader.add_argument("--patience", type=read_seconds, default=PATIENCE, metavar="SECONDS", help=words)


def read_with_units(reader: argparse.ArgumentParser) -> argparse.Namespace:
    """Adds the words that say which units there are, and reads all words."""
    reader.add_argument("--files", nargs="+", type=read_path, metavar="FOLDER|FILE", help="the units; without --connect a workbench of its own gets them, with it they are compared with the texts of the server")
    add_workbench(reader)
    add_patience(reader)
    reader.add_argument("--replace", action="store_true", help="with --connect and --files: put the files first; they replace the server's texts")
    options = reader.parse_args()
    if not options.files and not options.connect:
        reader.error("say which units there are: --files FOLDER, or --connect to a workbench that has them")
    if options.replace and not (options.files and options.connect):
        reader.error("--replace goes with --connect and --files")
    return options


def read_address(words: str) -> tuple[str, int]:
    """`HOST:PORT` or `:PORT`; an IPv6 host in brackets."""
    host, colon, port = words.rpartition(":")
    if not colon or not port.isdecimal() or not 0 < int(port) < 65_536:
        raise argparse.ArgumentTypeError(f"{words!r} is no HOST:PORT")
    return host.strip("[]") or "127.0.0.1", int(port)


def read_seconds(words: str) -> float:
    """Some seconds, up to a day."""
    try:
        seconds = float(words)
    except ValueError:
        seconds = 0
    if not 0 < seconds <= 86_400:
        raise argparse.ArgumentTypeError(f"{words!r} is no number of seconds, more than 0 and at most 86,400")
    return seconds


def read_memory(words: str) -> int | None:
    """An amount of memory, at least one byte; None for `none`."""
    size = amount_in(words)
    if not size and words != "none":
        raise argparse.ArgumentTypeError(f"{words!r} is no amount of memory, such as 512M or 4G, and not none")
    return size


def read_path(words: str) -> Path:
    """A file or a folder; an empty word, such as a shell makes of a variable that is not set, would be the present folder."""
    if not words:
        raise argparse.ArgumentTypeError("an empty word names no file or folder")
    return Path(words)


def open_once(options: argparse.Namespace) -> Session:
    """The session that the words ask for. Raises `NoWorkbench` and the like."""
    if not options.connect:
        return Session.script(options.program or find_program(), memory=options.memory_limit)
    host, port = options.connect
    session = Session.connect(host, port, secret=_named_secret(options.secret))
    session.patience = getattr(options, "patience", PATIENCE)
    return session


def open_session(options: argparse.Namespace) -> Session:
    """As `open_once`, for a program that runs once: if all sessions are in use it waits for one, and if it is not let in it tries again."""
    end, refused = time.monotonic() + SEAT_PATIENCE, 0
    for pause in pauses():
        try:
            return open_once(options)
        except NoSeat as error:
            if time.monotonic() + pause > end:
                raise
            if not refused:
                tell(f"{error}; trying again")
        except NotLetIn:
            if refused >= NOT_LET_IN:
                raise
        refused += 1
        time.sleep(pause)
    raise AssertionError("the pauses ended")


@contextmanager
def open_reading(options: argparse.Namespace) -> Iterator[Session]:
    """As `open_session`, of a server that answers reads. Raises `Misuse` if it does not."""
    with open_session(options) as session:
        if not session.answers_reads():
            raise Misuse("the server gives no texts back: it is a `serve`, or an older host")
        yield session


def persistently(options: argparse.Namespace, act: Callable[[], Result]) -> Result:
    """Does what can be done again and again, and does it again if the connection to a workbench that serves ends meanwhile, some times."""
    for pause in islice(pauses(), AGAIN if options.connect else 0):
        try:
            return act()
        except NotLetIn:
            raise
        except (ConnectionEnded, NoAnswer) as error:
            tell(f"{error}; connecting again")
            time.sleep(pause)
    return act()


def _named_secret(file: str | None) -> str | None:
    """The secret in a file that was named. Raises `NoSecret`."""
    try:
        return read_secret(file) if file else None
    except UnfitSecret as error:
        raise NoSecret(str(error)) from error


def program(main: Callable[[], int]) -> Callable[[], int]:
    """Lets `main` end quietly where the user breaks it off, or where nobody reads what it prints. Each gives the status of the program."""

    @wraps(main)
    def guarded() -> int:
        sys.stdout = sys.stdout or open(os.devnull, "w", encoding="utf-8")  # It may be closed.
        try:
            make_printable(sys.stdout)
            status = main()
            sys.stdout.flush()
        except KeyboardInterrupt:
            return 130
        except BrokenPipeError:
            drop_output()
            return 141
        except OSError as error:
            drop_output()
            return fail(Path(sys.argv[0]).name, error)
        return status

    return guarded


def make_printable(output: TextIO) -> None:
    """Lets names of files and texts be printed that the output has no characters for: names of no UTF-8 by their bytes, other words escaped."""
    if isinstance(output, TextIOWrapper):
        is_utf_8 = codecs.lookup(output.encoding).name == "utf-8"
        output.reconfigure(errors="surrogateescape" if is_utf_8 else "backslashreplace")


def drop_output() -> None:
    """Has what is not printed yet go nowhere."""
    os.dup2(os.open(os.devnull, os.O_WRONLY), sys.stdout.fileno())


def fail(program: str, error: Exception) -> int:
    """Tells the user and gives the status for it."""
    tell(f"{program}: {error}")
    return 2


def tell(*lines: str) -> None:
    """Prints a message for the user on standard error. Names of files, and what a server sends, may be in it, and make no further lines."""
    print("\n".join(map(shown, lines)), file=sys.stderr, flush=True)


class Progress:
    """One line on standard error that tells how far the work is: on a terminal, and from its second second on."""

    def __init__(self) -> None:
        self._shown = False
        self._next = time.monotonic() + 1

    def __enter__(self) -> Progress:
        return self

    def __exit__(self, *_: object) -> None:
        self._clear()

    def _clear(self) -> None:
        if self._shown:
            print("\r\033[K", end="", file=sys.stderr, flush=True)
            self._shown = False

    def tell(self, words: str) -> None:
        """Prints a message in the place of the line."""
        self._clear()
        tell(words)

    def show(self, words: str) -> None:
        if sys.stderr.isatty() and time.monotonic() >= self._next:
            print(f"\r\033[K{words}", end="", file=sys.stderr, flush=True)
            self._shown = True
            self._next = time.monotonic() + 0.1
