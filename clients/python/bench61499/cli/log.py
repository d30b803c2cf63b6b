"""Prints what has happened in a workbench that others use, and writes it as a history of git."""
from __future__ import annotations

import argparse
import sys
import time

from bench61499 import NoSuchKey, Result, Session, TooManyParts, WorkbenchError, pauses
from bench61499.cli.command import add_server, fail, open_once, open_reading, program, read_path, tell
from bench61499.cli.version import add_version
from bench61499.language.names import printable
from bench61499.language.units import Misuse
from bench61499.log.events import Place, Since
from bench61499.log.lines import told_commit, told_missing, told_value
from bench61499.log.repository import Repository

WATCH = 25.0
"""Seconds that one look waits for something to happen."""


@program
def main() -> int:
    options = read_options()
    try:
        repository = Repository(options.git) if options.git else None
        log = Log(repository)
        with open_reading(options) as session:
            if options.follow:
                log.follow(session, options)
            else:
                log.catch_up(session)
        if options.follow:
            log.follow_again(options)
    except (Misuse, WorkbenchError) as error:
        return fail("log", error)
    return 0


def read_options() -> argparse.Namespace:
    reader = argparse.ArgumentParser(
        prog="log",
        description="Prints the commits of a workbench, the oldest first, as far back as its host knows: who has put and removed which units.",
        epilog="The status is 0, or 2 if no host answers, or the history of git can't be written.",
    )
    add_version(reader)
    add_server(reader)
    reader.add_argument("--follow", action="store_true", help="go on until Ctrl-C, and print also the faults, networks and plans that come")
    git = "also make each commit one of git in this folder, with the texts; a later run continues there"
    reader.add_argument("--git", type=read_path, metavar="FOLDER", help=git)
    return reader.parse_args()


class Log:
    """Tells what has happened, by lines and perhaps in a history of git."""

    def __init__(self, repository: Repository | None):
        self._repository = repository
        self._place = repository.place() if repository else Place()
        self._session = 0

    def connected(self, session: Session, options: argparse.Namespace) -> None:
        """Prints the number of the session, if it is another one than before."""
        number = session.status().session
        if number != self._session:
            self._session = number
            say("connected to {}:{} as session {}, which only reads".format(*options.connect, number))

    def catch_up(self, session: Session) -> None:
        """Tells what has happened since the last time."""
        self._tell(session, self._place.catch_up(session), is_new=False)

    def _tell(self, session: Session, since: Since, is_new: bool) -> None:
        """Values are told if they are new: of earlier ones only the last is known."""
        if since.is_other and self._place.workbench:
            say("the host was started again: all that follows is of another workbench")
        told = self._repository.record(session, since) if self._repository else []
        if missing := told_missing(since):
            print(missing)
        self._place = since.place
        for event in since.events:
            if isinstance(event, Result):
                if is_new:
                    self._tell_value(session, event)
            else:
                print(printable(told_commit(event)))
        sys.stdout.flush()
        for words in told:
            say(words)

    def _tell_value(self, session: Session, event: Result) -> None:
        try:
            print(printable(told_value(event.kind, event.unit, session.peek(event.kind, event.unit))))
        except NoSuchKey:
            return  # It was removed since.
        except TooManyParts as error:
            print(f"{event.unit}: {error}")

    def follow(self, session: Session, options: argparse.Namespace, since: Since | None = None) -> None:
        """Prints what has happened since the last time, if given what that is, and continues as long as the connection lasts."""
        try:
            self.connected(session, options)
            self._tell(session, since or self._place.catch_up(session), is_new=False)
            while True:
                self._tell(session, self._place.wait(session, WATCH), is_new=True)
        except WorkbenchError as error:
            say(f"{error}; trying again")

    def follow_again(self, options: argparse.Namespace) -> None:
        """Connects again whenever the connection has ended."""
        waits = pauses()
        while True:
            time.sleep(next(waits))
            try:
                with open_once(options) as session:
                    since = self._place.catch_up(session)
                    say("the host answers again")
                    waits = pauses()
                    self.follow(session, options, since)
            except WorkbenchError:
                continue


def say(words: str) -> None:
    tell(f"log: {words}")
