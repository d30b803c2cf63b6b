"""What has happened in a workbench, as lines and as a history of git."""
from __future__ import annotations

import argparse
import io
import os
import shutil
import subprocess
import sys
import unittest
from collections.abc import Iterable, Iterator
from contextlib import contextmanager, redirect_stderr
from pathlib import Path
from unittest.mock import patch

from support import CLIENTS, InFolder, hosting, run, serving, until
from syncing import Host

from bench61499 import Change, Put, Remove, Session
from bench61499.cli import log
from bench61499.cli.command import open_reading


def text(name: str, words: str = "") -> str:
    return f"FUNCTION_BLOCK {name} END_FUNCTION_BLOCK\n// {words}\n"


class LogTest(InFolder):
    def printed(self, port: int, *words: object) -> list[str]:
        ran = run("log", "--connect", f":{port}", *words)
        self.assertEqual((ran.returncode, ran.stderr), (0, ""))
        return ran.stdout.splitlines()

    def refused(self, port: int, expected: str, *words: object, path: str = os.environ["PATH"]) -> None:
        ran = run("log", "--connect", f":{port}", *words, PATH=path)
        self.assertEqual((ran.returncode, ran.stdout, ran.stderr), (2, "", f"log: {expected}\n"))

    @contextmanager
    def following(self, port: int, *words: object) -> Iterator[Path]:
        """A log that continues; gives the file with what it prints."""
        said = self.folder / "said"
        with open(said, "wb") as output:
            process = subprocess.Popen([CLIENTS / "log", "--connect", f":{port}", "--follow", *map(str, words)], stdout=output, stderr=subprocess.STDOUT)
        try:
            yield said
        finally:
            process.kill()
            process.wait()

    def commit_each(self, session: Session, said: Path, commits: Iterable[list[Change]]) -> None:
        """Commits one after the other, each once the former one was printed."""
        for changes in commits:
            self.await_line(said, f"commit {session.commit(changes)} by session {session.status().session}: ")

    def await_line(self, said: Path, begin: str) -> None:
        until(lambda: any(line.startswith(begin) for line in said.read_text().splitlines()))


class LinesTest(LogTest):
    def test_commits_are_told_with_who_made_them(self) -> None:
        with hosting() as port, Session.connect("127.0.0.1", port) as one, Session.connect("127.0.0.1", port) as other:
            one.commit([Put("A", 0, text("A")), Put("B", 0, text("B"))])
            other.commit([Put("A", 1, text("A", "2")), Remove("B", 1)])
            other.commit([Remove("A", 2)])
            sessions = [it.status().session for it in (one, other)]
            expected = [f"commit 1 by session {sessions[0]}: A, B", f"commit 2 by session {sessions[1]}: A; removed B", f"commit 3 by session {sessions[1]}: removed A"]
            self.assertEqual(self.printed(port), expected)

    def test_what_a_host_has_dropped_is_told(self) -> None:
        with hosting("--history", "30") as port, Session.connect("127.0.0.1", port) as session:
            for number in range(50):
                session.commit([Put("A", number, text("A", f"{number}"))])
            missing, *lines = self.printed(port)
            last = 50 - len(lines)
            self.assertEqual(missing, f"commits 1 to {last} are not known: the host has dropped that part of its history")
            self.assertEqual(lines, [f"commit {number} by session {session.status().session}: A" for number in range(last + 1, 51)])

    def test_results_are_told_as_they_come(self) -> None:
        with hosting() as port, Session.connect("127.0.0.1", port) as session, self.following(port) as said:
            self.commit_each(session, said, [[Put("READY", 0, text("READY"))]])
            session.commit([Put("A", 0, "FUNCTION_BLOCK A EVENT_INPUT E WITH X; END_EVENT END_FUNCTION_BLOCK")])
            session.commit([Put("S", 0, "SYSTEM S APPLICATION P FBS I : A; END_FBS END_APPLICATION END_SYSTEM")])
            for line in ("A: 1 fault: WITH_UNKNOWN", "S: no network: blocked by A", "S: no plan: blocked by A"):
                self.await_line(said, line)
            session.commit([Put("A", 2, text("A"))])
            for line in ("A: no faults", "S: a network of 1 blocks and 0 links", "S: no plan: UNMAPPED P.I"):
                self.await_line(said, line)

    def test_a_host_that_is_started_again_is_told(self) -> None:
        host = Host()
        self.addCleanup(host.end)
        with self.following(host.port) as said:
            with host.session() as session:
                self.commit_each(session, said, [[Put("A", 0, text("A"))]])
            host.end()
            until(lambda: "trying again" in said.read_text())
            host.start()
            with host.session() as session:
                session.commit([Put("B", 0, text("B"))])
            until(lambda: ": B\n" in said.read_text())
            self.assertIn("log: the host was started again: all that follows is of another workbench\n", said.read_text())

    def test_a_connection_that_breaks_at_the_begin_is_made_again(self) -> None:
        """As later: one line says so, and the log continues."""
        said = io.StringIO()
        with hosting() as port, redirect_stderr(said), patch.object(log, "open_reading", self.breaking), patch.object(log.Log, "follow_again") as again:
            with patch.object(sys, "argv", ["log", "--connect", f":{port}", "--follow"]):
                self.assertEqual(log.main(), 0)
        again.assert_called_once()
        self.assertRegex(said.getvalue(), "^log: the connection to .* ended: .*; trying again\n$")

    @contextmanager
    def breaking(self, options: argparse.Namespace) -> Iterator[Session]:
        """A session whose connection has ended just after it was begun."""
        with open_reading(options) as session:
            session.close()
            yield session

    def test_a_server_without_reads_is_refused(self) -> None:
        with serving(2) as port:
            self.refused(port, "the server gives no texts back: it is a `serve`, or an older host")


@unittest.skipUnless(shutil.which("git"), "git is not installed")
class GitTest(LogTest):
    def setUp(self) -> None:
        super().setUp()
        self.history = self.folder / "history"

    def git(self, *words: str) -> str:
        return subprocess.run(["git", "-C", self.history, *words], check=True, capture_output=True, text=True).stdout

    def trees(self) -> list[dict[str, str]]:
        """The texts by unit after each commit of git, the oldest first."""
        commits = self.git("log", "--reverse", "--format=%H").split()
        return [{name.removesuffix(".fb"): self.git("show", f"{it}:{name}") for name in self.git("ls-tree", "--name-only", it).split()} for it in commits]

    def files(self) -> dict[str, str]:
        return {it.stem: it.read_text() for it in self.history.glob("*.fb")}

    def test_each_commit_is_one_of_git_with_its_texts(self) -> None:
        a, b, c = text("A"), text("B"), text("C")
        commits: list[list[Change]] = [[Put("A", 0, a), Put("B", 0, b)], [Put("C", 0, c)], [Put("A", 1, f"{a}// 2\n"), Remove("B", 1)], [Remove("C", 2)]]
        with hosting() as port, Session.connect("127.0.0.1", port) as session, self.following(port, "--git", self.history) as said:
            self.commit_each(session, said, commits)
            caller, workbench = session.status().session, session.status().workbench
        self.assertEqual(self.trees(), [{"A": a, "B": b}, {"A": a, "B": b, "C": c}, {"A": f"{a}// 2\n", "C": c}, {"A": f"{a}// 2\n"}])
        self.assertEqual(self.files(), {"A": f"{a}// 2\n"})
        self.assertEqual(self.git("status", "--porcelain"), "")
        subjects = [f"commit {number} by session {caller}: {words}" for number, words in enumerate(["A, B", "C", "A; removed B", "removed C"], 1)]
        self.assertEqual(self.git("log", "--reverse", "--format=%s").splitlines(), subjects)
        message = self.git("log", "-1", "--skip=1", "--format=%an%n%b")
        self.assertTrue(message.startswith(f"session {caller}\nA: revision 3\nB: removed\n\nWorkbench: {workbench}\nCommit: 3\n"), message)

    def test_texts_that_came_and_went_are_named(self) -> None:
        with hosting() as port, Session.connect("127.0.0.1", port) as session:
            session.commit([Put("A", 0, text("A")), Put("B", 0, text("B"))])
            session.commit([Put("A", 1, text("A", "2"))])
            self.printed(port, "--git", self.history)
        self.assertEqual(self.trees(), [{"B": text("B")}, {"A": text("A", "2"), "B": text("B")}])
        self.assertIn("A: revision 1, whose text is not known: a later one came before it was read\nB: revision 1\n", self.git("log", "--format=%b"))

    def test_a_later_run_continues_and_says_what_it_has_missed(self) -> None:
        with hosting("--history", "30") as port, Session.connect("127.0.0.1", port) as session:
            session.commit([Put("A", 0, text("A")), Put("B", 0, text("B")), Put("C", 0, text("C"))])
            self.printed(port, "--git", self.history)
            session.commit([Put("B", 1, text("B", "2")), Remove("C", 1)])
            for number in range(50):
                session.commit([Put("A", number + 1 + (number > 0), text("A", f"{number}"))])
            missing, *lines = self.printed(port, "--git", self.history)
            self.assertEqual(missing, f"commits 2 to {52 - len(lines)} are not known: the host has dropped that part of its history")
            self.assertEqual(self.printed(port, "--git", self.history), [])
        trees = self.trees()
        self.assertEqual(len(trees), 1 + 1 + len(lines))
        self.assertEqual(trees[1], {"A": text("A"), "B": text("B", "2")})
        self.assertEqual(trees[-1], {"A": text("A", "49"), "B": text("B", "2")})
        self.assertIn(missing, self.git("log", "--format=%b"))

    def test_another_workbench_begins_anew(self) -> None:
        for name in ("A", "B"):
            with hosting() as port, Session.connect("127.0.0.1", port) as session:
                session.commit([Put(name, 0, text(name))])
                ran = run("log", "--connect", f":{port}", "--git", self.history)
                self.assertEqual(ran.returncode, 0, ran.stderr)
        self.assertEqual(self.trees()[-1], {"B": text("B")})
        self.assertEqual(self.files(), {"B": text("B")})

    def test_files_that_somebody_has_changed_stay(self) -> None:
        with hosting() as port, Session.connect("127.0.0.1", port) as session:
            session.commit([Put("A", 0, text("A"))])
            self.printed(port, "--git", self.history)
            (self.history / "A.fb").write_text("mine")
            session.commit([Put("A", 1, text("A", "2"))])
            ran = run("log", "--connect", f":{port}", "--git", self.history)
        self.assertIn("stay as they are, while the history goes on", ran.stderr)
        self.assertEqual(ran.returncode, 0)
        self.assertEqual((self.history / "A.fb").read_text(), "mine")
        self.assertEqual(self.trees()[-1], {"A": text("A", "2")})

    def test_other_folders_are_refused(self) -> None:
        self.history.mkdir()
        (self.history / "mine").write_text("mine")
        expected = f"{self.history}: is no history that `log --git` has begun; name a folder that is absent or empty"
        with hosting() as port:
            self.refused(port, expected, "--git", self.history)
            subprocess.run(["git", "init", "--quiet", self.history], check=True)
            self.refused(port, expected, "--git", self.history)
        self.assertEqual({it.name for it in self.history.iterdir()}, {"mine", ".git"})

    def test_a_history_from_elsewhere_runs_no_command(self) -> None:
        """The settings of a history may name commands, which git would run with the next commit."""
        command = self.write("command", f"#!/bin/sh\ntouch {self.folder}/ran\ncat\n")
        command.chmod(0o755)
        with hosting() as port, Session.connect("127.0.0.1", port) as session:
            session.commit([Put("A", 0, text("A"))])
            self.printed(port, "--git", self.history)
            for name, value in (("core.fsmonitor", command), ("filter.x.smudge", command), ("remote.o.uploadpack", command)):
                (self.history / ".git" / "info" / "attributes").write_text("*.fb filter=x\n")
                self.git("config", name, str(value))
                session.commit([Put("A", session.revision("A"), text("A", name))])
                told = f"{self.history}: its .git/config sets {name}, by which git may run a command; remove that, or name another folder"
                self.refused(port, told, "--git", self.history)
                self.git("config", "--unset", name)
            self.git("remote", "add", "origin", "https://example.org/plant.git")
            self.printed(port, "--git", self.history)
        self.assertFalse((self.folder / "ran").exists())

    def test_a_history_from_elsewhere_writes_nothing_elsewhere(self) -> None:
        """Through a link git would append a line to a file of the user, with a name in it that the history chooses."""
        profile = self.write("profile", "alias l=ls\n")
        with hosting() as port, Session.connect("127.0.0.1", port) as session:
            session.commit([Put("A", 0, text("A"))])
            self.printed(port, "--git", self.history)
            session.commit([Put("A", 1, text("A", "again"))])
            log, common = (self.history / ".git" / name for name in ("logs/refs/heads/workbench", "commondir"))
            log.unlink()
            for it, make in (log, lambda: log.symlink_to(profile)), (common, lambda: common.write_text("../other\n")):
                make()
                self.refused(port, f"{it}: by it git would write elsewhere; remove it, or name another folder", "--git", self.history)
                it.unlink()
            self.printed(port, "--git", self.history)
        self.assertEqual(profile.read_text(), "alias l=ls\n")

    def test_without_git_it_says_so(self) -> None:
        with hosting() as port:
            (self.folder / "python3").symlink_to(shutil.which("python3") or "")
            (self.folder / "env").symlink_to("/usr/bin/env")
            self.refused(port, "--git needs the program git, which is not on the path", "--git", self.history, path=str(self.folder))
        self.assertFalse(self.history.exists())


if __name__ == "__main__":
    unittest.main()
