"""Folders from elsewhere, as a pull request brings them: files of any size and kind, texts that are slow to read, links that lead out, and names that a terminal obeys."""
from __future__ import annotations

import os
import shutil
import sqlite3
import struct
import subprocess
import unittest
from collections.abc import Callable, Iterator
from contextlib import closing, contextmanager
from pathlib import Path
from unittest.mock import patch

from exchanging import imported
from support import CLIENTS, CONVEYOR, InFolder, hosting, locked, run, workbench

from bench61499.exchange import imports
from bench61499.exchange.xmlfile import find_xml
from bench61499.language.folder import Folder
from bench61499.language.units import Misuse
from bench61499.language.writing import create, write_over
from bench61499.lsp.sources import Sources
from bench61499.sync.store import Store, last_common

LOOSE = "FUNCTION_BLOCK   {}\nEND_FUNCTION_BLOCK\n"
"""A unit that is not laid out."""
EVIL = "evil\033[31m\n7 units, no faults\n::error evil.fb"
"""A name of a file that a terminal and a workflow would obey."""


class HostileTest(InFolder):
    def setUp(self) -> None:
        super().setUp()
        self.plant = self.folder / "plant"
        shutil.copytree(CONVEYOR, self.plant)

    def check(self, *words: object) -> subprocess.CompletedProcess[str]:
        return run("check", *words, "--program", workbench(), folder=self.folder)

    def lsp(self) -> tuple[list[str], list[str]]:
        """The units that a language server has of the folder, and the messages that its user gets."""
        warned: list[str] = []
        sources = Sources(warned.append)
        sources.folders = [self.plant]
        sources.refresh()
        while not sources.catch_up(0):
            pass
        sources.settle()
        return sorted(sources.units()), warned


class FilesTest(HostileTest):
    def limited(self, *words: object) -> subprocess.CompletedProcess[str]:
        """Runs a client that may have 700 MB."""
        limit = 'ulimit -v 700000; exec "$@"'
        return subprocess.run(["bash", "-c", limit, "-", *map(str, words)], cwd=self.folder, capture_output=True, text=True, timeout=300)

    def test_a_file_of_many_gigabytes_is_not_read(self) -> None:
        with open(self.plant / "A.fb", "wb") as file:
            file.truncate(6 << 30)
        told = "plant/A.fb: has 6,442,450,944 bytes, and the text of a unit has at most 65,536\n"
        ran = self.limited(CLIENTS / "format", "--check", "plant")
        self.assertEqual((ran.returncode, ran.stdout, ran.stderr), (2, "", told))
        ran = self.limited(CLIENTS / "check", "plant", "--program", "/bin/false")
        self.assertEqual((ran.returncode, ran.stdout, ran.stderr), (2, "", f"check: {told}"))

    def test_what_is_no_file_is_named(self) -> None:
        """A unit that is not read never looks like a checked one."""
        link, pipe = "is a link that leads to no *.fb file of the folders that are named, so it is not read", "can't be read: it is no file, but a pipe or a device"
        file, inner = self.plant / "Q.fb", self.plant / "inner"
        inner.mkdir()
        made: list[tuple[Callable[[], object], str]] = [
            (lambda: file.symlink_to("nowhere.fb"), link), (lambda: file.symlink_to("Q.fb"), link), (lambda: file.symlink_to(inner), link), (lambda: os.mkfifo(file), pipe),
        ]
        for make, why in made:
            make()
            ran = self.check("plant")
            self.assertEqual((ran.returncode, ran.stdout, ran.stderr), (2, "", f"check: plant/Q.fb: {why}\n"))
            folder = Folder([self.plant])
            folder.look()
            self.assertEqual((len(folder.units), folder.problems), (7, (f"{file}: {why}",)))
            file.unlink()
        (self.plant / "Q.fb").mkdir()
        self.assertEqual(self.check("plant").returncode, 0)

    def test_a_text_of_brackets_is_read_soon(self) -> None:
        body = f"FUNCTION_BLOCK Q\nALGORITHM A IN ST: X := {'(' * 65_000}; END_ALGORITHM\nEND_FUNCTION_BLOCK\n"
        (self.plant / "Q.fb").write_text(body)
        ran = self.check("plant", "--quiet")
        self.assertEqual((ran.returncode, len(ran.stdout.splitlines())), (1, 21))

    def test_1_200_folders_in_each_other(self) -> None:
        inner = os.open(self.plant, os.O_RDONLY)
        for _ in range(1_200):
            os.mkdir("d", dir_fd=inner)
            outer, inner = inner, os.open("d", os.O_RDONLY, dir_fd=inner)
            os.close(outer)
        os.close(os.open("A.fb", os.O_CREAT | os.O_WRONLY, dir_fd=inner))
        os.close(inner)
        self.addCleanup(lambda: subprocess.run(["rm", "-rf", self.plant], check=True))
        self.assertEqual(self.check("plant").stdout.splitlines()[-1], "1 fault in 1 of 8 units")
        folder = Folder([self.plant])
        self.assertEqual((folder.look(), len(folder.units)), (True, 8))
        self.assertEqual(len(self.lsp()[0]), 8)
        self.assertEqual(find_xml([self.plant], self.fail), [])

    def test_pipes_and_devices_are_no_files(self) -> None:
        os.mkfifo(self.folder / "pipe.fb")
        (self.folder / "zeros.fb").symlink_to("/dev/zero")
        no_file = "can't be read: it is no file, but a pipe or a device"
        ran = run("format", "pipe.fb", "zeros.fb", folder=self.folder)
        self.assertEqual((ran.returncode, ran.stderr), (2, f"pipe.fb: {no_file}\nzeros.fb: {no_file}\n"))
        out = self.folder / "out"
        out.mkdir()
        os.mkfifo(out / "FEEDER.fbt")
        ran = run("exchange", "export", "plant/FEEDER.fb", "--to", "out", folder=self.folder)
        self.assertEqual(ran.stderr, "exchange: out/FEEDER.fbt: can't be written: it is no file, but a pipe or a device\n")

    def test_files_of_xml_that_together_are_too_large(self) -> None:
        block = '<FBType Name="{}"><VersionInfo/></FBType>'
        for name in "ABC":
            self.write(f"{name}.fbt", block.format(name))
        with patch.object(imports, "TOGETHER_LIMIT", 5):
            ran = imported([self.folder / f"{name}.fbt" for name in "ABC"], self.folder / "out")
        told = f"{self.folder}/C.fbt: is not read, nor are the files after it: together they have more than 5 elements"
        self.assertEqual((ran.errors, sorted(it.name for it in (self.folder / "out").iterdir())), ([told], ["A.fb", "B.fb"]))


class LinksTest(HostileTest):
    def setUp(self) -> None:
        super().setUp()
        self.secret = self.write("elsewhere/secret", "PASSWORD\n")
        self.text = self.write("elsewhere/Z.txt", LOOSE.format("Z"))

    def told(self, name: str) -> str:
        return f"plant/{name}: is a link that leads to no *.fb file of the folders that are named, so it is not read"

    def test_what_links_lead_to_outside_is_neither_shown_nor_written(self) -> None:
        for name, to in (("L.fb", "../elsewhere/secret"), ("E.fb", "/proc/self/environ"), ("Z.fb", "../elsewhere/Z.txt"), ("G.fb", "../plant/.git/config")):
            link = self.plant / name
            link.symlink_to(to)
            self.write("plant/.git/config", "PASSWORD")
            ran = self.check("plant")
            self.assertEqual((ran.returncode, ran.stdout, ran.stderr), (2, "", f"check: {self.told(name)}\n"))
            ran = run("format", "plant", folder=self.folder)
            self.assertEqual((ran.returncode, ran.stdout, ran.stderr), (2, "", f"{self.told(name)}\n"))
            units, warned = self.lsp()
            self.assertEqual((len(units), warned), (7, [self.told(name).replace("plant/", f"{self.plant}/", 1)]))
            link.unlink()
        self.assertEqual(self.text.read_text(), LOOSE.format("Z"))

    def test_a_board_shows_the_others(self) -> None:
        (self.plant / "L.fb").symlink_to(self.secret)
        folder = Folder([self.plant])
        for text in (LOOSE.format("FEEDER"), LOOSE.format("FEEDER") * 2):  # It is reported as long as it is there.
            self.write("plant/FEEDER.fb", text)
            self.assertTrue(folder.look())
            self.assertEqual((len(folder.units), folder.problems), (7, (self.told("L.fb").replace("plant/", f"{self.plant}/", 1),)))

    def test_a_link_within_the_folders_is_followed(self) -> None:
        library = self.write("library/Y.fb", LOOSE.format("Y"))
        (self.plant / "Y.fb").symlink_to(library)
        self.assertEqual(self.check("plant", "library").stdout, "8 units, no faults\n")
        self.assertEqual(run("format", "plant", "library", folder=self.folder).stderr, "")
        self.assertEqual(library.read_text(), "FUNCTION_BLOCK Y\nEND_FUNCTION_BLOCK\n")

    def test_a_file_that_becomes_a_link_is_no_unit_any_more(self) -> None:
        folder = Folder([self.plant])
        folder.look()
        (self.plant / "FEEDER.fb").rename(self.folder / "FEEDER.fb")
        (self.plant / "FEEDER.fb").symlink_to(self.folder / "FEEDER.fb")
        self.assertTrue(folder.look())
        self.assertNotIn("FEEDER", folder.units)

    def test_xml(self) -> None:
        self.write("elsewhere/A.fbt", '<FBType Name="A"/>')
        (self.plant / "A.fbt").symlink_to("../elsewhere/A.fbt")
        ran = imported([self.plant], self.folder / "out")
        self.assertIn(f"{self.plant}/A.fbt: is a link that leads to no file of IEC 61499-2 in the folders that are named, so it is not read", ran.errors)


class VanishedTest(HostileTest):
    """A share that is not there, or a folder that can't be read, is no folder whose files were deleted: a language server would remove their units from the team's workbench."""

    def test_units_of_a_folder_that_can_not_be_read_stay(self) -> None:
        sources = Sources(self.fail)
        sources.folders = [self.plant]

        def units() -> int:
            sources.refresh()
            while not sources.catch_up(0):
                pass
            sources.settle()
            return len(sources.units())

        self.assertEqual(units(), 7)
        with locked(self.plant):
            self.assertEqual(units(), 7)
        self.plant.rename(self.folder / "away")
        self.assertEqual(units(), 7)
        self.plant.mkdir()
        self.assertEqual(units(), 0)


class NamesTest(HostileTest):
    def test_names_of_files_forge_no_lines(self) -> None:
        (self.plant / f"{EVIL}.fb").write_text("FUNCTION_BLOCK  W\nEVENT_INPUT E WITH Q; END_EVENT\nEND_FUNCTION_BLOCK\n")
        runs = [self.check("plant", *words) for words in ((), ("--quiet",), ("--format", "github"), ("--format", "junit"), ("--list-unchecked",))]
        runs.append(run("format", "--check", "plant", folder=self.folder))
        (self.plant / f"{EVIL}2.fb").write_text("SYSTEM W \033[32m END_SYSTEM")
        runs += [self.check("plant"), run("format", "plant", folder=self.folder), run("exchange", "export", "plant", "--to", "out", folder=self.folder)]
        runs.append(run("exchange", "import", f"plant/{EVIL}.fb", "--to", "out", folder=self.folder))
        for ran in runs:
            lines = (ran.stdout + ran.stderr).splitlines()
            self.assertTrue([it for it in lines if "evil\ufffd[31m" in it], ran)
            self.assertFalse([it for it in lines if it.startswith(("7 units", "::error evil")) or "\033" in it], ran)


class StateTest(HostileTest):
    """A project that brings a state of `sync`, with views in the place of tables."""

    def setUp(self) -> None:
        super().setUp()
        self.state = self.write("plant/.bench61499/state.sqlite", b"")

    def make(self, words: str) -> None:
        with closing(sqlite3.connect(self.state)) as tables:
            tables.executescript(words)

    def test_rows_without_end_are_not_read(self) -> None:
        endless = "WITH RECURSIVE c(x) AS (SELECT 1 UNION ALL SELECT x + 1 FROM c) SELECT x FROM c"
        self.make(f"CREATE VIEW workbench(identity) AS {endless}")
        with hosting() as port:
            self.assertEqual(last_common([self.plant], "x"), {})
            ran = run("sync", "plant", "--connect", f":{port}", "--pull", folder=self.folder)
            told = "sync: plant/.bench61499/state.sqlite: has other tables than those of sync, and may come from elsewhere; remove it\n"
            self.assertEqual((ran.returncode, ran.stderr), (2, told))

    def interrupt(self) -> Path:
        """Leaves a change half made, and gives the journal by which it is taken back."""
        Store(self.plant).close()
        journal = self.state.with_name("state.sqlite-journal")
        with closing(sqlite3.connect(self.state, isolation_level=None)) as tables:
            tables.executescript("PRAGMA synchronous = OFF; BEGIN; INSERT INTO workbench VALUES ('x')")
            left = journal.read_bytes()
        journal.write_bytes(left)
        return journal

    def test_a_journal_has_no_other_file_removed(self) -> None:
        journal, other = self.interrupt(), self.write("letter.txt", b"1")
        ordinary, name = journal.read_bytes(), os.fsencode(other)
        named = struct.pack(">I", (1 << 30) // 4_096 + 1) + name + struct.pack(">II", len(name), sum(name)) + ordinary[:8]
        journal.write_bytes(ordinary + named)
        with self.assertRaisesRegex(Misuse, "journal: is no journal of sync"):
            Store(self.plant)
        self.assertTrue(other.exists())
        journal.write_bytes(ordinary)
        Store(self.plant).close()
        self.assertEqual((other.exists(), journal.exists()), (True, False))

    def test_what_is_kept_stays_in_the_folder(self) -> None:
        away = self.folder / "away"
        away.mkdir()
        opened = Store(self.plant)
        kept = opened.folder / "kept"
        (kept / "A").symlink_to(away)
        self.assertRaises(OSError, opened.keep, "A", "1.fb")
        opened.close()
        (kept / "_").symlink_to(away)
        (opened.drafts / "login.desktop").write_text("Exec=evil")
        with self.assertRaisesRegex(Misuse, "kept/_ is a link, and has to be none"):
            Store(self.plant)
        self.assertEqual(list(away.iterdir()), [])

    def test_a_dry_run_copies_nothing_that_a_link_leads_to(self) -> None:
        self.state.unlink()
        self.state.symlink_to("/dev/zero")
        with hosting() as port:
            ran = run("sync", "plant", "--connect", f":{port}", "--dry-run", folder=self.folder)
        self.assertEqual((ran.returncode, ran.stderr), (2, "sync: plant/.bench61499/state.sqlite: is a link, and has to be none\n"))

    def test_values_of_gigabytes_and_values_that_are_no_words(self) -> None:
        (self.plant / ".bench61499").rename(self.folder / "away")
        Store(self.plant).close()
        self.state = self.plant / ".bench61499" / "state.sqlite"
        self.make("INSERT INTO workbench VALUES ('x'); INSERT INTO common VALUES ('A', x'00', 1, x'01', 'x'), (x'02', 'b.fb', 1, 'B', 'x')")
        opened = Store(self.plant)
        self.assertEqual(opened.common, {})
        opened.close()
        self.make("INSERT INTO common VALUES ('C', 'c.fb', 1, zeroblob(2000000), 'x')")
        self.assertEqual(last_common([self.plant], "x"), {})
        self.assertRaises(Misuse, Store, self.plant)


class WritingTest(InFolder):
    """What is there after a loss of power is seen in what is asked of the system, in which order."""

    @contextmanager
    def recorded(self) -> Iterator[list[str]]:
        calls: list[str] = []

        def calling(name: str) -> object:
            its = getattr(os, name)

            def call(*words: object, **more: object) -> object:
                is_folder = name == "fsync" and os.path.isdir(f"/proc/self/fd/{words[0]}")
                calls.append("fsync of the folder" if is_folder else name)
                return its(*words, **more)

            return call

        with patch("os.fsync", calling("fsync")), patch("os.replace", calling("replace")), patch("os.link", calling("link")):
            yield calls

    def test_a_name_leads_to_what_is_on_the_disk(self) -> None:
        file = self.write("a.fb", LOOSE.format("A"))
        with self.recorded() as calls:
            write_over(file, b"1")
            create(self.folder / "b.fb", b"2")
        self.assertEqual(calls, ["fsync", "replace", "fsync of the folder", "fsync", "link", "fsync of the folder"])
        self.assertEqual((file.read_bytes(), (self.folder / "b.fb").read_bytes()), (b"1", b"2"))
        self.assertRaises(FileExistsError, create, file, b"3")

    def test_a_full_disk_leaves_all_as_it_was(self) -> None:
        file = self.write("a.fb", b"1")
        with patch("os.fsync", side_effect=OSError(28, "No space left on device")):
            self.assertRaises(OSError, write_over, file, b"2")
            self.assertRaises(OSError, create, self.folder / "b.fb", b"2")
        self.assertEqual(([it.name for it in self.folder.iterdir()], file.read_bytes()), (["a.fb"], b"1"))


del HostileTest

if __name__ == "__main__":
    unittest.main()
