"""What a `sync` keeps while others change the workbench again and again: it has a bound, and nothing of its user is lost by that."""
from __future__ import annotations

import io
import os
import time
from contextlib import redirect_stderr, redirect_stdout
from pathlib import Path
from unittest.mock import patch

import test_sync
from support import InFolder, until
from syncing import TEXT, Host

from bench61499 import Put, Remove
from bench61499.sync.keeper import Ways
from bench61499.sync.kept import Kept
from bench61499.sync.store import FileRevision, Store

HOUR = 3_600.0


def version(at: int, name: str = "A") -> str:
    """A text of a unit, another one for each number."""
    return f"{TEXT.format(name=name)}// {at}\n"


class KeptTest(InFolder):
    def setUp(self) -> None:
        super().setUp()
        self.kept = Kept(self.folder / "kept")
        self.kept.folder.mkdir()

    def keep(self, unit: str, words: str, stood: float, content: str = "text") -> Path:
        """Keeps a file that was there for these seconds."""
        path = self.kept.name(unit, words)
        path.write_text(content)
        os.utime(path, (time.time() - stood,) * 2)
        return path

    def there(self) -> set[Path]:
        return set(self.kept.folder.glob("*/*"))

    def test_those_that_stood_longest_stay(self) -> None:
        long, short = self.keep("A", "1.fb", HOUR), self.keep("A", "2.fb", 1)
        other, none = self.keep("B", "3-theirs.fb", 60), self.keep("C", "4-merged.fb", 0)
        with patch("bench61499.sync.kept.MOST", 2):
            self.kept.thin()
        self.assertEqual(self.there(), {long, other})
        self.assertFalse(none.parent.exists() or short.exists())

    def test_their_bytes_are_bounded(self) -> None:
        first, _, last = self.keep("A", "1.fb", HOUR, "x" * 60), self.keep("A", "2.fb", 1, "x" * 60), self.keep("A", "3.fb", 2, "x" * 40)
        with patch("bench61499.sync.kept.MOST_BYTES", 100):
            self.kept.thin()
        self.assertEqual(self.there(), {first, last})

    def test_what_is_the_users_own_stays(self) -> None:
        words = ("1-changed.fb", "beside.theirs", "1-theirs-changed.fb", "123-4")
        its = {self.keep("A", it, 0) for it in words}
        with patch("bench61499.sync.kept.MOST", 0):
            self.keep("A", "1.fb", HOUR)
            self.kept.thin()
        self.assertEqual(self.there(), its)

    def test_what_earlier_runs_have_kept_counts(self) -> None:
        long = self.keep("A", "1.fb", HOUR)
        self.keep("A", "2.fb", 1)
        with patch("bench61499.sync.kept.MOST", 1):
            Kept(self.kept.folder).open()
        self.assertEqual(self.there(), {long})

    def test_nothing_behind_a_link_is_removed(self) -> None:
        path = self.keep("A", "1.fb", 0)
        os.rename(path.parent, self.folder / "elsewhere")
        path.parent.symlink_to(self.folder / "elsewhere")
        with patch("bench61499.sync.kept.MOST", 0):
            Kept(self.kept.folder).open()
        self.assertTrue(path.exists())


class FloodTest(InFolder):
    """Somebody changes the units of a folder again and again."""

    def setUp(self) -> None:
        super().setUp()
        self.enterContext(redirect_stdout(io.StringIO()))
        self.enterContext(redirect_stderr(io.StringIO()))
        host = Host()
        self.addCleanup(host.end)
        self.session = host.session()
        self.addCleanup(self.session.close)
        self.session.commit([Put("A", 0, version(0))])
        self.port = host.port

    def keeping(self, ways: Ways = Ways()) -> test_sync.Kept:
        its = test_sync.Kept(self.folder / "plant", self.port, ways)
        self.addCleanup(its.close)
        return its

    def flood(self, its: test_sync.Kept, count: int) -> None:
        """Makes commits, each of which comes into the folder."""
        for at in range(1, count + 1):
            self.session.commit([Put("A", self.session.revisions["A"], version(at))])
            until(lambda: its.step() and its.team.version("A").revision == self.session.revisions["A"])

    def names(self) -> list[str]:
        """What is kept, without its moments."""
        return sorted(it.name.partition("-")[2] for it in self.folder.glob("plant/.bench61499/kept/*/*"))

    def test_copies(self) -> None:
        its = self.keeping()
        its.settle()
        os.utime(its.file("A.fb"), (time.time() - HOUR,) * 2)
        with patch("bench61499.sync.kept.MOST", 4):
            self.flood(its, 20)
        self.assertEqual(len(its.kept()), 4)
        self.assertIn(version(0), its.kept())

    def test_changes_that_are_not_committed(self) -> None:
        its = self.keeping(Ways(push=False))
        its.settle()
        its.file("A.fb").write_text(own := f"// mine\n{version(0)}")
        with patch("bench61499.sync.kept.MOST", 4):
            self.flood(its, 10)
        self.assertEqual(its.texts(), {"A.fb": f"// mine\n{version(10)}"})
        self.assertIn(own, its.kept())
        self.assertEqual([it for it in self.names() if "merged" not in it], ["1-changed.fb"])
        self.assertEqual(len(self.names()), 5)

    def test_texts_beside_a_file(self) -> None:
        its = self.keeping(Ways(push=False))
        its.settle()
        its.file("A.fb").write_text(version(99))
        with patch("bench61499.sync.kept.MOST", 4):
            self.flood(its, 5)
            its.file("A.fb.theirs").write_text("edited")
            self.flood(its, 5)
        self.assertEqual(its.file("A.fb.theirs").read_text(), version(5))
        self.assertIn("edited", its.kept())
        self.assertEqual([it for it in self.names() if it.endswith("theirs-changed.fb")], ["6-theirs-changed.fb"])
        self.assertEqual(len(self.names()), 5)

    def test_names_that_come_and_go(self) -> None:
        its = self.keeping()
        its.settle()
        with patch("bench61499.sync.kept.MOST", 2), patch("bench61499.sync.team.UNITS_LIMIT", 3):
            for at in range(9):
                number = self.session.commit([Put(f"N{at}", 0, version(at, f"N{at}"))])
                until(lambda: its.step() and len(its.texts()) == 2)
                self.session.commit([Remove(f"N{at}", number)])
                until(lambda: its.step() and len(its.texts()) == 1)
        self.assertEqual(its.team.caller("N8"), f" by session {self.session.status().session}")
        self.assertEqual([its.team.caller("N5"), its.team.remover("N5")], ["", ""])
        self.assertEqual(len(list(self.folder.glob("plant/.bench61499/kept/*"))), 2)


class FormerTest(InFolder):
    def setUp(self) -> None:
        super().setUp()
        self.store = Store(self.folder)
        self.addCleanup(self.store.close)

    def former(self, unit: str, count: int) -> list[str]:
        """Has a unit get texts; gives those that are known as former ones."""
        with self.store.together():
            for at in range(count):
                self.store.found(unit, FileRevision(f"{unit}.fb", at + 1, version(at)))
        return [text for text in map(version, range(count)) if self.store.was_former(unit, text)]

    def test_former_texts_of_a_unit(self) -> None:
        with patch("bench61499.sync.store.MOST_FORMER", 5):
            known = self.former("A", 50)
        self.assertEqual(len(known), 5)
        self.assertEqual(known[-1], version(48))

    def test_all_are_known_below_the_bound(self) -> None:
        self.assertEqual(len(self.former("A", 200)), 199)

    def test_units_that_are_gone(self) -> None:
        with patch("bench61499.sync.store.MOST_GONE", 10):
            self.former("STAYS", 3)
            for at in range(35):
                self.former(f"N{at}", 2)
                self.store.found(f"N{at}", None)
        gone = [at for at in range(35) if self.store.had(f"N{at}")]
        self.assertLessEqual(len(gone), 20)
        self.assertEqual(gone[-1], 34)
        self.assertTrue(self.store.was_former("STAYS", version(0)))
