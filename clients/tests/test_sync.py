"""A folder and a workbench that are kept the same: what is done with each unit, and what with files that others write too."""
from __future__ import annotations

import errno
import io
import itertools
import os
import shutil
import sqlite3
import unittest
from collections.abc import Callable
from contextlib import redirect_stderr, redirect_stdout
from pathlib import Path
from typing import Any
from unittest.mock import patch

from support import InFolder, hosting, run, serving, until
from syncing import TEXT, Host, Syncing, team_texts

from bench61499 import TEXT_LIMIT, Change, ConnectionEnded, NoSeat, NoWorkbench, Put, Remove, Session, batches
from bench61499.language.units import Misuse
from bench61499.mirror import Version
from bench61499.sync import files
from bench61499.sync.deciding import Decision, Step, decide
from bench61499.sync.files import Changed, Writer
from bench61499.sync.incoming import Incoming
from bench61499.sync.keeper import Keeper, Ways
from bench61499.sync.outgoing import Outgoing
from bench61499.sync.report import LASTS, MANY, Report
from bench61499.sync.saved import Saved
from bench61499.sync.store import FileRevision, Store
from bench61499.sync.team import Team

A = TEXT.format(name="A")
ABOVE, BELOW, BOTH = f"// above\n{A}", f"{A}// below\n", f"// above\n{A}// below\n"
HOT, HOTTER = A.replace(":= 0", ":= 1"), A.replace(":= 0", ":= 2")


class DecidingTest(unittest.TestCase):
    def test_each_case(self) -> None:
        cases = {
            (A, A, None): (Step.AGREE, A),
            (None, None, A): (Step.AGREE, None),
            (A, None, None): (Step.PUT, A),
            (HOT, A, A): (Step.PUT, HOT),
            (None, A, A): (Step.REMOVE, None),
            (None, A, None): (Step.WRITE, A),
            (A, HOT, A): (Step.WRITE, HOT),
            (A, None, A): (Step.DELETE, None),
            (HOT, None, A): (Step.PUT, HOT),
            (None, HOT, A): (Step.WRITE, HOT),
            (ABOVE, BELOW, A): (Step.MERGE, BOTH),
            (HOT, HOTTER, A): (Step.CONFLICT, HOTTER),
            (HOT, HOTTER, None): (Step.CONFLICT, HOTTER),
            (ABOVE, BELOW, None): (Step.CONFLICT, BELOW),
        }
        for texts, expected in cases.items():
            self.assertEqual(decide(*texts), Decision(*expected), texts)

    def test_no_change_of_one_side_is_undone(self) -> None:
        """Whatever the three texts are: what one side has changed alone comes out, and what both have changed is reported or merged."""
        for here, there, common in itertools.product([None, A, HOT, BELOW], repeat=3):
            step, text = decide(here, there, common)
            if here == common:
                self.assertEqual(text, there)
            elif there == common:
                self.assertEqual(text, here)
            elif step not in (Step.MERGE, Step.CONFLICT):
                self.assertIn(text, {here, there} - {None} or {None})

    def test_a_merge_that_is_too_long_for_a_unit_is_a_conflict(self) -> None:
        one, other = (f"// {it * (TEXT_LIMIT // 2)}\n" for it in "xy")
        self.assertEqual(decide(one + A, A + other, A).step, Step.CONFLICT)


class WriterTest(InFolder):
    def setUp(self) -> None:
        super().setUp()
        self.drafts = self.folder / "drafts"
        self.drafts.mkdir()
        self.writer, self.kept = Writer(self.drafts), self.folder / "kept"
        self.file = self.write("A.fb", "one")

    def tearDown(self) -> None:
        self.writer.flush()
        self.assertEqual(list(self.drafts.iterdir()), [])

    def replace(self, expected: bytes = b"one") -> None:
        self.writer.replace(self.file, expected, b"other", lambda: self.kept)

    def test_a_file_is_replaced_and_the_former_one_kept(self) -> None:
        self.file.chmod(0o640)
        self.replace()
        self.assertEqual((self.file.read_text(), self.kept.read_text(), self.file.stat().st_mode & 0o777), ("other", "one", 0o640))

    def test_a_file_that_was_changed_stays(self) -> None:
        with self.assertRaises(Changed):
            self.replace(b"zero")
        self.assertEqual((self.file.read_text(), self.kept.exists()), ("one", False))

    def test_without_an_exchange_of_files(self) -> None:
        with patch.object(files, "_libc", object()):
            self.test_a_file_that_was_changed_stays()
            self.test_a_file_is_replaced_and_the_former_one_kept()

    def test_where_the_file_system_has_no_exchange(self) -> None:
        with patch.object(files.ctypes, "get_errno", lambda: errno.EINVAL), patch.object(files._libc, "renameat2", lambda *_: -1):
            self.test_a_file_is_replaced_and_the_former_one_kept()

    def test_what_is_saved_in_the_instant_of_the_exchange_wins(self) -> None:
        exchange = files._exchanged

        def late(one: Path, other: Path) -> bool:
            if other.read_text() == "one":
                other.write_text("saved")
            return exchange(one, other)

        with patch.object(files, "_exchanged", late), self.assertRaises(Changed):
            self.replace()
        self.assertEqual((self.file.read_text(), self.kept.exists()), ("saved", False))

    def test_what_is_saved_twice_in_that_instant_is_in_the_file_or_kept(self) -> None:
        exchange, saved = files._exchanged, iter(["first", "second"])

        def late(one: Path, other: Path) -> bool:
            other.write_text(next(saved))
            return exchange(one, other)

        with patch.object(files, "_exchanged", late), self.assertRaises(Changed):
            self.replace()
        self.assertEqual((self.file.read_text(), self.kept.read_text()), ("first", "second"))

    def test_a_file_that_is_gone_is_not_made(self) -> None:
        self.file.unlink()
        with self.assertRaises((Changed, FileNotFoundError)):
            self.replace()
        with self.assertRaises(Changed):
            self.writer.remove(self.file, b"one", lambda: self.kept)
        self.assertFalse(self.file.exists() or self.kept.exists())

    def test_a_new_file_is_not_put_over_another_one(self) -> None:
        with self.assertRaises(Changed):
            self.writer.create(self.file, b"other")
        self.writer.create(self.folder / "B.fb", b"new")
        self.assertEqual((self.file.read_text(), (self.folder / "B.fb").read_text()), ("one", "new"))

    def test_many_new_files(self) -> None:
        names = [f"U{at}.fb" for at in range(3)]
        self.write("U1.fb", "mine")
        self.writer.prepare({self.folder / name: name.encode() for name in names})
        self.writer.create(self.folder / "U0.fb", b"U0.fb")
        with self.assertRaises(Changed):
            self.writer.create(self.folder / "U1.fb", b"U1.fb")
        self.assertEqual([(self.folder / name).exists() and (self.folder / name).read_text() for name in names], ["U0.fb", "mine", False])

    def test_a_file_is_removed_unless_it_was_changed(self) -> None:
        with self.assertRaises(Changed):
            self.writer.remove(self.file, b"zero", lambda: self.kept)
        self.assertEqual((self.file.read_text(), self.kept.exists()), ("one", False))
        self.writer.remove(self.file, b"one", lambda: self.kept)
        self.assertEqual((self.file.exists(), self.kept.read_text()), (False, "one"))


class SavedTest(InFolder):
    def setUp(self) -> None:
        super().setUp()
        self.saved = Saved(self.folder)

    def names(self, **known: FileRevision) -> dict[str, str]:
        self.saved.look(at_once=True)
        return self.saved.units(known).files

    def problems(self, **known: FileRevision) -> set[str]:
        self.saved.look(at_once=True)
        return set(self.saved.units(known).problems)

    def test_units_are_named_by_their_declarations_in_inner_folders_too(self) -> None:
        self.write("x.fb", A)
        self.write("inner/y.FB", TEXT.format(name="b"))
        self.write(".hidden/z.fb", TEXT.format(name="Z"))
        self.write("notes.txt", TEXT.format(name="N"))
        self.assertEqual(self.names(), {"A": "x.fb", "B": "inner/y.FB"})

    def test_the_file_that_had_a_unit_counts(self) -> None:
        self.write("a.fb", A)
        self.write("b.fb", A)
        self.assertEqual((self.names(), self.problems()), ({"A": "a.fb"}, {"b.fb"}))
        known = {"A": FileRevision("b.fb", 1, A)}
        self.assertEqual((self.names(**known), self.problems(**known)), ({"A": "b.fb"}, {"a.fb"}))

    def test_a_name_that_is_not_utf_8(self) -> None:
        (self.folder / os.fsdecode(b"\xff.fb")).write_text(A)
        self.assertEqual((self.names(), len(self.problems())), ({}, 1))

    def test_a_text_without_a_declaration_stays_the_unit_that_it_was(self) -> None:
        self.write("a.fb", "FUNCTION_BLOCK")
        self.assertEqual((self.names(), self.problems()), ({}, {"a.fb"}))
        self.assertEqual(self.names(A=FileRevision("a.fb", 1, A)), {"A": "a.fb"})

    def test_another_declared_name_is_another_unit(self) -> None:
        self.write("a.fb", TEXT.format(name="B"))
        self.assertEqual(self.names(A=FileRevision("a.fb", 1, A)), {"B": "a.fb"})
        self.assertEqual(self.names(A=FileRevision("a.fb", 1, TEXT.format(name="B"))), {"A": "a.fb"})

    def test_a_file_that_is_moved_keeps_its_unit(self) -> None:
        self.write("b.fb", A)
        self.assertEqual(self.names(A=FileRevision("a.fb", 1, A)), {"A": "b.fb"})

    def test_nothing_is_wrong_while_a_file_is_being_moved(self) -> None:
        file = self.write("a.fb", A)
        self.assertEqual(self.problems(A=FileRevision("a.fb", 1, A)), set())
        file.rename(self.folder / "b.fb")
        self.saved.look()
        self.saved.look()
        self.assertTrue(self.saved.has_file("a.fb") and self.saved.has_file("b.fb"))
        self.assertEqual(self.saved.units({"A": FileRevision("a.fb", 1, A)}).problems, {})

    def test_what_is_no_text_of_a_unit_is_held(self) -> None:
        for content in (b"\xff", b"x" * (TEXT_LIMIT + 1)):
            self.write("a.fb", content)
            self.saved.look(at_once=True)
            found = self.saved.units({"A": FileRevision("a.fb", 1, A)})
            self.assertEqual((found.files, found.held, set(found.problems)), ({}, {"A": "a.fb"}, {"a.fb"}))

    def test_links_are_left_alone(self) -> None:
        outside = self.write("outside/x.fb", A)
        inner = self.folder / "inner"
        inner.mkdir()
        (inner / "l.fb").symlink_to(outside)
        (inner / "folder").symlink_to(outside.parent)
        (inner / "m.fb").symlink_to("/dev/zero")
        saved = Saved(inner)
        saved.look(at_once=True)
        self.assertEqual(saved.units({}).files, {})

    def test_a_file_is_read_once_it_stays_the_same(self) -> None:
        self.assertFalse(self.saved.look())
        file = self.write("a.fb", A)
        self.assertFalse(self.saved.look())
        file.write_text(BELOW)
        self.assertFalse(self.saved.look())
        self.assertTrue(self.saved.look())
        self.assertEqual(self.saved.text("a.fb"), BELOW)
        self.assertFalse(self.saved.look())

    def test_a_file_that_is_away_for_a_moment_is_not_deleted(self) -> None:
        file = self.write("a.fb", A)
        self.saved.look(at_once=True)
        file.rename(self.folder / "a.fb~")
        self.assertFalse(self.saved.look())
        (self.folder / "a.fb~").rename(file)
        self.saved.look()
        self.saved.look()
        self.assertTrue(self.saved.has_file("a.fb"))
        file.unlink()
        until(self.saved.look)
        self.assertFalse(self.saved.has_file("a.fb"))

    def test_a_new_file_gets_a_name_that_is_free_on_every_system(self) -> None:
        self.write("a.fb", TEXT.format(name="B"))
        self.saved.look(at_once=True)
        (self.folder / "A_1.fb").symlink_to("nowhere")
        self.assertEqual([self.saved.free_name(it) for it in "AC"], ["A_2.fb", "C.fb"])


class Kept:
    """A folder that is kept here, without a process of its own."""

    def __init__(self, folder: Path, port: int, ways: Ways = Ways()):
        folder.mkdir(exist_ok=True)
        self.folder, self.store, self.report = folder, Store(folder), Report()
        self.team = Team(lambda: Session.connect("127.0.0.1", port))
        self.keeper = Keeper(Saved(folder), self.store, self.team, ways, self.report)
        self.team.__enter__()
        self._is_open = True

    def close(self) -> None:
        """It can be closed again."""
        if self._is_open:
            self._is_open = False
            self.team.__exit__()
            self.store.close()

    def step(self) -> bool:
        self.keeper.look(at_once=True)
        return self.keeper.step()

    def settle(self) -> None:
        until(self.step)

    def file(self, name: str) -> Path:
        return self.folder / name

    def texts(self) -> dict[str, str]:
        return {it.name: it.read_text() for it in self.folder.glob("*.fb")}

    def kept(self) -> list[str]:
        return sorted(it.read_text() for it in self.folder.glob(".bench61499/kept/*/*"))

    def conflicts(self) -> list[Path]:
        return list(self.folder.glob("*.theirs"))


class KeeperTest(InFolder):
    def setUp(self) -> None:
        super().setUp()
        self.enterContext(redirect_stdout(io.StringIO()))
        self.enterContext(redirect_stderr(io.StringIO()))
        self.host = Host()
        self.addCleanup(self.host.end)
        self.session = self.open()

    def open(self) -> Session:
        session = self.host.session()
        self.addCleanup(session.close)
        return session

    def keeping(self, name: str, ways: Ways = Ways()) -> Kept:
        kept = Kept(self.folder / name, self.host.port, ways)
        self.addCleanup(kept.close)
        return kept

    def both(self, text: str = A) -> tuple[Kept, Kept]:
        """Two folders that have a unit A."""
        one, other = self.keeping("one"), self.keeping("other")
        until(lambda: all(it.team.workbench for it in (one, other)))
        one.file("A.fb").write_text(text)
        self.settle(one, other)
        self.assertEqual(other.texts(), {"A.fb": text})
        return one, other

    def settle(self, *kept: Kept) -> None:
        """Until all have done all, and the workbench has not changed meanwhile."""
        calls = -1
        while calls != (calls := self.session.status().commits):
            for it in kept:
                self.catch_up(it)

    def catch_up(self, kept: Kept) -> None:
        kept.settle()
        until(lambda: self.knows_all(kept))
        kept.settle()

    def knows_all(self, kept: Kept) -> bool:
        units = self.session.units().units
        return all(self.version(kept, it.unit) == it.number for it in units) and kept.team.names() == {it.unit for it in units}

    def version(self, kept: Kept, unit: str) -> int:
        kept.step()
        version = kept.team.version(unit)
        return version.revision if version else 0

    def team(self) -> dict[str, str]:
        return team_texts(self.session)


class CommonTest(KeeperTest):
    def test_who_joins_needs_no_files(self) -> None:
        self.session.commit([Put(name, 0, TEXT.format(name=name)) for name in ("A", "B")])
        kept = self.keeping("one")
        kept.settle()
        self.assertEqual(kept.texts(), {"A.fb": A, "B.fb": TEXT.format(name="B")})
        self.assertEqual(self.session.status().commits, 1)

    def test_who_joins_a_large_plant(self) -> None:
        texts = {f"U{at}": TEXT.format(name=f"U{at}") for at in range(200)}
        for batch in batches(Put(unit, 0, text) for unit, text in texts.items()):
            self.session.commit(batch)
        kept = self.keeping("one")
        kept.settle()
        self.assertEqual(kept.texts(), {f"{unit}.fb": text for unit, text in texts.items()})
        self.assertEqual(list(kept.store.drafts.iterdir()), [])

    def test_what_is_saved_is_committed_and_written(self) -> None:
        one, other = self.both()
        one.file("A.fb").write_text(BELOW)
        self.settle(one, other)
        self.assertEqual((other.texts(), other.kept(), self.team()), ({"A.fb": BELOW}, [A], {"A": BELOW}))

    def test_files_that_were_saved_together_are_one_commit(self) -> None:
        kept = self.keeping("one")
        for at in range(40):
            kept.file(f"U{at}.fb").write_text(TEXT.format(name=f"U{at}"))
        kept.settle()
        self.assertEqual((len(self.team()), self.session.status().commits), (40, 3))

    def test_nothing_is_recorded_but_commits(self) -> None:
        one, other = self.both()
        until(lambda: not self.session.status().pending)
        calls = self.session.status().calls
        third = self.keeping("third")
        for _ in range(20):
            for it in (one, other, third):
                it.settle()
                it.team.wait(0.01)
        self.assertEqual((third.texts(), self.session.status().calls), ({"A.fb": A}, calls))

    def test_changes_of_both_are_merged(self) -> None:
        one, other = self.both()
        one.file("A.fb").write_text(ABOVE)
        other.file("A.fb").write_text(BELOW)
        self.settle(one, other)
        self.assertEqual([one.texts(), other.texts(), self.team()], [{"A.fb": BOTH}, {"A.fb": BOTH}, {"A": BOTH}])
        first, second = ((one, other) if BELOW in other.kept() else (other, one))
        self.assertEqual([len(first.kept()), second.kept()], [1, [BELOW if second is other else ABOVE]])

    def test_what_is_saved_just_after_it_was_written(self) -> None:
        """Who touches a file that is still to be read, as it differs from what was written, never finds that it stays the same."""
        one, other = self.both()
        other.file("A.fb").write_text(BELOW)
        one.file("A.fb").write_text(ABOVE)
        self.catch_up(one)
        until(lambda: other.team.version("A") == Version(2, ABOVE))
        for _ in range(10):
            other.keeper.look()
            other.keeper.step()
        self.assertEqual((other.texts(), self.team()), ({"A.fb": BOTH}, {"A": BOTH}))

    def test_a_unit_that_both_deleted(self) -> None:
        one, other = self.both()
        for it in (one, other):
            it.file("A.fb").unlink()
        self.settle(one, other)
        self.assertEqual([one.texts(), other.texts(), self.team()], [{}, {}, {}])

    def test_a_change_wins_over_a_removal(self) -> None:
        for deleted, changed in ((0, 1), (1, 0)):
            kept = self.both()
            kept[deleted].file("A.fb").unlink()
            kept[changed].file("A.fb").write_text(BELOW)
            with redirect_stdout(io.StringIO()) as said:
                self.settle(*kept)
            self.assertEqual([it.texts() for it in kept], [{"A.fb": BELOW}] * 2)
            self.assertEqual("; others had removed A\n" in said.getvalue(), deleted < changed)
            for it in kept:
                it.file("A.fb").write_text(A)
            self.settle(*kept)
            for it in kept:
                it.close()

    def test_another_declared_name_is_one_commit(self) -> None:
        one, other = self.both()
        b = TEXT.format(name="B")
        one.file("A.fb").write_text(b)
        commits = self.session.status().commits
        self.settle(one, other)
        self.assertEqual([one.texts(), other.texts(), self.team()], [{"A.fb": b}, {"B.fb": b}, {"B": b}])
        self.assertEqual(self.session.status().commits, commits + 1)

    def test_a_unit_whose_text_declares_another_name_is_left_as_it_is(self) -> None:
        self.session.commit([Put("A", 0, TEXT.format(name="B"))])
        kept = self.keeping("one")
        kept.settle()
        kept.settle()
        self.assertEqual((kept.texts(), self.team()), ({"A.fb": TEXT.format(name="B")}, {"A": TEXT.format(name="B")}))

    def test_many_deleted_files_are_not_removed_unasked(self) -> None:
        one = self.keeping("one")
        for name in "ABCD":
            one.file(f"{name}.fb").write_text(TEXT.format(name=name))
        one.settle()
        for name in "ABCD":
            one.file(f"{name}.fb").unlink()
        one.settle()
        self.assertEqual((len(self.team()), one.report.has_troubles()), (4, True))
        one.close()
        self.keeping("one", Ways(removes_many=True)).settle()
        self.assertEqual(self.team(), {})

    def test_what_cannot_be_committed_does_not_hold_up_the_rest(self) -> None:
        self.host.end()
        with hosting("--units", "2") as port:
            kept = Kept(self.folder / "one", port)
            self.addCleanup(kept.close)
            for name in "ABC":
                kept.file(f"{name}.fb").write_text(TEXT.format(name=name))
            kept.settle()
            with Session.connect("127.0.0.1", port) as session:
                self.assertEqual(len(team_texts(session)), 2)
            self.assertTrue(kept.report.has_troubles())


class ConflictTest(KeeperTest):
    def disputed(self) -> tuple[Kept, Kept]:
        """Two folders, of which the second one has the other text beside its own."""
        one, other = self.both()
        one.file("A.fb").write_text(HOT)
        self.settle(one)
        other.file("A.fb").write_text(HOTTER)
        self.settle(other)
        self.assertEqual((other.texts(), other.file("A.fb.theirs").read_text(), self.team()), ({"A.fb": HOTTER}, HOT, {"A": HOT}))
        return one, other

    def test_mine(self) -> None:
        one, other = self.disputed()
        other.file("A.fb.theirs").unlink()
        self.settle(other, one)
        self.assertEqual([one.texts(), other.texts(), self.team()], [{"A.fb": HOTTER}, {"A.fb": HOTTER}, {"A": HOTTER}])
        self.assertIn(HOT, other.kept())
        self.assertIn(HOT, one.kept())

    def test_theirs(self) -> None:
        _, other = self.disputed()
        commits = self.session.status().commits
        other.file("A.fb.theirs").rename(other.file("A.fb"))
        self.settle(other)
        self.assertEqual((other.texts(), self.session.status().commits), ({"A.fb": HOT}, commits))

    def test_the_same_text_ends_it(self) -> None:
        _, other = self.disputed()
        other.file("A.fb").write_text(HOT)
        self.settle(other)
        self.assertFalse(other.file("A.fb.theirs").exists())

    def test_a_text_that_can_be_merged_ends_it(self) -> None:
        one, other = self.disputed()
        one.file("A.fb").write_text(f"{HOTTER}// below\n")
        self.settle(one, other)
        self.assertEqual((other.texts(), other.file("A.fb.theirs").exists()), ({"A.fb": f"{HOTTER}// below\n"}, False))

    def test_a_later_text_comes_in_its_place(self) -> None:
        one, other = self.disputed()
        one.file("A.fb").write_text(A.replace(":= 0", ":= 3"))
        self.settle(one, other)
        self.assertEqual(other.file("A.fb.theirs").read_text(), A.replace(":= 0", ":= 3"))
        self.assertIn(HOT, other.kept())

    def test_a_removal_ends_it(self) -> None:
        one, other = self.disputed()
        one.file("A.fb").unlink()
        self.settle(one, other)
        self.assertEqual((self.team(), other.texts(), other.file("A.fb.theirs").exists(), HOT in other.kept()), ({"A": HOTTER}, {"A.fb": HOTTER}, False, True))

    def test_a_file_that_is_deleted_ends_it(self) -> None:
        _, other = self.disputed()
        other.file("A.fb").unlink()
        self.settle(other)
        self.assertEqual((other.texts(), other.file("A.fb.theirs").exists()), ({"A.fb": HOT}, False))

    def test_both_have_a_new_unit(self) -> None:
        one, other = self.keeping("one"), self.keeping("other")
        one.file("A.fb").write_text(ABOVE)
        self.settle(one)
        other.close()
        (self.folder / "other" / "A.fb").write_text(BELOW)
        other = self.keeping("other")
        self.settle(other)
        self.assertEqual((other.texts(), other.file("A.fb.theirs").read_text()), ({"A.fb": BELOW}, ABOVE))

    def test_both_save_a_new_unit_at_the_same_time(self) -> None:
        """What comes waits for the file that is there, and not read yet."""
        one = self.keeping("one")
        one.settle()
        for file, unit in (("B.fb", "B"), ("other.fb", "C")):
            one.file(file).write_text(TEXT.format(name=unit))
            self.session.commit([Put(unit, 0, f"// other\n{TEXT.format(name=unit)}")])
            until(lambda: one.team.names() == {it.unit for it in self.session.units().units})
            while not one.file(f"{file}.theirs").exists():
                one.keeper.step()
                one.keeper.look()
        self.assertEqual(one.texts(), {"B.fb": TEXT.format(name="B"), "other.fb": TEXT.format(name="C")})

    def test_a_file_beside_that_was_there_before_is_kept(self) -> None:
        one, other = self.both()
        other.file("A.fb.theirs").write_text("mine")
        one.file("A.fb").write_text(HOT)
        self.settle(one)
        other.file("A.fb").write_text(HOTTER)
        self.settle(other)
        self.assertEqual((other.file("A.fb.theirs").read_text(), "mine" in other.kept()), (HOT, True))

    def test_who_has_changed_a_unit(self) -> None:
        one, other = self.both()
        self.assertEqual((one.team.caller("A"), other.team.caller("A")), (" by you", f" by session {one.team.session}"))
        other.file("A.fb").write_text(HOT)
        self.settle(other, one)
        self.assertEqual((one.team.caller("A"), other.team.caller("A")), (f" by session {other.team.session}", " by you"))

    def test_who_has_put_a_unit_again(self) -> None:
        """Who removed it learns that."""
        one, _ = self.both()
        one.file("A.fb").unlink()
        self.settle(one)
        with redirect_stdout(io.StringIO()) as said:
            self.session.commit([Put("A", 0, HOT)])
            self.settle(one)
        self.assertEqual(said.getvalue(), f"A.fb: written: revision 3 by session {self.session.status().session}, after you had removed it\n")

    def test_marked_lines_are_not_committed(self) -> None:
        one, _ = self.both()
        marked = f"<<<<<<< mine\n{A}=======\n{A}>>>>>>> theirs\n"
        one.file("A.fb").write_text(marked)
        one.settle()
        self.assertEqual((self.team(), one.report.has_troubles(), one.texts()), ({"A": A}, True, {"A.fb": marked}))
        one.file("A.fb").write_text(BELOW)
        self.settle(one)
        self.assertEqual(self.team(), {"A": BELOW})

    def test_a_name_between_marked_lines_removes_no_unit(self) -> None:
        one, _ = self.both()
        named = A.replace(" A", " B", 1)
        one.file("A.fb").write_text(f"{named}<<<<<<< mine\n=======\n// 2\n>>>>>>> theirs\n")
        one.settle()
        self.assertEqual((self.team(), one.report.has_troubles()), ({"A": A}, True))
        one.file("A.fb").write_text(named)
        self.settle(one)
        self.assertEqual(self.team(), {"B": named})


class LostTest(KeeperTest):
    """Answers that do not come, hosts that are started again, and runs that are killed."""

    def test_an_answer_that_does_not_come(self) -> None:
        one, _ = self.both()
        commit = one.team.commit

        def unanswered(workbench: str, changes: list[Change]) -> int:
            commit(workbench, changes)
            raise ConnectionEnded("it ended")

        one.file("A.fb").write_text(HOT)
        with patch.object(one.team, "commit", unanswered):
            one.step()
        one.file("A.fb").write_text(HOTTER)
        self.settle(one)
        self.assertEqual((self.team(), one.texts(), one.file("A.fb.theirs").exists()), ({"A": HOTTER}, {"A.fb": HOTTER}, False))

    def test_a_colleague_goes_back_to_the_text_before_a_commit_without_an_answer(self) -> None:
        """Whether it was made is not known any more, so the user is asked."""
        one, _ = self.both()
        commit = one.team.commit

        def unanswered(workbench: str, changes: list[Change]) -> int:
            number = commit(workbench, changes)
            self.session.commit([Put("A", number, A)])
            raise ConnectionEnded("it ended")

        one.file("A.fb").write_text(HOT)
        with patch.object(one.team, "commit", unanswered):
            one.step()
        self.settle(one)
        self.assertEqual((self.team(), one.texts(), one.file("A.fb.theirs").read_text()), ({"A": A}, {"A.fb": HOT}, A))

    def test_a_commit_that_was_not_made(self) -> None:
        one, _ = self.both()
        one.file("A.fb").write_text(HOT)
        with patch.object(one.team, "commit", side_effect=ConnectionEnded("it ended")):
            one.step()
        self.settle(one)
        self.assertEqual((self.team(), one.store.sent), ({"A": HOT}, {}))

    def test_a_run_that_is_killed_between_the_answer_and_its_record(self) -> None:
        one, _ = self.both()
        one.file("A.fb").write_text(HOT)
        with patch.object(one.store, "agree", side_effect=KeyboardInterrupt), self.assertRaises(KeyboardInterrupt):
            one.step()
        one.close()
        one.file("A.fb").write_text(HOTTER)
        again = self.keeping("one")
        self.settle(again)
        self.assertEqual((self.team(), again.texts(), again.file("A.fb.theirs").exists()), ({"A": HOTTER}, {"A.fb": HOTTER}, False))

    def test_a_run_that_is_killed_between_a_file_and_its_record(self) -> None:
        """What it has written is no change of the user: a later text of the team comes without a question."""
        _, other = self.both()
        self.killed_after_writing(other, "A", HOT, HOTTER)
        self.killed_after_writing(self.keeping("other"), "B", TEXT.format(name="B"), TEXT.format(name="B") + "// later")

    def killed_after_writing(self, kept: Kept, unit: str, text: str, later: str) -> None:
        revision = self.session.commit([Put(unit, self.session.revision(unit), text)])
        with patch.object(kept.store, "wrote", side_effect=KeyboardInterrupt), self.assertRaises(KeyboardInterrupt):
            until(lambda: kept.step() and False)
        self.assertEqual(kept.file(f"{unit}.fb").read_text(), text)
        kept.close()
        self.session.commit([Put(unit, revision, later)])
        again = self.keeping("other")
        self.settle(again)
        self.assertEqual((again.texts()[f"{unit}.fb"], again.file(f"{unit}.fb.theirs").exists(), self.team()[unit]), (later, False, later))
        again.close()

    def test_a_host_that_is_started_again_gets_all_units(self) -> None:
        one, other = self.both()
        self.restart()
        until(lambda: one.step() and other.step() and self.team() == {"A": A})
        self.settle(one, other)
        self.assertEqual([one.texts(), other.texts(), self.team()], [{"A.fb": A}, {"A.fb": A}, {"A": A}])

    def restart(self) -> None:
        self.host.end()
        self.host.start()
        self.session = self.open()

    def earlier(self) -> tuple[Kept, Kept]:
        """Two folders after a restart of the host: the second one, which is the first to put A, has a text that the other one had before."""
        one, other = self.both()
        other.close()
        one.file("A.fb").write_text(HOT)
        self.settle(one)
        one.close()
        self.restart()
        other = self.keeping("other")
        self.settle(other)
        self.assertEqual(self.team(), {"A": A})
        return self.keeping("one"), other

    def test_neither_an_older_text_nor_one_that_somebody_went_back_to_is_replaced(self) -> None:
        """Nobody knows which of them it is, so the user is asked."""
        for is_older in (True, False):
            one, other = self.earlier()
            with redirect_stdout(io.StringIO()) as said:
                self.settle(one, other)
            self.assertEqual([one.texts(), other.texts(), self.team()], [{"A.fb": HOT}, {"A.fb": A}, {"A": A}])
            self.assertIn("which this folder had before its text: somebody may have gone back to it: that is A.fb.theirs now", said.getvalue())
            self.answer(one, is_older)
            self.settle(one, other)
            expected = HOT if is_older else A
            self.assertEqual([one.texts(), other.texts(), self.team(), one.store.conflicts], [{"A.fb": expected}, {"A.fb": expected}, {"A": expected}, {}])
            for it in one, other:
                it.close()
                shutil.rmtree(it.folder)
            self.restart()

    def answer(self, kept: Kept, is_mine: bool) -> None:
        beside = kept.file("A.fb.theirs")
        if is_mine:
            beside.unlink()
        else:
            beside.rename(kept.file("A.fb"))

    def test_a_text_that_the_user_has_gone_back_to_is_the_last_one(self) -> None:
        one, other = self.both()
        for text in (HOT, A):
            one.file("A.fb").write_text(text)
            self.settle(one, other)
        self.restart()
        self.settle(one, other)
        self.assertEqual([one.texts(), other.texts(), self.team(), one.conflicts(), other.conflicts()], [{"A.fb": A}, {"A.fb": A}, {"A": A}, [], []])

    def test_what_is_in_question_stays_so(self) -> None:
        """A restart of the host is no answer, whether its workbench has no text of the unit or the one before both."""
        for first in (None, A):
            one, other = self.both()
            one.file("A.fb").write_text(HOT)
            self.settle(one)
            one.close()
            other.file("A.fb").write_text(HOTTER)
            self.settle(other)
            self.restart()
            if first:
                self.session.commit([Put("A", 0, first)])
            self.settle(other)
            self.assertEqual((other.texts(), other.file("A.fb.theirs").read_text(), self.team()), ({"A.fb": HOTTER}, HOT, {"A": first} if first else {}))
            with redirect_stdout(io.StringIO()) as said:
                for theirs in filter(None, (HOT, first)):
                    self.assertEqual(other.file("A.fb.theirs").read_text(), theirs)
                    self.answer(other, is_mine=True)
                    self.settle(other)
            self.assertEqual((self.team(), "others had removed" in said.getvalue()), ({"A": HOTTER}, False))
            other.close()
            for it in one, other:
                shutil.rmtree(it.folder)
            self.restart()

    def test_who_has_changed_nothing_gets_what_another_one_was_first_to_put(self) -> None:
        """Also if he has met the workbench while it had nothing; it is no conflict."""
        for mine, theirs, expected in ((A, HOT, HOT), (ABOVE, BELOW, BOTH)):
            with self.subTest(mine):
                one, other = self.both()
                other.close()
                one.file("A.fb").write_text(mine)
                self.restart()
                with patch.object(Outgoing, "send", self.overtaken(theirs)):
                    self.settle(one)
                self.assertEqual((one.texts(), self.team(), one.store.conflicts), ({"A.fb": expected}, {"A": expected}, {}))
                one.close()
                shutil.rmtree(one.folder)
                shutil.rmtree(other.folder)
                self.restart()

    def overtaken(self, text: str) -> Callable[..., list[str]]:
        """Sends a commit after somebody else has put the first text of A."""
        send = Outgoing.send

        def late(outgoing: Outgoing, *words: Any) -> list[str]:
            if not self.team():
                self.session.commit([Put("A", 0, text)])
            return send(outgoing, *words)

        return late

    def test_a_former_text_that_comes_first_is_in_question(self) -> None:
        """Also if the workbench had no text of the unit when it was met."""
        one, other = self.both()
        one.file("A.fb").write_text(HOT)
        self.settle(one, other)
        other.close()
        self.restart()
        with patch.object(Outgoing, "send", self.overtaken(A)):
            self.settle(one)
        self.assertEqual((one.texts(), self.team(), one.file("A.fb.theirs").read_text()), ({"A.fb": HOT}, {"A": A}, A))

    def test_another_text_after_a_restart_is_merged_with_mine(self) -> None:
        one, _ = self.both()
        one.close()
        self.restart()
        self.session.commit([Put("A", 0, ABOVE)])
        one.file("A.fb").write_text(BELOW)
        again = self.keeping("one")
        self.settle(again)
        self.assertEqual((again.texts(), self.team()), ({"A.fb": BOTH}, {"A": BOTH}))

    def test_texts_of_a_run_that_was_killed_while_it_wrote_are_kept(self) -> None:
        one, _ = self.both()
        one.close()
        (one.store.drafts / "1-1").write_text("left")
        self.assertIn("left", self.keeping("one").kept())

    def test_only_one_process_keeps_a_folder(self) -> None:
        one, _ = self.both()
        with self.assertRaisesRegex(Misuse, f"another sync keeps it, process {os.getpid()}$"):
            Store(one.folder)


class OutageTest(unittest.TestCase):
    def test_an_outage_is_one_line(self) -> None:
        """Whatever each further try finds; but if somebody answers after a while and lets nobody in, a second line says that."""
        said = io.StringIO()
        with redirect_stderr(said), redirect_stdout(said), patch("time.monotonic", side_effect=[1.0, 2.0, 1.0 + LASTS]):
            report = Report()
            for error in (ConnectionEnded("closed"), NoSeat({}, "all in use"), NoWorkbench("refused"), NoSeat({}, "all in use")):
                report.lost(error)
            report.found()
            report.found()
        self.assertEqual(said.getvalue(), "sync: closed; trying again\nsync: all in use; trying again\nthe host answers again\n")


class ManyTest(unittest.TestCase):
    def test_many_units_are_counted(self) -> None:
        """A line of conflicts says what to do."""
        report, said = Report(), io.StringIO()
        for step in (Step.WRITE, Step.CONFLICT):
            for at in range(MANY + 1):
                report.did(step, f"U{at}.fb")
        with redirect_stdout(said):
            report.flush()
        beside = "each file has the other text beside it, as NAME.fb.theirs; edit the files, and delete those to commit them"
        self.assertEqual(said.getvalue(), f"{MANY + 1} units written\n{MANY + 1} units in conflict: {beside}\n")


class HostileTest(KeeperTest):
    def test_names_and_texts_that_no_workbench_has_are_not_written(self) -> None:
        folder = self.folder / "plant"
        folder.mkdir()
        store = Store(folder)
        self.addCleanup(store.close)
        incoming = Incoming(Saved(folder), store, Report())
        for unit, text in (("../X", A), ("/tmp/X", A), ("A/B", A), ("", A), ("A\n", A), ("Ä", A), ("A" * 65, A), ("A", "\ud800"), ("A", "x" * (TEXT_LIMIT + 1))):
            with self.assertRaises(OSError):
                incoming.bring(unit, None, Decision(Step.WRITE, text), Version(1, text), "")
        self.assertEqual({it.name for it in self.folder.glob("**/*.fb")}, set())

    def test_a_state_that_leads_out_of_the_folder(self) -> None:
        outside = self.write("outside.fb", A)
        one = self.keeping("one")
        one.settle()
        one.close()
        beside = self.write("outside.fb.theirs", HOT)
        for name in ("../outside.fb", str(outside), ".git/config", "../new.fb", "Makefile"):
            with sqlite3.connect(one.store.folder / "state.sqlite") as state:
                state.execute("INSERT OR REPLACE INTO common VALUES ('A', ?, 1, ?, 'x')", (name, A))
                state.execute("INSERT OR REPLACE INTO conflict VALUES ('A', ?, 1, ?)", (name, A))
                state.execute("INSERT OR REPLACE INTO conflict VALUES ('../../../B', 'B.fb', 1, ?)", (A,))
            self.session.commit([Put("A", self.session.revision("A"), BELOW)])
            again = self.keeping("one")
            self.settle(again)
            again.close()
            self.assertEqual((outside.read_text(), beside.read_text(), {it.name for it in self.folder.iterdir()}), (A, HOT, {"outside.fb", "outside.fb.theirs", "one"}))
            self.assertEqual(again.texts(), {"A.fb": BELOW})
            again.file("A.fb").unlink()

    def test_a_folder_for_what_is_known_that_is_a_link(self) -> None:
        target = self.folder / "target"
        target.mkdir()
        folder = self.folder / "plant"
        folder.mkdir()
        (folder / ".bench61499").symlink_to(target)
        with self.assertRaisesRegex(Misuse, "is a link"):
            Store(folder)
        self.assertEqual(list(target.iterdir()), [])

    def test_names_of_files_do_not_reach_the_terminal(self) -> None:
        self.write("plant/\x1b[2Jx\n7 units.fb", A)
        ran = run("sync", self.folder / "plant", "--connect", f":{self.host.port}", "--push")
        self.assertEqual(ran.stdout.split("\n", 1)[1], "\ufffd[2Jx\ufffd7 units.fb: committed: revision 1\n")


class CommandTest(InFolder):
    def sync(self, port: int, *words: object) -> tuple[int, list[str], str]:
        ran = run("sync", self.folder / "plant", "--connect", f":{port}", *words)
        return ran.returncode, ran.stdout.splitlines(), ran.stderr

    def test_pull_push_and_dry_run(self) -> None:
        plant = self.folder / "plant"
        with hosting() as port, Session.connect("127.0.0.1", port) as session:
            session.commit([Put("A", 0, A)])
            self.assertEqual(self.sync(port, "--dry-run"), (0, ["A.fb: to be written"], ""))
            self.assertFalse(plant.exists())
            self.assertEqual(self.sync(port, "--pull"), (0, ["A.fb: written: revision 1"], ""))
            self.write("plant/A.fb", BELOW)
            self.write("plant/B.fb", TEXT.format(name="B"))
            self.assertEqual(self.sync(port, "--pull"), (0, [], ""))
            self.assertEqual(self.sync(port, "--dry-run"), (0, ["A.fb: to be committed", "B.fb: to be committed"], ""))
            self.assertEqual(session.status().commits, 1)
            status, (first, *lines), errors = self.sync(port, "--push")
            self.assertEqual((status, lines, errors), (0, ["A.fb: committed: revision 2", "B.fb: committed: revision 2"], ""))
            self.assertRegex(first, rf"^connected to 127.0.0.1:{port} as session \d+$")
            session.commit([Put("A", 2, HOT), Remove("B", 2)])
            self.assertEqual(self.sync(port, "--push"), (0, [], ""))
            self.write("plant/A.fb", HOTTER)
            told = "sync: A.fb: was changed in the workbench too, so it is not committed; --pull first\n"
            self.assertEqual(self.sync(port, "--push"), (1, [], told))
            self.assertEqual((self.sync(port, "--dry-run")[0], (plant / "A.fb.theirs").exists()), (1, False))
            status, lines, errors = self.sync(port, "--pull", "--push")
            self.assertEqual((status, len(lines), errors), (1, 2, ""))
            self.assertIn("A.fb: in conflict with revision 3", lines[0])
            self.assertEqual((plant / "A.fb.theirs").read_text(), HOT)
            self.assertFalse((plant / "B.fb").exists())
            self.write("plant/A.fb", HOT)
            self.assertEqual((self.sync(port, "--dry-run"), (plant / "A.fb.theirs").exists()), ((1, [], ""), True))
            self.assertEqual((self.sync(port, "--push"), (plant / "A.fb.theirs").exists()), ((0, [], ""), False))

    def test_what_can_not_be_done_is_said(self) -> None:
        with hosting() as port:
            self.write("plant/A.fb", b"\xff")
            self.write("plant/B.fb", "")
            status, lines, errors = self.sync(port, "--push")
            self.assertEqual((status, lines), (1, []))
            self.assertRegex(errors, r"\Async: .*A.fb:1: is not UTF-8: byte 0 is 0xff\nsync: .*B.fb: declares no unit, so it is not committed\n\Z")
        status, lines, errors = self.sync(port, "--push")
        self.assertEqual((status, lines), (2, []))
        self.assertIn("connection refused", errors)
        with serving(3) as port:
            self.assertEqual(self.sync(port), (2, [], "sync: the server gives no texts back: it is a `serve`, or an older host\n"))

    def test_it_ends_if_the_folder_is_moved_away(self) -> None:
        with hosting() as port:
            self.write("plant/A.fb", A)
            syncing = Syncing(self.folder / "plant", port)
            syncing.start()
            until(lambda: "A.fb: committed" in syncing.said())
            (self.folder / "plant").rename(self.folder / "elsewhere")
            (self.folder / "plant").mkdir()
            until(lambda: not syncing.is_running())
            self.assertIn("is not there any more", syncing.said())


if __name__ == "__main__":
    unittest.main()
