"""Folders that are looked at again and again."""
from __future__ import annotations

import os
import time
import unittest

from support import InFolder, locked

from bench61499.language.folder import Folder
from bench61499.language.units import Misuse, read_units

A, B = "FUNCTION_BLOCK A END_FUNCTION_BLOCK", "ADAPTER B END_ADAPTER"


class FolderTest(InFolder):
    def names(self, folder: Folder) -> dict[str, str]:
        return {name: unit.file.name for name, unit in folder.units.items()}

    def test_looks(self) -> None:
        self.write("a.fb", A)
        self.write("inner/b.fb", B)
        self.write("notes.txt", "FUNCTION_BLOCK C END_FUNCTION_BLOCK")
        folder = Folder([self.folder])
        self.assertEqual((folder.look(), self.names(folder)), (True, {"A": "a.fb", "B": "b.fb"}))
        self.assertFalse(folder.look())
        file = self.write("a.fb", "ADAPTER C END_ADAPTER")
        os.utime(file, ns=(1, 1))
        self.assertEqual((folder.look(), self.names(folder)), (True, {"C": "a.fb", "B": "b.fb"}))
        file.unlink()
        self.assertEqual((folder.look(), self.names(folder)), (True, {"B": "b.fb"}))

    def test_a_file_of_the_same_time_and_size_is_moved_over_another(self) -> None:
        other = self.write("other", "ADAPTER C END_ADAPTER")
        file = self.write("b.fb", B)
        for it in (other, file):
            os.utime(it, ns=(1, 1))
        folder = Folder([self.folder])
        folder.look()
        time.sleep(0.05)
        other.rename(file)
        self.assertEqual((folder.look(), self.names(folder)), (True, {"C": "b.fb"}))

    def test_files_by_name(self) -> None:
        folder = Folder([self.write("a.fb", A), self.write("other.txt", B)])
        self.assertEqual((folder.look(), self.names(folder)), (True, {"A": "a.fb", "B": "other.txt"}))
        self.write("b.fb", B)
        self.assertFalse(folder.look())

    def test_hidden_folders_and_capitals(self):
        text = self.write("a.fb", "FUNCTION_BLOCK A END_FUNCTION_BLOCK").read_text()
        for hidden in (".history/a_20261127.fb", ".git/a.fb", "inner/.fb"):
            self.write(hidden, text)
        self.write("B.FB", "ADAPTER B END_ADAPTER")
        self.assertEqual([unit.name for unit in read_units([self.folder])], ["B", "A"])
        folder = Folder([self.folder])
        folder.look()
        self.assertEqual((self.names(folder), folder.problems), ({"A": "a.fb", "B": "B.FB"}, ()))
        self.write(".history/c.fb", "ADAPTER C END_ADAPTER")
        self.assertFalse(folder.look())

    def test_two_files_of_one_unit(self) -> None:
        self.write("a.fb", A)
        second = self.write("b.fb", A)
        folder = Folder([self.folder])
        folder.look()
        self.assertEqual(self.names(folder), {"A": "a.fb"})
        self.assertEqual(folder.problems, (f"{self.folder}/a.fb and {second} both declare the unit A; the first one counts",))
        second.write_text(B)
        self.assertEqual((folder.look(), self.names(folder), folder.problems), (True, {"A": "a.fb", "B": "b.fb"}, ()))

    def test_a_text_that_declares_nothing_stays_the_unit_that_it_was(self) -> None:
        file = self.write("x.fb", A)
        folder = Folder([self.folder])
        folder.look()
        file.write_text("")
        self.assertEqual((folder.look(), self.names(folder)), (True, {"A": "x.fb"}))
        self.write("y.fb", A)
        self.assertEqual((folder.look(), self.names(folder)), (True, {"A": "y.fb", "X": "x.fb"}))

    def test_a_folder_that_goes_and_comes_back(self) -> None:
        inner = self.write("inner/a.fb", A).parent
        folder = Folder([inner])
        folder.look()
        inner.rename(self.folder / "away")
        self.assertTrue(folder.look())
        self.assertEqual((self.names(folder), folder.problems), ({"A": "a.fb"}, (f"{inner}: there is no such file or folder; what was read before is shown",)))
        (self.folder / "away").rename(inner)
        folder.look()
        self.assertEqual((self.names(folder), folder.problems), ({"A": "a.fb"}, ()))

    def test_an_inner_folder_that_cant_be_read(self) -> None:
        self.write("a.fb", A)
        inner = self.write("inner/b.fb", B).parent
        folder = Folder([self.folder])
        with locked(inner):
            self.assertEqual((folder.look(), self.names(folder)), (True, {"A": "a.fb"}))
            self.assertEqual(folder.problems, (f"{inner}: can't be read: Permission denied",))
        self.assertEqual((folder.look(), self.names(folder), folder.problems), (True, {"A": "a.fb", "B": "b.fb"}, ()))

    def test_a_folder_that_is_not_there(self) -> None:
        with self.assertRaisesRegex(Misuse, "nowhere: there is no such file or folder"):
            Folder([self.folder / "nowhere"]).look()


if __name__ == "__main__":
    unittest.main()
