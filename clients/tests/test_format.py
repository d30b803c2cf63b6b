"""format: the one form of a text, and what the program does with files and standard input."""
from __future__ import annotations

import json
import os
import random
import subprocess
import unittest
from collections.abc import Iterator

from generated import faulty_libraries, so_many, sound_libraries
from structures import structured_libraries
from support import CLIENTS, InFolder, run

from bench61499.language.layout import applied, formatted
from bench61499.language.nesting import Nesting
from bench61499.language.tokens import pieces

EXAMPLES = CLIENTS.parent / "examples"


def laid_out(text: str) -> str:
    return applied(text, formatted(text))


def examples() -> Iterator[str]:
    """All texts of the examples."""
    for file in EXAMPLES.rglob("*.fb"):
        yield file.read_text()
    for file in EXAMPLES.glob("*.jsonl"):
        for line in file.read_text().splitlines():
            yield from (it["text"] for it in json.loads(line).get("changes", ()) if "put" in it)


def generated() -> Iterator[str]:
    for made in (faulty_libraries(41), sound_libraries(41), structured_libraries(41)):
        for texts in so_many(made, 150):
            yield from texts.values()


def words(text: str) -> list[str]:
    return [it.words for it in pieces(text)]


class OneFormTest(unittest.TestCase):
    def blanks_changed(self, text: str) -> str:
        """The text with other blanks in its lines: between tokens, not beside comments, and not in bodies that the language skips."""
        its = list(pieces(text))
        foreign, encoded, parts, end = Nesting(its).foreign, text.encode(), b"", 0
        is_open = False
        for at, it in enumerate(its):
            gap = encoded[end : it.start]
            is_open = (is_open or at > 0 and its[at - 1].kind == "other") and b"\n" not in gap and b"\r" not in gap
            is_free = at > 0 and not is_open and not {"comment", "unclosed"} & {it.kind, its[at - 1].kind} and not {at, at - 1} & foreign
            if is_free and not set(gap) & set(b"\r\n"):
                gap = self.chance.choice([b"", b" ", b"  ", b"\t"]) if gap and self.stay_two(its[at - 1].words, it.words) else gap + b" " * bool(gap)
            parts += gap + encoded[it.start : it.end]
            end = it.end
        return (parts + encoded[end:]).decode()

    def stay_two(self, one: str, other: str) -> bool:
        return words(one + other) == [one, other]

    def test_blanks_between_tokens_make_no_difference(self) -> None:
        self.chance, count = random.Random(7), 0
        for text in (*examples(), *generated()):
            other = self.blanks_changed(text)
            if words(other) == words(text):
                self.assertEqual(laid_out(other), laid_out(text), text)
                count += other != text
        self.assertGreater(count, 300)

    def test_what_is_laid_out_stays_and_so_do_tokens_and_comments(self) -> None:
        for text in (*examples(), *generated()):
            once = laid_out(text)
            self.assertEqual(laid_out(once), once, text)
            self.assertEqual([it.rstrip() for it in words(once)], [it.rstrip() for it in words(text)])

    def test_the_form(self) -> None:
        text = "FUNCTION_BLOCK A\nVAR B:INT:=-1;C  :  STRING [ 10 ];D:ARRAY[ 0 .. 2 ]OF INT:=[ 1,2,3 ];END_VAR\n"
        form = "FUNCTION_BLOCK A\n  VAR B : INT := -1; C : STRING[10]; D : ARRAY [0..2] OF INT := [1, 2, 3]; END_VAR\n"
        self.assertEqual(laid_out(text), form)
        text = "FUNCTION_BLOCK A\nEC_STATES B:C->D; END_STATES\nEC_TRANSITIONS B TO B:=P . E[ X [ 1 ]=1 ];B TO B:=[ Y ];END_TRANSITIONS\n"
        form = "FUNCTION_BLOCK A\n  EC_STATES B : C -> D; END_STATES\n  EC_TRANSITIONS B TO B := P.E [X[1] = 1]; B TO B := [Y]; END_TRANSITIONS\n"
        self.assertEqual(laid_out(text), form)
        text = "FUNCTION_BLOCK A\nALGORITHM B IN ST : CASE X OF 1 : Y := Z [ 1 ] ( ); END_CASE END_ALGORITHM\n"
        form = "FUNCTION_BLOCK A\n  ALGORITHM B IN ST: CASE X OF 1: Y := Z[1] (); END_CASE END_ALGORITHM\n"
        self.assertEqual(laid_out(text), form)

    def test_names_that_are_spelled_as_words_of_the_grammar(self) -> None:
        text = "FUNCTION_BLOCK A\n  EVENT_INPUT\n    ON;\n    IN;\n    ST;\n  END_EVENT\nEND_FUNCTION_BLOCK\n"
        self.assertEqual(laid_out(text), text)
        text = "SYSTEM A\n  MAPPINGS\n    ON.ON\n      ON B.C;\n    ON ON\n      B.C;\n  END_MAPPINGS\nEND_SYSTEM\n"
        self.assertEqual(laid_out(text), text)


class ProgramTest(InFolder):
    SOUND, FORM = "SYSTEM   A END_SYSTEM", "SYSTEM A END_SYSTEM\n"
    BROKEN = "SYSTEM A\n  DEVICE\nEND_SYSTEM"

    def format(self, *words: object) -> tuple[int, str, str]:
        ran = run("format", *words, folder=self.folder)
        return ran.returncode, ran.stdout, ran.stderr

    def test_files_and_folders(self) -> None:
        first, second = self.write("a.fb", self.SOUND), self.write("inner/b.fb", self.FORM)
        os.chmod(first, 0o640)
        self.assertEqual(self.format("--check", "."), (1, "a.fb\n", ""))
        self.assertEqual(first.read_text(), self.SOUND)
        self.assertEqual(self.format("."), (0, "a.fb\n", ""))
        self.assertEqual((first.read_text(), second.read_text(), first.stat().st_mode & 0o777), (self.FORM, self.FORM, 0o640))
        self.assertEqual(self.format("--check", ".", "a.fb"), (0, "", ""))
        self.assertEqual(sorted(it.name for it in self.folder.iterdir()), ["a.fb", "inner"])

    def test_a_broken_text_stays_and_the_others_are_laid_out(self) -> None:
        broken, sound = self.write("a.fb", self.BROKEN), self.write("b.fb", self.SOUND)
        told = "a.fb:3:1: left as it is: expected a name after DEVICE\n"
        self.assertEqual(self.format("--check", "."), (2, "b.fb\n", told))
        self.assertEqual(self.format("."), (2, "b.fb\n", told))
        self.assertEqual((broken.read_text(), sound.read_text()), (self.BROKEN, self.FORM))

    def test_what_can_not_be_read_or_would_be_too_long(self) -> None:
        self.write("a.fb", b"SYSTEM \xe4")
        text = "FUNCTION_BLOCK A\nVAR\n" + "X:INT;" * 9_000 + "END_VAR END_FUNCTION_BLOCK"
        self.write("b.fb", text)
        status, out, told = self.format("a.fb", "b.fb", "nowhere.fb")
        self.assertEqual((status, out), (2, ""))
        expected = [
            "a.fb:1: is not UTF-8: byte 7 is 0xe4",
            "b.fb: left as it is: laid out it would have 81,054 bytes, and the text of a unit has at most 65,536",
            "nowhere.fb: can't be read: No such file or directory",
        ]
        self.assertEqual(told.splitlines(), expected)
        self.assertEqual((self.folder / "b.fb").read_text(), text)

    def test_line_ends_and_links_stay(self) -> None:
        file = self.write("inner/a.fb", "SYSTEM A\r\n\r\n\r\nEND_SYSTEM")
        (self.folder / "b.fb").symlink_to(file)
        self.assertEqual(self.format("b.fb"), (0, "b.fb\n", ""))
        self.assertEqual(file.read_bytes(), b"SYSTEM A\r\n\r\nEND_SYSTEM\r\n")
        self.assertTrue((self.folder / "b.fb").is_symlink())

    def piped(self, content: bytes, *words: str) -> tuple[int, bytes, bytes]:
        ran = subprocess.run([CLIENTS / "format", *words, "-"], input=content, capture_output=True, timeout=60)
        return ran.returncode, ran.stdout, ran.stderr

    def test_standard_input(self) -> None:
        self.assertEqual(self.piped(self.SOUND.encode()), (0, self.FORM.encode(), b""))
        self.assertEqual(self.piped(self.SOUND.encode(), "--check"), (1, b"-\n", b""))
        self.assertEqual(self.piped(self.FORM.encode(), "--check"), (0, b"", b""))
        told = b"standard input:3:1: left as it is: expected a name after DEVICE\n"
        self.assertEqual(self.piped(self.BROKEN.encode()), (2, self.BROKEN.encode(), told))
        self.assertEqual(self.piped(b"\xe4"), (2, b"\xe4", b"standard input: is not UTF-8: byte 0 is 0xe4\n"))


if __name__ == "__main__":
    unittest.main()
