"""Places as editors count them, and changes of ranges, against texts kept as lists of UTF-16 code units."""
import random
import unittest

from support import TestCase

from bench61499 import Places
from bench61499.language.positions import changed, place, position, sound

CHARACTERS = ["a", ";", "ä", "€", "𝄞", "\n", "\r\n", "\r", " "]


class PositionsTest(TestCase):
    def test_there_and_back(self):
        text = "a€\r\n𝄞b\rc\n"
        expected = [(0, 0), (0, 1), (0, 2), (1, 0), (1, 2), (1, 3), (2, 0), (2, 1), (3, 0)]
        starts = [0, 1, 4, 6, 10, 11, 12, 13, 14]
        places = Places(text)
        self.assertEqual([tuple(position(places, it).values()) for it in starts], expected)
        self.assertEqual([place(places, {"line": line, "character": character}) for line, character in expected], starts)

    def test_behind_the_end(self):
        places = Places("ab\ncd")
        self.assertEqual(place(places, {"line": 0, "character": 9}), 2)
        self.assertEqual(place(places, {"line": 7, "character": 0}), 5)
        self.assertEqual(changed("ab\ncd", change((0, 9), (7, 0), "x")), "abx")

    def test_half_a_character(self):
        """Editors may send the two halves of a character one by one."""
        first, second = "\ud834", "\udd1e"
        text = changed("ab", change((0, 1), (0, 1), first))
        self.assertEqual(sound(text), "a\ufffdb")
        self.assertEqual(changed(text, change((0, 2), (0, 2), second)), "a𝄞b")
        self.assertEqual(sound(changed("a𝄞b", change((0, 2), (0, 3), ""))), "a\ufffdb")

    def test_random_changes(self):
        chance = random.Random(1)
        for _ in range(300):
            text = "".join(chance.choices(CHARACTERS, k=chance.randrange(30)))
            for _ in range(10):
                start, end = sorted(chance.choices(range(len(units(text)) + 1), k=2))
                new = "".join(chance.choices(CHARACTERS, k=chance.randrange(4)))
                if is_inside(text, start) or is_inside(text, end):
                    continue
                expected = (units(text)[:start] + units(new) + units(text)[end:])
                text = changed(text, change(line_column(text, start), line_column(text, end), new))
                self.assertEqual(units(text), expected)


def change(start, end, new):
    (line, character), (last, behind) = start, end
    return {"range": {"start": {"line": line, "character": character}, "end": {"line": last, "character": behind}}, "text": new}


def units(text):
    encoded = text.encode("utf-16-le", "surrogatepass")
    return [encoded[at : at + 2] for at in range(0, len(encoded), 2)]


def is_inside(text, at):
    """Whether a place is between CR and LF: no position is there."""
    return [bytes(it) for it in units(text)[at - 1 : at + 1]] == [b"\r\0", b"\n\0"] if at else False


def line_column(text, at):
    before = b"".join(units(text)[:at]).decode("utf-16-le", "surrogatepass")
    lines = before.replace("\r\n", "\n").replace("\r", "\n").split("\n")
    return len(lines) - 1, len(units(lines[-1]))


if __name__ == "__main__":
    unittest.main()
