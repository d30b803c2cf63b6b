"""The examples that were made by hand: of units, in units.examples, and of requests with their replies, in conversations.examples."""
import unittest
from pathlib import Path

from support import program

import compare
import oracle


def examples(name):
    """The parts of a file between blank lines."""
    return Path(__file__).with_name(name).read_text().split("\n\n")


def faults(lib, unit):
    return ", ".join("%s %d %d" % (oracle.CODES[code], start, end) for code, start, end in lib.faults(unit)) or "none"


def net(lib, unit):
    form, what = lib.net(unit) or ("none", None)
    return " ".join([form, *("=".join(it) if form == "blocks" else it for it in what or [])])


def units(ask):
    return lambda lib, unit: " ".join(sorted(ask(lib, unit))) or "none"


ASKED = {"faults": faults, "net": net, "is_structure": lambda lib, unit: str(lib.is_structure(unit)),
         **{name: units(getattr(oracle.Library, name)) for name in ("near", "far", "parts", "values")}}


def conversations():
    """Of each conversation its title, the arguments, the lines of its requests and those of their replies."""
    for example in examples("conversations.examples"):
        lines = example.splitlines()
        requests = [it[2:] for it in lines if it.startswith("> ")]
        if requests:
            words = [word for it in lines if it.startswith("$ ") for word in it[2:].split()]
            yield lines[0], words, requests, [it for it in lines if it[0] not in "#$>"]


class ConversationsTest(unittest.TestCase):
    def each_is_answered_by(self, answer):
        for title, words, requests, replies in conversations():
            output, status, _ = answer(words, "".join(it + "\n" for it in requests).encode())
            self.assertEqual((replies, 0), (output.decode().splitlines(), status), title)

    def test_the_oracle_gives_the_replies(self):
        self.assertGreater(len(list(conversations())), 25)
        self.each_is_answered_by(compare.by_oracle)

    def test_the_program_gives_the_replies(self):
        path = program()
        self.each_is_answered_by(lambda words, given: compare.by_program(path, words, given))


class UnitsTest(unittest.TestCase):
    def test_the_oracle_has_what_the_examples_say(self):
        compared = 0
        for example in examples("units.examples"):
            self.lib, self.changed = oracle.Library({}), None
            for line in example.splitlines():
                compared += self.is_compared(line)
        self.assertGreater(compared, 150)

    def is_compared(self, line):
        """Follows a line; whether it says something of the library."""
        words, _, wanted = line.partition(":")
        verb, _, unit = words.partition(" ")
        if verb in ("put", "remove"):
            others = {name: text for name, text in self.lib.texts.items() if name != unit}
            self.lib, self.changed = oracle.Library({**others, unit: wanted.strip()} if verb == "put" else others), unit
        elif verb == "reached":
            self.assertEqual(sorted(wanted.strip().split(", ")) if wanted else [], sorted(map(" ".join, self.lib.reached_by([self.changed]))), line)
        elif verb in ASKED:
            self.assertEqual(wanted.strip(), ASKED[verb](self.lib, unit), line)
        return verb == "reached" or verb in ASKED


if __name__ == "__main__":
    unittest.main()
