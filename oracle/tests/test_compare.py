"""The comparison: what it finds, how it makes that small, what its conversations reach, and the program itself."""
import contextlib
import io
import json
import os
import random
import subprocess
import sys
import tempfile
import unittest
from collections import Counter
from pathlib import Path
from unittest import mock

from support import ORACLE, program

import compare
import seen
from conversations import Conversation

CONVERSATIONS = 300
SEED = 61499
WRONG = """#!/bin/sh
shift
%s %s/lines.py "$@" | sed 's/"NoChange"/"NoChanges"/'
"""


class SmallestTest(unittest.TestCase):
    def test_parts_that_are_not_needed_are_left_out(self):
        tried = []

        def differs(parts):
            tried.append(parts)
            return {3, 17} <= set(parts)

        self.assertEqual([3, 17], compare.smallest(list(range(100)), differs))
        self.assertLess(len(tried), 100)

    def test_changes_that_are_not_needed_are_left_out(self):
        parts = [b'{"op":"take"}', b'{"op":"commit","changes":[1,2,3,4]}', b"[]", b'{"op":"commit","changes":5}', b"x"]
        self.assertEqual(parts[:1] + [b'{"changes": [3], "op": "commit"}'] + parts[2:], compare.with_fewer_changes(parts, lambda some: b"3" in some[1]))


class ComparisonTest(unittest.TestCase):
    def compare(self, *words, program=None):
        out = io.StringIO()
        with mock.patch("sys.argv", ["compare.py", "--program", str(program), *words]), contextlib.redirect_stdout(out):
            with self.assertRaises(SystemExit) as ended:
                compare.main()
        return ended.exception.code, out.getvalue().splitlines()

    def test_a_program_that_differs(self):
        with tempfile.TemporaryDirectory() as folder:
            path, script = Path(folder, "program"), Path(folder, "script")
            path.write_text(WRONG % (sys.executable, ORACLE))
            path.chmod(0o700)
            script.write_text('{"op":"take"}\n{"op":"commit","changes":[]}\n{"op":"take"}\n')
            status, shown = self.compare(str(script), program=path)
        self.assertEqual(1, status)
        self.assertEqual(["difference in conversation " + str(script), '  {"changes": [], "op": "commit"}',
                          '  oracle:  {"refused":"NoChange"}', '  program: {"refused":"NoChanges"}'], shown[:4])
        self.assertEqual("1 conversations, 3 requests: 1 differences", shown[-1])

    def test_a_program_that_does_not_end(self):
        with tempfile.TemporaryDirectory() as folder, mock.patch.object(compare, "LONGEST", 1):
            path = Path(folder, "program")
            path.write_text("#!/bin/sh\nexec sleep 60\n")
            path.chmod(0o700)
            self.assertEqual((b"", None, "no end in 10 seconds"), compare.by_program(path, [], b""))
            path.write_text("#!/bin/sh\nwhile :; do :; done\n")
            with mock.patch.object(compare, "TIMES", 1000):
                self.assertEqual((b"", None, "no end in 1 seconds of a processor"), compare.by_program(path, [], b""))

    def test_files_that_are_absent(self):
        with contextlib.redirect_stderr(io.StringIO()) as said:
            self.assertEqual(2, self.compare(program="/no/program")[0])
            self.assertEqual(2, self.compare("/no/script", program=sys.executable)[0])
        self.assertIn("there is no file /no/program", said.getvalue())
        self.assertIn("there is no file /no/script", said.getvalue())

    def test_the_program_has_no_difference(self):
        status, shown = self.compare("--conversations", "30", "--coverage", program=program())
        self.assertEqual(0, status, "\n".join(shown))
        self.assertRegex(shown[-1], "^30 conversations, [0-9]{4,} requests: no difference$")
        self.assertTrue({name for name in seen.NAMED} <= {line[11:] for line in shown})


class ConversationsTest(unittest.TestCase):
    def test_a_seed_gives_one_conversation(self):
        one, two, other = (Conversation(random.Random(seed)) for seed in ("1.4", "1.4", "1.5"))
        self.assertEqual((one.words, one.input, one.output), (two.words, two.input, two.output))
        self.assertNotEqual(one.input, other.input)

    def test_a_seed_gives_one_conversation_in_each_process(self):
        words = [sys.executable, "-c", "import random, conversations as c\n" "for n in range(15): print(c.Conversation(random.Random(str(n))).input)"]
        inputs = {subprocess.run(words, cwd=ORACLE, env={**os.environ, "PYTHONHASHSEED": seed}, capture_output=True, check=True).stdout for seed in "123"}
        self.assertEqual(1, len(inputs))

    def test_conversations_reach_nearly_all_that_is_named(self):
        counts = Counter()
        for number in range(CONVERSATIONS):
            counts.update(Conversation(random.Random("%d.%d" % (SEED, number))).seen)
        self.assertEqual(set(), set(counts) - set(seen.NAMED))
        self.assertLessEqual(len([name for name in seen.NAMED if not counts[name]]), 3)


class DefaultsTest(unittest.TestCase):
    """The limits that no argument names are too wide for a random conversation."""
    def same(self, lines):
        given = b"\n".join(lines)
        self.assertEqual(compare.by_oracle([], given), compare.by_program(program(), [], given))

    def test_1024_units_and_1000_turns(self):
        units = [{"put": "N%d" % at, "base": 0, "text": "ADAPTER N%d END_ADAPTER" % (at % 1000)} for at in range(1025)]
        commits = [json.dumps({"op": "commit", "changes": units[at:at + 16]}).encode() for at in range(0, len(units), 16)]
        self.same(commits + [b'{"op":"work","turns":1000}', b'{"op":"take"}', b'{"op":"ask","kind":"faults","unit":"N0"}', commits[-1]])

    def test_100000_calls(self):
        self.same([b'{"op":"take"}'] * 100_001)


class EndsTest(unittest.TestCase):
    """How the program ends as no conversation makes it, in the words of the document."""
    def end(self, words=(), given=b"", **streams):
        sent = {} if "stdin" in streams else {"input": given}
        done = subprocess.run([program(), "script", *words], **sent, **{"stdout": subprocess.PIPE, **streams}, stderr=subprocess.PIPE)
        return done.returncode, done.stderr

    def test_a_read_that_fails(self):
        folder = os.open("/", os.O_RDONLY)
        self.addCleanup(os.close, folder)
        self.assertEqual((1, b"bench61499: read failed\n"), self.end(stdin=folder))

    @unittest.skipUnless(os.path.exists("/dev/full"), "no /dev/full here")
    def test_a_write_that_fails(self):
        with open("/dev/full", "wb") as full:
            self.assertEqual((1, b"bench61499: write failed\n"), self.end(given=b"5\n", stdout=full))

    def test_a_word_that_is_no_utf_8(self):
        self.assertEqual((2, b"bench61499: a word of the command line is not UTF-8\n"), self.end([b"\xff"]))


if __name__ == "__main__":
    unittest.main()
