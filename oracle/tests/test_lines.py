"""The lines by example: what is a request, how replies are spelled, and how runs end."""
import io
import subprocess
import sys
import unittest

from support import ORACLE, Talk

import lines
from machine import Machine

BAD = b'{"refused":"BadRequest"}'
NOTHING = b'{"job":0}'


def answers(given, **limits):
    sink = io.BytesIO()
    ended = lines.run(io.BytesIO(given), sink, lines.Session(Machine(**limits)))
    return sink.getvalue(), ended


class RequestsTest(unittest.TestCase):
    def reply(self, line):
        return lines.Session(Machine()).reply(line)

    def test_lines_of_blanks_are_skipped(self):
        for line in (b"", b" ", b"\t \r"):
            self.assertIsNone(self.reply(line))
        self.assertEqual(BAD, self.reply(b"\x0c"))

    def test_what_is_no_json_or_no_utf_8(self):
        for x in (b"NaN", b"1e999", b"01", b"9" * 400, b'"\\ud800"', b'["\\udc00"]', b'"\t"', b'"\xff"', b'"\xed\xa0\x80"', b"[1,]", b"{x:1}",
                  b'{"a":"\\ud800","a":1}', b"[" * 127 + b"]" * 127, b"[" * 90000, b'{"a":' * 127 + b"1" + b"}" * 127):
            self.assertEqual(BAD, self.reply(b'{"op":"take","x":%s}' % x), x[:20])
        for x in (b"-0", b"1e-999", b'"\\ud83d\\ude00"', b"[" * 126 + b"]" * 126, b'"\x7f"'):
            self.assertEqual(NOTHING, self.reply(b'{"op":"take","x":%s}' % x), x[:20])

    def test_names_and_texts_are_looked_at_in_their_order(self):
        long, bad = {"put": "A", "base": 0, "text": "\u20ac" * 21846}, {"put": "1", "base": 0, "text": ""}
        self.assertEqual({"refused": "TextTooLong"}, Talk().commit(long, bad))
        self.assertEqual({"refused": "BadName"}, Talk().commit(bad, long))
        self.assertEqual({"refused": "BadName"}, Talk().commit({**long, "put": "1"}))
        self.assertEqual({"commit": 1}, Talk().commit({**long, "text": "x" * 65536}))


class RunsTest(unittest.TestCase):
    def test_the_last_line_needs_no_lf(self):
        self.assertEqual((NOTHING + b"\n" + BAD + b"\n", (0, "")), answers(b'\n{"op":"take"}\r\n{"op":"take"'))

    def test_a_line_that_is_too_long_ends_the_run(self):
        longest = b'{"op":"take"}'.ljust(1_048_576)
        self.assertEqual((NOTHING + b"\n", (0, "")), answers(longest))
        for rest in (b"", b"\n", b'\n{"op":"take"}\n'):
            self.assertEqual((NOTHING + b"\n", (1, "bench61499: line too long\n")), answers(longest + b"\n" + b" " * 1_048_577 + rest))

    def test_a_read_or_a_write_that_fails_ends_the_run(self):
        class Failing(io.BytesIO):
            def readline(self, size=-1):
                return super().readline(size) or self.fail()

            def write(self, _):
                self.fail()

            def fail(self):
                raise OSError
        sink = io.BytesIO()
        self.assertEqual((1, "bench61499: read failed\n"), lines.run(Failing(b'{"op":"take"}\n'), sink, lines.Session(Machine())))
        self.assertEqual(NOTHING + b"\n", sink.getvalue())
        self.assertEqual((1, "bench61499: write failed\n"), lines.run(io.BytesIO(b"5"), Failing(), lines.Session(Machine())))

    def script(self, *words, given=b""):
        return subprocess.run([sys.executable, ORACLE / "lines.py", *words], input=given, capture_output=True)

    def test_arguments(self):
        done = self.script("--history", "1", "--units", "2", given=b'{"op":"take"}\n' * 2)
        self.assertEqual((0, NOTHING + b'\n{"refused":"HistoryFull"}\n', b""), (done.returncode, done.stdout, done.stderr))
        for words in (["--units", "0"], ["--units", "16385"], ["--history", "10000001"], ["--units"], ["more"], ["--unit", "5"],
                      ["--units", "1", "--units", "2"], ["--help"]):
            done = self.script(*words)
            self.assertEqual((2, b""), (done.returncode, done.stdout), words)
        done = self.script(b"\xff")
        self.assertEqual((2, b"bench61499: a word of the command line is not UTF-8\n"), (done.returncode, done.stderr))


if __name__ == "__main__":
    unittest.main()
