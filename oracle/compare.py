"""Holds the program to the oracle: random conversations, or scripts, are given to both, and their replies are compared byte for byte.

    compare.py [--program P] [--conversations N] [--seed S] [--coverage] [SCRIPT ..]

The program is P, else what BENCH61499_PROGRAM names, else the built one. A difference is printed with its conversation, without the
lines and changes that it does not need, and the status is then 1."""
import argparse
import io
import json
import os
import random
import resource
import signal
import subprocess
import sys
from collections import Counter
from pathlib import Path

import lines
import seen
from conversations import Conversation

BUILT = Path(__file__).resolve().parents[1] / "crates/bench61499/out/bench61499"
LONGEST, TIMES = 60, 10  # seconds of a processor, and how many times as long by the clock
SHOWN = 3
LONGEST_SHOWN = 1000


def bounded():
    """Ends this process once it has used this number of seconds of a processor: time alone would end it on a machine with other work."""
    resource.setrlimit(resource.RLIMIT_CPU, (LONGEST, LONGEST + 1))


def by_program(program, words, given):
    """Output, status and standard error; of a wrong command line no more than the status is known."""
    try:
        done = subprocess.run([program, "script", *words], input=given, capture_output=True, preexec_fn=bounded, timeout=TIMES * LONGEST)
    except subprocess.TimeoutExpired:
        return b"", None, "no end in %d seconds" % (TIMES * LONGEST)
    if done.returncode in (-signal.SIGXCPU, -signal.SIGKILL):
        return b"", None, "no end in %d seconds of a processor" % LONGEST
    return done.stdout, done.returncode, None if done.returncode == 2 else done.stderr.decode(errors="replace")


def by_oracle(words, given):
    sink = io.BytesIO()
    status, said = lines.run(io.BytesIO(given), sink, lines.session(words))
    return sink.getvalue(), status, said


def smallest(parts, differs):
    """The parts without those that the difference does not need: halves, quarters and so on are left out as long as it stays."""
    size = len(parts) // 2
    while size:
        at = 0
        while at < len(parts):
            fewer = parts[:at] + parts[at + size:]
            if differs(fewer):
                parts = fewer
            else:
                at += size
        size //= 2
    return parts


def with_fewer_changes(parts, differs):
    """The parts with those changes left out of commits that the difference does not need."""
    for at, part in enumerate(parts):
        try:
            changes = json.loads(part)["changes"]
        except (ValueError, TypeError, KeyError):
            continue

        def among(some):
            return parts[:at] + [json.dumps({"changes": some, "op": "commit"}).encode()] + parts[at + 1:]

        if isinstance(changes, list) and differs(among(changes)):
            parts = among(smallest(changes, lambda some: differs(among(some))))
    return parts


def shorter(text):
    text = text.decode(errors="backslashreplace")
    return text if len(text) <= LONGEST_SHOWN else "%s .. (%d characters)" % (text[:LONGEST_SHOWN], len(text))


class Comparison:
    def __init__(self, program):
        self.program, self.differences, self.requests, self.conversations = program, 0, 0, 0
        self.seen = Counter()

    def compare(self, name, words, given, wanted):
        self.conversations += 1
        self.requests += sum(1 for line in given.split(b"\n") if line.strip(b" \t\r"))
        if by_program(self.program, words, given) != wanted:
            self.differences += 1
            if self.differences <= SHOWN:
                self.show(name, words, given)

    def random(self, seed, number):
        name = "%d.%d" % (seed, number)
        try:
            talk = Conversation(random.Random(name))
        except Exception:
            print("the oracle fails in conversation", name)
            raise
        self.seen.update(talk.seen)
        self.compare(name, talk.words, talk.input, (talk.output, talk.status, talk.said))

    def script(self, path):
        given = Path(path).read_bytes()
        self.compare(path, [], given, by_oracle([], given))

    def show(self, name, words, given):
        def differs(parts):
            said = b"\n".join(parts)
            return by_program(self.program, words, said) != by_oracle(words, said)

        parts = given.split(b"\n")
        print("difference in conversation", name, *words)
        if not differs(parts):
            print("  there is none when it is repeated", flush=True)
            return
        parts = with_fewer_changes(smallest(parts, differs), differs)
        given = b"\n".join(parts)
        program, oracle = by_program(self.program, words, given), by_oracle(words, given)
        print("\n".join("  " + shorter(it) for it in parts))
        for mine, its in zip(oracle[0].split(b"\n"), program[0].split(b"\n")):
            if mine != its:
                print("  oracle:  %s\n  program: %s" % (shorter(mine), shorter(its)))
                break
        print("  oracle ends:  %s\n  program ends: %s" % (oracle[1:], program[1:]), flush=True)

    def summary(self):
        found = "%d differences" % self.differences if self.differences else "no difference"
        return "%d conversations, %d requests: %s" % (self.conversations, self.requests, found)


def main():
    p = argparse.ArgumentParser(description=__doc__, formatter_class=argparse.RawDescriptionHelpFormatter)
    p.add_argument("--program", default=os.environ.get("BENCH61499_PROGRAM", BUILT))
    p.add_argument("--conversations", type=int, default=300)
    p.add_argument("--seed", type=int, default=1)
    p.add_argument("--coverage", action="store_true")
    p.add_argument("scripts", nargs="*", metavar="SCRIPT")
    words = p.parse_args()
    for path in [words.program, *words.scripts]:
        if not Path(path).is_file():
            p.error("there is no file %s" % path)
    comparison = Comparison(words.program)
    for path in words.scripts:
        comparison.script(path)
    for number in range(0 if words.scripts else words.conversations):
        comparison.random(words.seed, number)
    if words.coverage:
        print(seen.table(comparison.seen))
    print(comparison.summary())
    sys.exit(1 if comparison.differences else 0)


if __name__ == "__main__":
    main()
